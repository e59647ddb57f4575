/* Takes winds out of sheets that none of the six lines names: dropped SEED JOBS. All six totals and the rest of each
   case must stay, with later winds numbered one lower. It stops where they do not. */
#include "aralimogga.h"
#include "sheets.h"
#include <stdio.h>
#include <stdlib.h>
#include <string.h>

typedef struct { aral_extreme line[6]; } lines;
static struct { unsigned long jobs[5], over, winds, unnamed, dropped, alike, kept[9]; } tally;
static dice die;

static void differ(const char *what, const sample *s, int wind)
{
    static text t;
    write_sample(s, &t);
    printf("DIFFERENT: %s, wind %d\n%.*s<end>\n", what, wind + 1, (int)t.length, (const char *)t.byte);
    exit(1);
}

/* ---- Six lines ---- */

static lines lines_of(const sample *s)
{
    static text t;
    lines l;
    write_sample(s, &t);
    for (int k = 0; k < 6; k++) l.line[k] = aral_total(t.byte, t.length, k + 1);
    if (l.line[0].number) differ("a sheet that should be accepted", s, 0);
    return l;
}

/* Winds count from 0 here, and from 1 in the lines. */
static int named(const lines *l, int wind)
{
    for (int k = 0; k < 6; k++)
        if (l->line[k].wind == (uint32_t)wind + 1) return 1;
    return 0;
}

/* Whether these are the lines after this wind was taken out of those. */
static int stay(const lines *before, const lines *after, int wind)
{
    for (int k = 0; k < 6; k++) {
        aral_extreme p = before->line[k], q = after->line[k];
        p.wind -= p.wind > (uint32_t)wind + 1;
        if (q.number || p.total != q.total || p.newtons != q.newtons || p.remainder != q.remainder) return 0;
        if (p.wind != q.wind || p.internal != q.internal || p.faces != q.faces
            || memcmp(p.alternative, q.alternative, sizeof p.alternative))
            return 0;
    }
    return 1;
}

/* ---- Winds ---- */

static void take_out(sample *s, int wind)
{
    s->winds--;
    for (int i = wind; i < s->winds; i++) {
        s->direction[i] = s->direction[i + 1];
        s->speed[i] = s->speed[i + 1];
    }
}

/* The lines without this wind, which none of them names. */
static lines drop(sample *s, const lines *before, int wind)
{
    sample whole = *s;
    take_out(s, wind);
    lines after = lines_of(s);
    tally.dropped++;
    if (!stay(before, &after, wind)) differ("the six lines without a wind that none of them names", &whole, wind);
    return after;
}

/* A wind like one before it is never named. */
static void check_alike(const sample *s, const lines *l)
{
    for (int i = 0; i < s->winds; i++)
        for (int k = 0; k < i; k++) {
            if (s->direction[i] != s->direction[k] || s->speed[i] != s->speed[k]) continue;
            tally.alike++;
            if (named(l, i)) differ("a line that names the later of two winds alike", s, i);
        }
}

/* An unnamed wind, from a random one on; -1 where each is named. */
static int some_unnamed(const sample *s, const lines *l)
{
    int first = (int)pick(&die, 0, s->winds - 1);
    for (int i = 0; i < s->winds; i++) {
        int wind = (first + i) % s->winds;
        if (!named(l, wind)) return wind;
    }
    return -1;
}

/* ---- Jobs ---- */

static void repeat_winds(sample *s)
{
    for (int64_t times = pick(&die, 1, s->winds); times > 0; times--) {
        int from = (int)pick(&die, 0, s->winds - 1), to = (int)pick(&die, 0, s->winds - 1);
        s->direction[to] = s->direction[from];
        s->speed[to] = s->speed[from];
    }
}

/* Each unnamed wind by itself, and then all of them one after another, in any order. */
static void try_job(unsigned long i)
{
    static sample s;
    int year = 1 + (int)(i % 4);
    make_sized(&die, &s, year, pick(&die, 0, 6), (int)pick(&die, 2, 8), (int)pick(&die, 1, 4),
               year == 1 ? 0 : (int)pick(&die, 1, 16), some_faces(&die, year));
    if (pick(&die, 0, 1)) repeat_winds(&s);
    lines all = lines_of(&s);
    tally.jobs[year]++;
    tally.over += s.faces > 24;
    tally.winds += (unsigned long)s.winds;
    check_alike(&s, &all);
    for (int wind = 0; wind < s.winds; wind++) {
        sample one = s;
        if (named(&all, wind)) continue;
        tally.unnamed++;
        drop(&one, &all, wind);
    }
    for (int wind = some_unnamed(&s, &all); wind >= 0; wind = some_unnamed(&s, &all)) all = drop(&s, &all, wind);
    tally.kept[s.winds]++;
}

int main(int argc, char **argv)
{
    if (argc != 3) {
        fprintf(stderr, "dropped SEED JOBS\n");
        return 2;
    }
    die.state = strtoull(argv[1], NULL, 10);
    printf("seed %s\n", argv[1]);
    for (unsigned long i = 0, count = strtoul(argv[2], NULL, 10); i < count; i++) try_job(i);
    printf("jobs of year 1: %lu, 2: %lu, 3: %lu, 4: %lu, with more than 24 faces %lu\n", tally.jobs[1], tally.jobs[2],
           tally.jobs[3], tally.jobs[4], tally.over);
    printf("of %lu winds %lu are named by no line; pairs of winds alike %lu\n", tally.winds, tally.unnamed,
           tally.alike);
    printf("jobs by the winds that are left without them");
    for (int winds = 1; winds <= 6; winds++) printf(" %d: %lu", winds, tally.kept[winds]);
    printf("\n%lu winds taken out, by themselves and one after another: every line stays\n", tally.dropped);
    return 0;
}
