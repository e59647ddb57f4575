/* Asks the library and the plain calculator for newton columns: columns SEED JOBS. Faces and column are lent against
   pages that can't be touched. The answers and every entry must be the same, and a column must add up and be near each
   force by the library's own totals. Some settings and faces are spoiled. It stops where something is not so. */
#define _DEFAULT_SOURCE
#include "alone.h"
#include "aralimogga.h"
#include "fence.h"
#include "plain.h"
#include "records.h"
#include "setting.h"
#include <inttypes.h>
#include <stdio.h>
#include <stdlib.h>
#include <string.h>
#include <sys/mman.h>

#define NEWTON INT64_C(20000000000)
enum { MANY = 1000, MOST_ROOM = 512 };
static struct {
    unsigned long jobs[5], over, calls, columns, shared[ARAL_FACES_MOST + 1], tied, below, refused[10], huge;
} tally;
static dice die;

/* What a call is handed; the faces may be more than a job can have. */
typedef struct { aral_setting s; aral_face face[MANY]; size_t n; } list;

static int64_t rounded_down(int64_t force) { return force / NEWTON - (force % NEWTON < 0); }

/* ---- One call ---- */

static void differ(const char *what, const list *l, int64_t line, size_t room)
{
    printf("DIFFERENT: %s\nreport line %" PRId64 ", room %zu, %zu faces, year %" PRId64 "\n", what, line, room, l->n,
           l->s.year);
    for (size_t i = 0; i < l->n && i < ARAL_FACES_MOST; i++) {
        const aral_face *f = &l->face[i];
        printf("%u %" PRId64 " %" PRId64 " %" PRId64 " %" PRId64 " %" PRId64 "\n", f->zone, f->mark, f->height, f->x,
               f->y, f->z);
    }
    exit(1);
}

/* Both are asked; the library's column lies against a page. Entries past the faces, or all of them where it is refused,
   must be as they were. */
static aral_answer ask(const list *l, int64_t line, size_t room, int64_t column[MOST_ROOM])
{
    int after = (int)pick(&die, 0, 1);
    const void *lent = lend((const uint8_t *)l->face, l->n * sizeof *l->face, (int)pick(&die, 0, 1));
    uint8_t *at = lend_room(room * sizeof *column, after);
    aral_answer p = aral_column(l->s, l->n ? lent : NULL, l->n, line, room ? (int64_t *)(void *)at : NULL, room);
    aral_answer q = plain_column(l->s, l->face, l->n, line, column, room);
    tally.calls++;
    if (p.number != q.number || p.line != q.line) {
        printf("library %u %u, plain %u %u\n", p.number, p.line, q.number, q.line);
        differ("the answers", l, line, room);
    }
    tally.refused[p.number < 10 ? p.number : 9]++;
    check_room(at, after, (const uint8_t *)column, p.number ? 0 : l->n * sizeof *column);
    return p;
}

/* ---- What a column must be ---- */

/* A face's force in the case, which is the total of the job with its wind, internal coefficient and this face alone. */
static int64_t force_of(const aral_job *j, const aral_extreme *e, size_t face, int64_t line)
{
    aral_job one = alone(j, e->wind - 1, e->internal - 1, (uint32_t)face);
    aral_extreme force = total_of(&one, line);
    return NEWTON * force.newtons + (int64_t)force.remainder;
}

/* Where one face got a newton more and another did not, its remainder is larger, or as large and the face earlier. */
static void check_sharing(const list *l, int64_t line, const int64_t *more, const int64_t *remainder)
{
    int tied = 0;
    for (size_t i = 0; i < l->n; i++)
        for (size_t k = 0; k < l->n; k++) {
            if (!more[i] || more[k]) continue;
            if (remainder[i] < remainder[k] || (remainder[i] == remainder[k] && i > k))
                differ("a newton for the smaller remainder, or for the later face", l, line, l->n);
            tied |= remainder[i] == remainder[k];
        }
    tally.tied += tied;
}

static void check_column(const list *l, const aral_job *j, int64_t line, const int64_t *column)
{
    int64_t sum = 0, missing = 0, more[ARAL_FACES_MOST], remainder[ARAL_FACES_MOST];
    aral_extreme e = total_of(j, line);
    __int128 forces = 0, total = (__int128)NEWTON * e.newtons + (__int128)e.remainder;
    for (size_t i = 0; i < l->n; i++) {
        int64_t force = force_of(j, &e, i, line);
        more[i] = column[i] - rounded_down(force);
        remainder[i] = force - NEWTON * rounded_down(force);
        sum += column[i];
        forces += force;
        missing += more[i];
        if (more[i] != 0 && more[i] != 1) differ("an entry and its force rounded down, or one more", l, line, l->n);
        __int128 away = (__int128)NEWTON * column[i] - force;
        if (away >= NEWTON || away <= -NEWTON) differ("an entry 1 N or more from its force", l, line, l->n);
    }
    if (forces != total) differ("the total and the sum of the faces' forces", l, line, l->n);
    if (sum != e.newtons) differ("the column's sum and the total rounded down", l, line, l->n);
    check_sharing(l, line, more, remainder);
    tally.columns++;
    tally.shared[missing]++;
    tally.below += total < 0;
}

/* ---- Jobs ---- */

static list list_of(const aral_job *j, size_t n)
{
    static list l;
    l.s = setting_of(j);
    l.n = n;
    memcpy(l.face, j->faces.entry, sizeof j->faces.entry);
    for (size_t i = ARAL_FACES_MOST; i < n; i++) l.face[i] = l.face[i % ARAL_FACES_MOST];
    return l;
}

/* All six lines of an acceptable job, in a column of every kind: just long enough, longer, one short, and none. */
static void accepted(const aral_job *j, size_t n)
{
    static list l;
    int64_t column[MOST_ROOM];
    l = list_of(j, n);
    for (int64_t line = 1; line <= 6; line++) {
        if (ask(&l, line, n, column).number) differ("a job that should be acceptable", &l, line, n);
        check_column(&l, j, line, column);
        if (ask(&l, line, (size_t)pick(&die, (int64_t)n, MOST_ROOM), column).number) differ("a long one", &l, line, n);
    }
    int64_t line = pick(&die, 1, 6);
    if (ask(&l, line, n - 1, column).number != ARAL_ROOM) differ("a column one short", &l, line, n - 1);
    if (ask(&l, line, 0, column).number != ARAL_ROOM) differ("no column", &l, line, 0);
    if (ask(&l, 0, (size_t)pick(&die, 0, 250), column).number != ARAL_RANGE) differ("line 0", &l, 0, n);
    if (ask(&l, 7, (size_t)pick(&die, 0, 250), column).number != ARAL_RANGE) differ("line 7", &l, 7, n);
}

/* Any line and room of a job that may be refused: its own refusal is the one that writing it gets, and comes first. */
static void refused(const aral_worksheet *w, size_t n)
{
    static list l;
    int64_t column[MOST_ROOM];
    aral_worksheet held = *w;
    l = list_of(&w->job, n);
    held.job.faces.count = n > ARAL_FACES_MOST ? ARAL_FACES_MOST + 1 : (uint32_t)n;
    aral_text own = aral_write(held, NULL, 0);
    for (int tries = 0; tries < 3; tries++) {
        int64_t line = pick(&die, 0, 1) ? pick(&die, 0, 7) : edge_of(&die, 1);
        size_t room = (size_t)(pick(&die, 0, 1) ? pick(&die, 0, 26) : pick(&die, 0, MOST_ROOM));
        aral_answer a = ask(&l, line, room, column);
        if (own.number != ARAL_ROOM && (a.number != own.number || a.line != own.line))
            differ("the job's own refusal and that of writing it", &l, line, room);
    }
}

/* Some faces alike, so that their remainders are. */
static void repeat_faces(sample *s)
{
    for (int64_t times = pick(&die, 1, 2 * s->faces); times > 0; times--) {
        int from = (int)pick(&die, 0, s->faces - 1), to = (int)pick(&die, 0, s->faces - 1);
        s->zone[to] = s->zone[from];
        s->mark[to] = s->mark[from];
        s->height[to] = s->height[from];
        memcpy(s->area[to], s->area[from], sizeof s->area[to]);
    }
}

/* How many faces are handed in: those of the record, or a number that no job can have. */
static size_t some_count(const aral_worksheet *w)
{
    static const size_t count[] = {0, 0, 25, 26, 32, 240, 241, 255, 256, 257, MANY};
    if (pick(&die, 0, 3) == 0) return count[pick(&die, 0, 10)];
    return w->job.faces.count > MANY ? MANY : w->job.faces.count;
}

/* Of a long shed only some faces are spoiled. */
static void try_job(unsigned long i)
{
    static sample s;
    aral_worksheet w;
    make_sample(&die, &s);
    if (i % 2) repeat_faces(&s);
    record_of(&s, &w);
    tally.jobs[s.year]++;
    tally.over += s.faces > 24;
    if (i % 3 == 0) litter(&die, &w);
    accepted(&w.job, (size_t)s.faces);
    for (int face = 0; face < s.faces; face += 1 + s.faces / 25) {
        aral_worksheet spoiled = w;
        spoil_face(&die, &spoiled.job.faces.entry[face]);
        refused(&spoiled, (size_t)s.faces);
    }
    for (int64_t slips = pick(&die, 1, 2); slips > 0; slips--) spoil_record(&die, &w);
    refused(&w, some_count(&w));
}

/* ---- Many faces ---- */

/* As many faces as 32 bits cut to one, 24, 240 or none. They are lent, though no machine has so much memory: what is
   not looked at takes none. Where that can't be had it is left out. */
static void very_many(int year)
{
    static const size_t n[] = {
        (UINT64_C(1) << 32) + 1, (UINT64_C(1) << 32) + 24, (UINT64_C(1) << 32) + 240, UINT64_C(1) << 32};
    size_t size = n[2] * sizeof(aral_face);
    static sample s;
    aral_worksheet w;
    int64_t column[MOST_ROOM] = {0};
    aral_face *face = mmap(NULL, size, PROT_READ | PROT_WRITE, MAP_PRIVATE | MAP_ANONYMOUS | MAP_NORESERVE, -1, 0);
    if (face == MAP_FAILED) return;
    make_sized(&die, &s, year, 2, 8, 4, 16, ARAL_FACES_OF(year));
    record_of(&s, &w);
    memcpy(face, w.job.faces.entry, sizeof w.job.faces.entry);
    for (int i = 0; i < 4; i++) {
        aral_answer a = aral_column(setting_of(&w.job), face, n[i], 1, column, MOST_ROOM);
        tally.huge++;
        if (a.number != ARAL_COUNT || a.line != 2 + 2 + 9 + 5 + 17 + 1) fail("faces that 32 bits cut to a few");
        for (size_t k = 0; k < MOST_ROOM; k++)
            if (column[k]) fail("a column of too many faces");
    }
    munmap(face, size);
}

int main(int argc, char **argv)
{
    if (argc != 3) {
        fprintf(stderr, "columns SEED JOBS\n");
        return 2;
    }
    die.state = strtoull(argv[1], NULL, 10);
    printf("seed %s\n", argv[1]);
    make_fences();
    very_many(2);
    very_many(4);
    for (unsigned long i = 0, count = strtoul(argv[2], NULL, 10); i < count; i++) try_job(i);
    printf("jobs of year 1: %lu, 2: %lu, 3: %lu, 4: %lu, with more than 24 faces %lu; ", tally.jobs[1], tally.jobs[2],
           tally.jobs[3], tally.jobs[4], tally.over);
    printf("%lu columns that add up, %lu of them to a sum below 0; shared out", tally.columns, tally.below);
    unsigned long some = 0;
    for (int missing = 1; missing <= ARAL_FACES_MOST; missing++) some += tally.shared[missing];
    printf(" no newton %lu, 1 or more %lu, 10 or more", tally.shared[0], some);
    for (int missing = 1; missing < 10; missing++) some -= tally.shared[missing];
    printf(" %lu, among equal remainders %lu\nrefused by number", some, tally.tied);
    for (int number = 1; number <= 8; number++) printf(" %d: %lu", number, tally.refused[number]);
    printf("; %lu calls with more faces than 32 bits count\n", tally.huge);
    printf("%lu calls against pages that can't be touched: all the same\n", tally.calls);
    return 0;
}
