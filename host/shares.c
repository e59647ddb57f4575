/* Asks the library and the plain calculator for shares: shares SEED SHEETS. Sheets are lent against pages that can't be
   touched. Every field must be the same. On each line the forces must add up to the total, the newtons be the column,
   each force be net x pressure x area, and the steps be those of the other entry points. Some sheets are spoiled. It
   stops where something is not so. */
#include "aralimogga.h"
#include "fence.h"
#include "plain.h"
#include "records.h"
#include "setting.h"
#include <inttypes.h>
#include <stdio.h>
#include <stdlib.h>
#include <string.h>

#define NEWTON INT64_C(20000000000)
enum { FIELDS = 15, BESIDE = 24 }; /* of a record; and of a long shed every so many faces' plain share is asked for */
static struct {
    unsigned long sheets[5], kinds[7], over, calls, idle, second, between, refused[10];
} tally;
static dice die;
static text sheet;

/* ---- One call ---- */

static void differ(const char *what, int64_t line, int64_t face)
{
    printf("DIFFERENT: %s\nreport line %" PRId64 ", face %" PRId64 "\n", what, line, face);
    fwrite(sheet.byte, 1, sheet.length, stdout);
    exit(1);
}

/* Every field in order: a record's padding is no part of it. */
static void fields_of_part(const aral_part *p, int64_t field[FIELDS])
{
    const int64_t all[FIELDS] = {p->number, p->line,    p->zone,  p->alternative, p->lower, p->upper, p->part, p->whole,
                                 p->outside, p->net,    p->speed, p->pressure,    p->area,  p->force, p->newtons};
    memcpy(field, all, sizeof all);
}

static void expect_same(const aral_part *p, const aral_part *q, int64_t line, int64_t face)
{
    int64_t one[FIELDS], other[FIELDS];
    fields_of_part(p, one);
    fields_of_part(q, other);
    for (int i = 0; i < FIELDS; i++) {
        if (one[i] == other[i]) continue;
        printf("field %d: library %" PRId64 ", plain %" PRId64 "\n", i, one[i], other[i]);
        differ("the shares", line, face);
    }
}

/* The library's share, and where `both` the plain calculator's, which must be the same. */
static aral_part ask(int64_t line, int64_t face, int both)
{
    const uint8_t *lent = lend(sheet.byte, sheet.length, (int)pick(&die, 0, 1));
    aral_part p = aral_share(sheet.length ? lent : NULL, sheet.length, line, face);
    tally.calls++;
    if (!both) return p;
    aral_part q = plain_share(sheet.byte, sheet.length, line, face);
    expect_same(&p, &q, line, face);
    return p;
}

/* ---- What a share must be ---- */

static int64_t area_on(const aral_face *f, int64_t line) { return line <= 2 ? f->x : line <= 4 ? f->y : f->z; }

/* A face that takes part has the rows and the coefficient of its question, less the internal one. */
static void check_coefficients(const aral_part *p, const aral_job *j, const aral_extreme *e, int64_t line, int64_t face)
{
    const aral_building *g = &j->building;
    int64_t direction = j->winds.entry[e->wind - 1].direction;
    aral_coefficient c = aral_outside(j->year, g->h, g->a, g->b, g->density, g->kind, g->x, direction, p->zone);
    if (p->lower != c.lower || p->upper != c.upper || p->part != c.part || p->whole != c.whole)
        differ("the rows and those of the coefficient", line, face);
    if (p->outside != c.value[p->alternative - 1]) differ("the outside coefficient of the alternative", line, face);
    if (p->net != p->outside - 10 * j->internals.entry[e->internal - 1]) differ("outside, less internal", line, face);
    tally.second += p->alternative == 2;
    tally.between += p->lower != p->upper;
}

static void check_share(const aral_part *p, const aral_job *j, const aral_extreme *e, int64_t line, int64_t face)
{
    const aral_face *f = &j->faces.entry[face - 1];
    int64_t direction = j->winds.entry[e->wind - 1].direction;
    if (p->number || p->line) differ("a face that should have a share", line, face);
    if (p->zone != f->zone || p->alternative != e->alternative[face - 1]) differ("zone and alternative", line, face);
    if (p->area != area_on(f, line)) differ("the area on the line's axis", line, face);
    if (p->speed < 0 || p->speed > j->winds.entry[e->wind - 1].speed) differ("a speed over the wind's", line, face);
    if (p->pressure != j->building.density * p->speed * p->speed) differ("density x speed x speed", line, face);
    if ((__int128)p->net * p->pressure * p->area != p->force) differ("net x pressure x area", line, face);
    if (f->mark == ARAL_BOTH || f->mark == direction) {
        check_coefficients(p, j, e, line, face);
        return;
    }
    if (p->lower || p->upper || p->part || p->whole || p->outside || p->net || p->force || p->newtons)
        differ("a face that takes no part", line, face);
    tally.idle++;
}

/* All faces of one line. */
static void check_line(const aral_job *j, int64_t line)
{
    int64_t column[ARAL_FACES_MOST], newtons = 0;
    aral_extreme e = aral_total(sheet.byte, sheet.length, line);
    uint32_t faces = j->faces.count, every = faces > 24 ? BESIDE : 1, first = (uint32_t)pick(&die, 0, every - 1);
    __int128 forces = 0;
    aral_column(setting_of(j), j->faces.entry, faces, line, column, ARAL_FACES_MOST);
    for (uint32_t i = 0; i < faces; i++) {
        aral_part p = ask(line, i + 1, i % every == first);
        check_share(&p, j, &e, line, i + 1);
        if (p.newtons != column[i]) differ("the newtons and those of the column", line, i + 1);
        forces += p.force;
        newtons += p.newtons;
    }
    if (forces != (__int128)NEWTON * e.newtons + (__int128)e.remainder) differ("the forces and the total", line, 0);
    if (newtons != e.newtons) differ("the newtons and the total rounded down", line, 0);
}

/* ---- Refusals ---- */

/* The call is refused so, and everything after it is 0. */
static void expect_refusal(int64_t line, int64_t face, uint32_t number, uint32_t at)
{
    aral_part p = ask(line, face, 1), none = {.number = number, .line = at};
    expect_same(&p, &none, line, face);
    tally.refused[number < 10 ? number : 0]++;
}

static int64_t no_line(void)
{
    int64_t line = pick(&die, 0, 1) ? 7 * pick(&die, 0, 1) : edge_of(&die, 0);
    return line >= 1 && line <= 6 ? 0 : line;
}

static int64_t no_face(int64_t faces)
{
    int64_t face = pick(&die, 0, 1) ? (faces + 1) * pick(&die, 0, 1) : edge_of(&die, 0);
    return face >= 1 && face <= faces ? 0 : face;
}

static void refuse_questions(int64_t faces)
{
    expect_refusal(no_line(), pick(&die, 1, faces), ARAL_RANGE, 0);
    expect_refusal(no_line(), no_face(faces), ARAL_RANGE, 0);
    expect_refusal(pick(&die, 1, 6), no_face(faces), ARAL_NO_FACE, 0);
}

/* The sheet with one slip: its own refusal comes before those of the line and the face. */
static void refuse_sheet(void)
{
    damage(&die, &sheet);
    aral_answer own = aral_read(sheet.byte, sheet.length);
    int64_t line = pick(&die, 0, 1) ? pick(&die, 1, 6) : no_line(), face = pick(&die, 0, 1) ? 1 : no_face(1);
    if (own.number) expect_refusal(line, face, own.number, own.line);
    else ask(line, face, 1);
}

/* ---- Sheets ---- */

static void try_sheet(void)
{
    static sample s;
    make_sample(&die, &s);
    write_sample(&s, &sheet);
    aral_job j = aral_open(sheet.byte, sheet.length).worksheet.job;
    tally.sheets[s.year]++;
    tally.kinds[s.kind]++;
    tally.over += s.faces > 24;
    for (int64_t line = 1; line <= 6; line++) check_line(&j, line);
    refuse_questions(s.faces);
    refuse_sheet();
}

int main(int argc, char **argv)
{
    if (argc != 3) {
        fprintf(stderr, "shares SEED SHEETS\n");
        return 2;
    }
    die.state = strtoull(argv[1], NULL, 10);
    printf("seed %s\n", argv[1]);
    make_fences();
    for (unsigned long i = 0, count = strtoul(argv[2], NULL, 10); i < count; i++) try_sheet();
    printf("sheets of year 1: %lu, 2: %lu, 3: %lu, 4: %lu, with more than 24 faces %lu; of roof kind", tally.sheets[1],
           tally.sheets[2], tally.sheets[3], tally.sheets[4], tally.over);
    for (int kind = 0; kind <= 6; kind++) printf(" %d: %lu", kind, tally.kinds[kind]);
    printf("\nshares that take no part %lu, of a second alternative %lu, between two rows %lu; refused by number",
           tally.idle, tally.second, tally.between);
    for (int number = 1; number <= 9; number++) printf(" %d: %lu", number, tally.refused[number]);
    printf("\n%lu calls against pages that can't be touched: all the same\n", tally.calls);
    return 0;
}
