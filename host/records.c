/* Makes worksheets from the jobs of sheets.c, litters them where a job does not look, and spoils them and the sums that
   they keep. */
#include "records.h"
#include "plain.h"
#include <string.h>

enum { FACES = ARAL_FACES_MOST };
#define NEWTON UINT64_C(20000000000)

aral_face face_at(const sample *s, int i)
{
    int64_t mark = s->mark[i] == DASH ? ARAL_BOTH : s->mark[i];
    return (aral_face){(uint8_t)s->zone[i], mark, s->height[i], s->area[i][0], s->area[i][1], s->area[i][2]};
}

void record_of(const sample *s, aral_worksheet *w)
{
    aral_job *j = &w->job;
    memset(w, 0, sizeof *w);
    j->year = s->year;
    j->building = (aral_building){s->h, s->a, s->b, s->density, s->kind, s->x};
    j->winds.count = (uint32_t)s->winds;
    for (int i = 0; i < s->winds; i++) j->winds.entry[i] = (aral_wind){s->direction[i], s->speed[i]};
    j->internals.count = (uint32_t)s->internals;
    for (int i = 0; i < s->internals; i++) j->internals.entry[i] = s->internal[i];
    j->profile.count = (uint32_t)s->steps;
    for (int i = 0; i < s->steps; i++) j->profile.entry[i] = (aral_step){s->step[i].height, s->step[i].factor};
    j->faces.count = (uint32_t)s->faces;
    for (int i = 0; i < s->faces; i++) j->faces.entry[i] = face_at(s, i);
}

/* ---- Where a job does not look ---- */

typedef int64_t wanted(dice *d);

static int64_t zero(dice *d)
{
    (void)d;
    return 0;
}

static int64_t anything(dice *d) { return edge_of(d, 90); }

/* A count of the record's, or its room where it is above it. */
static uint32_t used(uint32_t count, uint32_t room) { return count < room ? count : room; }

static void fill_face(dice *d, aral_face *f, wanted *some)
{
    f->zone = (uint8_t)some(d);
    f->mark = some(d);
    f->height = some(d);
    f->x = some(d);
    f->y = some(d);
    f->z = some(d);
}

/* Past the counts, and in year 1 in the profile and the heights. */
static void fill_rest(dice *d, aral_job *j, wanted *some)
{
    if (j->year == 1) j->profile.count = (uint32_t)some(d);
    for (uint32_t i = used(j->winds.count, 8); i < 8; i++) j->winds.entry[i] = (aral_wind){some(d), some(d)};
    for (uint32_t i = used(j->internals.count, 4); i < 4; i++) j->internals.entry[i] = some(d);
    for (uint32_t i = j->year == 1 ? 0 : used(j->profile.count, 16); i < 16; i++)
        j->profile.entry[i] = (aral_step){some(d), some(d)};
    for (uint32_t i = used(j->faces.count, FACES); i < FACES; i++) fill_face(d, &j->faces.entry[i], some);
    for (uint32_t i = 0; j->year == 1 && i < used(j->faces.count, FACES); i++) j->faces.entry[i].height = some(d);
}

typedef aral_pair wanted_sum(dice *d, int64_t year);

/* The largest that a sum of a job of the year can be: 330000000000000000 for each face. */
static units largest_in(int64_t year) { return ARAL_FACES_OF(year) * (units)330000000000000000; }

static aral_pair no_sum(dice *d, int64_t year)
{
    (void)d;
    (void)year;
    return (aral_pair){0, 0};
}

/* A sum that a job can have. */
static aral_pair some_sum(dice *d, int64_t year)
{
    units size = ((units)(roll(d) >> 1) << 32 | (units)(roll(d) >> 32)) % (largest_in(year) + 1);
    return plain_pair_of(pick(d, 0, 1) ? size : -size);
}

/* Whether sum i is within the counts. */
static int counted(const aral_job *j, int i)
{
    uint32_t wind = (uint32_t)i / 24, internal = (uint32_t)i / 6 % 4;
    return wind < j->winds.count && internal < j->internals.count;
}

static void fill_sums_past(dice *d, aral_worksheet *w, wanted_sum *some)
{
    for (int i = 0; i < SUMS; i++)
        if (!counted(&w->job, i)) *sum_at(&w->sums, i) = some(d, w->job.year);
}

void litter(dice *d, aral_worksheet *w)
{
    fill_rest(d, &w->job, anything);
    fill_sums_past(d, w, some_sum);
}

void clear_litter(aral_worksheet *w)
{
    fill_rest(NULL, &w->job, zero);
    fill_sums_past(NULL, w, no_sum);
}

/* ---- What is not allowed ---- */

static uint32_t wild_count(dice *d, uint32_t room)
{
    static const uint32_t count[] = {0, 0, 25, 241, 255, 256, 65536, 9999999, 10000000, INT32_MAX, UINT32_MAX};
    return pick(d, 0, 1) ? room + (uint32_t)pick(d, 0, 2) : count[pick(d, 0, 10)];
}

static void spoil_number(dice *d, int64_t *number) { *number = edge_of(d, *number); }

void spoil_face(dice *d, aral_face *f)
{
    int64_t *const number[] = {&f->mark, &f->mark, &f->height, &f->height, &f->x, &f->y, &f->z};
    switch (pick(d, 0, 5)) {
    case 0: f->zone = (uint8_t)roll(d); break;
    case 1: f->zone = (uint8_t)('@' + pick(d, 0, 9)); break;
    case 2: f->mark = pick(d, 0, 1) ? ARAL_BOTH : 45 * pick(d, -1, 5); break;
    case 3: f->height = pick(d, -1, 30001); break;
    default: spoil_number(d, number[pick(d, 0, 6)]); break;
    }
}

static void spoil_building(dice *d, aral_building *g)
{
    int64_t *const number[] = {&g->h, &g->a, &g->b, &g->density, &g->kind, &g->x};
    switch (pick(d, 0, 3)) {
    case 0: g->a = g->b + pick(d, -1, 1); break;
    case 1: g->a = 4 * g->b + pick(d, 0, 1); break;
    case 2: g->x = pick(d, 0, 1000); break;
    default: spoil_number(d, number[pick(d, 0, 5)]); break;
    }
}

void spoil_record(dice *d, aral_worksheet *w)
{
    aral_job *j = &w->job;
    aral_wind *wind = &j->winds.entry[pick(d, 0, 7)];
    aral_step *step = &j->profile.entry[pick(d, 0, 15)];
    switch (pick(d, 0, 12)) {
    case 0: j->year = pick(d, 0, 1) ? pick(d, -1, 6) : edge_of(d, j->year); break;
    case 1:
    case 2: spoil_building(d, &j->building); break;
    case 3: j->winds.count = wild_count(d, 8); break;
    case 4: j->internals.count = wild_count(d, 4); break;
    case 5: j->profile.count = wild_count(d, 16); break;
    case 6: j->faces.count = wild_count(d, pick(d, 0, 1) ? 24 : FACES); break;
    case 7: spoil_number(d, pick(d, 0, 1) ? &wind->direction : &wind->speed); break;
    case 8: spoil_number(d, &j->internals.entry[pick(d, 0, 3)]); break;
    case 9: spoil_number(d, pick(d, 0, 1) ? &step->height : &step->factor); break;
    default: spoil_face(d, &j->faces.entry[pick(d, 0, used(j->faces.count ? j->faces.count : 1, FACES) - 1)]); break;
    }
}

/* ---- Other sums ---- */

static aral_pair any_bits(dice *d, int64_t year)
{
    (void)year;
    return (aral_pair){(int64_t)roll(d), roll(d)};
}

static aral_pair tiny(dice *d, int64_t year)
{
    (void)year;
    return plain_pair_of(pick(d, -1, 1));
}

static units largest_of(dice *d, int64_t year) { return pick(d, 0, 1) ? largest_in(year) : -largest_in(year); }

static aral_pair largest(dice *d, int64_t year) { return plain_pair_of(largest_of(d, year)); }

static aral_pair beside_largest(dice *d, int64_t year) { return plain_pair_of(largest_of(d, year) + pick(d, -1, 1)); }

/* Beside the largest of years 1 to 3 or of year 4, whichever the year is. */
static aral_pair beside_another(dice *d, int64_t year)
{
    (void)year;
    return beside_largest(d, pick(d, 3, 4));
}

/* A remainder that is none, or almost none, with newtons that a sum can have. */
static aral_pair at_a_newton(dice *d, int64_t year)
{
    static const uint64_t remainder[] = {NEWTON - 1, NEWTON, NEWTON + 1, UINT64_C(1) << 32, UINT64_MAX};
    return (aral_pair){some_sum(d, year).newtons, remainder[pick(d, 0, 4)]};
}

static aral_pair at_the_ends(dice *d, int64_t year)
{
    (void)year;
    return (aral_pair){pick(d, 0, 1) ? INT64_MAX : INT64_MIN, pick(d, 0, 1) ? UINT64_MAX : roll(d) % NEWTON};
}

static void fill_sums(dice *d, aral_worksheet *w, wanted_sum *some)
{
    for (int i = 0; i < SUMS; i++) *sum_at(&w->sums, i) = some(d, w->job.year);
}

static aral_sums sums_of_another(dice *d)
{
    static sample s;
    static text t;
    make_sample(d, &s);
    write_sample(&s, &t);
    return plain_open(t.byte, t.length).worksheet.sums;
}

/* One pair, beside the largest, at a whole newton or at the ends; or, where there are any, one past the counts. */
static void spoil_sum(dice *d, aral_worksheet *w)
{
    static wanted_sum *const some[] = {beside_largest, beside_largest, beside_another, at_a_newton, at_the_ends};
    int past = (int)pick(d, 0, 1), i = (int)pick(d, 0, SUMS - 1);
    for (int tries = 0; past && tries < SUMS && counted(&w->job, i); tries++) i = (i + 1) % SUMS;
    *sum_at(&w->sums, i) = some[pick(d, 0, 4)](d, w->job.year);
}

void spoil_sums(dice *d, aral_worksheet *w)
{
    static wanted_sum *const whole[] = {any_bits, some_sum, tiny, largest, beside_largest, at_the_ends, no_sum};
    int64_t kind = pick(d, 0, 13);
    if (kind < 7) fill_sums(d, w, whole[kind]);
    else if (kind < 9) w->sums = sums_of_another(d);
    else spoil_sum(d, w);
}

int no_jobs(const aral_sums *sums, int64_t year)
{
    aral_sums copy = *sums;
    int64_t most = ARAL_FACES_OF(year) * INT64_C(16500000);
    for (int i = 0; i < SUMS; i++) {
        aral_pair p = *sum_at(&copy, i);
        if (p.remainder >= NEWTON || p.newtons < -most || p.newtons > most) return 1;
        if (p.newtons == most && p.remainder > 0) return 1;
    }
    return 0;
}

/* ---- Fields ---- */

aral_pair *sum_at(aral_sums *sums, int i)
{
    aral_sum_cell *c = &sums->cell[i / 6];
    aral_pair *const pair[] = {&c->x.greatest, &c->x.least, &c->y.greatest, &c->y.least, &c->z.greatest, &c->z.least};
    return pair[i % 6];
}

void fields_of(const aral_worksheet *w, int64_t field[RECORD_FIELDS])
{
    const aral_job *j = &w->job;
    const aral_building *g = &j->building;
    const int64_t first[] = {j->year, g->h, g->a, g->b, g->density, g->kind, g->x};
    for (int i = 0; i < 7; i++) *field++ = first[i];
    *field++ = j->winds.count;
    for (int i = 0; i < 8; i++) {
        *field++ = j->winds.entry[i].direction;
        *field++ = j->winds.entry[i].speed;
    }
    *field++ = j->internals.count;
    for (int i = 0; i < 4; i++) *field++ = j->internals.entry[i];
    *field++ = j->profile.count;
    for (int i = 0; i < 16; i++) {
        *field++ = j->profile.entry[i].height;
        *field++ = j->profile.entry[i].factor;
    }
    *field++ = j->faces.count;
    for (int i = 0; i < FACES; i++) {
        const aral_face *f = &j->faces.entry[i];
        const int64_t number[] = {f->zone, f->mark, f->height, f->x, f->y, f->z};
        for (int k = 0; k < 6; k++) *field++ = number[k];
    }
    aral_sums sums = w->sums;
    for (int i = 0; i < SUMS; i++) {
        *field++ = sum_at(&sums, i)->newtons;
        *field++ = (int64_t)sum_at(&sums, i)->remainder;
    }
}
