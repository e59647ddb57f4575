/* Makes acceptable jobs from a seed, at and around each limit of the build definition, and writes them as sheets. */
#include "sheets.h"
#include "plain.h"
#include <stdio.h>

uint64_t roll(dice *d)
{
    uint64_t z = d->state += 0x9e3779b97f4a7c15u;
    z = (z ^ z >> 30) * 0xbf58476d1ce4e5b9u;
    z = (z ^ z >> 27) * 0x94d049bb133111ebu;
    return z ^ z >> 31;
}

int64_t pick(dice *d, int64_t least, int64_t greatest)
{
    return least + (int64_t)(roll(d) % (uint64_t)(greatest - least + 1));
}

static int64_t one_of(dice *d, const int64_t *value, int count) { return value[pick(d, 0, count - 1)]; }
#define ONE_OF(d, ...) \
    one_of(d, (const int64_t[]){__VA_ARGS__}, (int)(sizeof((const int64_t[]){__VA_ARGS__}) / sizeof(int64_t)))

static int64_t clamp(int64_t value, int64_t least, int64_t greatest)
{
    return value < least ? least : value > greatest ? greatest : value;
}

static int64_t moved(int64_t value, int64_t by) { return (int64_t)((uint64_t)value + (uint64_t)by); }

/* A number that a narrower type, a digit too many or a sign would mistake for `usual`, or one at the ends. */
int64_t edge_of(dice *d, int64_t usual)
{
    int64_t near = pick(d, -2, 2);
    switch (pick(d, 0, 9)) {
    case 0: return near < 0 ? INT64_MAX + near + 1 : INT64_MIN + near;
    case 1: return moved(usual, ONE_OF(d, 256, 65536, (int64_t)1 << 32, -((int64_t)1 << 32), INT64_MIN));
    case 2: return (int64_t)(0 - (uint64_t)usual);
    case 3: return ONE_OF(d, 9999999, 10000000, -9999999, -10000000) + near;
    case 4: return ONE_OF(d, INT32_MAX, INT32_MIN, (int64_t)1 << 32, 1 << 16, 1 << 8) + near;
    case 5: return (int64_t)(roll(d) >> pick(d, 0, 63));
    case 6: return -(int64_t)(roll(d) >> pick(d, 1, 63));
    case 7: return ONE_OF(d, 0, 6, 45, 50, 90, 100, 135, 180, 300, 600, 900, 1000, 1500, 30000) + near;
    default: return moved(usual, near);
    }
}

/* ---- Buildings ---- */

/* A length beside the limits that some part of it sets, or anywhere. */
static int64_t near_ratio(dice *d, int64_t length, const int64_t *over, const int64_t *under, int count)
{
    int64_t i = pick(d, 0, count - 1);
    return length * over[i] / under[i] + pick(d, -1, 1);
}

static int64_t roof_number(dice *d, const sample *s)
{
    static const int64_t one[3] = {1, 1, 1}, parapet[3] = {40, 20, 10}, curved[3] = {20, 10, 5};
    switch (s->kind) {
    case 1:
        if (pick(d, 0, 1)) return pick(d, 0, 600);
        return clamp(ONE_OF(d, 0, 50, 100, 200, 300, 400, 450, 500, 600) + pick(d, -1, 1), 0, 600);
    case 3: return pick(d, 0, 1) ? near_ratio(d, s->h, one, parapet, 3) : pick(d, s->h / 40, s->h / 10);
    case 4: return pick(d, 0, 1) ? near_ratio(d, s->h, one, curved, 3) : pick(d, s->h / 20, s->h / 5);
    case 5:
        if (pick(d, 0, 1)) return pick(d, 300, 900);
        return clamp(ONE_OF(d, 300, 450, 600, 900) + pick(d, -1, 1), 300, 900);
    case 6:
        if (pick(d, 0, 1)) return pick(d, 50, 300);
        return clamp(ONE_OF(d, 50, 100, 150, 200, 250, 300) + pick(d, -1, 1), 50, 300);
    default: return 0;
    }
}

static int64_t height(dice *d, int64_t b)
{
    static const int64_t over[] = {1, 3, 6}, under[] = {2, 2, 1};
    switch (pick(d, 0, 3)) {
    case 0: return near_ratio(d, b, over, under, 3);
    case 1: return 400 * pick(d, 1, 75); /* where halves come up on flat roofs */
    case 2: return ONE_OF(d, 100, 101, 29999, 30000);
    default: return pick(d, 100, 6 * b);
    }
}

static int acceptable(const sample *s)
{
    return plain_outside(s->year, s->h, s->a, s->b, s->density, s->kind, s->x, 0, 'A').number == 0;
}

/* From year 3 on many are square. */
static void building_of(dice *d, sample *s, int year, int64_t kind)
{
    static const int64_t over[] = {1, 3, 4}, under[] = {1, 2, 1};
    s->year = year;
    s->kind = kind;
    do {
        s->b = pick(d, 0, 3) ? pick(d, 100, 10000) : ONE_OF(d, 100, 101, 1000, 7500, 20000, 29999);
        s->a = pick(d, 0, 1) ? near_ratio(d, s->b, over, under, 3) : pick(d, s->b, 4 * s->b);
        if (year >= 3 && pick(d, 0, 2) == 0) s->a = s->b;
        s->h = clamp(height(d, s->b), 100, 30000);
        s->density = pick(d, 0, 1) ? 1250 : ONE_OF(d, 1000, 1001, 1225, 1499, 1500);
        s->x = roof_number(d, s);
    } while (!acceptable(s));
}

void make_building(dice *d, sample *s) { building_of(d, s, (int)pick(d, 1, 4), pick(d, 0, 6)); }

/* ---- Profiles ---- */

/* A height for a line of the profile: straight above the one before, as high as may be, or on the way there. */
static int64_t rising(dice *d, int64_t least, int64_t most, int left)
{
    switch (pick(d, 0, 15)) {
    case 0: return most;
    case 1:
    case 2: return least;
    default: return pick(d, least, least + (most - least) / left);
    }
}

static void make_profile(dice *d, sample *s, int steps)
{
    int64_t least = 0;
    s->steps = steps;
    for (int i = 0; i < steps; i++) {
        s->step[i].height = (int)rising(d, least, 30000 - (steps - 1 - i), steps - i);
        s->step[i].factor = (int)(pick(d, 0, 2) ? pick(d, 1, 1000) : ONE_OF(d, 1, 2, 499, 500, 501, 999, 1000));
        least = s->step[i].height + 1;
    }
}

/* A height on one of the profile's lines, beside it, or anywhere up to the ends; 0 without a profile. */
static int face_height(dice *d, const sample *s)
{
    if (s->steps == 0) return 0;
    int least = s->step[0].height, greatest = s->step[s->steps - 1].height;
    int on = s->step[pick(d, 0, s->steps - 1)].height;
    return (int)(pick(d, 0, 1) ? pick(d, least, greatest) : clamp(on + ONE_OF(d, 0, 0, -1, 1), least, greatest));
}

/* ---- Jobs ---- */

static int area(dice *d)
{
    switch (pick(d, 0, 4)) {
    case 0: return 0;
    case 1: return (int)ONE_OF(d, 1, -1, 1000, -1000, 99999, 100000, -99999, -100000);
    default: return (int)pick(d, -100000, 100000);
    }
}

static char zone(dice *d, int64_t kind)
{
    static const char last[] = "DHFFFFH";
    if (kind >= 2 && kind <= 5 && pick(d, 0, 1)) return 'F';
    return (char)('A' + pick(d, 0, last[kind] - 'A'));
}

int direction_of(dice *d, int64_t kind) { return kind == 6 ? 45 * (int)pick(d, 0, 4) : pick(d, 0, 1) ? 90 : 0; }

/* On a single slope a wall has no dash. */
static int mark_of(dice *d, int64_t kind, char zone)
{
    if (kind < 6) return (int)ONE_OF(d, DASH, DASH, 0, 90);
    if (zone <= 'D') return (int)ONE_OF(d, 0, 90);
    return pick(d, 0, 1) ? DASH : direction_of(d, kind);
}

void make_face(dice *d, sample *s, int i)
{
    s->zone[i] = zone(d, s->kind);
    s->mark[i] = mark_of(d, s->kind, s->zone[i]);
    s->height[i] = face_height(d, s);
    for (int axis = 0; axis < 3; axis++) s->area[i][axis] = area(d);
}

void make_sized(dice *d, sample *s, int year, int64_t kind, int winds, int internals, int steps, int faces)
{
    building_of(d, s, year, kind);
    make_profile(d, s, steps);
    s->winds = winds;
    s->internals = internals;
    s->faces = faces;
    for (int i = 0; i < winds; i++) {
        s->direction[i] = direction_of(d, kind);
        s->speed[i] = (int)(pick(d, 0, 1) ? ONE_OF(d, 1, 2, 400, 400, 999, 1000) : pick(d, 1, 1000));
    }
    for (int i = 0; i < internals; i++)
        s->internal[i] = (int)(pick(d, 0, 1) ? ONE_OF(d, -100, 100, 0, 20, -20, -30, -70, 70) : pick(d, -100, 100));
    for (int i = 0; i < faces; i++) make_face(d, s, i);
}

/* Long sheds take long: one in four of those that may be is. */
int some_faces(dice *d, int year)
{
    if (year < 4 || pick(d, 0, 3)) return (int)pick(d, 1, 24);
    return (int)(pick(d, 0, 3) ? pick(d, 1, 240) : ONE_OF(d, 24, 25, 48, 49, 239, 240, 240));
}

/* Faces alike but for their areas, which are nearly as large as may be, under a wind and internal coefficient that are:
   most of their totals take more than 64 bits. */
static void make_heavy(dice *d, sample *s)
{
    s->density = 1500;
    s->speed[0] = 1000;
    s->internal[0] = 100;
    if (s->mark[0] != DASH) s->direction[0] = s->mark[0];
    for (int i = 0; i < s->steps; i++) s->step[i].factor = 1000;
    for (int i = 0; i < s->faces; i++) {
        s->zone[i] = s->zone[0];
        s->mark[i] = s->mark[0];
        s->height[i] = s->height[0];
        for (int axis = 0; axis < 3; axis++) s->area[i][axis] = (int)pick(d, 90000, 100000) * (axis == 1 ? -1 : 1);
    }
}

void make_sample(dice *d, sample *s)
{
    int small = (int)pick(d, 0, 1), year = (int)pick(d, 1, 4);
    make_sized(d, s, year, pick(d, 0, 6), (int)pick(d, 1, small ? 2 : 8), (int)pick(d, 1, small ? 2 : 4),
               year == 1 ? 0 : (int)pick(d, 1, small ? 3 : 16), small ? (int)pick(d, 1, 5) : some_faces(d, year));
    if (s->faces > 24 && pick(d, 0, 1)) make_heavy(d, s);
}

static void spoil_building(dice *d, sample *s)
{
    int64_t *number[] = {&s->h, &s->a, &s->b, &s->density, &s->x, &s->x, &s->x, &s->kind};
    int64_t *slip = number[pick(d, 0, 7)];
    switch (pick(d, 0, 4)) {
    case 0: *slip += pick(d, -3, 3); break;
    case 1: *slip = ONE_OF(d, 0, 6, 7, 49, 99, 100, 301, 999, 1000, 1501, 30000, 30001, 9999999, -1, -9999999); break;
    case 2: *slip = *slip * pick(d, 1, 8) / pick(d, 1, 8); break;
    case 3: s->a = s->b + pick(d, -1, 1); break;
    default: *slip = s->b * pick(d, 0, 7); break;
    }
}

static void spoil_profile(dice *d, sample *s)
{
    int i = (int)pick(d, 0, s->steps - 1), before = i > 0 ? s->step[i - 1].height : 0;
    int face = (int)pick(d, 0, s->faces - 1), end = pick(d, 0, 1) ? 0 : s->steps - 1;
    switch (pick(d, 0, 5)) {
    case 0: s->year = (int)ONE_OF(d, 0, 1, 2, 3, 4, 5, 20, -2, -3, 9999999); break;
    case 1: s->step[i].height = before - (int)pick(d, 0, 1); break;
    case 2: s->step[i].height = (int)ONE_OF(d, -1, 30001, 9999999, -9999999); break;
    case 3: s->step[i].factor = (int)ONE_OF(d, 0, -1, 1001, 9999999); break;
    case 4: s->height[face] = (int)ONE_OF(d, -1, 0, 30000, 30001, 9999999); break;
    default: s->height[face] = s->step[end].height + (end ? 1 : -1); break;
    }
}

void spoil(dice *d, sample *s)
{
    int face = (int)pick(d, 0, s->faces - 1), wind = (int)pick(d, 0, s->winds - 1);
    switch (pick(d, 0, s->steps ? 12 : 8)) {
    case 0: s->direction[wind] = (int)ONE_OF(d, 1, 9, 45, 89, 91, 135, 180, 225, 270, -90, 9000000); break;
    case 1: s->speed[wind] = (int)ONE_OF(d, 0, 1001, -1, 9999999, -9999999); break;
    case 2: s->internal[pick(d, 0, s->internals - 1)] = (int)ONE_OF(d, 101, -101, 1000, -9999999); break;
    case 3: s->mark[face] = (int)ONE_OF(d, DASH, 2, 9, 45, 89, 91, 135, 180, 225, -1, -90, -9999999); break;
    case 4: s->area[face][pick(d, 0, 2)] = (int)ONE_OF(d, 100001, -100001, 9999999, -9999999); break;
    case 5:
    case 6: s->zone[face] = (char)('A' + pick(d, 0, 7)); break;
    case 7:
    case 8: spoil_building(d, s); break;
    default: spoil_profile(d, s); break;
    }
}

/* ---- Text ---- */

#define ADD(t, ...) \
    ((t)->length += (size_t)snprintf((char *)(t)->byte + (t)->length, TEXT_ROOM - (t)->length, __VA_ARGS__))

void write_sample(const sample *s, text *t)
{
    t->length = 0;
    if (s->steps) ADD(t, "V 1\n%d\n", s->year);
    ADD(t, "B 1\n%lld %lld %lld ", (long long)s->h, (long long)s->a, (long long)s->b);
    ADD(t, "%lld %lld %lld\nW %d\n", (long long)s->density, (long long)s->kind, (long long)s->x, s->winds);
    for (int i = 0; i < s->winds; i++) ADD(t, "%d %d\n", s->direction[i], s->speed[i]);
    ADD(t, "I %d\n", s->internals);
    for (int i = 0; i < s->internals; i++) ADD(t, "%d\n", s->internal[i]);
    if (s->steps) ADD(t, "P %d\n", s->steps);
    for (int i = 0; i < s->steps; i++) ADD(t, "%d %d\n", s->step[i].height, s->step[i].factor);
    ADD(t, "F %d\n", s->faces);
    for (int i = 0; i < s->faces; i++) {
        if (s->mark[i] == DASH) ADD(t, "%c - ", s->zone[i]);
        else ADD(t, "%c %d ", s->zone[i], s->mark[i]);
        if (s->steps) ADD(t, "%d ", s->height[i]);
        ADD(t, "%d %d %d\n", s->area[i][0], s->area[i][1], s->area[i][2]);
    }
}
