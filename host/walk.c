/* Walks every case of a job in order (wind, internal, alternatives of faces 1, 2 and on) and keeps the first greatest
   and the first least total on each axis. It knows nothing of the fact that each face may choose by itself. */
#include "walk.h"
#include "plain.h"
#include <string.h>

typedef struct { int count; int64_t force[2][3]; } part; /* a face in one wind and internal: its alternatives' forces */

/* The speed at a face: without a profile the wind's. From the profile's top down, then rounded down, and one more from
   a half on. */
static int64_t speed_at(const sample *s, int wind, int i)
{
    int64_t speed = s->speed[wind], over, way = 0, span = 1;
    int k = s->steps - 1;
    if (s->steps == 0) return speed;
    while (s->step[k].height > s->height[i]) k--;
    over = s->step[k].factor;
    if (s->step[k].height < s->height[i]) {
        span = s->step[k + 1].height - s->step[k].height;
        way = s->height[i] - s->step[k].height;
        over = span * s->step[k].factor + way * (s->step[k + 1].factor - s->step[k].factor);
    }
    int64_t whole = speed * over / (1000 * span), rest = speed * over % (1000 * span);
    return rest >= 500 * span ? whole + 1 : whole;
}

/* A single slope's coefficient in thousandths. Each column is the book's, in tenths, at 10, 15, 20, 25 and 30 degrees.
   Rows stand 50 tenths of a degree apart, so a tenth between two is worth 2 thousandths a tenth: nothing to round. */
static int64_t single_slope(int64_t x, int direction, char zone)
{
    static const int first[5][5] = { /* E and F; under wind 90 E and G */
        {-10, -9, -8, -7, -5}, {-10, -10, -10, -10, -10}, {-10, -10, -9, -8, -8}, {-9, -6, -5, -3, -1},
        {-5, -3, -2, -1, 0}};
    static const int second[5][5] = { /* G and H; under wind 90 F and H */
        {-5, -5, -5, -5, -5}, {-9, -7, -6, -6, -6}, {-5, -5, -5, -5, -5}, {-10, -10, -10, -9, -6},
        {-10, -10, -10, -9, -6}};
    int beyond = direction == 90 ? (zone - 'E') % 2 : (zone - 'E') / 2;
    const int *column = beyond ? second[direction / 45] : first[direction / 45];
    int64_t past = x > 100 ? x - 100 : 0, row = past / 50, on = past % 50;
    return 100 * column[row] + (on ? 2 * on * (column[row + 1] - column[row]) : 0);
}

/* A face's net coefficients: those of a single slope by itself, the others the plain calculator's. */
static aral_coefficient net_of(const sample *s, int direction, int internal, int i)
{
    aral_coefficient c = {.count = 1};
    if (s->kind != 6 || s->zone[i] <= 'D')
        return plain_net(s->year, s->h, s->a, s->b, s->density, s->kind, s->x, direction, (uint8_t)s->zone[i],
                         internal);
    c.value[0] = (int32_t)(single_slope(s->x, direction, s->zone[i]) - 10 * internal);
    return c;
}

static void face_part(const sample *s, int wind, int internal, int i, part *p)
{
    int direction = s->direction[wind];
    int64_t speed = speed_at(s, wind, i), pressure = s->density * speed * speed;
    memset(p, 0, sizeof *p);
    p->count = 1;
    if (s->mark[i] != DASH && s->mark[i] != direction) return;
    aral_coefficient c = net_of(s, direction, s->internal[internal], i);
    p->count = (int)c.count;
    for (int k = 0; k < p->count; k++)
        for (int axis = 0; axis < 3; axis++) p->force[k][axis] = c.value[k] * pressure * s->area[i][axis];
}

/* The next choice of alternatives, the last face's changing first; 0 after the last. */
static int next_choice(int faces, const part *p, uint8_t *alternative)
{
    for (int i = faces - 1; i >= 0; i--) {
        if (alternative[i] < p[i].count) {
            alternative[i]++;
            return 1;
        }
        alternative[i] = 1;
    }
    return 0;
}

/* A total takes up to 67 bits. */
typedef __int128 wide;

static void judge(int faces, const part *p, const aral_extreme *now, int first, aral_extreme best[6], wide furthest[6])
{
    wide total[3] = {0, 0, 0};
    for (int i = 0; i < faces; i++)
        for (int axis = 0; axis < 3; axis++) total[axis] += p[i].force[now->alternative[i] - 1][axis];
    for (int k = 0; k < 6; k++) {
        wide t = total[k / 2];
        if (!first && (k % 2 == 0 ? t <= furthest[k] : t >= furthest[k])) continue;
        best[k] = *now;
        furthest[k] = t;
    }
}

/* The total as its newtons and the rest, up from far below zero; before year 4 also as it is. */
static void put_total(int year, wide total, aral_extreme *e)
{
    const wide newton = 20000000000, below = 1000000000000;
    e->newtons = (int64_t)((total + below * newton) / newton - below);
    e->remainder = (uint64_t)((total + below * newton) % newton);
    e->total = year < 4 ? (int64_t)total : 0;
}

int walk(const sample *s, uint64_t most, aral_extreme best[6])
{
    uint64_t walked = 0;
    wide furthest[6];
    for (int wind = 0; wind < s->winds; wind++)
        for (int internal = 0; internal < s->internals; internal++) {
            part p[ARAL_FACES_MOST];
            aral_extreme now = {
                .wind = (uint32_t)wind + 1, .internal = (uint32_t)internal + 1, .faces = (uint32_t)s->faces};
            for (int i = 0; i < s->faces; i++) {
                face_part(s, wind, internal, i, &p[i]);
                now.alternative[i] = 1;
            }
            do {
                if (walked == most) return 0;
                judge(s->faces, p, &now, walked++ == 0, best, furthest);
            } while (next_choice(s->faces, p, now.alternative));
        }
    for (int k = 0; k < 6; k++) put_total(s->year, furthest[k], &best[k]);
    return 1;
}
