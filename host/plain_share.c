/* The plain calculator's share of a face. The case is that of the total, the coefficient that of its question, the
   newtons those of the column; what the wind does between them is reckoned here once more, apart from the totals. */
#include "plain.h"
#include "setting.h"

enum { RANGE = 3, NO_FACE = 9 };

/* The speed at a height: between two lines of the profile the factor is on the straight line, and the product is
   rounded once, a half up. Year 1 has one speed. */
static int64_t speed_at(const aral_job *j, int64_t speed, int64_t height)
{
    if (j->year == 1) return speed;
    const aral_step *above = j->profile.entry;
    while (above->height < height) above++;
    if (above->height == height) return (speed * above->factor + 500) / 1000;
    int64_t up = height - above[-1].height, span = above->height - above[-1].height;
    int64_t parts = above[-1].factor * span + (above->factor - above[-1].factor) * up;
    return (2 * speed * parts + 1000 * span) / (2000 * span);
}

static int64_t area_on(const aral_face *f, int64_t line) { return line <= 2 ? f->x : line <= 4 ? f->y : f->z; }

/* The rows and coefficients of a face that takes part. */
static void set_coefficients(aral_part *p, const aral_job *j, int64_t direction, int64_t internal)
{
    const aral_building *g = &j->building;
    int i = p->alternative - 1;
    aral_coefficient c = ENTRY(net)(j->year, g->h, g->a, g->b, g->density, g->kind, g->x, direction, p->zone, internal);
    p->lower = c.lower;
    p->upper = c.upper;
    p->part = c.part;
    p->whole = c.whole;
    p->net = c.value[i];
    p->outside = c.value[i] + 10 * (int32_t)internal;
}

static aral_part share_of(const aral_job *j, const aral_extreme *e, int64_t line, uint32_t i)
{
    const aral_face *f = &j->faces.entry[i];
    const aral_wind *wind = &j->winds.entry[e->wind - 1];
    int64_t column[ARAL_FACES_MOST];
    aral_part p = {.zone = f->zone, .alternative = e->alternative[i], .area = area_on(f, line)};
    if (f->mark == ARAL_BOTH || f->mark == wind->direction)
        set_coefficients(&p, j, wind->direction, j->internals.entry[e->internal - 1]);
    p.speed = speed_at(j, wind->speed, f->height);
    p.pressure = j->building.density * p.speed * p.speed;
    p.force = p.net * p.pressure * p.area;
    ENTRY(column)(setting_of(j), j->faces.entry, j->faces.count, line, column, ARAL_FACES_MOST);
    p.newtons = column[i];
    return p;
}

aral_part ENTRY(share)(const uint8_t *sheet, size_t n, int64_t line, int64_t face)
{
    aral_extreme e = ENTRY(total)(sheet, n, line);
    if (e.number) return (aral_part){.number = e.number, .line = e.line};
    if (face < 1 || face > e.faces) return (aral_part){.number = NO_FACE};
    aral_job j = ENTRY(open)(sheet, n).worksheet.job;
    return share_of(&j, &e, line, (uint32_t)face - 1);
}
