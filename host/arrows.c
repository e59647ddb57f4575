/* Draws the winds around a plan: an arrow for each direction, where it comes from, and beside it its winds. */
#include "decimal.h"
#include "drawing.h"
#include <inttypes.h>
#include <stdio.h>

enum { LINE = 11 };

static int winds_of_direction(const aral_job *j, int64_t direction)
{
    int count = 0;
    for (uint32_t i = 0; i < j->winds.count; i++) count += j->winds.entry[i].direction == direction;
    return count;
}

int lines_below(const aral_job *j)
{
    int most = 0;
    for (int64_t direction = 45; direction <= 135; direction += 45)
        if (winds_of_direction(j, direction) > most) most = winds_of_direction(j, direction);
    return most > 0 ? most + 1 : 0;
}

/* The direction and its winds, one below the other. */
static void draw_label(const aral_job *j, int64_t direction, double x, double y, const char *anchor)
{
    char text[60], room[DECIMAL_ROOM];
    snprintf(text, sizeof text, "%" PRId64 " degrees", direction);
    draw_text(x, y, anchor, " class=\"wind-name\"", text);
    for (uint32_t i = 0; i < j->winds.count; i++) {
        const aral_wind *w = &j->winds.entry[i];
        if (w->direction != direction) continue;
        snprintf(text, sizeof text, "wind %u, %s m/s", i + 1, decimal(w->speed, 1, room));
        draw_text(x, y += LINE, anchor, " class=\"wind-name\"", text);
    }
}

/* Where the arrow of a direction ends, at which corner or side, from where it comes, and where its label begins. */
static void draw_direction(const aral_job *j, int64_t direction, box p)
{
    int lines = winds_of_direction(j, direction);
    double x = (p.left + p.right) / 2, y = (p.top + p.bottom) / 2, above = y - 8 - LINE * lines;
    if (lines == 0) return;
    switch (direction) {
    case 0:
        draw_arrow(p.left - 62, y, p.left - 22, y, "wind");
        draw_label(j, direction, p.left - 22, above, "end");
        break;
    case 45:
        draw_arrow(p.left - 42, p.bottom + 42, p.left - 10, p.bottom + 10, "wind");
        draw_label(j, direction, p.left - 26, p.bottom + 56, "end");
        break;
    case 90:
        draw_arrow(x, p.bottom + 58, x, p.bottom + 22, "wind");
        draw_label(j, direction, x, p.bottom + 70, "middle");
        break;
    case 135:
        draw_arrow(p.right + 42, p.bottom + 42, p.right + 10, p.bottom + 10, "wind");
        draw_label(j, direction, p.right + 26, p.bottom + 56, "start");
        break;
    default:
        draw_arrow(p.right + 84, y, p.right + 44, y, "wind");
        draw_label(j, direction, p.right + 44, above, "start");
    }
}

void draw_winds(const aral_job *j, int64_t direction, box plan)
{
    for (int64_t turn = 0; turn <= 180; turn += 45)
        if (direction < 0 || direction == turn) draw_direction(j, turn, plan);
}
