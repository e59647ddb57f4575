/* Draws a building from above: its walls, its roof zones as docs/SHEET.md draws them, its sides and the winds. */
#include "drawing.h"
#include <inttypes.h>
#include <stdio.h>

static void draw_zone(double left, double top, double right, double bottom, const char *letter)
{
    char more[24];
    snprintf(more, sizeof more, "%c", letter[0] + 'a' - 'A');
    printf("<rect class=\"%s\" x=\"%.1f\" y=\"%.1f\" width=\"%.1f\" height=\"%.1f\"/>\n", more, left, top, right - left,
           bottom - top);
    draw_text((left + right) / 2, (top + bottom) / 2 + 4.5, "middle", " class=\"zone\"", letter);
}

static void draw_seam(double x, double y, double to_x, double to_y)
{
    printf("<path class=\"seam\" d=\"M%.1f %.1fL%.1f %.1f\"/>\n", x, y, to_x, to_y);
}

/* E and F on A's side, G and H on B's; E and G on C's, F and H on D's. */
static void draw_quarters(box p)
{
    double x = (p.left + p.right) / 2, y = (p.top + p.bottom) / 2;
    draw_zone(p.left, y, x, p.bottom, "E");
    draw_zone(p.left, p.top, x, y, "F");
    draw_zone(x, y, p.right, p.bottom, "G");
    draw_zone(x, p.top, p.right, y, "H");
    draw_seam(x, p.top, x, p.bottom);
    draw_seam(p.left, y, p.right, y);
}

/* On a flat roof E is the strip that the wind meets first, drawn h deep and at most half of the roof. */
static void draw_strips(const sketch *s, int64_t direction, box p)
{
    double deep = (double)s->g->h * s->scale, half = (direction == 90 ? p.bottom - p.top : p.right - p.left) / 2;
    if (deep > half) deep = half;
    if (direction == 90) {
        draw_zone(p.left, p.top, p.right, p.bottom - deep, "F");
        draw_zone(p.left, p.bottom - deep, p.right, p.bottom, "E");
        draw_seam(p.left, p.bottom - deep, p.right, p.bottom - deep);
    } else {
        draw_zone(p.left, p.top, p.left + deep, p.bottom, "E");
        draw_zone(p.left + deep, p.top, p.right, p.bottom, "F");
        draw_seam(p.left + deep, p.top, p.left + deep, p.bottom);
    }
}

static void draw_walls(box p)
{
    double x = (p.left + p.right) / 2, y = (p.top + p.bottom) / 2 + 4.5;
    printf("<rect class=\"outline\" x=\"%.1f\" y=\"%.1f\" width=\"%.1f\" height=\"%.1f\"/>\n", p.left, p.top,
           p.right - p.left, p.bottom - p.top);
    draw_text(p.left - 11, y, "middle", " class=\"wall\"", "A");
    draw_text(p.right + 11, y, "middle", " class=\"wall\"", "B");
    draw_text(x, p.bottom + 15, "middle", " class=\"wall\"", "C");
    draw_text(x, p.top - 6, "middle", " class=\"wall\"", "D");
}

static void draw_sides(const sketch *s, box p)
{
    char text[METRES_ROOM], more[80];
    double x = (p.left + p.right) / 2, y = (p.top + p.bottom) / 2;
    draw_size(p.left, p.top - 22, p.right, p.top - 22);
    draw_text(x, p.top - 26, "middle", " class=\"grey\"", metres("b", s->g->b, text));
    draw_size(p.right + 23, p.top, p.right + 23, p.bottom);
    snprintf(more, sizeof more, " class=\"grey\" transform=\"rotate(-90 %.1f %.1f)\"", p.right + 34, y);
    draw_text(p.right + 34, y, "middle", more, metres("a", s->g->a, text));
}

void draw_plan(const sketch *s, int panel, int64_t direction)
{
    double left = panel * s->panel + PLAN_LEFT, deep = (double)s->g->a * s->scale;
    box p = {left, s->ground - deep, left + (double)s->g->b * s->scale, s->ground};
    char title[60] = "From above";
    if (direction >= 0) snprintf(title, sizeof title, "From above, under wind %" PRId64, direction);
    draw_text(panel * s->panel + 4, 12, "start", " class=\"title\"", title);
    if (is_sloping(s->g)) draw_quarters(p);
    if (is_flat(s->g)) draw_strips(s, direction, p);
    draw_walls(p);
    draw_sides(s, p);
    draw_winds(s->job, direction, p);
    draw_axes(panel * s->panel + 12, s->ground + 40, "y");
}
