/* Draws a building as it is seen from wall C: its roof by its kind, its height, and a bar for the scale. */
#include "decimal.h"
#include "drawing.h"
#include <stdio.h>

/* The sine and cosine of tenths of a degree, up to 90 degrees, by their series: libm is not at hand everywhere. */
static void turn(int64_t tenths, double *sine, double *cosine)
{
    double angle = (double)tenths * 3.14159265358979323846 / 1800, power = 1;
    *sine = *cosine = 0;
    for (int i = 0; i < 24; i++) {
        double sign = i % 4 < 2 ? 1 : -1;
        if (i % 2) *sine += sign * power;
        else *cosine += sign * power;
        power *= angle / (i + 1);
    }
    if (tenths == 900) *cosine = 0;
}

static double tangent(int64_t tenths)
{
    double sine, cosine;
    turn(tenths, &sine, &cosine);
    return sine / cosine;
}

double top_of(const aral_building *g)
{
    if (g->kind == 1) return (double)g->h + (double)g->b / 2 * tangent(g->x);
    return (double)(g->kind == 3 ? g->h + g->x : g->h);
}

double height_of_b(const aral_building *g)
{
    double low = (double)g->h - (g->kind == 6 ? (double)g->b * tangent(g->x) : 0);
    return low > 0 ? low : 0;
}

/* The roof from the top of wall A to that of wall B, as the rest of a path. */
static void draw_roof(const sketch *s, box w)
{
    const aral_building *g = s->g;
    double sine, cosine, middle = (w.left + w.right) / 2, wide = w.right - w.left, x = (double)g->x * s->scale;
    double rise = (w.bottom - w.top) / 4;
    switch (g->kind) {
    case 1: printf("L%.1f %.1fL%.1f %.1f", middle, w.top - wide / 2 * tangent(g->x), w.right, w.top); break;
    case 4:
        if (x > wide / 2) x = wide / 2;
        printf("V%.1fA%.1f %.1f 0 0 1 %.1f %.1fH%.1fA%.1f %.1f 0 0 1 %.1f %.1f", w.top + x, x, x, w.left + x, w.top,
               w.right - x, x, x, w.right, w.top + x);
        break;
    case 5:
        turn(g->x, &sine, &cosine);
        if (rise * cosine > wide / 4 * sine) rise = wide / 4 * sine / cosine;
        printf("V%.1fL%.1f %.1fH%.1fL%.1f %.1f", w.top + rise, w.left + rise * cosine / sine, w.top,
               w.right - rise * cosine / sine, w.right, w.top + rise);
        break;
    case 6: printf("L%.1f %.1f", w.right, w.bottom - height_of_b(g) * s->scale); break;
    default: printf("H%.1f", w.right);
    }
}

/* Curved eaves and mansards begin below h. */
static void draw_body(const sketch *s, box w)
{
    int below = s->g->kind == 4 || s->g->kind == 5;
    double up = (double)s->g->x * s->scale;
    printf("<path class=\"body\" d=\"M%.1f %.1f", w.left, w.bottom);
    if (!below) printf("V%.1f", w.top);
    draw_roof(s, w);
    printf("V%.1fZ\"/>\n<path class=\"outline\" d=\"M%.1f %.1f", w.bottom, w.left, w.bottom);
    if (!below) printf("V%.1f", s->g->kind == 3 ? w.top - up : w.top);
    if (s->g->kind == 3) printf("M%.1f %.1f", w.left, w.top);
    if (s->g->kind == 0) printf("M%.1f %.1f", w.right, w.top);
    else draw_roof(s, w);
    if (s->g->kind == 3) printf("M%.1f %.1f", w.right, w.top - up);
    printf("V%.1f\"/>\n", w.bottom);
}

static void name_surfaces(const sketch *s, box w)
{
    double x = (w.left + w.right) / 2, y = (w.top + w.bottom) / 2 + 4.5, up = 6;
    draw_text(w.left - 11, y, "middle", " class=\"wall\"", "A");
    draw_text(w.right + 11, w.bottom - height_of_b(s->g) * s->scale / 2 + 4.5, "middle", " class=\"wall\"", "B");
    draw_text(x, w.bottom - w.top < 20 ? w.bottom + 15 : w.bottom - 6, "middle", " class=\"wall\"", "C");
    if (s->g->kind == 1) up += (w.right - w.left) / 4 * tangent(s->g->x);
    if (is_sloping(s->g)) {
        double fall = ((double)s->g->h - height_of_b(s->g)) * s->scale;
        draw_text(w.left + (x - w.left) / 2 - 4, w.top - up + fall / 4, s->g->kind == 6 ? "start" : "end",
                  " class=\"zone\"", "E, F");
        draw_text(x + (w.right - x) / 2 + 4, w.top - up + 3 * fall / 4, "start", " class=\"zone\"", "G, H");
    }
    if (is_flat(s->g)) draw_text(x, w.top - 6, "middle", " class=\"zone\"", "E, F");
}

/* The title of the view: the roof, and what its number is. */
static void name_roof(const sketch *s, double x, double y)
{
    static const char *const name[] = {"no roof", "gable, slope", "flat, straight eaves", "flat, parapet of",
                                       "flat, eaves of radius", "flat, mansard of", "single slope of"};
    const aral_building *g = s->g;
    char text[80], room[DECIMAL_ROOM];
    int angle = g->kind == 1 || g->kind == 5 || g->kind == 6, length = g->kind == 3 || g->kind == 4;
    snprintf(text, sizeof text, "Seen from C: %s%s%s%s", name[g->kind], angle || length ? " " : "",
             angle ? decimal(g->x, 1, room) : length ? decimal(g->x, 2, room) : "", angle ? "°" : length ? " m" : "");
    draw_text(x, y, "start", " class=\"title\"", text);
}

/* A bar of the longest round length that has room. */
static void draw_bar(const sketch *s, double x, double y)
{
    static const int lengths[] = {200, 100, 50, 20, 10, 5, 2, 1};
    int i = 0;
    char text[20];
    while (i < 7 && 100 * lengths[i] * s->scale > 100) i++;
    double wide = 100 * lengths[i] * s->scale;
    snprintf(text, sizeof text, "%d m", lengths[i]);
    printf("<path class=\"axis\" d=\"M%.1f %.1fv6m0 -3H%.1fm0 -3v6\"/>\n", x, y - 3, x + wide);
    draw_text(x + wide + 6, y + 3, "start", " class=\"grey\"", text);
}

void draw_elevation(const sketch *s, int panel)
{
    double start = panel * s->panel, left = start + 84;
    box w = {left, s->ground - (double)s->g->h * s->scale, left + (double)s->g->b * s->scale, s->ground};
    double at = s->g->kind == 6 ? w.left - 26 : w.right + 26;
    char text[METRES_ROOM];
    name_roof(s, start + 4, 12);
    draw_body(s, w);
    printf("<path class=\"ground\" d=\"M%.1f %.1fH%.1f\"/>\n", w.left - 40, s->ground, w.right + 70);
    name_surfaces(s, w);
    draw_size(at, w.top, at, w.bottom);
    draw_text(at + (s->g->kind == 6 ? -5 : 5), (w.top + w.bottom) / 2 + 3, s->g->kind == 6 ? "end" : "start",
              " class=\"grey\"", metres("h", s->g->h, text));
    draw_axes(start + 12, s->ground + 40, "z");
    draw_bar(s, left, s->ground + 40);
}
