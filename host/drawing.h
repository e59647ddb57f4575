/* The building in plan and elevation, to scale, as SVG: the whole (drawing.c), its views (plan.c, elevation.c), the
   winds (arrows.c) and the strokes that they are made of (strokes.c). */
#ifndef DRAWING_H
#define DRAWING_H

#include "aralimogga.h"

/* Draws the building of an accepted job. */
void draw_building(const aral_job *j);

/* ---- Views ---- */

/* A building, the scale in units of the drawing for 1 cm, the line that the views stand on, and how wide the panel of
   each view is. */
typedef struct { const aral_job *job; const aral_building *g; double scale, ground, panel; } sketch;

/* The views in the panel with this number, from 0. A plan has the zones and the winds of one direction, or where it is
   negative those of all. Left of it there is so much room. */
enum { PLAN_LEFT = 112 };
void draw_plan(const sketch *s, int panel, int64_t direction);
void draw_elevation(const sketch *s, int panel);

/* What a roof is; the highest point of a building, in cm; and how high its wall B is: a single slope has its high side,
   h, at A, and can't go below the ground. */
int is_flat(const aral_building *g);
int is_sloping(const aral_building *g);
double top_of(const aral_building *g);
double height_of_b(const aral_building *g);

/* ---- Winds ---- */

/* A rectangle of the drawing, with y downwards. */
typedef struct { double left, top, right, bottom; } box;

/* Draws the winds of one direction, or of every one where it is negative, as arrows around the plan, each with the
   numbers and speeds of its winds. And how many lines the longest of their labels below a plan has. */
void draw_winds(const aral_job *j, int64_t direction, box plan);
int lines_below(const aral_job *j);

/* ---- Strokes ---- */

/* A text, whose `anchor` is start, middle or end, with `more` attributes; an arrow, a measure with two heads, and the
   axes, x to the right and another one up. Their classes are those of the drawing's style. */
void draw_text(double x, double y, const char *anchor, const char *more, const char *text);
void draw_arrow(double x, double y, double to_x, double to_y, const char *kind);
void draw_size(double x, double y, double to_x, double to_y);
void draw_axes(double x, double y, const char *up);

/* A measure in words, as `b 12.00 m`. */
enum { METRES_ROOM = 40 };
const char *metres(const char *name, int64_t cm, char text[METRES_ROOM]);

#endif
