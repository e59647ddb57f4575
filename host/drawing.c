/* Draws the building of a sheet to scale, from above and from the side. A drawing is to be looked at, so it goes by
   doubles. */
#include "drawing.h"
#include <stdio.h>

enum { WIDE = 700, TALL = 200, TOP = 60 }; /* of the drawing, of a view, and above it */

static const char style[] =
    "<style>svg text{font:9.5px Helvetica,Arial,\"Liberation Sans\",\"DejaVu Sans\",sans-serif;fill:#1f2328}"
    "svg .title{font-weight:600;font-size:10.5px}svg .zone{font-size:13px}svg .wall{font-size:13px;font-weight:700}"
    "svg .grey{fill:#57606a}svg .axis-name{font-style:italic}svg .wind-name{fill:#1d4ed8}"
    "svg .wind{stroke:#1d4ed8;stroke-width:1.8;fill:none}svg .wind-head{fill:#1d4ed8}"
    "svg .axis{stroke:#1f2328;stroke-width:1.1;fill:none}svg .axis-head{fill:#1f2328}"
    "svg .size{stroke:#57606a;stroke-width:.8;fill:none}svg .size-head{fill:#57606a}"
    "svg .outline{stroke:#1f2328;stroke-width:2;fill:none;stroke-linejoin:miter}svg .body{fill:#f3f5f7;stroke:none}"
    "svg .seam{stroke:#8c959f;stroke-width:.8;stroke-dasharray:5 3;fill:none}"
    "svg .ground{stroke:#8c959f;stroke-width:1.2}"
    "svg .e{fill:#dbeafe}svg .f{fill:#eff6ff}svg .g{fill:#fef3c7}svg .h{fill:#fffbeb}</style>\n";

int is_flat(const aral_building *g) { return g->kind >= 2 && g->kind <= 5; }

int is_sloping(const aral_building *g) { return g->kind == 1 || g->kind == 6; }

/* What the drawing had to make up. */
static void draw_caption(const aral_building *g)
{
    printf("<figcaption>To scale. The letters, winds and axes lie as docs/SHEET.md reads the book. ");
    if (is_sloping(g)) printf("Where the zones meet is not on the sheet: the middle is drawn. ");
    if (is_flat(g))
        printf("E is the strip that the wind meets first; its depth is not on the sheet, and drawn as h, or half of "
               "the roof where that is less. ");
    if (g->kind == 1) printf("h is drawn up to the eaves. ");
    if (g->kind == 3) printf("h is drawn up to the roof, and the parapet above it. ");
    if (g->kind == 4 && 2 * g->x > g->b) printf("The radius is over half of b, and drawn smaller. ");
    if (g->kind == 5) printf("The height of the mansard is not on the sheet. ");
    if (g->kind == 6) printf("A is drawn as the high side, with h. ");
    if (g->kind == 6 && height_of_b(g) <= 0) printf("At this slope the roof would reach below the ground. ");
    printf("</figcaption>\n");
}

static int blows(const aral_job *j, int64_t direction)
{
    for (uint32_t i = 0; i < j->winds.count; i++)
        if (j->winds.entry[i].direction == direction) return 1;
    return 0;
}

/* The views have one scale, so that the widest and the highest have room. */
static sketch sketch_of(const aral_job *j, int panels)
{
    const aral_building *g = &j->building;
    double panel = (double)WIDE / panels, beside = g->kind == 6 ? 122 : 48;
    double high = top_of(g) > (double)g->a ? top_of(g) : (double)g->a;
    double scale = (panel - PLAN_LEFT - beside) / (double)g->b;
    if (scale * high > TALL) scale = TALL / high;
    return (sketch){j, g, scale, TOP + scale * high, panel};
}

void draw_building(const aral_job *j)
{
    const aral_building *g = &j->building;
    int both = is_flat(g) && blows(j, 0) && blows(j, 90), below = lines_below(j);
    sketch s = sketch_of(j, both ? 3 : 2);
    double tall = s.ground + (below ? 66 + 11 * below : 52);
    printf("<figure>\n<svg xmlns=\"http://www.w3.org/2000/svg\" viewBox=\"0 0 %d %.0f\" role=\"img\" "
           "aria-label=\"The building in plan and elevation\">\n%s", WIDE, tall, style);
    if (both) {
        draw_plan(&s, 0, 0);
        draw_plan(&s, 1, 90);
    } else draw_plan(&s, 0, is_flat(g) ? j->winds.entry[0].direction : -1);
    draw_elevation(&s, both ? 2 : 1);
    printf("</svg>\n");
    draw_caption(g);
    printf("</figure>\n");
}
