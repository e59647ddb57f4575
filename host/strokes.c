/* The strokes of a drawing: texts, arrows, measures and axes. */
#include "decimal.h"
#include "drawing.h"
#include <stdio.h>

void draw_text(double x, double y, const char *anchor, const char *more, const char *text)
{
    printf("<text x=\"%.1f\" y=\"%.1f\" text-anchor=\"%s\"%s>%s</text>\n", x, y, anchor, more, text);
}

/* The head is drawn as a part of it: a marker would need a name that is the page's own. */
void draw_arrow(double x, double y, double to_x, double to_y, const char *kind)
{
    double dx = to_x - x, dy = to_y - y, length = dx > 0 ? dx : -dx;
    if ((dy > 0 ? dy : -dy) > length) length = dy > 0 ? dy : -dy;
    dx /= length;
    dy /= length;
    double back = dx != 0 && dy != 0 ? 5 : 7, side = dx != 0 && dy != 0 ? 2.2 : 3;
    printf("<path class=\"%s\" d=\"M%.1f %.1fL%.1f %.1f\"/>\n", kind, x, y, to_x - back * dx, to_y - back * dy);
    printf("<path class=\"%s-head\" d=\"M%.1f %.1fL%.1f %.1fL%.1f %.1fZ\"/>\n", kind, to_x, to_y,
           to_x - back * dx - side * dy, to_y - back * dy + side * dx, to_x - back * dx + side * dy,
           to_y - back * dy - side * dx);
}

void draw_size(double x, double y, double to_x, double to_y)
{
    double middle_x = (x + to_x) / 2, middle_y = (y + to_y) / 2;
    draw_arrow(middle_x, middle_y, x, y, "size");
    draw_arrow(middle_x, middle_y, to_x, to_y, "size");
}

const char *metres(const char *name, int64_t cm, char text[METRES_ROOM])
{
    char room[DECIMAL_ROOM];
    snprintf(text, METRES_ROOM, "%s %s m", name, decimal(cm, 2, room));
    return text;
}

void draw_axes(double x, double y, const char *up)
{
    draw_arrow(x, y, x + 26, y, "axis");
    draw_arrow(x, y, x, y - 26, "axis");
    draw_text(x + 30, y + 3, "start", " class=\"axis-name\"", "x");
    draw_text(x - 3, y - 30, "start", " class=\"axis-name\"", up);
}
