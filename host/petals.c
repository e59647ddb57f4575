/* Draws a wind rose as SVG: for each sector a petal as long as its share, with the weak winds inside and the strong
   ones outside. North is up. It has no script, and names no other file. */
#include "rose.h"
#include <inttypes.h>
#include <stdio.h>

enum { SECTORS = ARAL_SECTORS, NUMBERS = ARAL_BEAUFORT_NUMBERS };
enum { WIDTH = 850, HEIGHT = 640, MIDDLE_X = 315, MIDDLE_Y = 345, RADIUS = 250, LEGEND_X = 628, LEGEND_Y = 130 };

/* Beaufort numbers that are drawn as one, from the inside out: grey for calms, then from light to dark. */
static const struct { int first, last; const char *name, *speeds, *colour; } group[] = {
    {0, 0, "Beaufort 0, calm", "below 0.3 m/s", "#bdbdbd"},
    {1, 3, "Beaufort 1 to 3", "0.3 to 5.4 m/s", "#c7e9b4"},
    {4, 5, "Beaufort 4 and 5", "5.5 to 10.7 m/s", "#7fcdbb"},
    {6, 7, "Beaufort 6 and 7", "10.8 to 17.1 m/s", "#41b6c4"},
    {8, 9, "Beaufort 8 and 9", "17.2 to 24.4 m/s", "#2c7fb8"},
    {10, 12, "Beaufort 10 to 12", "from 24.5 m/s", "#253494"},
};
enum { GROUPS = sizeof group / sizeof *group };

/* ---- The scale ---- */

/* Rings stand every so many percent; the outer one is at RADIUS and holds the longest petal. */
typedef struct { int step, rings; } scale;

static uint32_t longest(const aral_rose *r)
{
    uint32_t most = 0;
    for (int sector = 0; sector < SECTORS; sector++) {
        uint32_t count = count_within(r, sector, 0, NUMBERS - 1);
        if (count > most) most = count;
    }
    return most;
}

/* The least step that needs at most five rings. */
static scale scale_of(const aral_rose *r)
{
    static const int steps[] = {2, 5, 10, 20};
    scale s = {0, 1};
    for (int i = 0; i < 4 && r->accepted > 0; i++) {
        uint64_t ring = (uint64_t)steps[i] * r->accepted;
        s = (scale){steps[i], (int)((100 * (uint64_t)longest(r) + ring - 1) / ring)};
        if (s.rings <= 5) break;
    }
    return s;
}

static double radius_of(const aral_rose *r, scale s, uint32_t count)
{
    return 100.0 * RADIUS * count / ((double)r->accepted * s.step * s.rings);
}

/* ---- Parts of the drawing ---- */

static void draw_rings(scale s)
{
    printf("<g fill=\"none\" stroke=\"#ccc\">\n");
    for (int i = 1; i <= s.rings; i++) printf("<circle r=\"%.1f\"/>\n", (double)RADIUS * i / s.rings);
    for (int i = 0; i < 4; i++) printf("<path d=\"M0 -%d V%d\" transform=\"rotate(%d)\"/>\n", RADIUS, RADIUS, 45 * i);
    printf("</g>\n");
}

/* The rings' percents stand between the petals of N and NNE, at 11.25 degrees. */
static void label_rings(scale s)
{
    printf("<g font-size=\"11\" fill=\"#555\" stroke=\"#fff\" stroke-width=\"3\" paint-order=\"stroke\">\n");
    for (int i = 1; i <= s.rings && s.step > 0; i++) {
        double radius = (double)RADIUS * i / s.rings;
        printf("<text x=\"%.1f\" y=\"%.1f\">%d %%</text>\n", 0.19509 * radius, 4 - 0.98079 * radius, i * s.step);
    }
    printf("</g>\n");
}

/* One group of a petal that points up, 9 degrees to either side, between two radii. */
static void draw_group(double inner, double outer)
{
    double x = 0.156434 * inner, y = 0.987688 * inner, far_x = 0.156434 * outer, far_y = 0.987688 * outer;
    printf("d=\"M-%.2f -%.2f L-%.2f -%.2f A%.2f %.2f 0 0 1 %.2f -%.2f", x, y, far_x, far_y, outer, outer, far_x, far_y);
    printf(" L%.2f -%.2f A%.2f %.2f 0 0 0 -%.2f -%.2f Z\"", x, y, inner, inner, x, y);
}

/* A petal, whose groups name themselves where a pointer rests on them. */
static void draw_petal(const aral_rose *r, scale s, int sector)
{
    uint32_t inside = 0;
    printf("<g transform=\"rotate(%g)\">\n", 22.5 * sector);
    for (int i = 0; i < GROUPS; i++) {
        uint32_t count = count_within(r, sector, group[i].first, group[i].last);
        if (count == 0) continue;
        printf("<path fill=\"%s\" ", group[i].colour);
        draw_group(radius_of(r, s, inside), radius_of(r, s, inside + count));
        printf("><title>%s, %s: %" PRIu32 " (%s)</title></path>\n", sector_name(sector), group[i].name, count,
               share_of(r, count));
        inside += count;
    }
    printf("</g>\n");
}

/* Names stand around the outer ring, at the sine and cosine of each 22.5 degrees. */
static void name_sectors(void)
{
    static const double sine[] = {0, 0.382683, 0.707107, 0.92388, 1, 0.92388, 0.707107, 0.382683, 0};
    printf("<g font-size=\"14\" text-anchor=\"middle\">\n");
    for (int sector = 0; sector < SECTORS; sector++) {
        int turned = (sector + 4) % SECTORS;
        double x = sector <= 8 ? sine[sector] : -sine[sector - 8], y = turned <= 8 ? sine[turned] : -sine[turned - 8];
        printf("<text x=\"%.1f\" y=\"%.1f\"%s>%s</text>\n", (RADIUS + 24) * x, 5 - (RADIUS + 20) * y,
               sector % 4 ? "" : " font-weight=\"bold\"", sector_name(sector));
    }
    printf("</g>\n");
}

static void draw_legend(const aral_rose *r, scale s)
{
    printf("<g transform=\"translate(%d %d)\" font-size=\"13\">\n", LEGEND_X, LEGEND_Y);
    for (int i = GROUPS - 1, y = 0; i >= 0; i--, y += 44) {
        uint32_t count = 0;
        for (int sector = 0; sector < SECTORS; sector++)
            count += count_within(r, sector, group[i].first, group[i].last);
        printf("<rect y=\"%d\" width=\"22\" height=\"30\" fill=\"%s\"/>\n", y, group[i].colour);
        printf("<text x=\"32\" y=\"%d\">%s</text>\n", y + 12, group[i].name);
        printf("<text x=\"32\" y=\"%d\" fill=\"#555\">%s: %s</text>\n", y + 28, group[i].speeds, share_of(r, count));
    }
    printf("<text y=\"300\" font-weight=\"bold\">Calms: %s</text>\n", share_of(r, calms_of(r)));
    printf("<text y=\"318\" fill=\"#555\">under their written direction</text>\n");
    if (s.step > 0) printf("<text y=\"346\" fill=\"#555\">A ring is %d %% of all.</text>\n", s.step);
    printf("</g>\n");
}

/* ---- The drawing ---- */

void draw_rose(const aral_rose *r)
{
    scale s = scale_of(r);
    const char *plural = r->accepted == 1 ? "" : "s";
    printf("<svg xmlns=\"http://www.w3.org/2000/svg\" viewBox=\"0 0 %d %d\" width=\"%d\" height=\"%d\" "
           "font-family=\"sans-serif\" fill=\"#222\">\n", WIDTH, HEIGHT, WIDTH, HEIGHT);
    printf("<title>Wind rose of %" PRIu32 " observation%s</title>\n", r->accepted, plural);
    printf("<rect width=\"%d\" height=\"%d\" fill=\"#fff\"/>\n", WIDTH, HEIGHT);
    printf("<text x=\"24\" y=\"36\" font-size=\"20\">Wind rose of %" PRIu32 " observation%s</text>\n", r->accepted,
           plural);
    printf("<text x=\"24\" y=\"56\" font-size=\"13\" fill=\"#555\">by where the wind comes from</text>\n");
    printf("<g transform=\"translate(%d %d)\">\n", MIDDLE_X, MIDDLE_Y);
    draw_rings(s);
    printf("<g stroke=\"#fff\" stroke-width=\"0.5\">\n");
    for (int sector = 0; sector < SECTORS; sector++) draw_petal(r, s, sector);
    printf("</g>\n");
    label_rings(s);
    name_sectors();
    printf("</g>\n");
    draw_legend(r, s);
    printf("</svg>\n");
}
