/* Explains a sheet on the terminal: what it says, the rows that its coefficients come from, and for each of the six
   lines the case and a table of the faces that adds up. */
#include "check.h"
#include "decimal.h"
#include "edit.h"
#include "explained.h"
#include "signs.h"
#include "words.h"
#include <inttypes.h>
#include <stdio.h>
#include <string.h>

/* ---- What the sheet says ---- */

static void print_building(const explained *e)
{
    const aral_building *g = &e->job.building;
    char room[4][DECIMAL_ROOM];
    printf("Building   h %s m, a %s m, b %s m; air of %s kg/m3\n", decimal(g->h, 2, room[0]), decimal(g->a, 2, room[1]),
           decimal(g->b, 2, room[2]), decimal(g->density, 3, room[3]));
    printf("Roof       ");
    print_roof(g->kind, g->x);
    printf(" (kind %" PRId64 ", x %" PRId64 ")\n", g->kind, g->x);
}

static void print_winds(const explained *e)
{
    char room[DECIMAL_ROOM];
    for (uint32_t i = 0; i < e->job.winds.count; i++) {
        const aral_wind *w = &e->job.winds.entry[i];
        printf("%-10s %u: %3" PRId64 " degrees, %s m/s\n", i ? "" : "Winds", i + 1, w->direction,
               decimal(w->speed, 1, room));
    }
    for (uint32_t i = 0; i < e->job.internals.count; i++)
        printf("%-10s %u: %s\n", i ? "" : "Internal", i + 1, signed_decimal(e->job.internals.entry[i], 2, room));
}

static void print_profile(const explained *e)
{
    char room[2][DECIMAL_ROOM];
    for (uint32_t i = 0; i < e->job.profile.count; i++) {
        const aral_step *s = &e->job.profile.entry[i];
        printf("%-10s %s of the speed at %s m\n", i ? "" : "Profile", decimal(s->factor, 3, room[0]),
               decimal(s->height, 2, room[1]));
    }
}

/* Where each coefficient comes from. */
static void print_coefficients(const explained *e)
{
    looked_up list[LOOKED_UP_MOST];
    uint32_t count = look_up(e, list);
    printf("\nCoefficients outside, by the tables of ROM 0.4-95\n");
    for (uint32_t i = 0; i < count; i++) {
        const asked *q = &list[i].question;
        printf("  %3" PRId64 " degrees, %s: table %s, ", q->direction, list[i].zones, table_of(q));
        print_rows(q, &list[i].answer);
        printf("\n");
    }
}

static void print_sheet(const explained *e)
{
    print_signs(strcmp(e->name, "-") ? e->name : "standard input");
    printf(": accepted, a sheet of year %" PRId64 " with %u faces\n\n", e->job.year, e->job.faces.count);
    print_building(e);
    print_winds(e);
    print_profile(e);
    printf("Steps      net = outside - internal; pressure = density x speed x speed / 2;\n"
           "           force = net x pressure x area. Nothing is rounded but the coefficient outside, to a\n"
           "           thousandth, and from year 2 on the speed at the face, to a tenth.\n"
           "           Positive pushes along the axis, negative against it; z is up.\n"
           "           The newtons are whole: forces rounded down, and one more for the largest remainders.\n"
           "           A total in units, as the six lines have it, counts 0.00000000005 N.\n");
    print_coefficients(e);
}

/* ---- A line ---- */

static const char *rows_of(const aral_part *p, char text[40])
{
    if (!takes_part(p)) return "-";
    if (p->lower == p->upper) snprintf(text, 40, "%u", p->lower);
    else snprintf(text, 40, "%u to %u", p->lower, p->upper);
    return text;
}

static void print_steps(const aral_part *p, int64_t internal)
{
    char room[3][DECIMAL_ROOM], rows[40], fraction[40] = "-";
    if (p->lower != p->upper) snprintf(fraction, sizeof fraction, "%u/%u", p->part, p->whole);
    printf(" %8s %9s", rows_of(p, rows), fraction);
    if (takes_part(p))
        printf(" %7s %8s %6s", signed_decimal(p->outside, 3, room[0]), signed_decimal(internal, 2, room[1]),
               signed_decimal(p->net, 3, room[2]));
    else printf(" %23s", "not in this wind");
}

static void print_face(const explained *e, const explained_line *l, uint32_t i)
{
    const aral_part *p = &l->face[i];
    char room[DECIMAL_ROOM];
    printf("%4u %4c %4u", i + 1, p->zone, p->alternative);
    print_steps(p, internal_of(e, l));
    if (e->job.profile.count) printf(" %6s", decimal(e->job.faces.entry[i].height, 2, room));
    printf(" %5s", decimal(p->speed, 1, room));
    printf(" %11s", pascals(p->pressure, room));
    printf(" %9s", decimal(p->area, 2, room));
    printf(" %22s %9" PRId64 "\n", newtons(p->force, room), p->newtons);
}

static void print_names(const explained *e, const char *const name[13], const char *height)
{
    printf("%4s %4s %4s %8s %9s %7s %8s %6s", name[0], name[1], name[2], name[3], name[4], name[5], name[6], name[7]);
    if (e->job.profile.count) printf(" %6s", height);
    printf(" %5s %11s %9s %22s %9s\n", name[8], name[9], name[10], name[11], name[12]);
}

static void print_heading(const explained *e, int line)
{
    static const char *const area[] = {"area on x", "area on y", "area on z"};
    const char *const name[] = {"face", "zone", "alt.", "rows", "fraction", "outside", "internal", "net", "speed",
                                "pressure", area[(line - 1) / 2], "force", "newtons"};
    static const char *const unit[] = {"", "", "", "", "", "", "", "", "m/s", "Pa", "m2", "N", "N"};
    print_names(e, name, "height");
    print_names(e, unit, "m");
}

static void print_foot(const explained *e, const char *name, units force, int64_t whole)
{
    char room[DECIMAL_ROOM];
    printf("%-*s %22s %9" PRId64 "\n", e->job.profile.count ? 92 : 85, name, newtons(force, room), whole);
}

static void print_line(const explained *e, int line)
{
    const explained_line *l = &e->line[line - 1];
    const aral_wind *w = wind_of(e, l);
    char room[DECIMAL_ROOM], total[TOTAL_ROOM], panel[PANEL_ROOM];
    printf("\n%s, %s: %s N", line_name(line), line_words(line), newtons(units_of(&l->total), room));
    printf(", %s%s\n", e->job.year < 4 ? "" : "or ", total_words(e, l, total));
    printf("Wind %u (%" PRId64 " degrees, %s m/s)", l->total.wind, w->direction, decimal(w->speed, 1, room));
    printf(", internal coefficient %u (%s). ", l->total.internal, signed_decimal(internal_of(e, l), 2, room));
    printf("%s\n\n", panel_words(e, l, panel));
    print_heading(e, line);
    for (uint32_t i = 0; i < l->total.faces; i++) print_face(e, l, i);
    print_foot(e, "sum", l->force, l->newtons);
    print_foot(e, "total", units_of(&l->total), l->total.newtons);
}

int explain_as_text(const char *name, const uint8_t *sheet, size_t n, int longer)
{
    static explained e;
    if (explain_sheet(name, sheet, n, &e).number) return check_sheet(sheet, n, longer);
    print_sheet(&e);
    for (int line = 1; line <= 6; line++) print_line(&e, line);
    return ACCEPTED;
}
