/* Explains a sheet as one page for the printer: the building drawn, the rows of the book, the six lines, and for each
   of them the case and a table of the faces that adds up. A refused sheet gets what `aral check` says of it. */
#define _POSIX_C_SOURCE 200809L
#include "captured.h"
#include "check.h"
#include "decimal.h"
#include "drawing.h"
#include "edit.h"
#include "explained.h"
#include "page.h"
#include "signs.h"
#include "words.h"
#include <errno.h>
#include <inttypes.h>
#include <stdio.h>
#include <stdlib.h>
#include <string.h>
#include <sys/stat.h>
#include <unistd.h>

/* ---- What the sheet says ---- */

static void begin_fact(const char *name) { printf("<tr><th>%s</th><td>", name); }

static void end_fact(void) { printf("</td></tr>\n"); }

static void print_building(const explained *e)
{
    const aral_building *g = &e->job.building;
    char room[4][DECIMAL_ROOM];
    begin_fact("Building");
    printf("h %s m, a %s m, b %s m; air of %s kg/m³", decimal(g->h, 2, room[0]), decimal(g->a, 2, room[1]),
           decimal(g->b, 2, room[2]), decimal(g->density, 3, room[3]));
    end_fact();
    begin_fact("Roof");
    print_roof(g->kind, g->x);
    printf(" (kind %" PRId64 ", x %" PRId64 ")", g->kind, g->x);
    end_fact();
}

static void print_winds(const explained *e)
{
    char room[DECIMAL_ROOM];
    begin_fact("Winds");
    for (uint32_t i = 0; i < e->job.winds.count; i++) {
        const aral_wind *w = &e->job.winds.entry[i];
        printf("%s%u: %" PRId64 " degrees, %s m/s", i ? "; " : "", i + 1, w->direction, decimal(w->speed, 1, room));
    }
    end_fact();
    begin_fact("Internal");
    for (uint32_t i = 0; i < e->job.internals.count; i++) {
        printf("%s%u: ", i ? "; " : "", i + 1);
        print_number(signed_decimal(e->job.internals.entry[i], 2, room));
    }
    end_fact();
}

static void print_profile(const explained *e)
{
    char room[2][DECIMAL_ROOM];
    if (e->job.profile.count == 0) return;
    begin_fact("Profile");
    for (uint32_t i = 0; i < e->job.profile.count; i++) {
        const aral_step *s = &e->job.profile.entry[i];
        printf("%s%s of the speed at %s m", i ? "; " : "", decimal(s->factor, 3, room[0]),
               decimal(s->height, 2, room[1]));
    }
    end_fact();
}

static void print_sheet(const explained *e)
{
    printf("<p class=\"lead\">Wind load by the tables of ROM 0.4-95: a sheet of year %" PRId64 " with %u face%s, every "
           "digit shown.</p>\n", e->job.year, e->job.faces.count, e->job.faces.count == 1 ? "" : "s");
    printf("<table class=\"facts\">\n<tbody>\n");
    print_building(e);
    print_winds(e);
    print_profile(e);
    printf("</tbody>\n</table>\n");
}

/* ---- The book ---- */

static void print_coefficients(const explained *e)
{
    looked_up list[LOOKED_UP_MOST];
    uint32_t count = look_up(e, list);
    printf("<section class=\"flow\">\n<table class=\"loose\">\n"
           "<caption><b>From the book</b>, the coefficients outside</caption>\n<thead>\n<tr>"
           "<th class=\"n\">wind<small>degrees</small></th><th>zones</th><th>table</th>"
           "<th>printed rows, how far between them, and what comes of it, rounded once</th></tr>\n</thead>\n<tbody>\n");
    for (uint32_t i = 0; i < count; i++) {
        const asked *q = &list[i].question;
        printf("<tr><td class=\"n\">%" PRId64 "</td><td>%s</td><td>%s</td><td>", q->direction, list[i].zones,
               table_of(q));
        print_rows(q, &list[i].answer);
        printf("</td></tr>\n");
    }
    printf("</tbody>\n</table>\n</section>\n");
}

/* ---- The six lines ---- */

static void print_six(const explained *e)
{
    char room[DECIMAL_ROOM], total[TOTAL_ROOM];
    printf("<section>\n<table class=\"loose\">\n"
           "<caption><b>The six lines</b>, each with the first case that reaches it</caption>\n"
           "<thead>\n<tr><th>line</th><th class=\"n\">total<small>N</small></th><th>as the report has it</th>"
           "<th class=\"n\">wind</th><th class=\"n\">internal</th></tr>\n</thead>\n<tbody>\n");
    for (int line = 1; line <= 6; line++) {
        const explained_line *l = &e->line[line - 1];
        printf("<tr><td>%s</td>", line_name(line));
        long_number_cell(newtons(units_of(&l->total), room));
        printf("<td>%s</td><td class=\"n\">%u</td><td class=\"n\">%u</td></tr>\n", total_words(e, l, total),
               l->total.wind, l->total.internal);
    }
    printf("</tbody>\n</table>\n<p class=\"note\">A unit is 0.00000000005 N. Positive pushes along the axis, negative "
           "against it; z is up.</p>\n</section>\n");
}

static void print_steps(void)
{
    printf("<section>\n<h2>How each force is reckoned</h2>\n<p>net = outside &minus; internal. pressure = density × "
           "speed² / 2. force = net × pressure × area. Nothing is rounded but the coefficient outside, to a "
           "thousandth, and from year 2 on the speed at the face, to a tenth. The newtons of the last column are "
           "whole: forces rounded down, and one more for the largest remainders, so that they add up to the total "
           "rounded down.</p>\n</section>\n");
}

/* ---- A line ---- */

/* The rows of a share by name; between two the fraction has its own column. */
static void rows_cell(const explained *e, const aral_part *p)
{
    char name[ROW_NAME_ROOM];
    asked q = question_of(e, p);
    if (!takes_part(p)) {
        printf("<td>not in this wind</td><td class=\"n\"></td>");
        return;
    }
    printf("<td>%u: %s", p->lower, short_row_name(&q, p->lower, name));
    if (p->lower == p->upper) printf("</td><td class=\"n\"></td>");
    else printf(", %u: %s</td><td class=\"n\">%u/%u</td>", p->upper, short_row_name(&q, p->upper, name), p->part,
                p->whole);
}

static void print_face(const explained *e, const explained_line *l, uint32_t i)
{
    const aral_part *p = &l->face[i];
    char room[DECIMAL_ROOM];
    printf("<tr%s><td class=\"n\">%u</td><td>%c</td><td class=\"n\">%u</td>", takes_part(p) ? "" : " class=\"idle\"",
           i + 1, p->zone, p->alternative);
    rows_cell(e, p);
    number_cell(takes_part(p) ? signed_decimal(p->outside, 3, room) : "");
    number_cell(takes_part(p) ? signed_decimal(internal_of(e, l), 2, room) : "");
    number_cell(takes_part(p) ? signed_decimal(p->net, 3, room) : "");
    if (e->job.profile.count) number_cell(decimal(e->job.faces.entry[i].height, 2, room));
    number_cell(decimal(p->speed, 1, room));
    long_number_cell(pascals(p->pressure, room));
    number_cell(decimal(p->area, 2, room));
    long_number_cell(newtons(p->force, room));
    number_cell(decimal(p->newtons, 0, room));
    printf("</tr>\n");
}

static void print_foot(const explained *e, const char *name, units force, int64_t whole)
{
    char room[DECIMAL_ROOM];
    printf("<tr><td colspan=\"%d\">%s</td>", e->job.profile.count ? 12 : 11, name);
    long_number_cell(newtons(force, room));
    number_cell(decimal(whole, 0, room));
    printf("</tr>\n");
}

static void print_caption(const explained *e, int line)
{
    const explained_line *l = &e->line[line - 1];
    const aral_wind *w = wind_of(e, l);
    char room[DECIMAL_ROOM], panel[PANEL_ROOM];
    printf("<caption><b>%s</b>, %s: <b>", line_name(line), line_words(line));
    print_long_number(newtons(units_of(&l->total), room));
    printf(" N</b><br>Wind %u (%" PRId64 " degrees, %s m/s)", l->total.wind, w->direction, decimal(w->speed, 1, room));
    printf(", internal coefficient %u (", l->total.internal);
    print_number(signed_decimal(internal_of(e, l), 2, room));
    printf("). %s</caption>\n", panel_words(e, l, panel));
}

static void print_line(const explained *e, int line)
{
    const explained_line *l = &e->line[line - 1];
    char axis = "xyz"[(line - 1) / 2];
    printf("<section>\n<table%s>\n", e->job.profile.count ? " class=\"tight\"" : "");
    print_caption(e, line);
    printf("<thead>\n<tr><th class=\"n\">%s<small>face</small></th><th>zone</th><th class=\"n\">alt.</th>"
           "<th>printed rows</th><th class=\"n\">fraction</th><th class=\"n\">outside</th><th class=\"n\">internal</th>"
           "<th class=\"n\">net</th>%s<th class=\"n\">speed<small>m/s</small></th>"
           "<th class=\"n\">pressure<small>Pa</small></th><th class=\"n\">area<small>on %c, m²</small></th>"
           "<th class=\"n\">force<small>on %c, N</small></th><th class=\"n\">newtons<small>whole N</small></th></tr>\n"
           "</thead>\n<tbody>\n", line_name(line),
           e->job.profile.count ? "<th class=\"n\">height<small>m</small></th>" : "", axis, axis);
    for (uint32_t i = 0; i < l->total.faces; i++) print_face(e, l, i);
    printf("</tbody>\n<tfoot>\n");
    print_foot(e, "Sum of the faces", l->force, l->newtons);
    print_foot(e, "Total, and rounded down", units_of(&l->total), l->total.newtons);
    printf("</tfoot>\n</table>\n</section>\n");
}

/* ---- The page ---- */

static int print_refused(const uint8_t *sheet, size_t n, int longer)
{
    char *said = NULL;
    if (begin_capture()) {
        check_sheet(sheet, n, longer);
        said = end_capture();
    }
    if (!said) {
        fprintf(stderr, "aral: there is no memory for what is said of the sheet\n");
        return MISUSED;
    }
    printf("<p class=\"lead\">The sheet is refused. `aral check` says of it:</p>\n<pre>");
    print_html(said);
    printf("</pre>\n");
    free(said);
    return REFUSED;
}

static int print_page(const char *name, const uint8_t *sheet, size_t n, int longer)
{
    static explained e;
    int status = ACCEPTED;
    begin_page("", name, 0);
    if (explain_sheet(name, sheet, n, &e).number) status = print_refused(sheet, n, longer);
    else {
        print_sheet(&e);
        draw_building(&e.job);
        print_six(&e);
        print_coefficients(&e);
        print_steps();
        for (int line = 1; line <= 6; line++) print_line(&e, line);
    }
    end_page();
    return status;
}

/* ---- The file ---- */

/* Whether the page would be written over the sheet. */
static int is_sheet(const char *out, const char *name)
{
    struct stat a, b;
    if (stat(out, &a) || (strcmp(name, "-") ? stat(name, &b) : fstat(STDIN_FILENO, &b))) return 0;
    return a.st_dev == b.st_dev && a.st_ino == b.st_ino && S_ISREG(a.st_mode);
}

static int unwritten(const char *out, const char *reason)
{
    fprintf(stderr, "aral: %s can't be written: %s\n", out, reason);
    return MISUSED;
}

int explain_as_page(const char *out, const char *name, const uint8_t *sheet, size_t n, int longer)
{
    const char *called = strcmp(name, "-") ? name : "standard input";
    if (!strcmp(out, "-")) return print_page(called, sheet, n, longer);
    if (is_sheet(out, name)) return unwritten(out, "it is the sheet itself");
    FILE *file = fopen(out, "wb");
    fflush(stdout);
    if (!file || dup2(fileno(file), STDOUT_FILENO) < 0) return unwritten(out, strerror(errno));
    fclose(file);
    int status = print_page(called, sheet, n, longer);
    errno = 0;
    if (!fflush(stdout) && !ferror(stdout)) return status;
    clearerr(stdout); /* it is said here */
    return unwritten(out, errno ? strerror(errno) : "some of it is lost");
}
