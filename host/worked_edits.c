/* Worked edits, typed in by hand: sequences of them on worksheets of years 1 and 2, refused worksheets, and sums. */
#include "worked.h"
#include <stdio.h>
#include <string.h>

enum { ADD, REPLACE, TAKE_OUT };

/* An edit of face `face`, what it answers, how many faces there are then, and a line of what is then shown. */
typedef struct {
    const char *what;
    int edit;
    int64_t face;
    aral_face new;
    uint32_t number, line, faces;
    const char *shown;
} move;

/* Year 1: the faces are on lines 9 to 11. A thousandth of a net coefficient times an area is 200,000,000 units. At the
   internal coefficients 0.2 and -0.3 the nets are 500 and 1000 on A, -400 and 100 on B, -900 and -400 on E. */
#define SAMPLE "B 1\n500 1200 1000 1250 2 0\nW 1\n0 400\nI 2\n20\n-30\n" \
               "F 3\nA 0 1000 0 0\nB - -1000 0 0\nF 0 0 0 -2000\n"
static const move first_year[] = {
    {"no face 4 to take out", TAKE_OUT, 4, {0}, 9, 0, 3, NULL},
    {"no face 0 to replace", REPLACE, 0, {'A', 0, 0, 1, 0, 0}, 9, 0, 3, NULL},
    {"no face before the new face's faults", REPLACE, 4, {'I', 45, 0, 1, 0, 0}, 9, 0, 3, NULL},
    {"no face of the least number", TAKE_OUT, INT64_MIN, {0}, 9, 0, 3, NULL},
    {"no face 2^32 + 1", TAKE_OUT, 4294967297, {0}, 9, 0, 3, NULL},
    {"A added: 2 x 1000 - 100 at -0.3", ADD, 0, {'A', 0, 0, 1000, 0, 0}, 0, 0, 4,
     "x max 380000000000000 1 2 1 1 1 1\nx min 280000000000000 1 1 1 1 1 1\n"},
    {"zone G added to a flat roof, on line 13", ADD, 0, {'G', 0, 0, 1000, 0, 0}, 6, 13, 4, NULL},
    {"zone I added", ADD, 0, {'I', 0, 0, 1000, 0, 0}, 1, 13, 4, NULL},
    {"zone 0 added", ADD, 0, {0, 0, 0, 1000, 0, 0}, 1, 13, 4, NULL},
    {"mark 45 added, before its zone", ADD, 0, {'G', 45, 0, 1000, 0, 0}, 3, 13, 4, NULL},
    {"mark 45 added in no form", ADD, 0, {'I', 45, 0, 1000, 0, 0}, 1, 13, 4, NULL},
    {"mark -1 added", ADD, 0, {'A', -1, 0, 1000, 0, 0}, 3, 13, 4, NULL},
    {"a mark one off that for all", ADD, 0, {'A', ARAL_BOTH + 1, 0, 1000, 0, 0}, 1, 13, 4, NULL},
    {"an area out of range", ADD, 0, {'A', 0, 0, 0, 0, 100001}, 3, 13, 4, NULL},
    {"an area of eight digits", ADD, 0, {'A', 0, 0, 0, -10000000, 0}, 1, 13, 4, NULL},
    {"B for A: 2 x 400 + 500 at 0.2", REPLACE, 1, {'B', ARAL_BOTH, 0, -1000, 0, 0}, 0, 0, 4,
     "x max 260000000000000 1 1 1 1 1 1\nx min 160000000000000 1 2 1 1 1 1\n"},
    {"zone G for face 3, on line 11", REPLACE, 3, {'G', 0, 0, 1000, 0, 0}, 6, 11, 4, NULL},
    {"zone H for the last face, on line 12", REPLACE, 4, {'H', 0, 0, 1000, 0, 0}, 6, 12, 4, NULL},
    {"E for F, whose height year 1 has not", REPLACE, 3, {'E', 0, 12345678, 0, 0, -1000}, 0, 0, 4,
     "z max 180000000000000 1 1 1 1 1 1\nz min 80000000000000 1 2 1 1 1 1\n"},
    {"the first taken out: 400 + 500, and 1000 - 100", TAKE_OUT, 1, {0}, 0, 0, 3,
     "x max 180000000000000 1 1 1 1 1\nx min 180000000000000 1 1 1 1 1\n"},
    {"the last taken out", TAKE_OUT, 3, {0}, 0, 0, 2, "x max 80000000000000 1 1 1 1\nx min -20000000000000 1 2 1 1\n"},
    {"the first of two taken out", TAKE_OUT, 1, {0}, 0, 0, 1, "x max 0 1 1 1\n"},
    {"the only face stays", TAKE_OUT, 1, {0}, 2, 0, 1, NULL},
    {"no face 2 before the only face", TAKE_OUT, 2, {0}, 9, 0, 1, NULL},
    {"zone H for the only face, on line 9", REPLACE, 1, {'H', 0, 0, 0, 0, 0}, 6, 9, 1,
     "z max 180000000000000 1 1 1\n"},
};

/* Year 2: the face is on line 13. A has 0.7; speeds are 320 at 0, 360 at 600 and 400 at 1200. */
#define SLOPING "V 1\n2\nB 1\n500 1200 1000 1250 0 0\nW 1\n0 400\nI 1\n0\n" \
                "P 2\n0 800\n1200 1000\nF 1\nA 0 600 1000 0 0\n"
static const move second_year[] = {
    {"one above the profile", ADD, 0, {'A', 0, 1201, 1000, 0, 0}, 8, 14, 1, "x max 113400000000000 1 1 1\n"},
    {"its zone before its height", ADD, 0, {'E', 0, 1201, 1000, 0, 0}, 6, 14, 1, NULL},
    {"its range before its zone", ADD, 0, {'E', 0, 30001, 1000, 0, 0}, 3, 14, 1, NULL},
    {"its form before its range", ADD, 0, {'E', 0, 10000000, 100001, 0, 0}, 1, 14, 1, NULL},
    {"a height below 0 for the face", REPLACE, 1, {'A', 0, -1, 1000, 0, 0}, 3, 13, 1, NULL},
    {"the face at the top: speed 400", REPLACE, 1, {'A', 0, 1200, 1000, 0, 0}, 0, 0, 1,
     "x max 140000000000000 1 1 1\n"},
    {"one more at the bottom: speed 320", ADD, 0, {'A', 0, 0, 1000, 0, 0}, 0, 0, 2, "x max 229600000000000 1 1 1 1\n"},
    {"the first taken out", TAKE_OUT, 1, {0}, 0, 0, 1, "x max 89600000000000 1 1 1\n"},
};

/* Full: 24 faces on lines 9 to 32. */
static const move full[] = {
    {"a face too many", ADD, 0, {'A', 0, 0, 1000, 0, 0}, 2, 0, 24, NULL},
    {"a full worksheet before the new face's faults", ADD, 0, {'I', 45, 0, 1000, 0, 0}, 2, 0, 24, NULL},
    {"a full worksheet can be changed", REPLACE, 24, {'A', 0, 0, 1000, 0, 0}, 0, 0, 24, NULL},
    {"zone G for the last, on line 32", REPLACE, 24, {'G', 0, 0, 1000, 0, 0}, 6, 32, 24, NULL},
    {"the last taken out", TAKE_OUT, 24, {0}, 0, 0, 23, NULL},
    {"a bad face in its place, on line 32", ADD, 0, {'G', 0, 0, 1000, 0, 0}, 6, 32, 23, NULL},
    {"a good one", ADD, 0, {'A', 0, 0, 1000, 0, 0}, 0, 0, 24, NULL},
};

/* A cell's sums by hand, as x greatest, x least, y greatest, .. z least: nets in thousandths times areas in thousands
   of dm2 under a wind of 400. One is 200,000,000,000 units, which are 10 N. */
typedef struct { int number[6]; } worked_cell;

/* The sample's two cells, of 0.2 and of -0.3. Zone F has 200 and -200, so its nets are 0 or -400, and 500 or 100. */
typedef struct {
    const char *what;
    int edit;
    int64_t face;
    aral_face new;
    uint32_t number;
    worked_cell cell[2];
} sums_move;
static const worked_cell sample_cells[2] = {
    {{900, 900, 0, 0, 800, 0}},       /* 500 + 400; F on -2: 0 or 800 */
    {{900, 900, 0, 0, -200, -1000}}}; /* 1000 - 100; F on -2: -1000 or -200 */
static const sums_move sample_sums[] = {
    {"sums: A added: 500, 1000", ADD, 0, {'A', 0, 0, 1000, 0, 0}, 0,
     {{{1400, 1400, 0, 0, 800, 0}}, {{1900, 1900, 0, 0, -200, -1000}}}},
    {"sums: zone G refused", REPLACE, 3, {'G', 0, 0, 1000, 0, 0}, 6,
     {{{1400, 1400, 0, 0, 800, 0}}, {{1900, 1900, 0, 0, -200, -1000}}}},
    {"sums: F turned over, on 1: 0 or -400, 500 or 100", REPLACE, 3, {'F', 0, 0, 0, 0, 1000}, 0,
     {{{1400, 1400, 0, 0, 0, -400}}, {{1900, 1900, 0, 0, 500, 100}}}},
    {"sums: F taken out", TAKE_OUT, 3, {0}, 0, {{{1400, 1400, 0, 0, 0, 0}}, {{1900, 1900, 0, 0, 0, 0}}}},
    {"sums: F for the first A: 900 and 0 or -400, 900 and 500 or 100", REPLACE, 1, {'F', ARAL_BOTH, 0, 1000, 0, 0}, 0,
     {{{900, 500, 0, 0, 0, 0}}, {{1400, 1000, 0, 0, 0, 0}}}},
    {"sums: B added on y: -400, 100", ADD, 0, {'B', 0, 0, 0, 1000, 0}, 0,
     {{{900, 500, -400, -400, 0, 0}}, {{1400, 1000, 100, 100, 0, 0}}}},
    {"sums: a face of wind 90 adds nothing", ADD, 0, {'F', 90, 0, 1000, 1000, 1000}, 0,
     {{{900, 500, -400, -400, 0, 0}}, {{1400, 1000, 100, 100, 0, 0}}}},
    {"sums: nor does it take anything with it", TAKE_OUT, 5, {0}, 0,
     {{{900, 500, -400, -400, 0, 0}}, {{1400, 1000, 100, 100, 0, 0}}}},
    {"sums: no face 5", TAKE_OUT, 5, {0}, 9, {{{900, 500, -400, -400, 0, 0}}, {{1400, 1000, 100, 100, 0, 0}}}},
};

/* Two winds, 90 at 400 and 0 at 200, whose pressure is a quarter; 0.2 inside. Their cells are 0 and 4. Under 90 A and B
   have -500, so a net of -700; under 0 A has 500 and B -400. */
#define TURNING "B 1\n500 1200 1000 1250 2 0\nW 2\n90 400\n0 200\nI 1\n20\nF 2\nA 0 1000 0 0\nB - 0 1000 0\n"
static const worked_cell turning_cells[2] = {
    {{0, 0, -700, -700, 0, 0}},       /* A is marked for the other wind */
    {{125, 125, -100, -100, 0, 0}}};  /* 500 / 4; -400 / 4 */
static const sums_move turning_sums[] = {
    {"sums: A marked 90", REPLACE, 1, {'A', 90, 0, 1000, 0, 0}, 0,
     {{{-700, -700, -700, -700, 0, 0}}, {{0, 0, -100, -100, 0, 0}}}},
    {"sums: F in both winds: 0 or -400, 0 or -100", ADD, 0, {'F', ARAL_BOTH, 0, 0, 0, 1000}, 0,
     {{{-700, -700, -700, -700, 0, -400}}, {{0, 0, -100, -100, 0, -100}}}},
    {"sums: B taken out", TAKE_OUT, 2, {0}, 0, {{{-700, -700, 0, 0, 0, -400}}, {{0, 0, 0, 0, 0, -100}}}},
};

static int zero_face(const aral_face *f)
{
    return !f->zone && !f->mark && !f->height && !f->x && !f->y && !f->z;
}

static aral_edited made(const calculator *c, const aral_worksheet *w, const move *m)
{
    if (m->edit == ADD) return c->add(*w, m->new);
    return m->edit == REPLACE ? c->replace(*w, m->face, m->new) : c->take_out(*w, m->face);
}

static int shows(const calculator *c, const aral_worksheet *w, const char *line)
{
    char out[ARAL_REPORT_MOST + 1] = "";
    aral_text t = c->show(*w, (uint8_t *)out, ARAL_REPORT_MOST);
    return t.number == 0 && strstr(out, line);
}

/* That the report of the sheet written has the line: what is shown goes by the sums, and this by the faces. */
static int reports(const calculator *c, const aral_worksheet *w, const char *line)
{
    uint8_t sheet[ARAL_SHEET_MOST];
    char out[ARAL_REPORT_MOST + 1] = "";
    aral_text t = c->write(*w, sheet, sizeof sheet);
    return c->report(sheet, t.length, (uint8_t *)out, ARAL_REPORT_MOST).number == 0 && strstr(out, line);
}

static void check_moves(const calculator *c, aral_worksheet w, const move *m, size_t count)
{
    for (const move *end = m + count; m < end; m++) {
        aral_edited e = made(c, &w, m);
        uint32_t faces = e.worksheet.job.faces.count;
        expect(c, m->what, e.number == m->number && e.line == m->line && faces == m->faces);
        if (m->edit == TAKE_OUT && !e.number)
            expect(c, "the vacated entry is zero", zero_face(&e.worksheet.job.faces.entry[faces]));
        if (m->shown) expect(c, m->what, shows(c, &e.worksheet, m->shown) && reports(c, &e.worksheet, m->shown));
        w = e.worksheet;
    }
}

static aral_worksheet opened(const calculator *c, const char *sheet)
{
    aral_edited e = c->open((const uint8_t *)sheet, strlen(sheet));
    expect(c, "a sheet opened", e.number == 0 && e.line == 0);
    return e.worksheet;
}

static void check_full(const calculator *c)
{
    char sheet[1000] = "B 1\n500 1200 1000 1250 2 0\nW 1\n0 400\nI 2\n20\n-30\nF 24\n";
    for (int i = 0; i < 24; i++) strcat(sheet, "A 0 1000 0 0\n");
    check_moves(c, opened(c, sheet), full, sizeof full / sizeof *full);
}

/* What is opened is what the sheet says, with zeros where it says nothing. */
static void check_opened(const calculator *c)
{
    aral_worksheet w = opened(c, SAMPLE);
    const aral_job *j = &w.job;
    const aral_face *f = j->faces.entry;
    expect(c, "the year and the building", j->year == 1 && j->building.h == 500 && j->building.a == 1200
                                               && j->building.b == 1000 && j->building.density == 1250
                                               && j->building.kind == 2 && j->building.x == 0);
    expect(c, "the winds", j->winds.count == 1 && j->winds.entry[0].speed == 400 && j->winds.entry[1].speed == 0);
    expect(c, "the internals", j->internals.count == 2 && j->internals.entry[1] == -30 && j->internals.entry[2] == 0);
    expect(c, "no profile", j->profile.count == 0 && j->profile.entry[0].factor == 0);
    expect(c, "face 2", f[1].zone == 'B' && f[1].mark == ARAL_BOTH && f[1].height == 0 && f[1].x == -1000);
    expect(c, "three faces", j->faces.count == 3 && zero_face(&f[3]) && zero_face(&f[23]));
    w = opened(c, SLOPING);
    expect(c, "the profile", j->year == 2 && j->profile.count == 2 && j->profile.entry[1].factor == 1000);
    expect(c, "a height", f[0].height == 600);
    aral_edited e = c->open((const uint8_t *)"B 1\n500 ", 8);
    expect(c, "a refused sheet opened is nothing", e.number == 1 && e.line == 2 && e.worksheet.job.year == 0
                                                       && e.worksheet.job.building.h == 0);
}

/* Every call refuses the held job, before all else. */
static void check_held(const calculator *c, const char *what, const aral_worksheet *w, uint32_t number, uint32_t line)
{
    static const aral_face good = {'A', 0, 0, 1000, 0, 0};
    aral_edited e[] = {c->add(*w, good), c->replace(*w, 1, good), c->replace(*w, 0, good), c->take_out(*w, 1),
                       c->take_out(*w, 25)};
    for (int i = 0; i < 5; i++)
        expect(c, what, e[i].number == number && e[i].line == line && e[i].worksheet.job.year == w->job.year
                            && e[i].worksheet.job.faces.count == w->job.faces.count);
    aral_text t[] = {c->show(*w, NULL, 0), c->write(*w, NULL, 0)};
    for (int i = 0; i < 2; i++) expect(c, what, t[i].number == number && t[i].line == line && t[i].length == 0);
}

static void check_years(const calculator *c)
{
    static const struct { const char *what; int64_t year; uint32_t number; } years[] = {
        {"a record of year 0", 0, 3}, {"a record of year 5", 5, 3}, {"a record of year -1", -1, 3},
        {"a record of year 9999999", 9999999, 3}, {"a record of year 10000000", 10000000, 1},
        {"a record of year 2^32 + 1", 4294967297, 1}};
    for (size_t i = 0; i < sizeof years / sizeof *years; i++) {
        aral_worksheet w = opened(c, SAMPLE);
        w.job.year = years[i].year;
        check_held(c, years[i].what, &w, years[i].number, 2);
    }
    aral_worksheet nothing = {.job = {.year = 0}};
    check_held(c, "a record of zeros", &nothing, 3, 2);
}

static void check_counts(const calculator *c)
{
    static const uint32_t wrong[] = {0, 25, 240, 241, 10000000, UINT32_MAX};
    for (int i = 0; i < 6; i++) {
        aral_worksheet w = opened(c, SAMPLE);
        w.job.faces.count = wrong[i];
        check_held(c, "a count of faces", &w, 2, 8);
        w.job.internals.count = wrong[i];
        check_held(c, "a count of internal coefficients", &w, 2, 5);
        w.job.winds.count = wrong[i];
        check_held(c, "a count of winds", &w, 2, 3);
        w = opened(c, SLOPING);
        w.job.profile.count = wrong[i];
        check_held(c, "a count of the profile", &w, 2, 9);
    }
}

static void check_fields(const calculator *c)
{
    aral_worksheet w = opened(c, SAMPLE);
    w.job.faces.entry[1].zone = 0;
    check_held(c, "a zone that is no letter", &w, 1, 10);
    w.job.faces.entry[1] = (aral_face){'G', 45, 0, 0, 0, 0};
    check_held(c, "a mark before its zone", &w, 3, 10);
    w.job.faces.entry[1].mark = 10000000;
    check_held(c, "a mark that no sheet can carry", &w, 1, 10);
    w.job.building.h = 10000000;
    check_held(c, "the first line, of eight digits", &w, 1, 2);
    w.job.building.h = 9999999;
    check_held(c, "the first line, out of range", &w, 3, 2);
    w = opened(c, SLOPING);
    w.job.profile.entry[1].height = 0;
    check_held(c, "a profile that does not rise", &w, 3, 11);
    w.job.profile.entry[1].height = 599;
    check_held(c, "a face above the profile", &w, 8, 13);
}

/* In year 1 the profile and the heights are not looked at, and an edit keeps them. */
static void check_not_carried(const calculator *c)
{
    aral_worksheet w = opened(c, SAMPLE);
    w.job.profile.count = UINT32_MAX;
    w.job.profile.entry[3].factor = -7;
    w.job.faces.entry[0].height = 10000000;
    w.job.faces.entry[20].zone = 'z';
    aral_edited e = c->add(w, (aral_face){'A', 0, 5, 1000, 0, 0});
    const aral_job *j = &e.worksheet.job;
    expect(c, "an accepted edit", e.number == 0 && e.line == 0);
    expect(c, "a profile in year 1", j->profile.count == UINT32_MAX && j->profile.entry[3].factor == -7);
    expect(c, "heights in year 1", j->faces.entry[0].height == 10000000 && j->faces.entry[3].height == 0);
    expect(c, "an entry past the count", j->faces.entry[20].zone == 'z');
    expect(c, "it is shown", shows(c, &e.worksheet, "x max 380000000000000 1 2 1 1 1 1\n"));
}

/* ---- Sums ---- */

static int same_pair(aral_pair p, int64_t newtons, uint64_t remainder)
{
    return p.newtons == newtons && p.remainder == remainder;
}

static int same_cell(const aral_sum_cell *c, const worked_cell *worked)
{
    const aral_pair pair[] = {c->x.greatest, c->x.least, c->y.greatest, c->y.least, c->z.greatest, c->z.least};
    for (int k = 0; k < 6; k++)
        if (pair[k].newtons != worked->number[k] * 10 || pair[k].remainder) return 0;
    return 1;
}

/* The first cell and cell `second` hold these sums, and all others zero. */
static int same_sums(const aral_sums *sums, const worked_cell cell[2], int second)
{
    static const worked_cell nothing;
    for (int i = 0; i < 32; i++)
        if (!same_cell(&sums->cell[i], i == 0 ? &cell[0] : i == second ? &cell[1] : &nothing)) return 0;
    return 1;
}

static void check_sums_moves(const calculator *c, aral_worksheet w, int second, const sums_move *m, size_t count)
{
    for (const sums_move *end = m + count; m < end; m++) {
        move edit = {.edit = m->edit, .face = m->face, .new = m->new};
        aral_edited e = made(c, &w, &edit);
        expect(c, m->what, e.number == m->number && same_sums(&e.worksheet.sums, m->cell, second));
        w = e.worksheet;
    }
}

static void check_sums(const calculator *c)
{
    static const worked_cell nothing[2];
    aral_worksheet w = opened(c, SAMPLE);
    expect(c, "sums: the sample opened", same_sums(&w.sums, sample_cells, 1));
    expect(c, "sums: 9000 N", same_pair(w.sums.cell[0].x.greatest, 9000, 0));
    check_sums_moves(c, w, 1, sample_sums, sizeof sample_sums / sizeof *sample_sums);
    w = opened(c, TURNING);
    expect(c, "sums: two winds opened", same_sums(&w.sums, turning_cells, 4));
    check_sums_moves(c, w, 4, turning_sums, sizeof turning_sums / sizeof *turning_sums);
    aral_edited e = c->open((const uint8_t *)SAMPLE "A", strlen(SAMPLE "A"));
    expect(c, "sums: a refused sheet has none", e.number == 1 && same_sums(&e.worksheet.sums, nothing, 1));
}

/* Other sums than those of the faces are shown as they are, with the alternatives of the cell that they stand in. */
static void check_other_sums(const calculator *c)
{
    aral_worksheet w = opened(c, SAMPLE);
    memset(&w.sums, 0, sizeof w.sums);
    expect(c, "sums of 0 are shown", shows(c, &w, "x max 0 1 1 1 1 1\nx min 0 1 1 1 1 1\n"));
    expect(c, "the alternatives of 0.2", shows(c, &w, "z max 0 1 1 1 1 2\nz min 0 1 1 1 1 1\n"));
    aral_edited e = c->add(w, (aral_face){'A', 0, 0, 1000, 0, 0});
    expect(c, "A added to sums of 0: 500, 1000",
           shows(c, &e.worksheet, "x max 200000000000000 1 2 1 1 1 1\nx min 100000000000000 1 1 1 1 1 1\n"));
    w.sums.cell[0].z = (aral_span){{-1, 19999999999}, {0, 7}};
    w.sums.cell[1].z = (aral_span){{0, 5}, {0, 7}};
    w.sums.cell[2].z = w.sums.cell[4].z = (aral_span){{396000000, 0}, {-396000000, 0}};
    expect(c, "the second cell's sum, and the first of two", shows(c, &w, "z max 5 1 2 1 1 2\nz min 7 1 1 1 1 1\n"));
    w.sums.cell[1].z = (aral_span){{-1, 19999999998}, {-1, 19999999998}};
    expect(c, "minus one unit, and minus two", shows(c, &w, "z max -1 1 1 1 1 2\nz min -2 1 2 1 1 1\n"));
    w.sums.cell[1].z = (aral_span){{396000000, 0}, {-396000000, 0}};
    expect(c, "the ends", shows(c, &w, "z max 7920000000000000000 1 2 1 1 2\nz min -7920000000000000000 1 2 1 1 1\n"));
    w.sums.cell[1].z.least = (aral_pair){INT64_MIN, UINT64_MAX};
    expect(c, "past the ends: anew", shows(c, &w, "z max 160000000000000 1 1 1 1 2\nz min -200000000000000 1 2"));
    e = c->replace(w, 3, (aral_face){'G', 0, 0, 0, 0, 0});
    expect(c, "a refused edit keeps them", e.number == 6 && !memcmp(&e.worksheet.sums, &w.sums, sizeof w.sums));
}

/* ---- Sums that no job has ---- */

/* What is tried on a worksheet of a year: how far its sums go, in newtons; what is shown of x where the sum of 0.2 is
   one unit off, and where all are added up anew. */
typedef struct { const char *sheet; int64_t most; int high; const char *off, *anew; } year_sums;
#define LONG_SAMPLE "V 1\n4\nB 1\n500 1200 1000 1250 2 0\nW 1\n0 400\nI 2\n20\n-30\nP 1\n600 1000\n" \
                    "F 3\nA 0 600 1000 0 0\nB - 600 -1000 0 0\nF 0 600 0 0 -2000\n"
static const year_sums of_years[] = {
    {SAMPLE, 396000000, 0, "x max 180000000000001 1 1 1 1 1\n", "x max 180000000000000 1 1 1 1 1\n"},
    {LONG_SAMPLE, 3960000000, 600, "x max 9000 1 1 1 1 1 1\n", "x max 9000 0 1 1 1 1 1\n"}};

static aral_face one_more_a(const year_sums *y) { return (aral_face){'A', 0, y->high, 1000, 0, 0}; }

/* A pair that a job's sum can be is kept, and moved on; another lets all be added up anew, by an edit and where they
   are shown. Here x of 0.2 is one unit off, and the pair stands on y of a cell, in the counts or past them, where the
   new face brings nothing. */
static void check_pair(const calculator *c, const year_sums *y, aral_pair p, int cell, int kept)
{
    static const aral_pair none;
    aral_worksheet w = opened(c, y->sheet);
    w.sums.cell[0].x.greatest.remainder++;
    w.sums.cell[cell].y = (aral_span){cell % 2 ? p : none, cell % 2 ? none : p};
    expect(c, "x shown beside a large sum", shows(c, &w, kept ? y->off : y->anew));
    aral_edited e = c->add(w, one_more_a(y));
    const aral_span *x = &e.worksheet.sums.cell[0].x, *at = &e.worksheet.sums.cell[cell].y;
    expect(c, "x beside a large sum", same_pair(x->greatest, 14000, (uint64_t)kept) && same_pair(x->least, 14000, 0));
    aral_pair held = cell % 2 ? at->greatest : at->least, other = cell % 2 ? at->least : at->greatest;
    expect(c, "a large sum, kept or 0", same_pair(held, kept ? p.newtons : 0, kept ? p.remainder : 0));
    expect(c, "the sum beside it", same_pair(other, 0, 0));
}

static void check_large_sums(const calculator *c, const year_sums *y)
{
    const struct { aral_pair pair; int kept; } large[] = {
        {{y->most, 0}, 1},               {{-y->most, 0}, 1},
        {{y->most, 1}, 0},               {{-y->most - 1, 19999999999}, 0},
        {{y->most - 1, 19999999999}, 1}, {{-y->most, 19999999999}, 1},
        {{y->most - 1, 20000000000}, 0}, {{-y->most - 1, 20000000000}, 0},
        {{0, 20000000000}, 0},           {{0, UINT64_MAX}, 0},
        {{INT64_MAX, 0}, 0},             {{INT64_MIN, 0}, 0}};
    static const int cell[] = {0, 1, 2, 4, 31};
    for (size_t i = 0; i < sizeof large / sizeof *large; i++)
        for (int k = 0; k < 5; k++) check_pair(c, y, large[i].pair, cell[k], large[i].kept);
}

/* An edit may carry a sum past the largest. It is then shown anew, and the next edit adds up anew: 900 + 500 + 500. */
static void check_carried_past(const calculator *c, const year_sums *y, const char *line)
{
    aral_worksheet w = opened(c, y->sheet);
    w.sums.cell[0].x.greatest = (aral_pair){y->most, 0};
    aral_edited e = c->add(w, one_more_a(y));
    expect(c, "a sum carried past the largest", same_pair(e.worksheet.sums.cell[0].x.greatest, y->most + 5000, 0));
    expect(c, "and shown anew", shows(c, &e.worksheet, line));
    e = c->add(e.worksheet, one_more_a(y));
    expect(c, "and added up anew", same_pair(e.worksheet.sums.cell[0].x.greatest, 19000, 0));
}

/* What is written is the sheet; one short of it is refused, and nothing is written. */
static void check_written(const calculator *c)
{
    uint8_t out[200] = {0};
    aral_worksheet w = opened(c, SAMPLE);
    size_t length = strlen(SAMPLE);
    aral_text t = c->write(w, out, length - 1);
    expect(c, "no room for the sheet", t.number == 7 && t.line == 0 && t.length == 0 && out[0] == 0);
    t = c->write(w, out, sizeof out);
    expect(c, "the sheet written", t.number == 0 && t.length == length && !memcmp(out, SAMPLE, length));
    expect(c, "nothing after the sheet", out[length] == 0);
}

void check_edits(const calculator *c)
{
    check_opened(c);
    check_moves(c, opened(c, SAMPLE), first_year, sizeof first_year / sizeof *first_year);
    check_moves(c, opened(c, SLOPING), second_year, sizeof second_year / sizeof *second_year);
    check_full(c);
    check_years(c);
    check_counts(c);
    check_fields(c);
    check_not_carried(c);
    check_written(c);
    check_sums(c);
    check_other_sums(c);
    for (int i = 0; i < 2; i++) check_large_sums(c, &of_years[i]);
    check_carried_past(c, &of_years[0], "x max 380000000000000 1 2 1 1 1 1\n");
    check_carried_past(c, &of_years[1], "x max 19000 0 1 2 1 1 1 1\n");
}
