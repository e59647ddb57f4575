/* Long sheds by hand: totals as newtons and what remains, 240 faces, and the panel's doubles of newtons. */
#include "worked.h"
#include <math.h>
#include <stdio.h>
#include <string.h>

/* At 400 tenths of m/s a thousandth is worth 1250 x 400^2 = 200000000 on each dm2, a hundredth of a newton. Under wind
   0 and at internal 0.01, A has 0.69, B -0.21 and C -0.51: 6.9 N, -2.1 N and -5.1 N on one dm2. Zone F has 0.19 and
   -0.21. At 0.00 A has 7 N. Faces stand at 600 cm, where the profile has the whole speed. */
#define BUILDING "B 1\n500 1200 1000 1250 2 0\n"
#define REST(inside) "W 1\n0 400\nI 1\n" inside "\nP 1\n600 1000\n"
#define LONG "V 1\n4\n" BUILDING REST("1")
#define ONE(face) LONG "F 1\n" face
#define TWO_INSIDE "V 1\n4\n" BUILDING "W 1\n0 400\nI 2\n0\n1\nP 1\n600 1000\nF 1\n"
#define LEAST "V 1\n4\nB 1\n500 1200 1000 1000 2 0\nW 1\n0 1\nI 1\n0\nP 1\n600 1000\nF 1\n" /* a thousandth is 1000 */

typedef struct { const char *name, *sheet, *lines; } reckoning;
static const reckoning reckonings[] = {
    {"6.9 N", ONE("A 0 600 1 0 0\n"), "x max 6 18000000000 1 1 1\nx min 6 18000000000 1 1 1\n"},
    {"-6.9 N is rounded down too", ONE("A 0 600 -1 0 0\n"), "x max -7 2000000000 1 1 1\nx min -7 2000000000 1 1 1\n"},
    {"nothing", ONE("A 0 600 0 0 0\n"), "x max 0 0 1 1 1\nx min 0 0 1 1 1\ny max 0 0 1 1 1\n"},
    {"69 N", ONE("A 0 600 10 0 0\n"), "x max 69 0 1 1 1\n"},
    {"-69 N", ONE("A 0 600 -10 0 0\n"), "x min -69 0 1 1 1\n"},
    {"20.7 N: a remainder that carries", LONG "F 3\nA 0 600 1 0 0\nA 0 600 1 0 0\nA 0 600 1 0 0\n",
     "x max 20 14000000000 1 1 1 1 1\n"},
    {"6.9 and -6.9 N are nothing", LONG "F 2\nA 0 600 1 0 0\nA 0 600 -1 0 0\n", "x max 0 0 1 1 1 1\n"},
    {"6.9, -2.1 and -5.1 N are -0.3", LONG "F 3\nA 0 600 1 0 0\nB 0 600 1 0 0\nC 0 600 1 0 0\n",
     "x max -1 14000000000 1 1 1 1 1\n"},
    {"-2.1 and -5.1 N are -7.2", LONG "F 2\nB 0 600 1 0 0\nC 0 600 1 0 0\n", "x min -8 16000000000 1 1 1 1\n"},
    {"7 N is more than 6.9, which has more that remains", TWO_INSIDE "A 0 600 1 0 0\n",
     "x max 7 0 1 1 1\nx min 6 18000000000 1 2 1\n"},
    {"-6.9 is more than -7, both are -7 rounded down", TWO_INSIDE "A 0 600 -1 0 0\n",
     "x max -7 2000000000 1 2 1\nx min -7 0 1 1 1\n"},
    {"either alternative: 1.9 and -2.1", ONE("F 0 600 0 0 1\n"),
     "z max 1 18000000000 1 1 1\nz min -3 18000000000 1 1 2\n"},
    {"700000 units, and -200000 of zone B", LEAST "A 0 600 1 0 0\n", "x max 0 700000 1 1 1\n"},
    {"-200000 units", LEAST "B 0 600 1 0 0\n", "x max -1 19999800000 1 1 1\nx min -1 19999800000 1 1 1\n"},
    {"a square plan, as in year 3: -0.2 on B", "V 1\n4\nB 1\n500 1000 1000 1250 0 0\n" REST("0")
     "F 1\nB 0 600 -1000 0 0\n", "x max 2000 0 1 1 1\n"},
    {"P12", "V 1\n4\n" BUILDING REST("0") "F 1\nA 0 600 1000 0 0\n", "x max 7000 0 1 1 1\n"},
};

static void check_reckonings(const calculator *c)
{
    for (size_t i = 0; i < sizeof reckonings / sizeof *reckonings; i++) {
        char out[ARAL_REPORT_MOST + 1] = "";
        const char *sheet = reckonings[i].sheet;
        aral_text t = c->report((const uint8_t *)sheet, strlen(sheet), (uint8_t *)out, ARAL_REPORT_MOST);
        expect(c, reckonings[i].name, t.number == 0 && strstr(out, reckonings[i].lines));
    }
}

/* ---- Many faces ---- */

enum { SHEET_ROOM = 10000 };
typedef struct { char text[SHEET_ROOM]; } sheet_text;

/* The sheet of this opening with so many faces alike, and one more line where `last` is one. */
static sheet_text sheet_of(const char *opening, int count, const char *face, const char *last)
{
    sheet_text s;
    size_t at = (size_t)snprintf(s.text, SHEET_ROOM, "%sF %d\n", opening, count);
    for (int i = 0; i < count - (*last != 0); i++) at += (size_t)snprintf(s.text + at, SHEET_ROOM - at, "%s", face);
    snprintf(s.text + at, SHEET_ROOM - at, "%s", last);
    return s;
}

static int begins(const calculator *c, const sheet_text *s, const char *lines)
{
    char out[ARAL_REPORT_MOST + 1] = "";
    aral_text t = c->report((const uint8_t *)s->text, strlen(s->text), (uint8_t *)out, ARAL_REPORT_MOST);
    return t.number == 0 && strstr(out, lines);
}

/* A gable's -1.2 less an internal 1 at the largest numbers: 2200 x 1500 x 1000^2 x 100000 = 330000000000000000 units,
   16500000 N, for each face. 64 bits hold 27 of them, and not 28. A dm2 less is worth 165 N. */
#define LARGEST "V 1\n4\nB 1\n500 1200 1000 1500 1 100\nW 1\n0 1000\nI 1\n100\nP 1\n0 1000\n"
static const struct { int count; const char *last, *lines; } largest[] = {
    {24, "", "x max 396000000 0 1 1 1 1"},
    {25, "", "x max 412500000 0 1 1 1 1"},
    {27, "", "x max 445500000 0 1 1 1 1"},
    {28, "", "x max 462000000 0 1 1 1 1"},
    {28, "", "y min -462000000 0 1 1 1 1"},
    {48, "", "x max 792000000 0 1 1 1 1"},
    {49, "", "x min 808500000 0 1 1 1 1"},
    {239, "", "x max 3943500000 0 1 1 1 1"},
    {240, "", "x max 3960000000 0 1 1 1 1"},
    {240, "", "x min 3960000000 0 1 1 1 1"},
    {240, "", "y max -3960000000 0 1 1 1 1"},
    {240, "", "y min -3960000000 0 1 1 1 1"},
    {240, "E 0 0 -99999 -99999 0\n", "x max 3959999835 0 1 1 1 1"},
    {240, "E 0 0 -99999 -99999 0\n", "y max -3927000165 0 1 1 1 1"},
    {240, "E 90 0 1 1 1\n", "x max 3943500000 0 1 1 1 1"},
};

static void check_largest(const calculator *c)
{
    for (size_t i = 0; i < sizeof largest / sizeof *largest; i++) {
        sheet_text s = sheet_of(LARGEST, largest[i].count, "E 0 0 -100000 100000 0\n", largest[i].last);
        expect(c, largest[i].lines, begins(c, &s, largest[i].lines));
    }
    sheet_text s = sheet_of(LONG, 240, "A 0 600 1 0 0\n", "");
    expect(c, "240 times 6.9 N", begins(c, &s, "x max 1656 0 1 1 1 1"));
    s = sheet_of(LONG, 239, "A 0 600 1 0 0\n", "");
    expect(c, "239 times 6.9 N", begins(c, &s, "x max 1649 2000000000 1 1 1 1"));
    s = sheet_of(LONG, 240, "A 0 600 -1 0 0\n", "F 0 600 0 0 -1\n");
    expect(c, "the last of 240 chooses", begins(c, &s, " 1 1 1 1 2\nz min -2 2000000000 1 1 1 1 1"));
}

/* How many faces a year may have. Up to F there are 10 lines, and in year 1 without V and P six. */
static void check_counts(const calculator *c)
{
    static const struct { const char *year; int count; uint32_t number, line; } counts[] = {
        {"V 1\n2\n", 24, 0, 0}, {"V 1\n2\n", 25, 2, 11}, {"V 1\n3\n", 24, 0, 0},   {"V 1\n3\n", 25, 2, 11},
        {"V 1\n3\n", 240, 2, 11}, {"V 1\n4\n", 1, 0, 0}, {"V 1\n4\n", 24, 0, 0},   {"V 1\n4\n", 25, 0, 0},
        {"V 1\n4\n", 240, 0, 0}, {"V 1\n4\n", 241, 2, 11}, {"V 1\n4\n", 0, 2, 11}, {"V 1\n5\n", 24, 3, 2}};
    for (size_t i = 0; i < sizeof counts / sizeof *counts; i++) {
        char opening[200], what[80];
        snprintf(opening, sizeof opening, "%s" BUILDING REST("1"), counts[i].year);
        sheet_text s = sheet_of(opening, counts[i].count, "A 0 600 1 0 0\n", "");
        aral_answer a = c->read((const uint8_t *)s.text, strlen(s.text));
        snprintf(what, sizeof what, "%d faces in year %c", counts[i].count, counts[i].year[4]);
        expect(c, what, a.number == counts[i].number && a.line == counts[i].line);
    }
    sheet_text s = sheet_of(BUILDING "W 1\n0 400\nI 1\n1\n", 25, "A 0 1 0 0\n", "");
    aral_answer a = c->read((const uint8_t *)s.text, strlen(s.text));
    expect(c, "25 faces in year 1", a.number == 2 && a.line == 7);
    s = sheet_of(LONG, 240, "A 0 600 1 0 0\n", "A 0 601 1 0 0\n");
    a = c->read((const uint8_t *)s.text, strlen(s.text));
    expect(c, "the last of 240 above the profile", a.number == 8 && a.line == 251);
    strcat(s.text, "\n");
    a = c->read((const uint8_t *)s.text, strlen(s.text));
    expect(c, "and a line after it", a.number == 8 && a.line == 251);
    s = sheet_of(LONG, 240, "A 0 600 1 0 0\n", "");
    strcat(s.text, "\n");
    a = c->read((const uint8_t *)s.text, strlen(s.text));
    expect(c, "a line after 240 faces", a.number == 1 && a.line == 252);
}

/* ---- Totals as numbers ---- */

static aral_extreme total_of(const calculator *c, const char *sheet, int64_t line)
{
    return c->total((const uint8_t *)sheet, strlen(sheet), line);
}

static void check_totals(const calculator *c)
{
    aral_extreme e = total_of(c, ONE("A 0 600 -1 0 0\n"), 1);
    expect(c, "-6.9 N of year 4", e.number == 0 && e.total == 0 && e.newtons == -7 && e.remainder == 2000000000);
    e = total_of(c, "V 1\n3\n" BUILDING REST("1") "F 1\nA 0 600 -1 0 0\n", 1);
    expect(c, "-6.9 N of year 3", e.total == -138000000000 && e.newtons == -7 && e.remainder == 2000000000);
    e = total_of(c, BUILDING "W 1\n0 400\nI 1\n1\nF 1\nA 0 1 0 0\n", 2);
    expect(c, "6.9 N of year 1", e.total == 138000000000 && e.newtons == 6 && e.remainder == 18000000000);
    e = total_of(c, BUILDING "W 1\n0 400\nI 1\n1\nF 1\nA 0 10 0 0\n", 1);
    expect(c, "69 N of year 1", e.total == 1380000000000 && e.newtons == 69 && e.remainder == 0);
    e = total_of(c, ONE("A 0 600 1 0 0\n"), 7);
    expect(c, "no line 7", e.number == 3 && e.line == 0 && e.newtons == 0 && e.remainder == 0 && e.faces == 0);
    sheet_text s = sheet_of(LONG, 240, "F 0 600 0 0 -1\n", "A 0 600 1 0 0\n");
    e = total_of(c, s.text, 5);
    expect(c, "240 alternatives", e.faces == 240 && e.alternative[0] == 2 && e.alternative[238] == 2);
    expect(c, "and the last", e.alternative[239] == 1 && e.newtons == 501 && e.remainder == 18000000000);
}

/* ---- The panel ---- */

static const struct {
    const char *name;
    int64_t newtons;
    uint64_t remainder;
    uint32_t exact;
    double low, high;
} panels[] = {
    {"nothing", 0, 0, 1, 0, 0},
    {"7000 N", 7000, 0, 1, 7000, 7000},
    {"-1 N", -1, 0, 1, -1, -1},
    {"minus one unit", -1, 19999999999, 0, -1, 0},
    {"one unit", 0, 1, 0, 0, 1},
    {"-6.9 N", -7, 2000000000, 0, -7, -6},
    {"the largest of a job", 3960000000, 0, 1, 3960000000, 3960000000},
    {"a remainder of a newton", 5, 20000000000, 0, 5, 6},
    {"the greatest remainder", 5, UINT64_MAX, 0, 5, 6},
    {"2^53", 9007199254740992, 0, 1, 9007199254740992, 9007199254740992},
    {"2^53 and something", 9007199254740992, 1, 0, 9007199254740992, 9007199254740994},
    {"2^53 - 1 and something", 9007199254740991, 1, 0, 9007199254740991, 9007199254740992},
    {"2^53 + 1", 9007199254740993, 0, 0, 9007199254740992, 9007199254740994},
    {"2^53 + 1 and something", 9007199254740993, 1, 0, 9007199254740992, 9007199254740994},
    {"2^53 + 2 and something", 9007199254740994, 1, 0, 9007199254740994, 9007199254740996},
    {"-2^53 - 1", -9007199254740993, 0, 0, -9007199254740994, -9007199254740992},
    {"-2^53 - 1 and something", -9007199254740993, 1, 0, -9007199254740994, -9007199254740992},
    {"-2^53 - 2 and something", -9007199254740994, 1, 0, -9007199254740994, -9007199254740992},
    {"the greatest newtons", INT64_MAX, 0, 0, 9223372036854774784.0, 9223372036854775808.0},
    {"and something", INT64_MAX, UINT64_MAX, 0, 9223372036854774784.0, 9223372036854775808.0},
    {"the least newtons", INT64_MIN, 0, 1, -9223372036854775808.0, -9223372036854775808.0},
    {"and something", INT64_MIN, 1, 0, -9223372036854775808.0, -9223372036854774784.0},
};

static int plus_zero(double d) { return d != 0 || !signbit(d); }

static void check_panels(const calculator *c)
{
    for (size_t i = 0; i < sizeof panels / sizeof *panels; i++) {
        aral_double d = c->panel_newtons(panels[i].newtons, panels[i].remainder);
        expect(c, panels[i].name, d.exact == panels[i].exact && d.low == panels[i].low && d.high == panels[i].high
                                      && plus_zero(d.low) && plus_zero(d.high));
    }
    aral_point p = c->chart_newtons((aral_pair){-1, 19999999999}, (aral_pair){7000, 0}, (aral_pair){0, 1});
    expect(c, "a chart point: x and y", p.x_low == -1 && p.x_high == 0 && p.y_low == 7000 && p.y_high == 7000);
    expect(c, "a chart point: z", p.z_low == 0 && p.z_high == 1 && plus_zero(p.x_high) && plus_zero(p.z_low));
}

/* ---- Worksheets ---- */

static aral_worksheet opened(const calculator *c, const char *sheet)
{
    aral_edited e = c->open((const uint8_t *)sheet, strlen(sheet));
    expect(c, "a long shed opened", e.number == 0 && e.line == 0);
    return e.worksheet;
}

static int shows(const calculator *c, const aral_worksheet *w, const char *lines)
{
    char out[ARAL_REPORT_MOST + 1] = "";
    aral_text t = c->show(*w, (uint8_t *)out, ARAL_REPORT_MOST);
    return t.number == 0 && strstr(out, lines);
}

static int is_pair(aral_pair p, int64_t newtons, uint64_t remainder)
{
    return p.newtons == newtons && p.remainder == remainder;
}

/* Sums of 6.9 N, that borrow and carry a newton. */
static void check_sums(const calculator *c)
{
    aral_edited e = {.worksheet = opened(c, ONE("A 0 600 1 0 0\n"))};
    const aral_span *x = &e.worksheet.sums.cell[0].x;
    expect(c, "sums of 6.9 N", is_pair(x->greatest, 6, 18000000000) && is_pair(x->least, 6, 18000000000));
    e = c->add(e.worksheet, (aral_face){'A', 0, 600, 1, 0, 0});
    expect(c, "sums of 13.8 N", e.number == 0 && is_pair(x->greatest, 13, 16000000000));
    e = c->replace(e.worksheet, 1, (aral_face){'C', 0, 600, 2, 0, 0});
    expect(c, "sums of -3.3 N", e.number == 0 && is_pair(x->greatest, -4, 14000000000));
    expect(c, "shown", shows(c, &e.worksheet, "x max -4 14000000000 1 1 1 1\nx min -4 14000000000 1 1 1 1\n"));
    e = c->take_out(e.worksheet, 2);
    expect(c, "sums of -10.2 N", e.number == 0 && is_pair(x->least, -11, 16000000000));
    e.worksheet.sums.cell[0].x = (aral_span){{-1, 19999999999}, {-3960000000, 0}};
    expect(c, "minus one unit", shows(c, &e.worksheet, "x max -1 19999999999 1 1 1\nx min -3960000000 0 1 1 1\n"));
}

/* The 25th face of a worksheet is one of year 4, and the 241st of none. */
static void check_full(const calculator *c)
{
    static const aral_face a = {'A', 0, 600, 1, 0, 0}, wrong = {'I', 45, 601, 1, 0, 0};
    sheet_text s = sheet_of(LONG, 24, "A 0 600 1 0 0\n", "");
    aral_worksheet w = opened(c, s.text);
    aral_edited e = c->add(w, a);
    expect(c, "25 faces", e.number == 0 && e.worksheet.job.faces.count == 25);
    expect(c, "25 times 6.9 N", shows(c, &e.worksheet, "x max 172 10000000000 1 1 1 1"));
    for (w.job.year = 3; w.job.year > 1; w.job.year--) {
        e = c->add(w, a);
        expect(c, "no 25th face before year 4", e.number == 2 && e.line == 0 && e.worksheet.job.faces.count == 24);
    }
    s = sheet_of(LONG, 239, "A 0 600 1 0 0\n", "");
    e = c->add(opened(c, s.text), a);
    expect(c, "240 faces", e.number == 0 && e.worksheet.job.faces.count == 240);
    expect(c, "240 times 6.9 N", shows(c, &e.worksheet, "x max 1656 0 1 1 1 1"));
    w = e.worksheet;
    e = c->add(w, a);
    expect(c, "no 241st", e.number == 2 && e.line == 0 && e.worksheet.job.faces.count == 240);
    e = c->add(w, wrong);
    expect(c, "full before the new face's faults", e.number == 2 && e.line == 0);
    e = c->replace(w, 240, wrong);
    expect(c, "the last of 240, on line 251", e.number == 1 && e.line == 251);
    e = c->replace(w, 241, a);
    expect(c, "no face 241", e.number == 9 && e.line == 0);
    e = c->take_out(w, 1);
    expect(c, "one of 240 taken out", e.number == 0 && e.worksheet.job.faces.count == 239
                                          && e.worksheet.job.faces.entry[239].zone == 0);
}

/* A record with more faces than its year may have, or than it has room for. */
static void check_records(const calculator *c)
{
    static const struct { int64_t year; uint32_t count, number; } records[] = {
        {4, 240, 0}, {4, 25, 0}, {4, 241, 2}, {4, UINT32_MAX, 2}, {4, 0, 2}, {3, 25, 2}, {3, 240, 2}, {2, 240, 2},
        {3, 24, 0}};
    sheet_text s = sheet_of(LONG, 240, "A 0 600 1 0 0\n", "");
    for (size_t i = 0; i < sizeof records / sizeof *records; i++) {
        uint8_t out[ARAL_SHEET_MOST];
        aral_worksheet w = opened(c, s.text);
        w.job.year = records[i].year;
        w.job.faces.count = records[i].count;
        aral_text t[] = {c->show(w, out, sizeof out), c->write(w, out, sizeof out)};
        for (int k = 0; k < 2; k++)
            expect(c, "a record's count of faces",
                   t[k].number == records[i].number && t[k].line == (t[k].number ? 11 : 0));
        aral_edited e = c->take_out(w, 1);
        expect(c, "a record's count of faces, edited", e.number == records[i].number);
    }
}

/* No report is longer than of the most faces with the longest totals that can be shown: of year 4 lines of 5 bytes,
   12 of newtons, 12 of what remains, 2 for each of 242 numbers, and 1; before it of 5, 21, 2 for each of 26, and 1. */
static void check_longest(const calculator *c)
{
    static const struct { int64_t year; int faces; aral_pair sum; size_t length; } longest[] = {
        {4, 240, {-3960000000, 19999999999}, ARAL_REPORT_MOST}, {3, 24, {-396000000, 0}, 6 * 79}};
    for (int i = 0; i < 2; i++) {
        uint8_t out[ARAL_REPORT_MOST];
        sheet_text s = sheet_of(LONG, longest[i].faces, "A 0 600 1 0 0\n", "");
        aral_worksheet w = opened(c, s.text);
        aral_span all = {longest[i].sum, longest[i].sum};
        w.job.year = longest[i].year;
        w.sums.cell[0] = (aral_sum_cell){all, all, all};
        aral_text t = c->show(w, out, longest[i].length);
        expect(c, "the longest report", t.number == 0 && t.length == longest[i].length);
        t = c->show(w, out, longest[i].length - 1);
        expect(c, "the longest report in a room one short", t.number == ARAL_ROOM && t.line == 0);
    }
}

void check_long(const calculator *c)
{
    check_reckonings(c);
    check_largest(c);
    check_counts(c);
    check_totals(c);
    check_panels(c);
    check_sums(c);
    check_full(c);
    check_records(c);
    check_longest(c);
}
