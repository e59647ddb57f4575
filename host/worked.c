/* The worked cases of the build definition and of the requests, typed in by hand, on the library and on the plain
   calculator. */
#include "worked.h"
#include "plain.h"
#include <stdio.h>
#include <string.h>

static const calculator both[] = {
    {"library", aral_read, aral_where, aral_report, aral_plain, aral_outside, aral_net, aral_total, aral_panel,
     aral_panel_newtons, aral_chart_newtons, aral_open, aral_add, aral_replace, aral_take_out, aral_show, aral_write,
     aral_column, aral_share, aral_mend, aral_rose_new, aral_rose_take, aral_rose_end},
    {"plain", plain_read, plain_where, plain_report, plain_plain, plain_outside, plain_net, plain_total, plain_panel,
     plain_panel_newtons, plain_chart_newtons, plain_open, plain_add, plain_replace, plain_take_out, plain_show,
     plain_write, plain_column, plain_share, plain_mend, plain_rose_new, plain_rose_take, plain_rose_end}};
static int cases, failures;

void expect(const calculator *c, const char *what, int holds)
{
    cases++;
    if (holds) return;
    failures++;
    printf("%s: not so: %s\n", c->name, what);
}

/* Rows by hand. The walls' rows go h/b to 1/2, 3/2, 6, and in each a/b to 3/2, 4: P1, P3 and P12 are in row 1, P4 and
   P6 in 2, P2 in 3, P7 in 5; a square plan has a/b 1, so that of h/b 1 is in row 3. Gable slopes 0, 5, 10, 20, 30, 45,
   60 are rows 1 to 7, and 8 to 14 in the second block; the third has 40 and 50 for 45: rows 15 to 22. P8: (12.3 - 10)
   / (20 - 10) = 23/100. P9: (45.1 - 45) / (60 - 45) = 1/150. P10: (15 - 10) / 10 = 1/2. P11: x/h = 603/12000 =
   0.05025, and (0.05025 - 0.05) / (0.10 - 0.05) = 1/200; so is 201/4000. A parapet of 350 in 4000: (0.0875 - 0.05) /
   0.05 = 3/4. A mansard of 60.1: 0.1 / (90 - 60) = 1/300. */
typedef struct {
    const char *name;
    int64_t year, h, a, b, kind, x, direction;
    char place;
    uint32_t number, line;
    int32_t value;
    uint32_t lower, upper, part, whole;
} row;
static const row questions[] = {
    {"P1", 1, 500, 1200, 1000, 0, 0, 0, 'B', 0, 0, -200, 1, 1, 0, 1},
    {"P2", 1, 501, 1200, 1000, 0, 0, 0, 'B', 0, 0, -250, 3, 3, 0, 1},
    {"P3", 1, 500, 1500, 1000, 0, 0, 0, 'C', 0, 0, -500, 1, 1, 0, 1},
    {"P4", 1, 500, 1501, 1000, 0, 0, 0, 'C', 0, 0, -600, 2, 2, 0, 1},
    {"P5", 1, 500, 1000, 1000, 0, 0, 0, 'A', 4, 2, 0, 0, 0, 0, 0},
    {"P6 accepted", 1, 500, 4000, 1000, 0, 0, 0, 'A', 0, 0, 700, 2, 2, 0, 1},
    {"P6 refused", 1, 500, 4001, 1000, 0, 0, 0, 'A', 4, 2, 0, 0, 0, 0, 0},
    {"P7 accepted", 1, 6000, 1200, 1000, 0, 0, 0, 'A', 0, 0, 800, 5, 5, 0, 1},
    {"P7 refused", 1, 6001, 1200, 1000, 0, 0, 0, 'A', 4, 2, 0, 0, 0, 0, 0},
    {"P8", 1, 500, 1200, 1000, 1, 123, 0, 'E', 0, 0, -1016, 3, 4, 23, 100},
    {"P9", 1, 500, 1200, 1000, 1, 451, 0, 'E', 0, 0, 303, 6, 7, 1, 150},
    {"P10", 1, 500, 1200, 1000, 1, 150, 0, 'E', 0, 0, -800, 3, 4, 1, 2},
    {"P11", 1, 12000, 12000, 10000, 4, 603, 0, '1', 0, 0, -1499, 5, 6, 1, 200},
    {"P12's coefficient", 1, 500, 1200, 1000, 0, 0, 0, 'A', 0, 0, 700, 1, 1, 0, 1},
    {"half, away from zero", 1, 4000, 1200, 1000, 4, 201, 0, 'E', 0, 0, -400, 5, 6, 1, 200},
    {"the local of the last row", 1, 1501, 1501, 1000, 0, 0, 90, 'w', 0, 0, -1200, 6, 6, 0, 1},
    {"the first slope", 1, 500, 1200, 1000, 1, 0, 0, 'E', 0, 0, -800, 1, 1, 0, 1},
    {"the last slope of the second block", 1, 1500, 1200, 1000, 1, 600, 90, 'H', 0, 0, -800, 14, 14, 0, 1},
    {"equal neighbours are two rows all the same", 1, 500, 1200, 1000, 1, 75, 0, 'G', 0, 0, -400, 2, 3, 1, 2},
    {"the third gable block begins at row 15", 1, 1501, 1200, 1000, 1, 25, 90, 'E', 0, 0, -850, 15, 16, 1, 2},
    {"the third gable block has 40 degrees", 1, 1501, 1200, 1000, 1, 400, 0, 'E', 0, 0, -200, 20, 20, 0, 1},
    {"the third gable block has 50 degrees", 1, 1501, 1200, 1000, 1, 500, 0, 'E', 0, 0, 200, 21, 21, 0, 1},
    {"straight eaves", 1, 500, 1200, 1000, 2, 0, 0, 'E', 0, 0, -700, 1, 1, 0, 1},
    {"the least parapet", 1, 4000, 1200, 1000, 3, 100, 0, '2', 0, 0, -1800, 2, 2, 0, 1},
    {"a parapet between", 1, 4000, 1200, 1000, 3, 350, 0, '1', 0, 0, -1850, 3, 4, 3, 4},
    {"a mansard on its last own row", 1, 500, 1200, 1000, 5, 600, 0, '1', 0, 0, -1900, 10, 10, 0, 1},
    {"a mansard towards straight eaves", 1, 500, 1200, 1000, 5, 601, 0, '1', 0, 0, -1902, 10, 1, 1, 300},
    {"straight eaves at 90", 1, 500, 1200, 1000, 5, 900, 0, '1', 0, 0, -2500, 1, 1, 0, 1},
    {"no local on a gable", 1, 500, 1200, 1000, 1, 100, 0, '1', 6, 0, 0, 0, 0, 0, 0},
    {"no roof zone without a roof", 1, 500, 1200, 1000, 0, 0, 90, 'E', 6, 0, 0, 0, 0, 0, 0},
    {"the direction, for locals too", 1, 500, 1200, 1000, 2, 0, 45, 'w', 3, 0, 0, 0, 0, 0, 0},
    {"the direction before the zone", 1, 500, 1200, 1000, 0, 0, 45, 'E', 3, 0, 0, 0, 0, 0, 0},
    {"the building before the direction", 1, 500, 1000, 1000, 0, 0, 45, 'E', 4, 2, 0, 0, 0, 0, 0},
    {"eight digits are a form fault", 1, 10000000, 1200, 1000, 0, 0, 0, 'A', 1, 2, 0, 0, 0, 0, 0},
    {"seven digits are out of range", 1, 9999999, 1200, 1000, 0, 0, 0, 'A', 3, 2, 0, 0, 0, 0, 0},
    {"no such roof number", 1, 500, 1200, 1000, 2, 1, 0, 'A', 5, 2, 0, 0, 0, 0, 0},
    {"a single slope from 5 degrees", 1, 500, 1200, 1000, 6, 49, 0, 'A', 5, 2, 0, 0, 0, 0, 0},
    {"a single slope to 30 degrees", 1, 500, 1200, 1000, 6, 301, 0, 'A', 5, 2, 0, 0, 0, 0, 0},
    {"a square plan under a single slope, before its slope", 1, 500, 1000, 1000, 6, 49, 0, 'A', 4, 2, 0, 0, 0, 0, 0},
    {"no roof kind 7", 1, 500, 1200, 1000, 7, 100, 0, 'A', 3, 2, 0, 0, 0, 0, 0},
    {"a tenth over 10 degrees", 1, 500, 1200, 1000, 6, 101, 135, 'E', 0, 0, -894, 1, 2, 1, 50},
    {"a tenth under 30 degrees", 1, 500, 1200, 1000, 6, 299, 180, 'H', 0, 0, -606, 4, 5, 49, 50},
    {"the tallest building has the same slopes", 1, 6000, 4000, 1000, 6, 150, 45, 'G', 0, 0, -700, 2, 2, 0, 1},
    {"a wall beside a single slope", 1, 500, 1200, 1000, 6, 100, 90, 'B', 0, 0, -500, 1, 1, 0, 1},
    {"its wall local", 1, 500, 1200, 1000, 6, 100, 0, 'w', 0, 0, -800, 1, 1, 0, 1},
    {"no wall under 45", 1, 500, 1200, 1000, 6, 100, 45, 'A', 6, 0, 0, 0, 0, 0, 0},
    {"no wall under 135", 1, 500, 1200, 1000, 6, 100, 135, 'D', 6, 0, 0, 0, 0, 0, 0},
    {"no wall under 180", 1, 500, 1200, 1000, 6, 100, 180, 'B', 6, 0, 0, 0, 0, 0, 0},
    {"no wall local under 180", 1, 500, 1200, 1000, 6, 100, 180, 'w', 6, 0, 0, 0, 0, 0, 0},
    {"no L1 on a single slope", 1, 500, 1200, 1000, 6, 100, 0, '1', 6, 0, 0, 0, 0, 0, 0},
    {"no L2 on a single slope", 1, 500, 1200, 1000, 6, 100, 45, '2', 6, 0, 0, 0, 0, 0, 0},
    {"no zone I on a single slope", 1, 500, 1200, 1000, 6, 100, 180, 'I', 6, 0, 0, 0, 0, 0, 0},
    {"no wind 225, before the zone", 1, 500, 1200, 1000, 6, 100, 225, 'I', 3, 0, 0, 0, 0, 0, 0},
    {"no wind 44", 1, 500, 1200, 1000, 6, 100, 44, 'E', 3, 0, 0, 0, 0, 0, 0},
    {"no wind -45", 1, 500, 1200, 1000, 6, 100, -45, 'E', 3, 0, 0, 0, 0, 0, 0},
    {"no wind 45 on a gable", 1, 500, 1200, 1000, 1, 100, 45, 'E', 3, 0, 0, 0, 0, 0, 0},
    {"no wind 135 on a mansard", 1, 500, 1200, 1000, 5, 300, 135, 'E', 3, 0, 0, 0, 0, 0, 0},
    {"no wind 180 without a roof", 1, 500, 1200, 1000, 0, 0, 180, 'A', 3, 0, 0, 0, 0, 0, 0},
    {"P5's twin of year 3", 3, 500, 1000, 1000, 0, 0, 0, 'B', 0, 0, -200, 1, 1, 0, 1},
    {"P5 in year 2", 2, 500, 1000, 1000, 0, 0, 0, 'B', 4, 4, 0, 0, 0, 0, 0},
    {"a below b in year 3", 3, 500, 999, 1000, 0, 0, 0, 'B', 4, 4, 0, 0, 0, 0, 0},
    {"a square plan in the second block", 3, 501, 1000, 1000, 0, 0, 0, 'B', 0, 0, -250, 3, 3, 0, 1},
    {"a square plan in the third block", 3, 1501, 1000, 1000, 0, 0, 90, 'C', 0, 0, 800, 5, 5, 0, 1},
    {"the tallest square plan", 3, 6000, 1000, 1000, 0, 0, 0, 'w', 0, 0, -1200, 5, 5, 0, 1},
    {"a square plan too tall", 3, 6001, 1000, 1000, 0, 0, 0, 'A', 4, 4, 0, 0, 0, 0, 0},
    {"the least square plan", 3, 100, 100, 100, 0, 0, 0, 'B', 0, 0, -250, 3, 3, 0, 1},
    {"the largest square plan", 3, 30000, 30000, 30000, 0, 0, 90, 'D', 0, 0, -250, 3, 3, 0, 1},
    {"P8 on a square plan", 3, 500, 1000, 1000, 1, 123, 0, 'E', 0, 0, -1016, 3, 4, 23, 100},
    {"P11 on a square plan", 3, 12000, 10000, 10000, 4, 603, 0, '1', 0, 0, -1499, 5, 6, 1, 200},
    {"a single slope over a square plan", 3, 500, 1000, 1000, 6, 101, 135, 'E', 0, 0, -894, 1, 2, 1, 50},
    {"its wall under 45", 3, 500, 1000, 1000, 6, 101, 45, 'A', 6, 0, 0, 0, 0, 0, 0},
    {"a square plan, then its roof number", 3, 500, 1000, 1000, 6, 49, 0, 'A', 5, 4, 0, 0, 0, 0, 0},
    {"a square plan before its roof number in year 2", 2, 500, 1000, 1000, 6, 49, 0, 'A', 4, 4, 0, 0, 0, 0, 0},
    {"P1 in year 2", 2, 500, 1200, 1000, 0, 0, 0, 'B', 0, 0, -200, 1, 1, 0, 1},
    {"P1 in year 3", 3, 500, 1200, 1000, 0, 0, 0, 'B', 0, 0, -200, 1, 1, 0, 1},
    {"P6 refused in year 3", 3, 500, 4001, 1000, 0, 0, 0, 'A', 4, 4, 0, 0, 0, 0, 0},
    {"eight digits in year 2", 2, 10000000, 1200, 1000, 0, 0, 0, 'A', 1, 4, 0, 0, 0, 0, 0},
    {"seven digits in year 3", 3, 9999999, 1200, 1000, 0, 0, 0, 'A', 3, 4, 0, 0, 0, 0, 0},
    {"no year 0", 0, 500, 1200, 1000, 0, 0, 0, 'A', 3, 0, 0, 0, 0, 0, 0},
    {"P1 in year 4", 4, 500, 1200, 1000, 0, 0, 0, 'B', 0, 0, -200, 1, 1, 0, 1},
    {"P5's twin of year 4", 4, 500, 1000, 1000, 0, 0, 0, 'B', 0, 0, -200, 1, 1, 0, 1},
    {"a below b in year 4", 4, 500, 999, 1000, 0, 0, 0, 'B', 4, 4, 0, 0, 0, 0, 0},
    {"P11 on a square plan in year 4", 4, 12000, 10000, 10000, 4, 603, 0, '1', 0, 0, -1499, 5, 6, 1, 200},
    {"no year 5", 5, 500, 1200, 1000, 0, 0, 0, 'A', 3, 0, 0, 0, 0, 0, 0},
    {"no year -1", -1, 500, 1200, 1000, 0, 0, 0, 'A', 3, 0, 0, 0, 0, 0, 0},
    {"no year 2^32 + 1", 4294967297, 500, 1200, 1000, 0, 0, 0, 'A', 3, 0, 0, 0, 0, 0, 0},
    {"no year of the least", INT64_MIN, 500, 1200, 1000, 0, 0, 0, 'A', 3, 0, 0, 0, 0, 0, 0},
    {"the year before the plan", 5, 500, 999, 1000, 0, 0, 0, 'A', 3, 0, 0, 0, 0, 0, 0},
    {"the year before the form of the building", 5, 10000000, 1000, 1000, 0, 0, 0, 'A', 3, 0, 0, 0, 0, 0, 0},
    {"the year before the zone", 0, 500, 1200, 1000, 0, 0, 0, 'E', 3, 0, 0, 0, 0, 0, 0},
};

/* Single slopes: every column of the table in thousandths, at 5, 10, 12.5, 15, 17.5, 20, 22.5, 25, 27.5 and 30 degrees:
   on the rows as printed, and between two the mean of both by hand. */
enum { SLOPES = 10 };
static const int64_t slopes[SLOPES] = {50, 100, 125, 150, 175, 200, 225, 250, 275, 300};
static const uint32_t slope_rows[SLOPES][2] = {
    {1, 1}, {1, 1}, {1, 2}, {2, 2}, {2, 3}, {3, 3}, {3, 4}, {4, 4}, {4, 5}, {5, 5}};
static const struct { int64_t direction; char zone[3]; int32_t value[SLOPES]; } columns[] = {
    {0, "EF", {-1000, -1000, -950, -900, -850, -800, -750, -700, -600, -500}},
    {0, "GH", {-500, -500, -500, -500, -500, -500, -500, -500, -500, -500}},
    {45, "EF", {-1000, -1000, -1000, -1000, -1000, -1000, -1000, -1000, -1000, -1000}},
    {45, "GH", {-900, -900, -800, -700, -650, -600, -600, -600, -600, -600}},
    {90, "EG", {-1000, -1000, -1000, -1000, -950, -900, -850, -800, -800, -800}},
    {90, "FH", {-500, -500, -500, -500, -500, -500, -500, -500, -500, -500}},
    {135, "EF", {-900, -900, -750, -600, -550, -500, -400, -300, -200, -100}},
    {135, "GH", {-1000, -1000, -1000, -1000, -1000, -1000, -950, -900, -750, -600}},
    {180, "EF", {-500, -500, -400, -300, -250, -200, -150, -100, -50, 0}},
    {180, "GH", {-1000, -1000, -1000, -1000, -1000, -1000, -950, -900, -750, -600}},
};

#define SAMPLE "B 1\n500 1200 1000 1250 2 0\nW 1\n0 400\nI 2\n20\n-30\n" \
               "F 3\nA 0 1000 0 0\nB - -1000 0 0\nF 0 0 0 -2000\n"
#define START "B 1\n500 1200 1000 1250 0 0\nW 1\n0 400\nI 1\n0\nF 1\n"
/* Year 2: section V stands before the building, section P on line 9. */
#define HIGH "V 1\n2\nB 1\n500 1200 1000 1250 0 0\nW 1\n0 400\nI 1\n0\n"
#define SLOPING HIGH "P 2\n0 800\n1200 1000\nF 1\n"
#define LEVEL HIGH "P 1\n600 1000\nF 1\n"
/* Single slopes: the wind is on line 4 and the face on line 8; in year 2 on lines 6 and 12. */
#define SINGLE(x) "B 1\n500 1200 1000 1250 6 " x "\n"
#define REST "I 1\n0\nF 1\n"
#define UNDER(direction) SINGLE("100") "W 1\n" direction " 400\n" REST
#define SLANT UNDER("45")
#define AHEAD UNDER("0")
#define SLANT_HIGH "V 1\n2\n" SINGLE("100") "W 1\n45 400\nI 1\n0\nP 1\n600 1000\nF 1\n"
/* Square plans: in year 3 the face is on line 12. */
#define SQUARE(year) "V 1\n" year "\nB 1\n500 1000 1000 1250 0 0\n"
#define SQUARE_REST "W 1\n0 400\nI 1\n0\nP 1\n600 1000\nF 1\n"
#define TALL_SQUARE "V 1\n3\nB 1\n1501 1000 1000 1250 6 100\n" SQUARE_REST
typedef struct { const char *sheet; uint32_t number, line; } verdict;
static const verdict sheets[] = {
    {SAMPLE, 0, 0},
    {"", 1, 1},
    {"\n", 1, 1},
    {"B 2", 1, 1},
    {"B 2\n", 2, 1},
    {"B -1\n", 2, 1},
    {"B 1\n", 1, 2},
    {"B 1\n500 1200 1000 1250 0 0\nW 9\n", 2, 3},
    {"B 1\n500 1200 1000 1250 0 0\nW 10000000\n", 1, 3},
    {"B 1\n500 1200 1000 1250 0 0\nW 1\n-90 400\n", 3, 4},
    {"B 1\n500 1200 1000 1250 0 0\nW 1\n- 400\n", 1, 4},
    {"B 1\n500 1200 1000 1250 0 0\nW 1\n0 400\nI 1\n0\nF 25\n", 2, 7},
    {"B 1\n50 1000 1000 1250 0 1\n", 3, 2},
    {"B 1\n500 1000 1000 1250 0 1\n", 4, 2},
    {"B 1\n500 1200 1000 1250 0 1\n", 5, 2},
    {START "A - 0 0 0\n", 0, 0},
    {START "A - 0 0 0", 1, 8},
    {START "A - 0 0 0\n\n", 1, 9},
    {START "A - 0 0 0\n ", 1, 9},
    {START "A - 0 0 0 \n", 1, 8},
    {START "A -90 0 0 0\n", 3, 8},
    {START "A -0 0 0 0\n", 1, 8},
    {START "A -- 0 0 0\n", 1, 8},
    {START "A 00 0 0 0\n", 1, 8},
    {START "I - 0 0 0\n", 1, 8},
    {START "E - 0 0 0\n", 6, 8},
    {START "E 45 0 0 0\n", 3, 8},
    {START "E 45 0 0 00\n", 1, 8},
    {START "A - 0 0 -0\n", 1, 8},
    {START "A - 0 0 +1\n", 1, 8},
    {START "A - 0 0 100001\n", 3, 8},
    {START "A - 600 0 0 0\n", 1, 8},
    {"V", 1, 1},
    {"V 2", 1, 1},
    {"V 2\n", 2, 1},
    {"V 0\n", 2, 1},
    {"V -1\n", 2, 1},
    {"VX 1\n", 1, 1},
    {"v 1\n2\n", 1, 1},
    {"V 1\n", 1, 2},
    {"V 1\n2", 1, 2},
    {"V 1\n02\n", 1, 2},
    {"V 1\n2 \n", 1, 2},
    {"V 1\n10000000\n", 1, 2},
    {"V 1\n0\n", 3, 2},
    {"V 1\n1\n", 3, 2},
    {"V 1\n3\n", 1, 3},
    {"V 1\n3", 1, 2},
    {"V 1\n03\n", 1, 2},
    {"V 1\n3 3\n", 1, 2},
    {"V 1\n-3\n", 3, 2},
    {"V 1\n4\n", 1, 3},
    {"V 1\n4", 1, 2},
    {"V 1\n04\n", 1, 2},
    {"V 1\n-4\n", 3, 2},
    {"V 1\n5\n", 3, 2},
    {"V 1\n30\n", 3, 2},
    {"V 1\n40\n", 3, 2},
    {"V 1\n9999999\n", 3, 2},
    {"V 1\n-2\n", 3, 2},
    {"V 1\n2\n", 1, 3},
    {"V 1\n2\nB 2\n", 2, 3},
    {"V 1\n2\nB 1\n500 1000 1000 1250 0 0\n", 4, 4},
    {HIGH "F 1\n", 1, 9},
    {HIGH "P 0\n", 2, 9},
    {HIGH "P 17\n", 2, 9},
    {HIGH "P 16\n", 1, 10},
    {HIGH "P 1\n0\n", 1, 10},
    {HIGH "P 1\n0 1 1\n", 1, 10},
    {HIGH "P 1\n- 1\n", 1, 10},
    {HIGH "P 1\n-1 1\n", 3, 10},
    {HIGH "P 1\n30001 1\n", 3, 10},
    {HIGH "P 1\n0 0\n", 3, 10},
    {HIGH "P 1\n0 1001\n", 3, 10},
    {HIGH "P 2\n5 1\n5 1\n", 3, 11},
    {HIGH "P 2\n5 1\n4 1\n", 3, 11},
    {HIGH "P 2\n5 1\n4 1 \n", 1, 11},
    {SLOPING "A - 0 0 0\n", 1, 13},
    {SLOPING "A - 0 0 0 0\n", 0, 0},
    {SLOPING "A - 1200 0 0 0\n", 0, 0},
    {SLOPING "A - 1201 0 0 0\n", 8, 13},
    {SLOPING "A - 30000 0 0 0\n", 8, 13},
    {SLOPING "A - 30001 0 0 0\n", 3, 13},
    {SLOPING "A - -1 0 0 0\n", 3, 13},
    {SLOPING "E - 1201 0 0 0\n", 6, 13},
    {SLOPING "E - 1201 0 0 100001\n", 3, 13},
    {SLOPING "E 45 1201 0 0 0\n", 3, 13},
    {SLOPING "E 45 1201 0 0 00\n", 1, 13},
    {SLOPING "A - 0 0 0 0\n\n", 1, 14},
    {LEVEL "A - 599 0 0 0\n", 8, 12},
    {LEVEL "A - 600 0 0 0\n", 0, 0},
    {LEVEL "A - 601 0 0 0\n", 8, 12},
    {SINGLE("49"), 5, 2},
    {SINGLE("50"), 1, 3},
    {SINGLE("300"), 1, 3},
    {SINGLE("301"), 5, 2},
    {SINGLE("30001"), 3, 2},
    {SINGLE("-1"), 3, 2},
    {"B 1\n500 1200 1000 1250 7 100\n", 3, 2},
    {"B 1\n500 1000 1000 1250 6 49\n", 4, 2},
    {"B 1\n500 4001 1000 1250 6 100\n", 4, 2},
    {"B 1\n6001 1200 1000 1250 6 100\n", 4, 2},
    {SINGLE("100") "W 5\n0 1\n45 1\n90 1\n135 1\n180 1\n", 1, 9},
    {SINGLE("100") "W 1\n225 400\n", 3, 4},
    {SINGLE("100") "W 1\n-45 400\n", 3, 4},
    {SINGLE("100") "W 1\n46 400\n", 3, 4},
    {SINGLE("100") "W 1\n045 400\n", 1, 4},
    {SINGLE("100") "W 1\n- 400\n", 1, 4},
    {"B 1\n500 1200 1000 1250 1 100\nW 1\n45 400\n", 3, 4},
    {"B 1\n500 1200 1000 1250 2 0\nW 1\n135 400\n", 3, 4},
    {"B 1\n500 1200 1000 1250 5 300\nW 1\n180 400\n", 3, 4},
    {"B 1\n500 1200 1000 1250 1 100\nW 1\n0 400\n" REST "E 45 0 0 0\n", 3, 8},
    {"B 1\n500 1200 1000 1250 1 100\nW 1\n0 400\n" REST "E 135 0 0 0\n", 3, 8},
    {"B 1\n500 1200 1000 1250 1 100\nW 1\n0 400\n" REST "A 180 0 0 0\n", 3, 8},
    {SLANT "E - 0 0 0\n", 0, 0},
    {SLANT "F 0 0 0 0\n", 0, 0},
    {SLANT "G 45 0 0 0\n", 0, 0},
    {SLANT "H 90 0 0 0\n", 0, 0},
    {SLANT "E 135 0 0 0\n", 0, 0},
    {SLANT "F 180 0 0 0\n", 0, 0},
    {SLANT "A 0 0 0 0\n", 0, 0},
    {SLANT "D 90 0 0 0\n", 0, 0},
    {SLANT "A - 0 0 0\n", 6, 8},
    {SLANT "B 45 0 0 0\n", 6, 8},
    {SLANT "C 135 0 0 0\n", 6, 8},
    {SLANT "D 180 0 0 0\n", 6, 8},
    {AHEAD "A - 0 0 0\n", 6, 8},
    {AHEAD "A 180 0 0 0\n", 6, 8},
    {AHEAD "A - 0 0 100001\n", 3, 8},
    {AHEAD "A - 0 0 00\n", 1, 8},
    {AHEAD "A 225 0 0 0\n", 3, 8},
    {AHEAD "E 225 0 0 0\n", 3, 8},
    {AHEAD "E -45 0 0 0\n", 3, 8},
    {AHEAD "I 45 0 0 0\n", 1, 8},
    {SLANT_HIGH "E - 600 0 0 0\n", 0, 0},
    {SLANT_HIGH "A 0 600 0 0 0\n", 0, 0},
    {SLANT_HIGH "A - 600 0 0 0\n", 6, 12},
    {SLANT_HIGH "A - 601 0 0 0\n", 6, 12},
    {SLANT_HIGH "A 0 601 0 0 0\n", 8, 12},
    {SLANT_HIGH "E 180 601 0 0 0\n", 8, 12},
    {SLANT_HIGH "A 225 601 0 0 0\n", 3, 12},
    {"V 1\n2\n" SINGLE("301"), 5, 4},
    {"V 1\n2\nB 1\n500 1200 1000 1250 1 100\nW 1\n180 400\n", 3, 6},
    {SQUARE("1"), 3, 2},
    {SQUARE("2"), 4, 4},
    {SQUARE("3"), 1, 5},
    {SQUARE("4"), 1, 5},
    {SQUARE("5"), 3, 2},
    {"V 1\n3\nB 1\n500 1001 1000 1250 0 0\n", 1, 5},
    {"V 1\n3\nB 1\n500 999 1000 1250 0 0\n", 4, 4},
    {"V 1\n3\nB 1\n500 4001 1000 1250 0 0\n", 4, 4},
    {"V 1\n3\nB 1\n6000 1000 1000 1250 0 0\n", 1, 5},
    {"V 1\n3\nB 1\n6001 1000 1000 1250 0 0\n", 4, 4},
    {"V 1\n3\nB 1\n99 1000 1000 1250 0 0\n", 3, 4},
    {"V 1\n3\nB 1\n500 1000 1000 1250 0 1\n", 5, 4},
    {"V 1\n2\nB 1\n500 1000 1000 1250 0 1\n", 4, 4},
    {SQUARE("3") SQUARE_REST "A - 600 0 0 0\n", 0, 0},
    {SQUARE("3") SQUARE_REST "A - 0 0 0\n", 1, 12},
    {SQUARE("3") SQUARE_REST "E - 600 0 0 0\n", 6, 12},
    {SQUARE("3") SQUARE_REST "A - 601 0 0 0\n", 8, 12},
    {SQUARE("3") SQUARE_REST "A - 600 0 0 0\n\n", 1, 13},
    {SQUARE("3") "W 1\n0 400\nI 1\n0\nF 1\nA - 600 0 0 0\n", 1, 9},
    {TALL_SQUARE "A - 600 0 0 0\n", 6, 12},
    {TALL_SQUARE "E 180 600 0 0 0\n", 0, 0},
};

static const char report[] = "x max 180000000000000 1 1 1 1 1\nx min 180000000000000 1 1 1 1 1\ny max 0 1 1 1 1 1\n"
                             "y min 0 1 1 1 1 1\nz max 160000000000000 1 1 1 1 2\nz min -200000000000000 1 2 1 1 1\n";

static int has_rows(const aral_coefficient *c, uint32_t lower, uint32_t upper, uint32_t part, uint32_t whole)
{
    return c->lower == lower && c->upper == upper && c->part == part && c->whole == whole;
}

/* Every question, outside and net of an internal coefficient of 0, which changes nothing. */
static void check_table(const calculator *c)
{
    for (size_t i = 0; i < sizeof questions / sizeof *questions; i++) {
        const row *q = &questions[i];
        uint8_t place = (uint8_t)q->place;
        aral_coefficient answer[] = {c->outside(q->year, q->h, q->a, q->b, 1250, q->kind, q->x, q->direction, place),
                                     c->net(q->year, q->h, q->a, q->b, 1250, q->kind, q->x, q->direction, place, 0)};
        for (int net = 0; net < 2; net++) {
            const aral_coefficient *r = &answer[net];
            expect(c, q->name, r->number == q->number && r->line == q->line && r->value[0] == q->value
                                   && r->value[1] == 0 && r->count == (q->number ? 0 : 1)
                                   && has_rows(r, q->lower, q->upper, q->part, q->whole));
        }
    }
}

/* Every column of the single slopes' table at each slope, for both of its zones. */
static void check_columns(const calculator *c)
{
    for (size_t i = 0; i < sizeof columns / sizeof *columns; i++)
        for (int k = 0; k < 2 * SLOPES; k++) {
            int at = k / 2, between = slope_rows[at][0] != slope_rows[at][1];
            uint8_t zone = (uint8_t)columns[i].zone[k % 2];
            aral_coefficient r = c->outside(1, 500, 1200, 1000, 1250, 6, slopes[at], columns[i].direction, zone);
            char what[80];
            snprintf(what, sizeof what, "zone %c of a single slope of %d tenths, wind %d", zone, (int)slopes[at],
                     (int)columns[i].direction);
            expect(c, what, r.number == 0 && r.line == 0 && r.count == 1 && r.value[0] == columns[i].value[at]
                                && r.value[1] == 0
                                && has_rows(&r, slope_rows[at][0], slope_rows[at][1], between, between ? 2 : 1));
        }
}

/* Zone F has the rows of E; (1400 - 800) / (1600 - 800) at h 8000 is 3/4. The net's 82/1600 = 0.05125 is 1/40. */
static void check_questions(const calculator *c)
{
    aral_coefficient f = c->outside(1, 500, 1200, 1000, 1250, 2, 0, 90, 'F');
    expect(c, "zone F of a flat roof has +0.2 and -0.2", f.count == 2 && f.value[0] == 200 && f.value[1] == -200);
    expect(c, "zone F of straight eaves is in row 1", has_rows(&f, 1, 1, 0, 1));
    f = c->net(1, 8000, 9600, 8000, 1250, 4, 1400, 90, 'F', 20);
    expect(c, "zone F's net", f.count == 2 && f.value[0] == 0 && f.value[1] == -400 && has_rows(&f, 6, 7, 3, 4));
    f = c->net(1, 1600, 1200, 1000, 1250, 4, 82, 0, 'E', -100);
    expect(c, "rounded first, then the internal comes off", f.number == 0 && f.value[0] == 602);
    expect(c, "the net has the rows of the outside", has_rows(&f, 5, 6, 1, 40));
    f = c->net(1, 500, 1200, 1000, 1250, 0, 0, 0, 'E', 101);
    expect(c, "the zone before the internal coefficient", f.number == 6 && f.line == 0 && has_rows(&f, 0, 0, 0, 0));
    f = c->net(1, 500, 1200, 1000, 1250, 0, 0, 0, 'A', 101);
    expect(c, "the internal coefficient's range", f.number == 3 && f.line == 0 && f.count == 0 && f.value[0] == 0);
    expect(c, "no rows where the internal coefficient is refused", has_rows(&f, 0, 0, 0, 0));
}

static void check_sheets(const calculator *c)
{
    uint8_t out[1000];
    for (size_t i = 0; i < sizeof sheets / sizeof *sheets; i++) {
        aral_answer a = c->read((const uint8_t *)sheets[i].sheet, strlen(sheets[i].sheet));
        expect(c, sheets[i].sheet, a.number == sheets[i].number && a.line == sheets[i].line);
    }
    aral_text t = c->report((const uint8_t *)SAMPLE, strlen(SAMPLE), out, sizeof out);
    expect(c, "the sample's report", t.number == 0 && t.length == strlen(report) && !memcmp(out, report, t.length));
    const char *p12 = START "A 0 1000 0 0\n", *line = "x max 140000000000000 1 1 1\n";
    t = c->report((const uint8_t *)p12, strlen(p12), out, sizeof out);
    expect(c, "P12", t.number == 0 && !memcmp(out, line, strlen(line)));
}

/* A line of the report that is worked out by hand: 0.7 on A, -0.2 on B and -0.5 on C and D, or what its name says, as
   thousandths, times 1250, times the square of the face's speed, times the area. */
typedef struct { const char *name, *sheet, *line; } reckoning;
#define WIND(speed) "V 1\n2\nB 1\n500 1200 1000 1250 0 0\nW 1\n0 " speed "\nI 1\n0\n"
#define NEARLY_HALF "P 2\n0 499\n2 500\nF 1\nA 0 1 1000 0 0\n" /* 0.4995 at height 1 */
#define TWO_WALLS "P 2\n0 398\n10 595\nF 2\nD - 0 -3 0 0\nC - 0 -3 0 0\n"
#define APART "P 2\n0 774\n10 580\nF 2\nD - 0 -1 0 0\nB - 9 2 0 0\n"
#define FIVE SINGLE("100") "W 5\n0 100\n45 100\n90 100\n135 200\n180 300\n" REST
static const reckoning reckonings[] = {
    {"0.9 at half the height: speed 360", SLOPING "A 0 600 1000 0 0\n", "x max 113400000000000 1 1 1\n"},
    {"on the first line: speed 320", SLOPING "A 0 0 1000 0 0\n", "x max 89600000000000 1 1 1\n"},
    {"on the last line: speed 400", SLOPING "A 0 1200 1000 0 0\n", "x max 140000000000000 1 1 1\n"},
    {"a profile of one line", LEVEL "A 0 600 1000 0 0\n", "x max 140000000000000 1 1 1\n"},
    {"0.95 between the second line and the third: speed 380",
     HIGH "P 3\n0 100\n1000 900\n3000 1000\nF 1\nA 0 2000 1000 0 0\n", "x max 126350000000000 1 1 1\n"},
    {"each face has its own speed: 320 and 400",
     HIGH "P 2\n0 800\n1200 1000\nF 2\nA 0 0 1000 0 0\nA 0 1200 1000 0 0\n", "x max 229600000000000 1 1 1 1\n"},
    {"speed 1 times 0.500 is 1: a half goes up",
     WIND("1") "P 1\n0 500\nF 1\nA 0 0 1000 0 0\n", "x max 875000000 1 1 1\n"},
    {"speed 1 times 0.4995 is 0: the factor is not rounded first", WIND("1") NEARLY_HALF, "x max 0 1 1 1\n"},
    {"speed 1000 times 0.4995 is 500", WIND("1000") NEARLY_HALF, "x max 218750000000000 1 1 1\n"},
    {"where the speed is 0 the first alternative is shown",
     "V 1\n2\nB 1\n500 1200 1000 1250 2 0\nW 1\n0 1\nI 1\n0\nP 1\n0 1\nF 1\nF 0 0 0 0 -2000\n", "z max 0 1 1 1\n"},
    {"no face moves at speed 1", WIND("1") TWO_WALLS, "x min 0 1 1 1 1\n"},
    {"at speed 6 the least has risen: 2 at both", WIND("6") TWO_WALLS, "x min 15000000 1 1 1 1\n"},
    {"two heights, speed 2: 2 on D and 1 on B", WIND("2") APART, "x max 2000000 1 1 1 1\n"},
    {"at speed 3 the greatest has fallen: 2 on both", WIND("3") APART, "x max 500000 1 1 1 1\n"},
    {"a single slope's E - under wind 45: -1.0", UNDER("45") "E - 1000 0 0\n", "x max -200000000000000 1 1 1\n"},
    {"E - under wind 135: -0.9", UNDER("135") "E - 1000 0 0\n", "x max -180000000000000 1 1 1\n"},
    {"E - under wind 180: -0.5", UNDER("180") "E - 1000 0 0\n", "x max -100000000000000 1 1 1\n"},
    {"E 45 under wind 135: nothing", UNDER("135") "E 45 1000 0 0\n", "x min 0 1 1 1\n"},
    {"a wall marked 0 under wind 180: nothing", UNDER("180") "A 0 1000 0 0\n", "x max 0 1 1 1\n"},
    {"of five winds E - has the most under 180: 0.5 at 300", FIVE "E - -1000 0 0\n", "x max 56250000000000 5 1 1\n"},
    {"and the least under the first of three: 1.0 at 100", FIVE "E - -1000 0 0\n", "x min 12500000000000 1 1 1\n"},
    {"G -: 1.0 at 300 under 180", FIVE "G - -1000 0 0\n", "x max 112500000000000 5 1 1\n"},
    {"G -: 0.5 at 100 under 0", FIVE "G - -1000 0 0\n", "x min 6250000000000 1 1 1\n"},
    {"G 135: 1.0 at 200", FIVE "G 135 -1000 0 0\n", "x max 50000000000000 4 1 1\n"},
    {"H 45: 0.9 at 100", FIVE "H 45 -1000 0 0\n", "x max 11250000000000 2 1 1\n"},
    {"a wall marked 90: 0.5 at 100", FIVE "A 90 -1000 0 0\n", "x max 6250000000000 3 1 1\n"},
    {"a wall marked 0: 0.7 at 100", FIVE "A 0 1000 0 0\n", "x max 8750000000000 1 1 1\n"},
    {"a single slope in year 2: 1.0 at half of 400",
     "V 1\n2\n" SINGLE("100") "W 1\n45 400\nI 1\n0\nP 1\n600 500\nF 1\nE - 600 1000 0 0\n",
     "x max -50000000000000 1 1 1\n"},
    {"a square plan in year 3: B has -0.2", SQUARE("3") SQUARE_REST "B 0 600 -1000 0 0\n",
     "x max 40000000000000 1 1 1\n"},
    {"one in the third block: A has 0.8", TALL_SQUARE "A 0 600 1000 0 0\n", "x max 160000000000000 1 1 1\n"},
    {"year 3 has the speeds of year 2: 0.9 at half the height",
     SQUARE("3") "W 1\n0 400\nI 1\n0\nP 2\n0 800\n1200 1000\nF 1\nA 0 600 1000 0 0\n",
     "x max 113400000000000 1 1 1\n"},
};

static void check_reckonings(const calculator *c)
{
    for (size_t i = 0; i < sizeof reckonings / sizeof *reckonings; i++) {
        char out[ARAL_REPORT_MOST + 1] = "";
        const char *sheet = reckonings[i].sheet;
        aral_text t = c->report((const uint8_t *)sheet, strlen(sheet), (uint8_t *)out, ARAL_REPORT_MOST);
        expect(c, reckonings[i].name, t.number == 0 && strstr(out, reckonings[i].line));
    }
}

/* The greatest total there is: a gable's -1.2 less an internal 1 on 24 faces of the largest area. */
static void check_greatest(const calculator *c, const char *year, const char *profile, const char *face)
{
    static char sheet[1000];
    static const char line[] = "x max 7920000000000000000 1 1 1 1";
    uint8_t out[1000];
    strcat(strcpy(sheet, year), "B 1\n500 1200 1000 1500 1 100\nW 1\n0 1000\nI 1\n100\n");
    strcat(strcat(sheet, profile), "F 24\n");
    for (int i = 0; i < 24; i++) strcat(sheet, face);
    aral_text t = c->report((const uint8_t *)sheet, strlen(sheet), out, sizeof out);
    expect(c, "the greatest total", t.number == 0 && !memcmp(out, line, strlen(line)));
}

static void check_doubles(const calculator *c)
{
    aral_double d = c->panel(9007199254740992);
    expect(c, "9007199254740992 is exact", d.exact == 1 && d.low == 9007199254740992.0 && d.high == d.low);
    d = c->panel(9007199254740993);
    expect(c, "9007199254740993 is between", !d.exact && d.low == 9007199254740992.0 && d.high == 9007199254740994.0);
    d = c->panel(INT64_MAX);
    expect(c, "the greatest is between", !d.exact && d.low == 9223372036854774784.0 && d.high == 9223372036854775808.0);
    d = c->panel(INT64_MIN);
    expect(c, "the least number is exact", d.exact == 1 && d.low == -9223372036854775808.0 && d.high == d.low);
}

int main(void)
{
    for (int i = 0; i < 2; i++) {
        check_table(&both[i]);
        check_columns(&both[i]);
        check_questions(&both[i]);
        check_sheets(&both[i]);
        check_reckonings(&both[i]);
        check_greatest(&both[i], "", "", "E 0 -100000 100000 0\n");
        check_greatest(&both[i], "V 1\n2\n", "P 1\n30000 1000\n", "E 0 30000 -100000 100000 0\n");
        check_greatest(&both[i], "V 1\n3\n", "P 1\n30000 1000\n", "E 0 30000 -100000 100000 0\n");
        check_doubles(&both[i]);
        check_edits(&both[i]);
        check_long(&both[i]);
        check_engine(&both[i]);
        check_newtons(&both[i]);
        check_shares(&both[i]);
        check_places(&both[i]);
        check_mending(&both[i]);
        check_roses(&both[i]);
    }
    printf("%d worked cases on both calculators, %d failed\n", cases, failures);
    return failures != 0;
}
