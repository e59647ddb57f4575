/* A face's share of a total by hand, step by step from the printed row to the newtons; and what is refused in which
   order. */
#include "worked.h"
#include <stdio.h>
#include <string.h>

/* At 400 tenths of m/s the pressure is 1250 x 400^2 = 200000000 units, 1000 Pa; at 300 it is 112500000, 562.5 Pa.
   h/b is 1/2 and a/b 6/5: row 1 of the walls, with 0.70 on A, -0.20 on B under wind 0 and 0.70 on C under wind 90. */
#define FLAT "B 1\n500 1200 1000 1250 2 0\n"
#define SAMPLE FLAT "W 1\n0 400\nI 2\n20\n-30\nF 3\nA 0 1000 0 0\nB - -1000 0 0\nF 0 0 0 -2000\n"
#define TWO_WINDS FLAT "W 2\n0 400\n90 300\nI 1\n0\nF 2\nA 0 1000 7 0\nC 90 0 1000 0\n"

/* At 255 cm the factor is 800 + 200 x 255/1000 = 851, and 401 x 0.851 = 341.251, so 341: the pressure is 1250 x 341^2 =
   145351250. A has 0.70 - 0.20 on 5000 dm2: 18168.90625 N; B -0.20 - 0.20 on -5000: 14535.125 N; together 32704.03125,
   so that A, with the larger remainder, gets a newton more. */
#define HEIGHTS(year) \
    "V 1\n" year "\n" FLAT "W 1\n0 401\nI 1\n20\nP 2\n0 800\n1000 1000\nF 2\nA 0 255 5000 0 0\nB 0 255 -5000 0 0\n"

/* Half of 401 is 200.5, and a half goes up: 1250 x 201^2 = 50501250, and 700 x 50501250 x 10 units are 17.6754375 N. */
#define HALVES "V 1\n3\n" FLAT "W 1\n0 401\nI 1\n0\nP 2\n0 500\n1000 500\nF 2\nA 0 255 10 0 0\nA 0 1000 -10 0 0\n"

/* A gable of 12.3 degrees: from row 3, -1.20, 23/100 of the way to row 4, -0.40, is -1.016; less 0.20 it is -1.216, and
   1216 x 112500000 x 268 = 36662400000000 units are 1833.12 N. */
#define GABLE "B 1\n500 1200 1000 1250 1 123\nW 1\n0 300\nI 1\n20\nF 1\nE - 268 0 -1000\n"

/* Curved eaves of 603 in 12000: 1/200 of the way from row 5, -0.40, to row 6, -0.30, is -0.3995, and a half goes away
   from zero. h/b is 6/5, a/b too: row 3 of the walls. */
#define CURVED "B 1\n12000 12000 10000 1250 4 603\nW 1\n90 400\nI 1\n0\nF 3\nE - 0 0 -10\nF - 0 0 10\nB 90 10 0 0\n"

/* A single slope of 12.5 degrees, half of the way from row 1 to row 2: under wind 135 -0.90 and -0.60 on E, and -1.00
   in both on G. The wall is marked for another wind. */
#define SLOPE \
    "B 1\n500 1200 1000 1250 6 125\nW 1\n135 400\nI 1\n20\nF 3\nE - 0 0 -2000\nG 135 0 0 -2000\nA 0 0 0 100000\n"

/* The largest force there is, which is that of one face: -1.20 less 1.00, at 1.5 kg/m3 and 100 m/s on 1000 m2. */
#define LARGEST \
    "V 1\n4\nB 1\n500 1200 1000 1500 1 100\nW 1\n0 1000\nI 1\n100\nP 1\n0 1000\nF 1\nE 0 0 -100000 100000 0\n"

typedef struct { const char *name, *sheet; int64_t line, face; aral_part share; } worked_share;
#define NONE 0, 0, 0, 0, 0, 0 /* no rows, no fraction and no coefficients */
static const worked_share shares[] = {
    {"the sample's A on x", SAMPLE, 1, 1,
     {0, 0, 'A', 1, 1, 1, 0, 1, 700, 500, 400, 200000000, 1000, 100000000000000, 5000}},
    {"its B, sucked from behind", SAMPLE, 1, 2,
     {0, 0, 'B', 1, 1, 1, 0, 1, -200, -400, 400, 200000000, -1000, 80000000000000, 4000}},
    {"its F has no area on x", SAMPLE, 2, 3, {0, 0, 'F', 1, 1, 1, 0, 1, 200, 0, 400, 200000000, 0, 0, 0}},
    {"z max has F's second alternative", SAMPLE, 5, 3,
     {0, 0, 'F', 2, 1, 1, 0, 1, -200, -400, 400, 200000000, -2000, 160000000000000, 8000}},
    {"z min its first, at the second internal coefficient", SAMPLE, 6, 3,
     {0, 0, 'F', 1, 1, 1, 0, 1, 200, 500, 400, 200000000, -2000, -200000000000000, -10000}},
    {"C under the second wind", TWO_WINDS, 3, 2,
     {0, 0, 'C', 1, 1, 1, 0, 1, 700, 700, 300, 112500000, 1000, 78750000000000, 3937}},
    {"A takes no part in it", TWO_WINDS, 3, 1, {0, 0, 'A', 1, NONE, 300, 112500000, 7, 0, 0}},
    {"nor C in the first, which y min names", TWO_WINDS, 4, 2, {0, 0, 'C', 1, NONE, 400, 200000000, 1000, 0, 0}},
    {"year 2: at its height, with a newton more", HEIGHTS("2"), 1, 1,
     {0, 0, 'A', 1, 1, 1, 0, 1, 700, 500, 341, 145351250, 5000, 363378125000000, 18169}},
    {"year 3: rounded down", HEIGHTS("3"), 1, 2,
     {0, 0, 'B', 1, 1, 1, 0, 1, -200, -400, 341, 145351250, -5000, 290702500000000, 14535}},
    {"year 4: the same", HEIGHTS("4"), 2, 1,
     {0, 0, 'A', 1, 1, 1, 0, 1, 700, 500, 341, 145351250, 5000, 363378125000000, 18169}},
    {"half a tenth goes up between two heights", HALVES, 1, 1,
     {0, 0, 'A', 1, 1, 1, 0, 1, 700, 700, 201, 50501250, 10, 353508750000, 18}},
    {"and at one of them; minus 17.67 N, to which less remains", HALVES, 1, 2,
     {0, 0, 'A', 1, 1, 1, 0, 1, 700, 700, 201, 50501250, -10, -353508750000, -18}},
    {"between two rows of a gable, towards minus infinity", GABLE, 1, 1,
     {0, 0, 'E', 1, 3, 4, 23, 100, -1016, -1216, 300, 112500000, 268, -36662400000000, -1834}},
    {"a half away from zero", CURVED, 5, 1,
     {0, 0, 'E', 1, 5, 6, 1, 200, -400, -400, 400, 200000000, -10, 800000000000, 40}},
    {"F has the rows of E", CURVED, 6, 2,
     {0, 0, 'F', 2, 5, 6, 1, 200, -200, -200, 400, 200000000, 10, -400000000000, -20}},
    {"a wall under wind 90", CURVED, 1, 3,
     {0, 0, 'B', 1, 3, 3, 0, 1, -600, -600, 400, 200000000, 10, -1200000000000, -60}},
    {"a single slope under wind 135", SLOPE, 5, 1,
     {0, 0, 'E', 1, 1, 2, 1, 2, -750, -950, 400, 200000000, -2000, 380000000000000, 19000}},
    {"on its other half", SLOPE, 6, 2,
     {0, 0, 'G', 1, 1, 2, 1, 2, -1000, -1200, 400, 200000000, -2000, 480000000000000, 24000}},
    {"and beside it a wall of wind 0", SLOPE, 5, 3, {0, 0, 'A', 1, NONE, 400, 200000000, 100000, 0, 0}},
    {"the largest force", LARGEST, 1, 1,
     {0, 0, 'E', 1, 3, 3, 0, 1, -1200, -2200, 1000, 1500000000, -100000, 330000000000000000, 16500000}},
    {"the least", LARGEST, 4, 1,
     {0, 0, 'E', 1, 3, 3, 0, 1, -1200, -2200, 1000, 1500000000, 100000, -330000000000000000, -16500000}},

    /* Refusals: the sheet, then the line, then the face. */
    {"no sheet", "", 1, 1, {.number = 1, .line = 1}},
    {"the sheet before line and face", "B 1\n500 1200 1000 1250 2 0\nW 9\n", 7, 0, {.number = 2, .line = 3}},
    {"a height outside the profile", "V 1\n2\n" FLAT "W 1\n0 400\nI 1\n0\nP 1\n0 500\nF 1\nA 0 1 1 0 0\n", 1, 1,
     {.number = 8, .line = 12}},
    {"line 0", SAMPLE, 0, 1, {.number = 3}},
    {"line 7", SAMPLE, 7, 1, {.number = 3}},
    {"a line that 32 bits cut to 1", SAMPLE, (INT64_C(1) << 32) + 1, 1, {.number = 3}},
    {"the least line", SAMPLE, INT64_MIN, 1, {.number = 3}},
    {"the line before the face", SAMPLE, 7, 4, {.number = 3}},
    {"face 0", SAMPLE, 1, 0, {.number = 9}},
    {"face 4 of 3", SAMPLE, 6, 4, {.number = 9}},
    {"face -1", SAMPLE, 1, -1, {.number = 9}},
    {"a face that 32 bits cut to 1", SAMPLE, 1, (INT64_C(1) << 32) + 1, {.number = 9}},
    {"the greatest face", SAMPLE, 1, INT64_MAX, {.number = 9}},
};

static int same(const aral_part *p, const aral_part *q)
{
    return p->number == q->number && p->line == q->line && p->zone == q->zone && p->alternative == q->alternative
        && p->lower == q->lower && p->upper == q->upper && p->part == q->part && p->whole == q->whole
        && p->outside == q->outside && p->net == q->net && p->speed == q->speed && p->pressure == q->pressure
        && p->area == q->area && p->force == q->force && p->newtons == q->newtons;
}

void check_shares(const calculator *c)
{
    for (size_t i = 0; i < sizeof shares / sizeof *shares; i++) {
        const worked_share *s = &shares[i];
        aral_part p = c->share((const uint8_t *)s->sheet, strlen(s->sheet), s->line, s->face);
        expect(c, s->name, same(&p, &s->share));
    }
}
