/* The worked cases of wind roses, by hand: which cell a line is in, what is refused at which line, and where a rose
   stays. Each file is taken in one piece, byte by byte and cut in two at every place. */
#include "worked.h"
#include <string.h>

enum { CELLS = ARAL_SECTORS * ARAL_BEAUFORT_NUMBERS };

/* The cells that are not 0, as sector, Beaufort number and count; the last entry has count 0. */
typedef struct { uint32_t sector, beaufort, count; } counted;
typedef struct { const char *name, *file; size_t n; uint32_t number, line, accepted; counted cell[8]; } observed;
#define TEXT(s) s, sizeof s - 1

/* By hand. North reaches from 348.75 to 11.25, so 349 to 11; the borders after it are 33.75, 56.25, 78.75, 101.25,
   123.75, 146.25, 168.75, 191.25, 213.75, 236.25, 258.75, 281.25, 303.75 and 326.25. Table 2.2.2.2.1 begins 1 at 0.3
   m/s, 2 at 1.6, 3 at 3.4, 4 at 5.5, 5 at 8.0, 6 at 10.8, 7 at 13.9, 8 at 17.2, 9 at 20.8, 10 at 24.5, 11 at 28.5 and
   12 at 32.7. */
static const observed roses[] = {
    {"an empty file is accepted", TEXT(""), 0, 0, 0, {{0}}},
    {"one observation", TEXT("225 64\n"), 0, 0, 1, {{10, 4, 1}}},
    {"calms are under their written direction", TEXT("0 0\n90 2\n180 1\n90 0\n"), 0, 0, 4,
     {{0, 0, 1}, {4, 0, 2}, {8, 0, 1}}},
    {"north is the first sector, on both its sides", TEXT("0 50\n11 50\n349 50\n359 50\n"), 0, 0, 4, {{0, 3, 4}}},
    {"its neighbours", TEXT("12 50\n348 50\n"), 0, 0, 2, {{1, 3, 1}, {15, 3, 1}}},
    {"borders to the east", TEXT("33 0\n34 0\n56 0\n57 0\n78 0\n79 0\n101 0\n102 0\n"), 0, 0, 8,
     {{1, 0, 1}, {2, 0, 2}, {3, 0, 2}, {4, 0, 2}, {5, 0, 1}}},
    {"borders to the south", TEXT("123 0\n124 0\n146 0\n147 0\n168 0\n169 0\n191 0\n192 0\n"), 0, 0, 8,
     {{5, 0, 1}, {6, 0, 2}, {7, 0, 2}, {8, 0, 2}, {9, 0, 1}}},
    {"borders to the west", TEXT("213 0\n214 0\n236 0\n237 0\n258 0\n259 0\n281 0\n282 0\n"), 0, 0, 8,
     {{9, 0, 1}, {10, 0, 2}, {11, 0, 2}, {12, 0, 2}, {13, 0, 1}}},
    {"borders to the north", TEXT("303 0\n304 0\n326 0\n327 0\n348 0\n"), 0, 0, 5,
     {{13, 0, 1}, {14, 0, 2}, {15, 0, 2}}},
    {"the middle of each quarter", TEXT("0 0\n90 0\n180 0\n270 0\n"), 0, 0, 4,
     {{0, 0, 1}, {4, 0, 1}, {8, 0, 1}, {12, 0, 1}}},
    {"Beaufort 0 to 3", TEXT("0 2\n0 3\n0 15\n0 16\n0 33\n0 34\n"), 0, 0, 6,
     {{0, 0, 1}, {0, 1, 2}, {0, 2, 2}, {0, 3, 1}}},
    {"Beaufort 3 to 6", TEXT("0 54\n0 55\n0 79\n0 80\n0 107\n0 108\n"), 0, 0, 6,
     {{0, 3, 1}, {0, 4, 2}, {0, 5, 2}, {0, 6, 1}}},
    {"Beaufort 6 to 9", TEXT("0 138\n0 139\n0 171\n0 172\n0 207\n0 208\n"), 0, 0, 6,
     {{0, 6, 1}, {0, 7, 2}, {0, 8, 2}, {0, 9, 1}}},
    {"Beaufort 9 to 12", TEXT("0 244\n0 245\n0 284\n0 285\n0 326\n0 327\n"), 0, 0, 6,
     {{0, 9, 1}, {0, 10, 2}, {0, 11, 2}, {0, 12, 1}}},
    {"the fastest", TEXT("359 1000\n"), 0, 0, 1, {{0, 12, 1}}},

    /* Ranges: a number in form that is outside, before or behind one that is within. */
    {"direction 360", TEXT("360 0\n"), 3, 1, 0, {{0}}},
    {"speed 1001", TEXT("90 50\n0 1001\n0 0\n"), 3, 2, 1, {{4, 3, 1}}},
    {"a negative direction", TEXT("-1 0\n"), 3, 1, 0, {{0}}},
    {"a negative speed", TEXT("90 50\n90 50\n0 -1\n"), 3, 3, 2, {{4, 3, 2}}},
    {"both outside", TEXT("400 2000\n"), 3, 1, 0, {{0}}},
    {"the greatest numbers in form", TEXT("9999999 9999999\n"), 3, 1, 0, {{0}}},
    {"the least numbers in form", TEXT("-9999999 -9999999\n"), 3, 1, 0, {{0}}},

    /* The form comes first, also where the other number is outside its range. */
    {"an empty line", TEXT("90 50\n\n90 50\n"), 1, 2, 1, {{4, 3, 1}}},
    {"an empty file but for LF", TEXT("\n"), 1, 1, 0, {{0}}},
    {"one number", TEXT("90\n"), 1, 1, 0, {{0}}},
    {"three numbers", TEXT("90 50 1\n"), 1, 1, 0, {{0}}},
    {"one number and a space", TEXT("90 \n"), 1, 1, 0, {{0}}},
    {"a space alone", TEXT(" \n"), 1, 1, 0, {{0}}},
    {"a space first", TEXT(" 90 50\n"), 1, 1, 0, {{0}}},
    {"a space last", TEXT("90 50 \n"), 1, 1, 0, {{0}}},
    {"two spaces between", TEXT("90  50\n"), 1, 1, 0, {{0}}},
    {"a tab between", TEXT("90\t50\n"), 1, 1, 0, {{0}}},
    {"a carriage return", TEXT("90 50\r\n"), 1, 1, 0, {{0}}},
    {"a plus", TEXT("+90 50\n"), 1, 1, 0, {{0}}},
    {"a plus behind", TEXT("90 +50\n"), 1, 1, 0, {{0}}},
    {"a leading zero", TEXT("090 50\n"), 1, 1, 0, {{0}}},
    {"a leading zero behind", TEXT("90 050\n"), 1, 1, 0, {{0}}},
    {"00", TEXT("00 50\n"), 1, 1, 0, {{0}}},
    {"-0", TEXT("-0 50\n"), 1, 1, 0, {{0}}},
    {"-0 behind", TEXT("90 -0\n"), 1, 1, 0, {{0}}},
    {"-05", TEXT("-05 50\n"), 1, 1, 0, {{0}}},
    {"a minus alone", TEXT("90 -\n"), 1, 1, 0, {{0}}},
    {"two minuses", TEXT("--9 50\n"), 1, 1, 0, {{0}}},
    {"a minus inside", TEXT("9-0 50\n"), 1, 1, 0, {{0}}},
    {"eight digits", TEXT("12345678 50\n"), 1, 1, 0, {{0}}},
    {"eight digits behind", TEXT("90 12345678\n"), 1, 1, 0, {{0}}},
    {"eight digits behind a minus", TEXT("90 -12345678\n"), 1, 1, 0, {{0}}},
    {"eight digits alone", TEXT("12345678\n"), 1, 1, 0, {{0}}},
    {"a minus for the space", TEXT("90-50\n"), 1, 1, 0, {{0}}},
    {"eight digits behind the longest number", TEXT("-9999999 -99999999\n"), 1, 1, 0, {{0}}},
    {"a space behind the longest line", TEXT("-9999999 -9999999 \n"), 1, 1, 0, {{0}}},
    {"digits that come to 90 in 32 bits", TEXT("4294967386 50\n"), 1, 1, 0, {{0}}},
    {"digits that come to 50 in 64 bits", TEXT("90 18446744073709551666\n"), 1, 1, 0, {{0}}},
    {"a letter", TEXT("N 50\n"), 1, 1, 0, {{0}}},
    {"a letter behind", TEXT("90 50m\n"), 1, 1, 0, {{0}}},
    {"a point", TEXT("90 5.0\n"), 1, 1, 0, {{0}}},
    {"a zero byte", TEXT("90 50\0\n"), 1, 1, 0, {{0}}},
    {"a byte over 127", TEXT("90 \xb5" "0\n"), 1, 1, 0, {{0}}},
    {"the sign after 9", TEXT("9: 50\n"), 1, 1, 0, {{0}}},
    {"the sign before 0", TEXT("9/ 50\n"), 1, 1, 0, {{0}}},
    {"form before range, the first number outside", TEXT("360 05\n"), 1, 1, 0, {{0}}},
    {"form before range, the second number outside", TEXT("+1 1001\n"), 1, 1, 0, {{0}}},
    {"form before range, a third number", TEXT("360 1001 1\n"), 1, 1, 0, {{0}}},

    /* The first faulty line counts, and nothing after it. */
    {"the first of two faults", TEXT("90 50\n90 1001\n\n"), 3, 2, 1, {{4, 3, 1}}},
    {"the first of two faults, the other way", TEXT("90 50\n\n90 1001\n"), 1, 2, 1, {{4, 3, 1}}},
    {"nothing is counted after a refusal", TEXT("90 50\n360 50\n90 50\n90 50\n"), 3, 2, 1, {{4, 3, 1}}},

    /* The end. */
    {"a good line without its LF", TEXT("90 50\n90 50"), 1, 2, 1, {{4, 3, 1}}},
    {"one outside its range without its LF", TEXT("90 50\n360 50"), 1, 2, 1, {{4, 3, 1}}},
    {"a number begun", TEXT("90 50\n9"), 1, 2, 1, {{4, 3, 1}}},
    {"a minus begun", TEXT("90 50\n-"), 1, 2, 1, {{4, 3, 1}}},
    {"a space at the end", TEXT("90 50\n "), 1, 2, 1, {{4, 3, 1}}},
    {"a number and a space at the end", TEXT("90 50\n90 "), 1, 2, 1, {{4, 3, 1}}},
    {"a carriage return at the end", TEXT("90 50\n\r"), 1, 2, 1, {{4, 3, 1}}},
    {"a zero byte at the end", TEXT("90 50\n\0"), 1, 2, 1, {{4, 3, 1}}},
    {"one byte alone", TEXT("7"), 1, 1, 0, {{0}}},
};

/* ---- One file ---- */

static int holds(const aral_rose *r, const observed *o)
{
    uint32_t cell[CELLS] = {0};
    for (const counted *c = o->cell; c->count; c++) cell[ARAL_BEAUFORT_NUMBERS * c->sector + c->beaufort] = c->count;
    return r->number == o->number && r->line == o->line && r->accepted == o->accepted
        && !memcmp(r->cell, cell, sizeof cell);
}

static int same(const aral_rose *p, const aral_rose *q) { return !memcmp(p, q, sizeof *p); }

/* Ended in this way the rose is this one, and then takes nothing more and has no other end. */
static void check_end(const calculator *c, const observed *o, aral_rose r)
{
    r = c->rose_end(r);
    aral_rose more = c->rose_take(r, (const uint8_t *)"90 50\n", 6), end = c->rose_end(r);
    expect(c, o->name, holds(&r, o));
    expect(c, o->name, same(&r, &more) && same(&r, &end));
}

static aral_rose byte_by_byte(const calculator *c, const uint8_t *file, size_t n)
{
    aral_rose r = c->rose_new();
    for (size_t i = 0; i < n; i++) {
        r = c->rose_take(r, file + i, 1);
        r = c->rose_take(r, NULL, 0);
    }
    return r;
}

static void check_file(const calculator *c, const observed *o)
{
    const uint8_t *file = (const uint8_t *)o->file;
    check_end(c, o, c->rose_take(c->rose_new(), file, o->n));
    check_end(c, o, byte_by_byte(c, file, o->n));
    for (size_t cut = 0; cut <= o->n; cut++)
        check_end(c, o, c->rose_take(c->rose_take(c->rose_new(), file, cut), file + cut, o->n - cut));
}

/* ---- Under way ---- */

static int all_zero(const aral_rose *r)
{
    static const aral_rose zero;
    return same(r, &zero);
}

/* A line counts at its LF, and a refusal stands from then on, before any end. */
static void check_under_way(const calculator *c)
{
    aral_rose r = c->rose_new(), next;
    expect(c, "a new rose is all zero", all_zero(&r));
    r = c->rose_take(r, (const uint8_t *)"90 50", 5);
    expect(c, "a line without its LF is not counted", r.accepted == 0 && r.number == 0 && r.closed == 0);
    r = c->rose_take(r, (const uint8_t *)"\n", 1);
    expect(c, "at its LF it is", r.accepted == 1 && r.cell[4 * 13 + 3] == 1 && r.closed == 0);
    next = c->rose_take(r, (const uint8_t *)"360 1", 5);
    expect(c, "a fault without its LF is none yet", next.number == 0 && next.closed == 0);
    next = c->rose_take(next, (const uint8_t *)"\n90 50\n", 7);
    expect(c, "a fault at its LF is", next.number == 3 && next.line == 2 && next.accepted == 1 && next.closed == 1);
    next = c->rose_take(next, (const uint8_t *)"90 50\n", 6);
    expect(c, "and stands", next.number == 3 && next.line == 2 && next.accepted == 1 && next.cell[4 * 13 + 3] == 1);
    next = c->rose_end(next);
    expect(c, "also at the end", next.number == 3 && next.line == 2 && next.accepted == 1);
}

/* ---- Records that no file comes to ---- */

static aral_rose with_line(const calculator *c, aral_rose r, const char *line)
{
    return c->rose_take(r, (const uint8_t *)line, strlen(line));
}

static void check_records(const calculator *c)
{
    aral_rose r = c->rose_new(), next;
    r.accepted = 999999;
    next = with_line(c, r, "90 50\n");
    expect(c, "the millionth line", next.number == 0 && next.accepted == 1000000 && next.cell[4 * 13 + 3] == 1);
    next = with_line(c, next, "90 50\n");
    expect(c, "the one after it", next.number == 11 && next.line == 1000001 && next.accepted == 1000000
           && next.cell[4 * 13 + 3] == 1 && next.closed == 1);
    r.accepted = 1000000;
    next = with_line(c, r, "90 50\n360 0\n");
    expect(c, "11 where nothing else is wrong", next.number == 11 && next.line == 1000001);
    next = with_line(c, r, "360 0\n");
    expect(c, "the range before 11", next.number == 3 && next.line == 1000001);
    next = with_line(c, r, "90 050\n");
    expect(c, "the form before 11", next.number == 1 && next.line == 1000001);
    next = c->rose_end(with_line(c, r, "90 50"));
    expect(c, "no LF before 11", next.number == 1 && next.line == 1000001);
    r.accepted = UINT32_MAX;
    next = with_line(c, r, "90 50\n");
    expect(c, "no line after the greatest", next.number == 11 && next.line == UINT32_MAX
           && next.accepted == UINT32_MAX);
    r.accepted = 5, r.cell[4 * 13 + 3] = UINT32_MAX, r.number = 77, r.line = 99;
    next = with_line(c, r, "90 50\n");
    expect(c, "the greatest count stays", next.cell[4 * 13 + 3] == UINT32_MAX && next.accepted == 6);
    expect(c, "number and line stay until a refusal", next.number == 77 && next.line == 99 && next.closed == 0);
    next = with_line(c, r, "\n");
    expect(c, "and then are its own", next.number == 1 && next.line == 6 && next.accepted == 5);
    r.closed = 2;
    next = with_line(c, r, "90 50\n");
    expect(c, "closed by any number but 0", same(&next, &r));
    next = c->rose_end(r);
    expect(c, "and then its end is as it was", same(&next, &r));
}

void check_roses(const calculator *c)
{
    for (size_t i = 0; i < sizeof roses / sizeof *roses; i++) check_file(c, &roses[i]);
    check_under_way(c);
    check_records(c);
}
