/* Lends the library buffers that lie against pages which can't be touched: edges SEED CASES. A byte read or written
   outside a buffer fails. Refused calls leave every byte, and accepted ones every byte after the text. */
#include "aralimogga.h"
#include "fence.h"
#include "plain.h"
#include "sheets.h"
#include <stdio.h>
#include <stdlib.h>
#include <string.h>

enum { LONG = 1500 }; /* bytes that only a text of year 4 has */
static unsigned long calls;

typedef aral_text writes(const uint8_t *, size_t, uint8_t *, size_t);

/* One call with a buffer of this room; what it answers and leaves is what the plain calculator does. */
static void write_at(writes *ours, writes *theirs, const uint8_t *sheet, size_t n, size_t room, int after)
{
    static uint8_t expected[WATCHED];
    uint8_t *at = lend_room(room, after);
    aral_text p = ours(sheet, n, at, room), q = theirs(sheet, n, expected, room);
    calls++;
    if (p.number != q.number || p.line != q.line || p.length != q.length) fail("the answer at an edge");
    if (p.number && p.length) fail("a length where it is refused");
    check_room(at, after, expected, p.length);
}

static void write_rooms(writes *ours, writes *theirs, const uint8_t *sheet, size_t n, size_t length)
{
    size_t step = length > LONG ? 9 : 1;
    for (size_t room = 0; room <= length + 2; room += room < 2 || room + 12 > length ? 1 : step) {
        write_at(ours, theirs, sheet, n, room, 1);
        write_at(ours, theirs, sheet, n, room, 0);
    }
}

/* Of the plain engine, which may take long, the rooms from none on and those around the text's length. */
static void write_rooms_by_cases(const uint8_t *sheet, size_t n)
{
    static uint8_t out[WATCHED];
    size_t length = plain_plain(sheet, n, out, sizeof out).length;
    for (size_t room = 0; room <= length + 2; room = room == 2 && length > 6 ? length - 2 : room + 1) {
        write_at(aral_plain, plain_plain, sheet, n, room, 1);
        write_at(aral_plain, plain_plain, sheet, n, room, 0);
    }
}

static aral_text digits_of(const uint8_t *sheet, size_t n, uint8_t *out, size_t room)
{
    int64_t number;
    (void)n;
    memcpy(&number, sheet, sizeof number);
    return aral_digits(number, out, room);
}

static aral_text plain_digits_of(const uint8_t *sheet, size_t n, uint8_t *out, size_t room)
{
    int64_t number;
    (void)n;
    memcpy(&number, sheet, sizeof number);
    return plain_digits(number, out, room);
}

static void read_at(const uint8_t *bytes, size_t n, int after)
{
    const uint8_t *sheet = lend(bytes, n, after);
    aral_answer p = aral_read(sheet, n), q = plain_read(sheet, n);
    aral_extreme e = aral_total(sheet, n, 6), f = plain_total(sheet, n, 6);
    calls += 2;
    if (p.number != q.number || p.line != q.line) fail("reading at an edge");
    if (e.number != f.number || e.line != f.line || e.total != f.total) fail("a total at an edge");
    if (e.newtons != f.newtons || e.remainder != f.remainder) fail("newtons at an edge");
    write_at(aral_rewrite, plain_rewrite, sheet, n, ARAL_SHEET_MOST, after);
    write_at(aral_report, plain_report, sheet, n, ARAL_SHEET_MOST, after);
    write_at(aral_report, plain_report, sheet, n, 0, after);
    write_at(aral_plain, plain_plain, sheet, n, ARAL_SHEET_MOST, after);
    write_at(aral_plain, plain_plain, sheet, n, 0, after);
}

/* Every part of the sheet from its start, and every room around each text's length; but of a long shed, whose face
   lines are much alike, every ninth. */
static void every_length(const text *t)
{
    static uint8_t out[WATCHED];
    size_t step = t->length > LONG ? 9 : 1;
    for (size_t n = t->length % step; n <= t->length; n += step) {
        read_at(t->byte, n, 1);
        read_at(t->byte, n, 0);
    }
    const uint8_t *sheet = lend(t->byte, t->length, 1);
    write_rooms(aral_rewrite, plain_rewrite, sheet, t->length, t->length);
    write_rooms(aral_report, plain_report, sheet, t->length, plain_report(sheet, t->length, out, sizeof out).length);
    write_rooms_by_cases(sheet, t->length);
}

static void every_digit(void)
{
    int64_t number[64] = {0, -1, INT64_MAX, INT64_MIN};
    for (int i = 4; i < 22; i++) {
        number[i] = i == 4 ? 9 : number[i - 1] / 9 * 90 + 9;
        number[i + 18] = number[i] + 1;
        number[i + 36] = -number[i];
    }
    for (int i = 0; i < 58; i++) write_rooms(digits_of, plain_digits_of, (const uint8_t *)&number[i], 8, 20);
}

/* Every count and every field of a sheet as long as it may be. Of all kinds 6 has the longest: its directions and marks
   have one byte more, 8 and 24 of them, and x one less than the 4 bytes of curved eaves. Years 2 and 3 have one form;
   those of years 3 and 4 here are square. In year 4 there are 216 faces more, of 35 bytes or with kind 6 of 36, and
   their count has a byte more. */
enum { LONGEST = 8 };
static const struct { int year, kind, x, direction; size_t length; } longest_of[LONGEST] = {
    {1, 4, 1200, 90, 827}, {1, 6, 300, 180, 858}, {2, 4, 1200, 90, 1158}, {2, 6, 300, 180, 1189},
    {3, 4, 1200, 90, 1158}, {3, 6, 300, 180, 1189}, {4, 4, 1200, 90, 8719}, {4, 6, 300, 180, 8966}};

static void longest(int which, text *t)
{
    static sample s = {.h = 12000, .b = 10000, .density = 1250, .winds = 8, .internals = 4};
    s.year = longest_of[which].year;
    s.faces = ARAL_FACES_OF(s.year);
    s.a = s.year >= 3 ? 10000 : 12000;
    s.kind = longest_of[which].kind;
    s.x = longest_of[which].x;
    s.steps = s.year == 1 ? 0 : 16;
    for (int i = 0; i < 8; i++) {
        s.direction[i] = longest_of[which].direction;
        s.speed[i] = 1000;
    }
    for (int i = 0; i < 4; i++) s.internal[i] = -100;
    for (int i = 0; i < s.steps; i++) {
        s.step[i].height = 10000 + i;
        s.step[i].factor = 1000;
    }
    for (int i = 0; i < s.faces; i++) {
        s.zone[i] = 'F';
        s.mark[i] = longest_of[which].direction;
        s.height[i] = 10015;
        for (int axis = 0; axis < 3; axis++) s.area[i][axis] = -100000;
    }
    write_sample(&s, t);
    if (t->length != longest_of[which].length) fail("the longest sheet's length");
    if (aral_read(t->byte, t->length).number) fail("the longest sheet");
}

/* On a flat roof all faces of the longest sheet choose. */
static void no_pointers(const text *t, int flat)
{
    aral_answer a = aral_read(NULL, 0);
    aral_text w = aral_rewrite(NULL, 0, NULL, 0), r = aral_report(NULL, 0, NULL, 0);
    aral_text d = aral_digits(INT64_MIN, NULL, 0), v = aral_report(t->byte, t->length, NULL, 0);
    aral_text u = aral_rewrite(t->byte, t->length, NULL, 0);
    aral_text p = aral_plain(NULL, 0, NULL, 0), q = aral_plain(t->byte, t->length, NULL, 0);
    aral_extreme e = aral_total(NULL, 0, 1);
    calls += 9;
    if (a.number != 1 || a.line != 1 || e.number != 1 || e.line != 1) fail("nothing read through no pointer");
    if (w.number != 1 || w.line != 1 || r.number != 1 || r.line != 1) fail("nothing written again through no pointer");
    if (d.number != 7 || v.number != 7 || u.number != 7) fail("no room through no pointer");
    if (d.line || v.line || u.line) fail("a line where there is no room");
    if (p.number != 1 || p.line != 1) fail("nothing walked through no pointer");
    if (q.number != (flat ? ARAL_CASES : ARAL_ROOM) || q.line) fail("the plain engine through no pointer");
}

/* Texts far longer than any sheet: one byte over and over, and a good sheet before it. */
static void very_long(const text *t)
{
    size_t n = (size_t)64 << 20;
    fence big = make_fence(n);
    for (const char *byte = "BV1 \n-0\r9"; *byte; byte++) {
        memset(big.start, *byte, n);
        aral_answer a = aral_read(big.start, n);
        if (a.number != 1 || a.line != 1) fail("a very long text");
        memcpy(big.start, t->byte, t->length);
        aral_answer p = aral_read(big.start, n), q = plain_read(big.start, n);
        aral_text r = aral_report(big.start, n, lend_room(900, 0), 900);
        aral_text w = aral_plain(big.start, n, lend_room(900, 0), 900);
        if (p.number != 1 || p.line != q.line || r.number != 1 || r.line != q.line) fail("a very long tail");
        if (w.number != 1 || w.line != q.line) fail("a very long tail by the plain engine");
        calls += 4;
    }
    give_back(big);
}

int main(int argc, char **argv)
{
    static sample s;
    static text t;
    if (argc != 3) {
        fprintf(stderr, "edges SEED CASES\n");
        return 2;
    }
    dice die = {strtoull(argv[1], NULL, 10)};
    make_fences();
    printf("seed %s\n", argv[1]);
    for (int which = 0; which < LONGEST; which++) {
        longest(which, &t);
        very_long(&t);
        every_length(&t);
        no_pointers(&t, longest_of[which].kind == 4);
    }
    every_digit();
    for (unsigned long i = 0, cases = strtoul(argv[2], NULL, 10); i < cases; i++) {
        make_sample(&die, &s);
        write_sample(&s, &t);
        if (i % 64 == 0) every_length(&t);
        for (int slips = 0; slips < 8; slips++) {
            damage(&die, &t);
            read_at(t.byte, t.length, slips % 2);
        }
    }
    printf("%lu calls against pages that can't be touched: every byte as it should be\n", calls);
    return 0;
}
