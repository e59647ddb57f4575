/* Counts files of observations by the library in parts and by the plain calculator in one piece: roses SEED FILES.
   First every direction with every speed, every cutting of short files in two places, the millionth line and those
   after it; then FILES at random cut at random, and as many records of nonsense. Parts are lent against pages that
   can't be touched. It stops where something is not so. */
#include "aralimogga.h"
#include "fence.h"
#include "plain.h"
#include "sheets.h"
#include <stdio.h>
#include <stdlib.h>
#include <string.h>

enum { CELLS = ARAL_SECTORS * ARAL_BEAUFORT_NUMBERS, ROOM = 1 << 23 };
static uint8_t file[ROOM];
static fence lent;
static dice die;
static struct { unsigned long files, accepted, number[12], parts, empty, cuts, nonsense, closed; } tally;

/* ---- One call ---- */

static void print_rose(const char *name, const aral_rose *r)
{
    printf("%s: %u %u, accepted %u, closed %u, pending %u %u %llu %llu;", name, r->number, r->line, r->accepted,
           r->closed, r->pending.stage, r->pending.direction, (unsigned long long)r->pending.kind,
           (unsigned long long)r->pending.value);
    for (int i = 0, shown = 0; i < CELLS && shown < 12; i++)
        if (r->cell[i]) shown++, printf(" %d/%d %u", i / ARAL_BEAUFORT_NUMBERS, i % ARAL_BEAUFORT_NUMBERS, r->cell[i]);
    printf("\n");
}

static void differ(const char *what, const uint8_t *byte, size_t n, const aral_rose *p, const aral_rose *q)
{
    printf("DIFFERENT: %s\n%zu bytes: ", what, n);
    for (size_t i = 0; i < n && i < 1000; i++) printf(byte[i] < ' ' || byte[i] > '~' ? "<%02x>" : "%c", byte[i]);
    printf("\n");
    print_rose("one", p);
    print_rose("the other", q);
    exit(1);
}

/* The part stands against the page after it or before it, and is not written to. One of no byte is null, or not. */
static aral_rose take(aral_rose r, const uint8_t *part, size_t n)
{
    uint8_t *at = pick(&die, 0, 1) ? lent.end - n : lent.start;
    if (n > 0) memcpy(at, part, n);
    aral_rose next = aral_rose_take(r, n == 0 && pick(&die, 0, 1) ? NULL : at, n);
    if (n > 0 && memcmp(at, part, n)) fail("a part that was lent to be read is not as it was");
    tally.parts++;
    tally.empty += n == 0;
    return next;
}

/* Records of numbers alone have no padding. */
static int same(const aral_rose *p, const aral_rose *q) { return !memcmp(p, q, sizeof *p); }

static int same_counts(const aral_rose *p, const aral_rose *q)
{
    return p->number == q->number && p->line == q->line && p->accepted == q->accepted
        && !memcmp(p->cell, q->cell, sizeof p->cell);
}

static uint64_t sum_of(const aral_rose *r)
{
    uint64_t sum = 0;
    for (int i = 0; i < CELLS; i++) sum += r->cell[i];
    return sum;
}

/* ---- One file ---- */

/* What was taken of a file so far: the counts of its ended lines, and no more where one of them is refused. */
static void check_so_far(const aral_rose *r, size_t at)
{
    aral_rose expected = plain_rose_of(file, at, 0);
    if (!same_counts(r, &expected)) differ("the counts of the lines so far", file, at, r, &expected);
    if (r->closed != (expected.number != 0)) differ("closed without a refusal, or open with", file, at, r, &expected);
    if (sum_of(r) != r->accepted) differ("the sum over the cells and the accepted lines", file, at, r, &expected);
}

/* After the end, and after a refusal, nothing more is taken. */
static void check_closed(const aral_rose *r)
{
    static const uint8_t more[] = "90 50\n\n400 1\n";
    size_t n = (size_t)pick(&die, 0, sizeof more - 1);
    aral_rose next = take(*r, more, n), end = aral_rose_end(*r);
    if (!same(r, &next)) differ("more is taken of a closed rose", more, n, r, &next);
    if (!same(r, &end)) differ("the end of a closed rose", more, n, r, &end);
    tally.closed += 2;
}

/* The end of what was taken in some way, of a file that is expected to come to this. */
static void check_end(aral_rose r, size_t n, const aral_rose *expected)
{
    if (r.number) check_closed(&r);
    r = aral_rose_end(r);
    if (!same(&r, expected)) differ("the rose of the whole file", file, n, &r, expected);
    if (sum_of(&r) != r.accepted) differ("the sum over the cells and the accepted lines", file, n, &r, expected);
    check_closed(&r);
}

/* The rose of the file in parts of at most so many bytes, from none on, with what came of each looked at. */
static aral_rose in_parts(size_t n, size_t most)
{
    aral_rose r = aral_rose_new();
    for (size_t at = 0; at < n;) {
        size_t size = (size_t)pick(&die, 0, (int64_t)most);
        if (size > n - at) size = n - at;
        r = take(r, file + at, size);
        check_so_far(&r, at += size);
    }
    return r;
}

static aral_rose byte_by_byte(size_t n)
{
    aral_rose r = aral_rose_new();
    for (size_t at = 0; at < n; at++) r = take(r, file + at, 1);
    return r;
}

/* The file in one piece, byte by byte and in parts comes to the same record, and at its end to the plain one. */
static void try_file(size_t n)
{
    aral_rose expected = plain_rose_of(file, n, 1), whole = take(aral_rose_new(), file, n), bytes = byte_by_byte(n);
    aral_rose few = in_parts(n, 1 + n / 2), many = in_parts(n, (size_t)pick(&die, 1, 6));
    check_so_far(&whole, n);
    if (!same(&whole, &bytes)) differ("in one piece and byte by byte", file, n, &whole, &bytes);
    if (!same(&whole, &few)) differ("in one piece and in a few parts", file, n, &whole, &few);
    if (!same(&whole, &many)) differ("in one piece and in many parts", file, n, &whole, &many);
    check_end(whole, n, &expected);
    check_end(many, n, &expected);
    tally.files++;
    tally.number[expected.number]++;
    tally.accepted += expected.accepted;
}

/* ---- Files ---- */

static size_t put(size_t n, const char *words)
{
    size_t size = strlen(words);
    memcpy(file + n, words, size);
    return n + size;
}

static size_t put_line(size_t n, int64_t direction, int64_t speed)
{
    return n + (size_t)sprintf((char *)file + n, "%d %d\n", (int)direction, (int)speed);
}

/* Each alone is in the cell of the plain calculator; and all in one file. */
static void try_every_observation(void)
{
    size_t all = 0, n;
    for (int direction = 0; direction < 360; direction++)
        for (int speed = 0; speed <= 1000; speed++, all = n) {
            n = put_line(all, direction, speed);
            aral_rose r = take(aral_rose_new(), file + all, n - all), e = plain_rose_of(file + all, n - all, 0);
            if (!same_counts(&r, &e)) differ("the cell of an observation", file + all, n - all, &r, &e);
        }
    aral_rose expected = plain_rose_of(file, all, 1), r = aral_rose_new();
    if (expected.accepted != 360 * 1001) fail("not every observation was accepted");
    for (size_t at = 0, size; at < all; at += size) {
        size = all - at < 4096 ? all - at : 4096;
        r = take(r, file + at, size);
    }
    check_end(r, all, &expected);
}

static const char *const short_files[] = {
    "", "\n", "0 0\n", "11 33\n12 34\n", "348 326\n349 327\n", "359 1000\n0 0\n", "0 0\n\n0 0\n", "359 1001\n1 1\n",
    "360 0\n", "7 -1\n", "-5 3\n7 7\n", "-0 3\n", "5 -0\n", "05 3\n", "+5 3\n", "5  3\n", " 5 3\n", "5 3 \n",
    "5 3\r\n", "5\t3\n", "5 3 1\n", "1234567 8\n", "12345678 9\n", "9 12345678\n", "90 50\n90 51", "90 50\n9",
    "90 50\n ", "A 1\n", "90-50\n", "12345678\n", "-9999999 -9999999\n", "-9999999 -99999999\n"};

/* Cut in two places, also twice in one, and at the ends. */
static void try_every_cut(void)
{
    for (size_t i = 0; i < sizeof short_files / sizeof *short_files; i++) {
        size_t n = put(0, short_files[i]);
        aral_rose expected = plain_rose_of(file, n, 1);
        for (size_t first = 0; first <= n; first++)
            for (size_t second = first; second <= n; second++, tally.cuts++) {
                aral_rose r = take(aral_rose_new(), file, first);
                r = take(r, file + first, second - first);
                check_so_far(&r, second);
                check_end(take(r, file + second, n - second), n, &expected);
            }
    }
}

/* What comes after a million accepted lines: refused with 11 only where nothing else is wrong with it. */
static void try_million(void)
{
    static const struct { const char *tail; uint32_t number; } after[] = {
        {"", 0}, {"0 0\n", 11}, {"359 1000\n0 0\n", 11}, {"360 0\n", 3}, {"0 -1\n", 3}, {"00 0\n", 1}, {"\n", 1},
        {"0 0", 1}, {"0 1001\n0 0\n", 3}};
    size_t n = 0;
    for (int i = 0; i < ARAL_OBSERVATIONS_MOST; i++) n = put_line(n, i % 10, i / 10 % 10);
    aral_rose r = aral_rose_new();
    for (size_t at = 0, size; at < n; at += size) {
        size = n - at < 65536 ? n - at : 65536;
        r = take(r, file + at, size);
    }
    check_so_far(&r, n);
    for (size_t i = 0; i < sizeof after / sizeof *after; i++) {
        size_t all = put(n, after[i].tail);
        aral_rose expected = plain_rose_of(file, all, 1), next = take(r, file + n, all - n);
        if (expected.number != after[i].number) fail("the number after a million lines");
        if (expected.line != (expected.number ? ARAL_OBSERVATIONS_MOST + 1 : 0)) fail("the line after a million lines");
        check_end(next, all, &expected);
    }
}

/* A speed or direction at a border or beside it, or any; mostly within the range. */
static int64_t near(const int *border, int count, int64_t most)
{
    if (pick(&die, 0, 2) == 0) return pick(&die, 0, most);
    int64_t number = border[pick(&die, 0, count - 1)] + pick(&die, -1, 1);
    return number < 0 ? 0 : number;
}

static size_t put_observation(size_t n)
{
    static const int sides[] = {0,   11,  12,  33,  34,  56,  57,  78,  79,  101, 123, 124,
                                146, 168, 191, 213, 236, 258, 281, 303, 326, 348, 349, 358};
    static const int speeds[] = {0, 2, 15, 33, 54, 79, 107, 138, 171, 207, 244, 284, 326, 998, 999};
    return put_line(n, near(sides, sizeof sides / sizeof *sides, 359),
                    near(speeds, sizeof speeds / sizeof *speeds, 1000));
}

/* One byte put in, taken out or changed: a digit or another that matters, or any. */
static size_t put_slip(size_t n)
{
    static const char matter[] = "0123456789 -+\n\r\tA.";
    if (n == 0) return n;
    size_t at = (size_t)pick(&die, 0, (int64_t)n - 1);
    int64_t way = pick(&die, 0, 3);
    uint8_t byte = pick(&die, 0, 9) ? (uint8_t)matter[pick(&die, 0, sizeof matter - 2)] : (uint8_t)roll(&die);
    if (way == 0) file[at] = byte;
    if (way == 1) memmove(file + at, file + at + 1, n - at - 1);
    if (way >= 2) memmove(file + at + 1, file + at, n - at);
    if (way == 2) file[at] = byte;
    return n - (way == 1) + (way >= 2);
}

static size_t random_file(void)
{
    size_t n = 0;
    for (int64_t lines = pick(&die, 0, 40) >> pick(&die, 0, 4); lines > 0; lines--) n = put_observation(n);
    if (pick(&die, 0, 3) == 0) n = put_line(n, pick(&die, -2, 400), pick(&die, -2, 1100));
    for (int64_t slips = pick(&die, -2, 2); slips > 0; slips--) n = put_slip(n);
    if (pick(&die, 0, 3) == 0) n = put_observation(n);
    return n;
}

/* ---- Nonsense ---- */

static uint32_t any_number(void)
{
    static const uint32_t likely[] = {
        0, 1, 2, 3, 4, 5, 359, 1000, 999999, 1000000, 1000001, UINT32_MAX - 1, UINT32_MAX};
    return pick(&die, 0, 3) ? likely[pick(&die, 0, 12)] : (uint32_t)roll(&die);
}

static aral_rose any_record(void)
{
    aral_rose r = {any_number(), any_number(), any_number(), {0}, 0, {0, 0, 0, 0}};
    int every = (int)pick(&die, 0, 1);
    for (int i = 0; i < CELLS; i++) r.cell[i] = every ? any_number() : i % 3 ? UINT32_MAX - 1 : 7;
    if (pick(&die, 0, 3) == 0) r.closed = any_number();
    if (pick(&die, 0, 1)) r.accepted = (uint32_t)pick(&die, 0, 1000001);
    if (pick(&die, 0, 1) == 0) return r;
    r.pending.stage = any_number(), r.pending.direction = any_number();
    r.pending.kind = any_number(), r.pending.value = (uint64_t)any_number() << 32 | any_number();
    return r;
}

/* A refusal of a record is of the line after its accepted ones. */
static void check_refusal(const aral_rose *r, size_t n)
{
    uint32_t line = r->accepted < UINT32_MAX ? r->accepted + 1 : UINT32_MAX;
    if (r->number != 1 && r->number != 3 && r->number != 11) differ("a refusal that is none", file, n, r, r);
    if (r->line != line) differ("the line of a refusal", file, n, r, r);
}

/* A call answers twice the same, a part cut in two comes to the same, what is closed comes back as it is, and where
   nothing is pending the plain calculator has the same counts. */
static void try_nonsense(void)
{
    size_t n = random_file(), cut = n ? (size_t)pick(&die, 0, (int64_t)n) : 0;
    aral_rose r = any_record(), next = take(r, file, n), again = take(r, file, n), end = aral_rose_end(r);
    aral_rose two = take(take(r, file, cut), file + cut, n - cut), none = take(r, NULL, 0);
    aral_rose end_again = aral_rose_end(r);
    aral_rose plain = plain_rose_take(r, file, n), plain_end = plain_rose_end(r);
    if (!same(&next, &again)) differ("twice the same record and part", file, n, &next, &again);
    if (!same(&end, &end_again)) differ("twice the end of the same record", file, n, &end, &end_again);
    if (!same(&next, &two)) differ("a record's part cut in two", file, n, &next, &two);
    if (!same(&r, &none)) differ("a record after nothing", file, n, &r, &none);
    if (r.closed && !same(&r, &next)) differ("more is taken of a closed record", file, n, &r, &next);
    if (r.closed && !same(&r, &end)) differ("the end of a closed record", file, n, &r, &end);
    if (!r.closed && next.closed) check_refusal(&next, n);
    if (!end.closed) differ("a record that its end does not close", file, n, &r, &end);
    int pending = r.pending.stage || r.pending.direction || r.pending.kind || r.pending.value;
    if (!pending && (!same_counts(&next, &plain) || next.closed != plain.closed))
        differ("a record of nonsense and a part", file, n, &next, &plain);
    if (!pending && !same(&end, &plain_end)) differ("the end of a record of nonsense", file, n, &end, &plain_end);
    tally.nonsense++;
}

int main(int argc, char **argv)
{
    if (argc != 3) {
        fprintf(stderr, "roses SEED FILES\n");
        return 2;
    }
    die.state = strtoull(argv[1], NULL, 10);
    printf("seed %s\n", argv[1]);
    make_fences();
    lent = make_fence(1 << 16);
    try_every_cut();
    try_every_observation();
    try_million();
    for (unsigned long i = 0, count = strtoul(argv[2], NULL, 10); i < count; i++) {
        try_file(random_file());
        try_nonsense();
    }
    printf("every direction with every speed, a million lines and what comes after them, %lu cuttings in two places\n",
           tally.cuts);
    printf("%lu files with %lu accepted lines: refused with 1 %lu, with 3 %lu, with nothing %lu\n", tally.files,
           tally.accepted, tally.number[1], tally.number[3], tally.number[0]);
    printf("%lu parts against pages that can't be touched, %lu of them empty; %lu calls after an end or a refusal;\n"
           "%lu records of nonsense: all the same\n", tally.parts, tally.empty, tally.closed, tally.nonsense);
    return 0;
}
