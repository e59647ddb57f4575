/* Compares the library with the plain calculator, and both with a walk through every case, on sheets, damaged sheets,
   questions and numbers from a printed seed: compare SEED SHEETS QUESTIONS NUMBERS. It stops where they differ. */
#include "aralimogga.h"
#include "plain.h"
#include "sheets.h"
#include "step.h"
#include "walk.h"
#include <inttypes.h>
#include <math.h>
#include <stdio.h>
#include <stdlib.h>
#include <string.h>

enum { OUT = 16384, OUT_OF_SHORT = 2048, SHORT = 1500, WALKED = 4096 };
#define NEWTON INT64_C(20000000000)
static struct {
    unsigned long sheets, high, single, square, accepted, refused[9], walked, questions, answered, numbers, calls;
    unsigned long of_year[5], over, walked_over; /* accepted by year; of more than 24 faces, and of these walked */
    unsigned long wide;                          /* totals that take more than 64 bits */
    unsigned long choosing[ARAL_FACES_MOST + 1], idle; /* accepted, by how many faces choose; and with idle ones */
} tally;
static dice die;

static void show(const text *t)
{
    for (size_t i = 0; i < t->length && i < 3000; i++) {
        uint8_t byte = t->byte[i];
        if (byte == '\n' || (byte >= ' ' && byte < 127)) putchar(byte);
        else printf("<%02x>", byte);
    }
    printf("<end, %zu bytes>\n", t->length);
}

static void differ(const char *what, const text *t)
{
    printf("DIFFERENT: %s\n", what);
    if (t) show(t);
    exit(1);
}

static int same_extreme(const aral_extreme *p, const aral_extreme *q)
{
    return p->number == q->number && p->line == q->line && p->total == q->total && p->newtons == q->newtons
        && p->remainder == q->remainder && p->wind == q->wind && p->internal == q->internal && p->faces == q->faces
        && !memcmp(p->alternative, q->alternative, sizeof p->alternative);
}

/* That newtons and remainder are right by themselves: those of the total, where there is one. */
static int right_pair(const aral_extreme *e, int64_t year)
{
    if (e->remainder >= (uint64_t)NEWTON) return 0;
    return year < 4 ? (__int128)NEWTON * e->newtons + (__int128)e->remainder == e->total : e->total == 0;
}

static int same_text(aral_text p, aral_text q)
{
    return p.number == q.number && p.line == q.line && p.length == q.length;
}

/* ---- Sheets ---- */

typedef aral_text writes(const uint8_t *, size_t, uint8_t *, size_t);

/* No sheet that is as short as this, and no report of it, is longer than OUT_OF_SHORT: it has less than 125 faces. */
static size_t out_of(const text *t) { return t->length < SHORT ? OUT_OF_SHORT : OUT; }

/* Both write into buffers that held the same bytes; answers and every byte must agree. */
static aral_text compare_writing(const char *what, writes *ours, writes *theirs, const text *t, size_t room)
{
    static uint8_t mine[OUT], other[OUT];
    memset(mine, (int)(roll(&die) & 255), out_of(t));
    memcpy(other, mine, out_of(t));
    aral_text p = ours(t->byte, t->length, mine, room), q = theirs(t->byte, t->length, other, room);
    tally.calls++;
    if (!same_text(p, q) || memcmp(mine, other, out_of(t))) {
        printf("library %u %u %" PRIu64 ", plain %u %u %" PRIu64 ", room %zu\n", p.number, p.line, p.length, q.number,
               q.line, q.length, room);
        differ(what, t);
    }
    if (p.number == 0 && ours == aral_rewrite && (p.length != t->length || memcmp(mine, t->byte, p.length)))
        differ("an accepted sheet and the sheet written again", t);
    if (p.length > (ours == aral_rewrite ? ARAL_SHEET_MOST : ARAL_REPORT_MOST)) differ("a length and the header's", t);
    return p;
}

static void compare_rooms(const char *what, writes *ours, writes *theirs, const text *t)
{
    aral_text whole = compare_writing(what, ours, theirs, t, out_of(t));
    if (whole.number) {
        compare_writing(what, ours, theirs, t, 0);
        return;
    }
    compare_writing(what, ours, theirs, t, whole.length);
    if (compare_writing(what, ours, theirs, t, whole.length - 1).number != 7) differ("a room one short", t);
    compare_writing(what, ours, theirs, t, (size_t)pick(&die, 0, (int64_t)out_of(t)));
}

/* The year of a sheet that is accepted: one digit on line 2, after `V 1`. */
static int year_of(const text *t) { return t->length > 5 && t->byte[0] == 'V' ? t->byte[4] - '0' : 1; }

static void compare_total(const text *t, int64_t line)
{
    aral_extreme p = aral_total(t->byte, t->length, line), q = plain_total(t->byte, t->length, line);
    tally.calls++;
    tally.wide += p.newtons >= INT64_MAX / NEWTON || p.newtons <= INT64_MIN / NEWTON;
    if (same_extreme(&p, &q) && right_pair(&p, year_of(t))) return;
    printf("line %" PRId64 ": library %u %u %" PRId64 " %" PRId64 " %" PRIu64 ", ", line, p.number, p.line, p.total,
           p.newtons, p.remainder);
    printf("plain %u %u %" PRId64 " %" PRId64 " %" PRIu64 "\n", q.number, q.line, q.total, q.newtons, q.remainder);
    differ("a total", t);
}

/* How many faces of an accepted sheet have two alternatives under at least one of its winds; the others of zone F on a
   flat roof, which act under none, are `idle`. */
static int choosing_faces(const text *t, int *idle)
{
    static aral_edited opened;
    const aral_job *j = &opened.worksheet.job;
    int choosing = 0;
    *idle = 0;
    opened = aral_open(t->byte, t->length);
    if (j->building.kind < 2 || j->building.kind > 5) return 0;
    for (uint32_t i = 0; i < j->faces.count; i++) {
        const aral_face *f = &j->faces.entry[i];
        int acts = f->mark == ARAL_BOTH;
        for (uint32_t k = 0; k < j->winds.count; k++) acts |= j->winds.entry[k].direction == f->mark;
        choosing += f->zone == 'F' && acts;
        *idle += f->zone == 'F' && !acts;
    }
    return choosing;
}

/* The plain engine: it refuses what the first one does, and then more than 8 faces that choose, whatever the room; on
   every other job the six lines are the same. */
static void compare_engines(const text *t, aral_answer read)
{
    static uint8_t mine[OUT], report[OUT];
    int idle = 0, choosing = read.number ? 0 : choosing_faces(t, &idle);
    uint32_t number = read.number ? read.number : choosing > 8 ? ARAL_CASES : 0;
    aral_text p = aral_plain(t->byte, t->length, mine, OUT), q = aral_report(t->byte, t->length, report, OUT);
    tally.calls++;
    if (p.number != number || p.line != read.line) {
        printf("the plain engine %u %u, %d faces that choose\n", p.number, p.line, choosing);
        differ("what the plain engine refuses", t);
    }
    if (!number && (!same_text(p, q) || memcmp(mine, report, p.length))) differ("the lines of the two engines", t);
    compare_rooms("a report by the plain engine", aral_plain, plain_plain, t);
    if (read.number) return;
    tally.choosing[choosing]++;
    tally.idle += choosing <= 8 && choosing + idle > 8;
}

static aral_answer compare_sheet(const text *t)
{
    aral_answer p = aral_read(t->byte, t->length), q = plain_read(t->byte, t->length);
    tally.calls++;
    tally.sheets++;
    if (p.number != q.number || p.line != q.line) {
        printf("library %u %u, plain %u %u\n", p.number, p.line, q.number, q.line);
        differ("reading", t);
    }
    tally.high += t->length > 0 && t->byte[0] == 'V';
    if (p.number == 0) tally.accepted++;
    else if (p.number <= 8) tally.refused[p.number]++;
    if (p.number == 0) tally.of_year[year_of(t)]++;
    compare_rooms("a sheet written again", aral_rewrite, plain_rewrite, t);
    compare_rooms("a report", aral_report, plain_report, t);
    compare_engines(t, p);
    if (p.number) compare_total(t, pick(&die, 0, 7));
    else
        for (int64_t line = 0; line <= 7; line++) compare_total(t, line);
    compare_total(t, edge_of(&die, 1));
    return p;
}

/* On a job with few cases the totals are those of walking them all. */
static void compare_walk(const sample *s, const text *t)
{
    aral_extreme best[6];
    tally.over += s->faces > 24;
    if (!walk(s, WALKED, best)) return;
    tally.walked++;
    tally.walked_over += s->faces > 24;
    for (int k = 0; k < 6; k++) {
        aral_extreme p = aral_total(t->byte, t->length, k + 1), q = plain_total(t->byte, t->length, k + 1);
        if (!same_extreme(&q, &best[k])) differ("the plain calculator and the walk through every case", t);
        if (!same_extreme(&p, &best[k])) differ("the library and the walk through every case", t);
    }
}

/* By turns an acceptable job, one with a number that is not allowed, and two with damage to the text. */
static void compare_sheets(unsigned long count)
{
    static sample s;
    static text t;
    for (unsigned long i = 0; i < count; i++) {
        make_sample(&die, &s);
        tally.single += s.kind == 6;
        tally.square += s.a == s.b;
        if (i % 4 == 1) spoil(&die, &s);
        write_sample(&s, &t);
        if (i % 4 >= 2) damage(&die, &t);
        if (i % 16 == 15) damage(&die, &t);
        aral_answer answer = compare_sheet(&t);
        if (i % 4 == 0 && answer.number) differ("a sheet that should be acceptable was refused", &t);
        if (i % 4 == 0) compare_walk(&s, &t);
    }
}

/* ---- Questions ---- */

static int same_coefficient(const aral_coefficient *p, const aral_coefficient *q)
{
    return p->number == q->number && p->line == q->line && p->count == q->count && p->value[0] == q->value[0]
        && p->value[1] == q->value[1] && p->lower == q->lower && p->upper == q->upper && p->part == q->part
        && p->whole == q->whole;
}

/* That the rows are right by themselves: none where refused, one with 0/1, or two with a fraction between 0 and 1 in
   lowest terms. */
static int right_rows(const aral_coefficient *c)
{
    if (c->number) return !c->lower && !c->upper && !c->part && !c->whole;
    if (c->lower == c->upper) return c->lower > 0 && c->part == 0 && c->whole == 1;
    uint32_t p = c->part, q = c->whole;
    while (p > 0 && q > 0)
        if (p > q) p %= q;
        else q %= p;
    return c->lower > 0 && c->upper > 0 && 0 < c->part && c->part < c->whole && p + q == 1;
}

static void show_coefficient(const char *whose, const aral_coefficient *c)
{
    printf("%s %u %u %u %d %d, ", whose, c->number, c->line, c->count, c->value[0], c->value[1]);
    printf("rows %u and %u, %u/%u\n", c->lower, c->upper, c->part, c->whole);
}

static void ask_both(int64_t year, const sample *s, int64_t direction, uint8_t place, int64_t internal)
{
    aral_coefficient p[2], q[2];
    p[0] = aral_outside(year, s->h, s->a, s->b, s->density, s->kind, s->x, direction, place);
    q[0] = plain_outside(year, s->h, s->a, s->b, s->density, s->kind, s->x, direction, place);
    p[1] = aral_net(year, s->h, s->a, s->b, s->density, s->kind, s->x, direction, place, internal);
    q[1] = plain_net(year, s->h, s->a, s->b, s->density, s->kind, s->x, direction, place, internal);
    tally.calls += 2;
    tally.questions++;
    tally.answered += p[0].number == 0;
    for (int net = 0; net < 2; net++) {
        if (same_coefficient(&p[net], &q[net]) && right_rows(&p[net])) continue;
        printf("%s of %" PRId64 " %" PRId64 " %" PRId64 " %" PRId64 " %" PRId64 " %" PRId64, net ? "net" : "outside",
               s->h, s->a, s->b, s->density, s->kind, s->x);
        printf(", year %" PRId64 ", direction %" PRId64 ", place %u, internal %" PRId64 "\n", year, direction, place,
               internal);
        show_coefficient("library", &p[net]);
        show_coefficient("plain", &q[net]);
        differ("a question", NULL);
    }
}

static uint8_t some_place(void)
{
    return pick(&die, 0, 3) ? (uint8_t)"ABCDEFGHw12"[pick(&die, 0, 10)] : (uint8_t)roll(&die);
}

/* An acceptable question, with none, one or more of its numbers off. */
static void compare_questions(unsigned long count)
{
    for (unsigned long i = 0; i < count; i++) {
        sample s;
        make_building(&die, &s);
        int64_t direction = direction_of(&die, pick(&die, 0, 3) ? s.kind : 6), internal = pick(&die, -100, 100);
        int64_t year = pick(&die, 0, 3) ? s.year : pick(&die, -1, 5);
        int64_t *number[] = {&s.h, &s.a, &s.b, &s.density, &s.kind, &s.x, &direction, &internal, &year};
        for (int64_t slips = pick(&die, 0, 2); slips > 0; slips--) {
            int64_t *slip = number[pick(&die, 0, 8)];
            *slip = edge_of(&die, *slip);
        }
        ask_both(year, &s, direction, some_place(), internal);
    }
}

/* Every place of one building under each of its roof's winds, in its year. */
static void ask_all(const sample *s)
{
    int64_t last = s->kind == 6 ? 180 : 90, turn = s->kind == 6 ? 45 : 90;
    for (const char *place = "ABCDEFGHw12"; *place; place++)
        for (int64_t direction = 0; direction <= last; direction += turn)
            ask_both(s->year, s, direction, (uint8_t)*place, -100);
}

/* Every slope and every mansard's angle in every block of the walls' table, in each year, and of square plans; and a
   grid of parapets and curved eaves. */
static void compare_tables(void)
{
    static const int64_t tall[] = {100, 500, 501, 1500, 1501, 6000}, wide[] = {1000, 1001, 1500, 1501, 4000};
    for (int i = 0; i < 120; i++) {
        sample s = {.year = 1 + i % 4, .h = tall[i / 20], .a = wide[i / 4 % 5], .b = 1000, .density = 1250, .kind = 1};
        for (s.x = i % 5; s.x <= 604; s.x += 5) ask_all(&s);
        s.kind = 5;
        for (s.x = 296 + i % 5; s.x <= 904; s.x += 5) ask_all(&s);
        s.kind = 6;
        for (s.x = 46 + i % 5; s.x <= 304; s.x += 5) ask_all(&s);
    }
    for (int64_t kind = 3; kind <= 4; kind++)
        for (int64_t h = 100; h <= 30000; h += h < 1000 ? 100 : 2900) {
            sample s = {.year = 1, .h = h, .a = 12000, .b = 10000, .density = 1250, .kind = kind};
            for (s.x = 0; s.x <= h / 5 + 1; s.x++)
                for (const char *place = "E12"; *place; place++) ask_both(s.year, &s, 0, (uint8_t)*place, 100);
        }
}

/* ---- Numbers ---- */

/* Around a power of two or of ten, of any length, or anything. */
static int64_t some_number(void)
{
    int64_t near = pick(&die, -3, 3), sign = pick(&die, 0, 1) ? 1 : -1, power = 1;
    uint64_t bits = roll(&die);
    switch (pick(&die, 0, 4)) {
    case 0: return sign * ((int64_t)1 << pick(&die, 0, 62)) + near;
    case 1: return near < 0 ? INT64_MAX + near + 1 : INT64_MIN + near;
    case 2:
        for (int64_t n = pick(&die, 0, 18); n > 0; n--) power *= 10;
        return sign * power + near;
    case 3: return sign * (int64_t)(bits >> pick(&die, 1, 63));
    default: return sign * (int64_t)((bits >> pick(&die, 1, 11)) & ~((uint64_t)0x7ff >> pick(&die, 0, 11)));
    }
}

/* That the doubles are right by themselves: a long double holds every number of 64 bits. */
static int right_doubles(int64_t n, const aral_double *d)
{
    long double low = d->low, high = d->high, exact = (long double)n;
    if (d->exact) return d->exact == 1 && low == exact && high == exact && !(n == 0 && signbit(d->low));
    return low < exact && exact < high && next_above(d->low) == d->high;
}

/* That those of newtons and a remainder are right by themselves: no double lies between low and the newtons, nor
   between the newtons, or one more where something remains, and high. */
static int right_newtons(int64_t newtons, uint64_t remainder, const aral_double *d)
{
    long double low = d->low, high = d->high, least = (long double)newtons, most = least + (remainder != 0);
    if ((d->low == 0 && signbit(d->low)) || (d->high == 0 && signbit(d->high))) return 0;
    if (d->exact) return d->exact == 1 && remainder == 0 && low == least && high == least;
    if (remainder == 0 && (long double)(double)newtons == least) return 0;
    return low <= least && next_above(d->low) > least && high >= most && next_below(d->high) < most;
}

static aral_pair some_pair(void)
{
    static const uint64_t remainder[] = {0, 1, NEWTON - 1, NEWTON, UINT64_MAX};
    return (aral_pair){some_number(), pick(&die, 0, 1) ? remainder[pick(&die, 0, 4)] : roll(&die) >> pick(&die, 0, 63)};
}

static void compare_pairs(void)
{
    aral_pair x = some_pair(), y = some_pair(), z = some_pair();
    aral_double p = aral_panel_newtons(x.newtons, x.remainder), q = plain_panel_newtons(x.newtons, x.remainder);
    aral_point v = aral_chart_newtons(x, y, z), w = plain_chart_newtons(x, y, z);
    tally.calls += 2;
    if (p.exact != q.exact || memcmp(&p.low, &q.low, 2 * sizeof p.low) || !right_newtons(x.newtons, x.remainder, &p)) {
        printf("%" PRId64 " and %" PRIu64 ": library %u %a %a, ", x.newtons, x.remainder, p.exact, p.low, p.high);
        printf("plain %u %a %a\n", q.exact, q.low, q.high);
        differ("the doubles of newtons", NULL);
    }
    if (memcmp(&v, &w, sizeof v)) {
        printf("%" PRId64 " %" PRIu64 ", %" PRId64 " %" PRIu64 ", ", x.newtons, x.remainder, y.newtons, y.remainder);
        printf("%" PRId64 " %" PRIu64 "\n", z.newtons, z.remainder);
        differ("a chart point of newtons", NULL);
    }
}

static void compare_digits(int64_t n, size_t room)
{
    uint8_t mine[40], other[40];
    char expected[40];
    memset(mine, 'x', sizeof mine);
    memset(other, 'x', sizeof other);
    aral_text p = aral_digits(n, mine, room), q = plain_digits(n, other, room);
    int length = snprintf(expected, sizeof expected, "%" PRId64, n);
    int right = p.number ? p.number == 7 && room < (size_t)length : !memcmp(mine, expected, (size_t)length);
    if (same_text(p, q) && !memcmp(mine, other, sizeof mine) && right) return;
    printf("%" PRId64 " in a room of %zu\n", n, room);
    differ("digits", NULL);
}

static void compare_numbers(unsigned long count)
{
    for (unsigned long i = 0; i < count; i++) {
        int64_t x = some_number(), y = some_number(), z = some_number();
        aral_double p = aral_panel(x), q = plain_panel(x);
        aral_point v = aral_chart(x, y, z), w = plain_chart(x, y, z);
        tally.calls += 3;
        tally.numbers++;
        if (p.exact != q.exact || memcmp(&p.low, &q.low, 2 * sizeof p.low) || !right_doubles(x, &p)) {
            printf("%" PRId64 ": library %u %a %a, ", x, p.exact, p.low, p.high);
            printf("plain %u %a %a\n", q.exact, q.low, q.high);
            differ("a number's doubles", NULL);
        }
        if (memcmp(&v, &w, sizeof v)) {
            printf("%" PRId64 " %" PRId64 " %" PRId64 "\n", x, y, z);
            differ("a chart point", NULL);
        }
        compare_digits(x, (size_t)pick(&die, 0, 24));
        compare_pairs();
    }
}

static void print_choosing(void)
{
    unsigned long more = 0;
    for (int faces = 10; faces <= ARAL_FACES_MOST; faces++) more += tally.choosing[faces];
    printf("accepted with 7 faces that choose %lu, with 8 %lu, with 9 %lu, with more %lu; ", tally.choosing[7],
           tally.choosing[8], tally.choosing[9], more);
    printf("with at most 8, and others for a wind that does not blow that make it more, %lu\n", tally.idle);
}

int main(int argc, char **argv)
{
    if (argc != 5) {
        fprintf(stderr, "compare SEED SHEETS QUESTIONS NUMBERS\n");
        return 2;
    }
    die.state = strtoull(argv[1], NULL, 10);
    printf("seed %s\n", argv[1]);
    compare_tables();
    compare_sheets(strtoul(argv[2], NULL, 10));
    compare_questions(strtoul(argv[3], NULL, 10));
    compare_numbers(strtoul(argv[4], NULL, 10));
    printf("%lu sheets, %lu of them opening with V, %lu with a single slope, %lu square: ", tally.sheets, tally.high,
           tally.single, tally.square);
    printf("%lu accepted, refused by number", tally.accepted);
    for (int number = 1; number <= 8; number++)
        if (number != ARAL_ROOM) printf(" %d: %lu", number, tally.refused[number]);
    printf("\naccepted of year 1: %lu, 2: %lu, 3: %lu, 4: %lu; totals of more than 64 bits: %lu\n", tally.of_year[1],
           tally.of_year[2], tally.of_year[3], tally.of_year[4], tally.wide);
    printf("%lu jobs walked through every case; of %lu with more than 24 faces %lu\n", tally.walked, tally.over,
           tally.walked_over);
    print_choosing();
    printf("%lu questions, %lu of them answered; %lu numbers; %lu calls compared: all the same\n", tally.questions,
           tally.answered, tally.numbers, tally.calls);
    return 0;
}
