/* Mends texts by the library and by the plain calculator: mends SEED TEXTS LENGTH BYTES. First every text up to LENGTH
   over the bytes that matter, then TEXTS sheets with slips put in and as many others, then texts of so many BYTES, at
   most a megabyte. All three buffers are lent against pages that can't be touched. Answer, text and list must be the
   same, and must keep what mending promises. It stops where something is not so. */
#define _POSIX_C_SOURCE 199309L
#include "aralimogga.h"
#include "fence.h"
#include "plain.h"
#include "seconds.h"
#include "sheets.h"
#include "slipped.h"
#include <inttypes.h>
#include <stdio.h>
#include <stdlib.h>
#include <string.h>

enum { MOST = 1 << 20, BESIDE = 64 };
static fence received, text_room, list_room;
static dice die;
static struct {
    unsigned long texts, calls, unchanged, accepted, helped, same, kind[ARAL_MEND_END + 1], undone;
} tally;

/* ---- One call ---- */

/* A text mended: what was answered, and copies of what was written. */
typedef struct { aral_mended answer; uint8_t text[MOST + 1]; uint64_t list[3 * (MOST + 1)]; } mending;

static void print_text(const uint8_t *byte, size_t n)
{
    for (size_t i = 0; i < n && i < 2000; i++) {
        if (byte[i] == '\n') printf("\\n");
        else if (byte[i] < ' ' || byte[i] > '~') printf("\\x%02x", byte[i]);
        else putchar(byte[i]);
    }
    printf("%s\n", n > 2000 ? " .." : "");
}

static void differ(const char *what, const uint8_t *byte, size_t n)
{
    printf("DIFFERENT: %s\n%zu bytes: ", what, n);
    print_text(byte, n);
    exit(1);
}

static int same_answer(const aral_mended *p, const aral_mended *q)
{
    return p->number == q->number && p->line == q->line && p->length == q->length && p->changes == q->changes
        && p->refused_number == q->refused_number && p->refused_line == q->refused_line;
}

/* The text stands against the end of its fence, or its start, and can't be looked at past it. */
static const uint8_t *lend_text(const uint8_t *byte, size_t n)
{
    uint8_t *at = pick(&die, 0, 1) ? received.end - n : received.start;
    memmove(at, byte, n);
    return at;
}

/* One call of the library with rooms of this size, after which the buffers must begin with what is expected and have
   all else as it was. A pointer to nothing is null. */
static void ask(const uint8_t *lent, size_t n, size_t room, size_t numbers, const mending *expected)
{
    int after = (int)pick(&die, 0, 1), list_after = (int)pick(&die, 0, 1);
    const aral_mended *e = &expected->answer;
    size_t size = numbers * sizeof(uint64_t);
    uint8_t *out = lend_within(text_room, room + BESIDE, room, after);
    uint8_t *list = lend_within(list_room, size + BESIDE, size, list_after);
    aral_mended m = aral_mend(n ? lent : NULL, n, room ? out : NULL, room, numbers ? (uint64_t *)(void *)list : NULL,
                              numbers);
    tally.calls++;
    if (!same_answer(&m, e)) {
        printf("library %u %u, %" PRIu64 " bytes, %" PRIu64 " changes, %u %u\n", m.number, m.line, m.length, m.changes,
               m.refused_number, m.refused_line);
        printf("  plain %u %u, %" PRIu64 " bytes, %" PRIu64 " changes, %u %u\n", e->number, e->line, e->length,
               e->changes, e->refused_number, e->refused_line);
        differ("the answers", lent, n);
    }
    if (memcmp(out, expected->text, e->length)) differ("the mended texts", lent, n);
    if (memcmp(list, expected->list, 3 * e->changes * sizeof(uint64_t))) differ("the lists", lent, n);
    check_within(text_room, room + BESIDE, out, after, expected->text, e->length);
    check_within(list_room, size + BESIDE, list, list_after, expected->list, 3 * e->changes * sizeof(uint64_t));
}

/* Rooms that just suffice, and longer ones; one short of either, and of both, which leaves both as they were. */
static void ask_rooms(const uint8_t *lent, size_t n, const mending *m)
{
    static const mending refused = {.answer = {.number = ARAL_ROOM}};
    size_t length = m->answer.length, numbers = 3 * m->answer.changes;
    ask(lent, n, length, numbers, m);
    ask(lent, n, length + (size_t)pick(&die, 0, 40), numbers + (size_t)pick(&die, 0, 40), m);
    if (length > 0) ask(lent, n, length - 1, numbers, &refused);
    if (length > 0) ask(lent, n, (size_t)pick(&die, 0, (int64_t)length - 1), numbers + 1, &refused);
    if (numbers > 0) ask(lent, n, length, numbers - 1, &refused);
    if (numbers > 0) ask(lent, n, length + 1, (size_t)pick(&die, 0, (int64_t)numbers - 1), &refused);
    if (length > 0 && numbers > 0) ask(lent, n, length - 1, numbers - 1, &refused);
}

/* ---- What mending promises ---- */

/* What was received, from text and list alone: at the place of a change the byte that its kind takes out is put in, or
   the end that was added left out. Answers its length. */
static size_t undo(const mending *m, uint8_t *out)
{
    static const uint8_t taken[] = {0, '\r', ' ', '+', '0'};
    const uint64_t *change = m->list, *last = m->list + 3 * m->answer.changes;
    uint64_t line = 1, place = 1;
    size_t n = 0, at = 0;
    while (at < m->answer.length || change < last) {
        int here = change < last && change[0] == line && change[2] == place;
        if (here && change[1] == ARAL_MEND_END) return n;
        if (!here && at == m->answer.length) return n;
        out[n] = here ? taken[change[1]] : m->text[at++];
        if (here) change += 3;
        place++;
        if (out[n++] == '\n') line++, place = 1;
    }
    return n;
}

static void check_list(const mending *m, const uint8_t *byte, size_t n)
{
    for (size_t i = 0; i < m->answer.changes; i++) {
        const uint64_t *c = m->list + 3 * i;
        if (c[1] < ARAL_MEND_RETURN || c[1] > ARAL_MEND_END) differ("a kind that is none", byte, n);
        if (c[1] == ARAL_MEND_END && i + 1 < m->answer.changes) differ("an end before the last change", byte, n);
        if (i > 0 && (c[0] < c[-3] || (c[0] == c[-3] && c[2] <= c[-1]))) differ("places that do not rise", byte, n);
        tally.kind[c[1]]++;
    }
}

static void check_promises(const mending *m, const uint8_t *byte, size_t n)
{
    static uint8_t back[2 * MOST + 2];
    static mending again;
    size_t length = m->answer.length;
    aral_answer before = aral_read(byte, n), after = aral_read(m->text, length);
    check_list(m, byte, n);
    if (undo(m, back) != n || memcmp(back, byte, n)) differ("text and list give back another text", byte, n);
    if (after.number != m->answer.refused_number || after.line != m->answer.refused_line)
        differ("the refusal beside the list and that of the mended text", byte, n);
    again.answer = aral_mend(m->text, length, again.text, MOST + 1, again.list, 3 * (MOST + 1));
    if (again.answer.changes || again.answer.length != length || memcmp(again.text, m->text, length))
        differ("mended again it is not the same", byte, n);
    if (before.number == 0 && m->answer.changes) differ("an accepted sheet changed", byte, n);
    if (!m->answer.changes && (length != n || memcmp(m->text, byte, n))) differ("changed without a change", byte, n);
    tally.undone += m->answer.changes > 0;
    tally.unchanged += m->answer.changes == 0;
    tally.accepted += before.number == 0;
    tally.helped += before.number != 0 && after.number == 0;
}

/* The text as the plain calculator mends it, held against the library in rooms of every kind. */
static const mending *try_text(const uint8_t *byte, size_t n)
{
    static mending m;
    const uint8_t *lent = lend_text(byte, n);
    m.answer = plain_mend(byte, n, m.text, MOST + 1, m.list, 3 * (MOST + 1));
    ask_rooms(lent, n, &m);
    if (memcmp(lent, byte, n)) differ("what was lent to be read is not as it was", byte, n);
    check_promises(&m, byte, n);
    tally.texts++;
    return &m;
}

/* ---- Texts ---- */

static const char matter[] = {'\r', ' ', '\n', '+', '-', '0', '5', 'A'};
enum { MATTER = sizeof matter };

static unsigned long every_text(size_t longest)
{
    unsigned long tried = 0;
    uint8_t byte[16];
    for (size_t n = 0, count = 1; n <= longest; n++, count *= MATTER)
        for (size_t i = 0; i < count; i++, tried++) {
            for (size_t k = 0, rest = i; k < n; k++, rest /= MATTER) byte[k] = (uint8_t)matter[rest % MATTER];
            try_text(byte, n);
        }
    return tried;
}

/* Some of these bytes, alone and in runs, and in some texts any byte between. */
static size_t soup(uint8_t *byte, size_t n)
{
    int64_t first = pick(&die, 0, MATTER - 1), kinds = pick(&die, 1, MATTER), any = pick(&die, 0, 3) == 0;
    for (size_t i = 0; i < n; i++) {
        byte[i] = any && pick(&die, 0, 9) == 0 ? (uint8_t)roll(&die)
                : (uint8_t)matter[(first + 3 * pick(&die, 0, kinds)) % MATTER];
        for (int64_t run = pick(&die, -12, 4); run > 0 && i + 1 < n; run--, i++) byte[i + 1] = byte[i];
    }
    return n;
}

/* A sheet with slips that mending takes back comes back as it was; one with any damage, and soup, need not. */
static void try_sheet(void)
{
    static sample s;
    static text clean, t;
    static uint8_t byte[4096];
    make_sample(&die, &s);
    write_sample(&s, &clean);
    try_text(clean.byte, clean.length);
    t = clean;
    put_slips_in(&die, &t);
    const mending *m = try_text(t.byte, t.length);
    if (m->answer.length != clean.length || memcmp(m->text, clean.byte, clean.length))
        differ("slips that should all be taken back", t.byte, t.length);
    tally.same++;
    if (pick(&die, 0, 1)) t = clean;
    for (int64_t slips = pick(&die, 1, 4); slips > 0; slips--) damage(&die, &t);
    if (t.length <= sizeof byte) try_text(t.byte, t.length);
    try_text(byte, soup(byte, (size_t)pick(&die, 0, 4096) >> pick(&die, 0, 11)));
}

/* ---- Long texts ---- */

/* A head, a part over and over, and a tail. */
static const struct { const char *name, *head, *part, *tail; } long_texts[] = {
    {"spaces", "", " ", ""}, {"spaces before a letter", "", " ", "x"}, {"spaces and returns", "", " \r", "x"},
    {"zeros", "", "0", ""}, {"zeros behind a minus", "-", "0", "5"}, {"zeros before a letter", "", "0", "A"},
    {"zeros and returns", "", "0\r", "5"}, {"zeros, returns and a letter", "+", "\r0", "A"}, {"fives", "", "5", ""},
    {"returns", "", "\r", ""}, {"a plus, returns and a digit", "+", "\r", "5"}, {"pluses", "", "+", "5"},
    {"pluses and returns", "", "+\r", "5"}, {"many pluses", "", "+5 ", ""}, {"fields of zeros", "", "00 ", ""},
    {"fields that are none of digits", "", "00A ", ""}, {"lines of zeros", "", "-00\n", ""}, {"ends", "", "\n", ""},
    {"lines of spaces", "", "  \r\n", ""}, {"zeros and spaces", "", "0 \r", ""}, {"letters", "", "A", ""},
    {"bad lines", "", "A  0 +01000  0 00 \r\n", ""},
};

static size_t long_text(size_t which, size_t n, uint8_t *byte)
{
    const char *head = long_texts[which].head, *part = long_texts[which].part, *tail = long_texts[which].tail;
    size_t first = strlen(head), size = strlen(part), last = strlen(tail);
    memcpy(byte, head, first);
    for (size_t i = first; i < n - last; i++) byte[i] = (uint8_t)part[(i - first) % size];
    memcpy(byte + n - last, tail, last);
    return n;
}

/* The least processor time of some calls. */
static double time_of(const uint8_t *byte, size_t n, int times)
{
    static mending m;
    double least = 1e9;
    for (int i = 0; i < times; i++) {
        double start = seconds();
        aral_mend(byte, n, m.text, MOST + 1, m.list, 3 * (MOST + 1));
        double took = seconds() - start;
        if (took < least) least = took;
    }
    return least;
}

/* Eight times the bytes may take eight times as long; what grows with the square takes 64 times. The bound is between,
   and is met once in a few tries also on a machine that does other work. */
static void check_linear(const char *name, const uint8_t *small, const uint8_t *large, size_t n)
{
    double ratio = 0;
    for (int tries = 0; tries < 3; tries++) {
        double took = time_of(small, n, 9);
        ratio = time_of(large, 8 * n, 2) / (took > 1e-9 ? took : 1e-9);
        if (ratio < 24) return;
    }
    printf("FAILED: %s take %.0f times as long where there are 8 times as many\n", name, ratio);
    exit(1);
}

static void try_long(size_t n)
{
    static uint8_t small[1 << 13], large[1 << 16], byte[MOST];
    for (size_t i = 0; i < sizeof long_texts / sizeof *long_texts; i++) {
        long_text(i, sizeof small, small);
        long_text(i, sizeof large, large);
        check_linear(long_texts[i].name, small, large, sizeof small);
        try_text(byte, long_text(i, n, byte));
    }
    for (int i = 0; i < 4; i++) try_text(byte, soup(byte, n));
}

int main(int argc, char **argv)
{
    size_t longest = argc == 5 ? strtoul(argv[4], NULL, 10) : 0;
    if (longest < 10 || longest > MOST) {
        fprintf(stderr, "mends SEED TEXTS LENGTH BYTES\n");
        return 2;
    }
    die.state = strtoull(argv[1], NULL, 10);
    printf("seed %s\n", argv[1]);
    make_fences();
    received = make_fence(MOST);
    text_room = make_fence(2 * MOST);
    list_room = make_fence(32 * MOST);
    unsigned long every = every_text(strtoul(argv[3], NULL, 10));
    for (unsigned long i = 0, count = strtoul(argv[2], NULL, 10); i < count; i++) try_sheet();
    try_long(longest);
    printf("%lu texts, %lu of them every one up to length %s; changed %lu and given back from text and list\n",
           tally.texts, every, argv[3], tally.undone);
    printf("sheets accepted and unchanged %lu, refused and accepted once mended %lu, slips all taken back %lu\n",
           tally.accepted, tally.helped, tally.same);
    printf("taken out: returns %lu, spaces %lu, pluses %lu, zeros %lu; ends added %lu\n", tally.kind[1], tally.kind[2],
           tally.kind[3], tally.kind[4], tally.kind[5]);
    printf("%lu calls against pages that can't be touched: all the same\n", tally.calls);
    return 0;
}
