/* The plain calculator's wind roses. A file at hand in one piece is counted line by line, each cut into fields and
   judged as text. A file in parts keeps the bytes of the line that is not ended, four bits for each in what is pending,
   and judges them in the same way at the LF. */
#include "plain.h"
#include <string.h>

enum { FORM = 1, RANGE = 3, TOO_MANY = 11, MOST = 1000000 };
enum { BEAUFORTS = 13, DEGREES = 360, FASTEST = 1000, DIGITS = 7 };

/* Table 2.2.2.2.1, in tenths of m/s: where each Beaufort number begins. */
static const int begins[BEAUFORTS] = {0, 3, 16, 34, 55, 80, 108, 139, 172, 208, 245, 285, 327};

static int beaufort(int speed)
{
    int number = BEAUFORTS - 1;
    while (speed < begins[number]) number--;
    return number;
}

/* Sectors are parted at 11.25, 33.75 and so on, which no whole degree is: in hundredths, 16 of them around. */
static int sector(int degrees)
{
    int number = 0;
    for (int border = 1125; number < 16 && 100 * degrees > border; border += 2250) number++;
    return number % 16;
}

/* ---- One line ---- */

/* A number as a sheet has it, at *at in a line of n bytes; 0 where there is none in form. */
static int take_number(const uint8_t *line, size_t n, size_t *at, int *value)
{
    int negative = *at < n && line[*at] == '-', size = 0;
    size_t first = *at += (size_t)negative;
    while (*at < n && *at - first < DIGITS && line[*at] >= '0' && line[*at] <= '9') {
        size = 10 * size + line[*at] - '0';
        ++*at;
    }
    *value = negative ? -size : size;
    if (*at == first) return 0;
    return line[first] != '0' || (*at - first == 1 && !negative);
}

/* The fault of a line without its LF, or 0 and its cell. */
static int judge(const uint8_t *line, size_t n, int *cell)
{
    int degrees, speed;
    size_t at = 0;
    if (!take_number(line, n, &at, &degrees)) return FORM;
    if (at == n || line[at++] != ' ') return FORM;
    if (!take_number(line, n, &at, &speed) || at < n) return FORM;
    if (degrees < 0 || degrees >= DEGREES || speed < 0 || speed > FASTEST) return RANGE;
    *cell = BEAUFORTS * sector(degrees) + beaufort(speed);
    return 0;
}

static uint32_t one_more(uint32_t count) { return count < UINT32_MAX ? count + 1 : count; }

static void refuse(aral_rose *r, uint32_t number)
{
    r->number = number;
    r->line = one_more(r->accepted);
    r->closed = 1;
}

/* A line counted, or the rose refused and closed. */
static void count_line(aral_rose *r, const uint8_t *line, size_t n)
{
    int cell = 0, fault = judge(line, n, &cell);
    if (!fault && r->accepted >= MOST) fault = TOO_MANY;
    if (fault) {
        refuse(r, (uint32_t)fault);
        return;
    }
    r->cell[cell] = one_more(r->cell[cell]);
    r->accepted = one_more(r->accepted);
}

/* ---- A file in one piece ---- */

aral_rose ENTRY(rose_of)(const uint8_t *file, size_t n, int ended)
{
    aral_rose r = {0};
    size_t at = 0;
    while (at < n && !r.closed) {
        const uint8_t *end = memchr(file + at, '\n', n - at);
        if (!end) break;
        count_line(&r, file + at, (size_t)(end - file) - at);
        at = (size_t)(end - file) + 1;
    }
    if (ended && at < n && !r.closed) refuse(&r, FORM);
    r.closed = 1;
    return r;
}

/* ---- A file in parts ---- */

/* The bytes that a line in form has, by their codes from 1. No such line is longer than two minuses, a space and twice
   7 digits; one that is, or that has another byte, is kept as OTHER alone, for all that counts is that it is there. */
static const char alphabet[] = "0123456789- ";
enum { LONGEST = 2 + 1 + 2 * DIGITS, OTHER = 15, CODES = 16 };

static uint64_t *word_of(aral_rose *r, size_t i) { return i < CODES ? &r->pending.kind : &r->pending.value; }

static uint32_t code_at(aral_rose *r, size_t i) { return (uint32_t)(*word_of(r, i) >> 4 * (i % CODES) & 15); }

static size_t kept_of(aral_rose *r)
{
    size_t kept = 0;
    while (kept < LONGEST && code_at(r, kept)) kept++;
    return kept;
}

static void keep(aral_rose *r, uint8_t byte)
{
    const char *found = byte ? strchr(alphabet, byte) : NULL;
    size_t kept = kept_of(r);
    if (kept > 0 && code_at(r, 0) == OTHER) return;
    if (!found || kept == LONGEST) {
        memset(&r->pending, 0, sizeof r->pending);
        r->pending.kind = OTHER;
        return;
    }
    *word_of(r, kept) |= (uint64_t)(found - alphabet + 1) << 4 * (kept % CODES);
}

/* A code that is none of the alphabet's stands for a byte that is in no line in form. */
static void end_line(aral_rose *r)
{
    uint8_t line[LONGEST];
    size_t kept = kept_of(r);
    for (size_t i = 0; i < kept; i++) {
        uint32_t code = code_at(r, i);
        line[i] = code < sizeof alphabet ? (uint8_t)alphabet[code - 1] : '?';
    }
    memset(&r->pending, 0, sizeof r->pending);
    count_line(r, line, kept);
}

aral_rose ENTRY(rose_new)(void) { return (aral_rose){0}; }

aral_rose ENTRY(rose_take)(aral_rose r, const uint8_t *part, size_t n)
{
    for (size_t i = 0; i < n && !r.closed; i++) {
        if (part[i] == '\n') end_line(&r);
        else keep(&r, part[i]);
    }
    return r;
}

aral_rose ENTRY(rose_end)(aral_rose r)
{
    if (r.closed) return r;
    if (kept_of(&r) > 0) refuse(&r, FORM);
    memset(&r.pending, 0, sizeof r.pending);
    r.closed = 1;
    return r;
}
