/* Asks the library and the plain calculator where a sheet's first fault lies: places SEED SHEETS. Sheets of all years,
   with a number that is not allowed, with damage, and with slips of the keyboard, lie against pages that can't be
   touched. Every number of the two answers must be the same, and right by itself. It stops where something differs. */
#include "aralimogga.h"
#include "fence.h"
#include "plain.h"
#include "sheets.h"
#include "slipped.h"
#include <inttypes.h>
#include <stdio.h>
#include <stdlib.h>
#include <string.h>

static dice die;
static struct { unsigned long sheets, accepted, refused[9], whole, missing, ranges, empty, of_section[128]; } tally;

static void show(const char *whose, const aral_place *p)
{
    printf("%s %u %u, section %u, entry %u, field %u, ", whose, p->number, p->line, p->section, p->entry, p->field);
    printf("from %" PRIu64 " to %" PRIu64 ", %" PRId64 " to %" PRId64 "\n", p->from, p->to, p->least, p->greatest);
}

static void differ(const char *what, const text *t)
{
    printf("DIFFERENT: %s\n", what);
    for (size_t i = 0; i < t->length && i < 3000; i++) {
        uint8_t byte = t->byte[i];
        if (byte == '\n' || (byte >= ' ' && byte < 127)) putchar(byte);
        else printf("<%02x>", byte);
    }
    printf("<end, %zu bytes>\n", t->length);
    exit(1);
}

static int same_place(const aral_place *p, const aral_place *q)
{
    return p->number == q->number && p->line == q->line && p->section == q->section && p->entry == q->entry
        && p->field == q->field && p->from == q->from && p->to == q->to && p->least == q->least
        && p->greatest == q->greatest;
}

/* The bytes before the field have one LF less than the lines; the field has none, nor a space, and ends where it says.
   A line as a whole starts after an LF. */
static int right_bytes(const text *t, const aral_place *p)
{
    uint64_t lines = 1;
    if (p->from > p->to || p->to > t->length) return 0;
    for (size_t i = 0; i < p->from; i++) lines += t->byte[i] == '\n';
    if (lines != p->line) return 0;
    for (size_t i = p->from; i < p->to; i++)
        if (t->byte[i] == '\n' || (p->field && t->byte[i] == ' ')) return 0;
    if (!p->field && p->from > 0 && t->byte[p->from - 1] != '\n') return 0;
    return p->to == t->length || t->byte[p->to] == '\n' || (p->field && t->byte[p->to] == ' ');
}

/* A number that is refused for its range is outside the one that is told. */
static int right_range(const text *t, const aral_place *p)
{
    char digits[16] = "";
    if (p->number == ARAL_FORM || (p->least == 0 && p->greatest == 0 && p->number != ARAL_ROOF)) return 1;
    memcpy(digits, t->byte + p->from, p->to - p->from < 15 ? p->to - p->from : 15);
    long value = strtol(digits, NULL, 10);
    return value < p->least || value > p->greatest;
}

static void compare(const text *t)
{
    int after = (int)pick(&die, 0, 1);
    const uint8_t *sheet = lend(t->byte, t->length, after);
    aral_place p = aral_where(t->length ? sheet : NULL, t->length), q = plain_where(t->byte, t->length);
    aral_answer read = plain_read(t->byte, t->length);
    if (!same_place(&p, &q)) {
        show("library", &p);
        show("  plain", &q);
        differ("where the fault lies", t);
    }
    if (p.number != read.number || p.line != read.line) differ("the refusal and that of reading", t);
    if (!p.number && (p.section || p.entry || p.field || p.from || p.to || p.least || p.greatest))
        differ("a place in an accepted sheet", t);
    if (p.number && (!right_bytes(t, &p) || !right_range(t, &p))) {
        show("both", &p);
        differ("a place that can't be", t);
    }
    tally.sheets++;
    tally.accepted += !p.number;
    if (!p.number) return;
    tally.refused[p.number]++;
    tally.whole += !p.field;
    tally.missing += p.field && p.from == p.to;
    tally.ranges += p.greatest != 0;
    tally.empty += p.least > p.greatest;
    tally.of_section[p.section & 127]++;
}

/* By turns one number that is not allowed, damage, slips, and several of them. */
static void make(unsigned long i, text *t)
{
    static sample s;
    make_sample(&die, &s);
    if (i % 4 != 1) spoil(&die, &s);
    if (i % 8 == 7) spoil(&die, &s);
    write_sample(&s, t);
    if (i % 4 == 1 || i % 8 == 2) damage(&die, t);
    if (i % 8 == 3 && t->length > 0) put_slips_in(&die, t);
}

int main(int argc, char **argv)
{
    static text t;
    if (argc != 3) {
        fprintf(stderr, "places SEED SHEETS\n");
        return 2;
    }
    die.state = strtoull(argv[1], NULL, 10);
    make_fences();
    for (unsigned long i = 0, sheets = strtoul(argv[2], NULL, 10); i < sheets; i++) {
        make(i, &t);
        compare(&t);
    }
    printf("seed %s: %lu places on both calculators; accepted %lu, refused", argv[1], tally.sheets, tally.accepted);
    for (int number = 1; number <= 8; number++) printf(" %d: %lu", number, tally.refused[number]);
    printf("\nlines as a whole %lu, nothing there %lu, ranges %lu, empty ones %lu; section", tally.whole, tally.missing,
           tally.ranges, tally.empty);
    for (const char *section = "VBWIPF"; *section; section++)
        printf(" %c: %lu", *section, tally.of_section[(int)*section]);
    printf(" none: %lu\n", tally.of_section[0]);
    return 0;
}
