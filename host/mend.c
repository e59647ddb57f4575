/* Mends a sheet by the library and says in words what changed. The list has a line, a kind and a place for each byte;
   here the bytes of a line are told together, and those of a file with CRLF line ends in one line for all. */
#define _POSIX_C_SOURCE 200809L
#include "mend.h"
#include "edit.h"
#include "words.h"
#include <inttypes.h>
#include <stdio.h>
#include <stdlib.h>
#include <string.h>
#include <unistd.h>

/* A return at its line's end is told as a kind of its own. */
enum { LINE_RETURN = ARAL_MEND_END + 1, KINDS };
enum { LINES_TOLD = 24, PLACES_TOLD = 8, RETURNS_TOLD = 3 };

typedef struct { aral_mended answer; uint8_t *text; uint64_t *list; } mending;

static int mended(const uint8_t *sheet, size_t n, mending *m)
{
    m->text = malloc(n + 1);
    m->list = calloc(n + 1, 3 * sizeof *m->list);
    if (!m->text || !m->list) return 0;
    m->answer = aral_mend(sheet, n, m->text, n + 1, m->list, 3 * (n + 1));
    return m->answer.number == 0;
}

static void release(mending *m)
{
    free(m->text);
    free(m->list);
}

/* ---- How many of which kind ---- */

static void print_count(int kind, uint64_t count)
{
    static const char *const one[] = {"", "a carriage return", "a space", "a plus", "a zero", "a line end",
                                      "a carriage return"};
    static const char *const more[] = {"", "carriage returns", "spaces", "pluses", "zeros", "line ends",
                                       "carriage returns"};
    if (count == 1) printf("%s", one[kind]);
    else printf("%" PRIu64 " %s", count, more[kind]);
}

static uint64_t count_of(const uint64_t *list, uint64_t changes, int kind)
{
    uint64_t count = 0;
    for (uint64_t i = 0; i < changes; i++) count += list[3 * i + 1] == (uint64_t)kind;
    return count;
}

/* What is taken out, as `2 spaces, a plus and a zero`. */
static void print_taken(const mending *m)
{
    int kinds = 0, told = 0;
    uint64_t count[ARAL_MEND_END];
    for (int kind = ARAL_MEND_RETURN; kind < ARAL_MEND_END; kind++)
        kinds += (count[kind] = count_of(m->list, m->answer.changes, kind)) > 0;
    for (int kind = ARAL_MEND_RETURN; kind < ARAL_MEND_END; kind++) {
        if (!count[kind]) continue;
        printf("%s", told == 0 ? "" : told + 1 < kinds ? ", " : " and ");
        print_count(kind, count[kind]);
        told++;
    }
}

/* `adding` where an end is added and nothing taken out, `also` where something is. */
static void print_changes(const mending *m, const char *taking, const char *also, const char *adding)
{
    uint64_t added = count_of(m->list, m->answer.changes, ARAL_MEND_END);
    if (m->answer.changes > added) printf("%s", taking);
    print_taken(m);
    if (added) printf("%s", m->answer.changes > added ? also : adding);
}

/* ---- Where ---- */

/* Gives returns at a line's end their own kind, in the list, and answers how many there are. */
static uint64_t mark_line_returns(mending *m, const uint8_t *sheet, size_t n)
{
    const uint8_t *start = sheet, *end = sheet + n;
    uint64_t line = 1, count = 0;
    for (uint64_t i = 0; i < m->answer.changes; i++) {
        uint64_t *change = m->list + 3 * i;
        for (; line < change[0]; line++) start = (const uint8_t *)memchr(start, '\n', (size_t)(end - start)) + 1;
        const uint8_t *next = start + change[2];
        if (change[1] != ARAL_MEND_RETURN || (next < end && *next != '\n')) continue;
        change[1] = LINE_RETURN;
        count++;
    }
    return count;
}

static uint64_t lines_of(const uint8_t *sheet, size_t n)
{
    uint64_t lines = n > 0 && sheet[n - 1] != '\n';
    for (size_t i = 0; i < n; i++) lines += sheet[i] == '\n';
    return lines;
}

/* The places of one kind in a line, as `3, 5 to 9 and 12`; of very many the first ones. */
static void print_places(const uint64_t *list, uint64_t changes, int kind)
{
    struct { uint64_t from, to; } run[PLACES_TOLD + 1];
    int runs = 0;
    for (uint64_t i = 0; i < changes && runs <= PLACES_TOLD; i++) {
        uint64_t place = list[3 * i + 2];
        if (list[3 * i + 1] != (uint64_t)kind) continue;
        if (runs > 0 && place == run[runs - 1].to + 1) run[runs - 1].to = place;
        else run[runs].from = run[runs].to = place, runs++;
    }
    printf(" at ");
    for (int i = 0; i < runs && i < PLACES_TOLD; i++) {
        printf("%s%" PRIu64, i == 0 ? "" : i + 1 < runs ? ", " : " and ", run[i].from);
        if (run[i].to > run[i].from) printf(" to %" PRIu64, run[i].to);
    }
    if (runs > PLACES_TOLD) printf(" and on");
}

static void print_kind(const uint64_t *list, uint64_t changes, int kind, uint64_t count)
{
    print_count(kind, count);
    if (kind == ARAL_MEND_END) printf(" added");
    if (kind == LINE_RETURN) printf(" at its end");
    else print_places(list, changes, kind);
}

/* The changes of one line, by kind; those at the line's end come last. Answers whether there was one to be told. */
static int tell_line(const uint64_t *list, uint64_t changes, int with_line_returns)
{
    static const int order[] = {
        ARAL_MEND_RETURN, ARAL_MEND_SPACE, ARAL_MEND_PLUS, ARAL_MEND_ZERO, LINE_RETURN, ARAL_MEND_END};
    int told = 0;
    for (size_t k = 0; k < sizeof order / sizeof *order; k++) {
        uint64_t count = count_of(list, changes, order[k]);
        if (!count || (order[k] == LINE_RETURN && !with_line_returns)) continue;
        if (told) printf("; ");
        else printf("  line %" PRIu64 ": ", list[0]);
        print_kind(list, changes, order[k], count);
        told = 1;
    }
    if (told) printf("\n");
    return told;
}

/* Line by line, up to LINES_TOLD of them. */
static void tell_lines(const mending *m, int with_line_returns)
{
    uint64_t told = 0, at = 0, next;
    for (; at < m->answer.changes && told < LINES_TOLD; at = next) {
        for (next = at; next < m->answer.changes && m->list[3 * next] == m->list[3 * at];) next++;
        told += (uint64_t)tell_line(m->list + 3 * at, next - at, with_line_returns);
    }
    if (at < m->answer.changes)
        printf("  and on, from line %" PRIu64 " to line %" PRIu64 "\n", m->list[3 * at],
               m->list[3 * (m->answer.changes - 1)]);
}

static void tell_changes(mending *m, const uint8_t *sheet, size_t n)
{
    print_changes(m, "taken out: ", "; added: a line end", "added: a line end");
    printf("\n");
    uint64_t returns = mark_line_returns(m, sheet, n), lines = lines_of(sheet, n);
    if (returns > RETURNS_TOLD) {
        if (returns == lines) printf("  all %" PRIu64 " lines", lines);
        else printf("  %" PRIu64 " of %" PRIu64 " lines", returns, lines);
        printf(": a carriage return at the end of each\n");
    }
    tell_lines(m, returns <= RETURNS_TOLD);
}

/* ---- The commands ---- */

int show_mended(const uint8_t *sheet, size_t n)
{
    mending m;
    if (!mended(sheet, n, &m)) {
        fprintf(stderr, "aral: there is no memory to mend it in\n");
        return MISUSED;
    }
    int written = fwrite(m.text, 1, m.answer.length, stdout) == m.answer.length && !fflush(stdout);
    dup2(STDERR_FILENO, STDOUT_FILENO);
    if (!written) printf("aral: the mended sheet can't be written\n");
    aral_answer refusal = {m.answer.refused_number, m.answer.refused_line};
    if (m.answer.changes) tell_changes(&m, sheet, n);
    fputs(m.answer.changes ? "Mended, the sheet is " : "There was nothing to mend: the sheet is ", stdout);
    if (refusal.number) explain_refusal(m.text, m.answer.length, refusal);
    else printf("accepted.\n");
    release(&m);
    return written && !refusal.number ? ACCEPTED : REFUSED;
}

/* What would be done and what then comes of it. */
static void tell_help(const mending *m)
{
    const aral_mended *a = &m->answer;
    print_changes(m, "\n`aral mend` would take out ", ", and add a line end", "\n`aral mend` would add a line end");
    printf(".\nThe sheet would then be ");
    if (a->refused_number)
        printf("refused with %u at line %u: %s.\n", a->refused_number, a->refused_line, title_of(a->refused_number));
    else printf("accepted.\n");
}

void tell_mending(const uint8_t *sheet, size_t n, aral_answer refusal)
{
    mending m;
    int known = mended(sheet, n, &m);
    if (known && (m.answer.refused_number != refusal.number || m.answer.refused_line != refusal.line)) tell_help(&m);
    release(&m);
}
