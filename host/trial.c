/* Changes a copy of a sheet and asks the library about it again. So what is said of a refusal never goes by a rule that
   stands here: whether a change helps, and what the lines before a fault say, is the library's answer. */
#include "trial.h"
#include "edit.h"
#include "words.h"
#include <inttypes.h>
#include <stdio.h>
#include <stdlib.h>
#include <string.h>

enum { SPARE = 4096, STEPS = 100 };

/* ---- The copy ---- */

static uint8_t *memory(uint8_t *old, size_t size)
{
    uint8_t *got = realloc(old, size);
    if (got) return got;
    fprintf(stderr, "aral: there is no memory\n");
    exit(MISUSED);
}

trial try_text(const uint8_t *byte, size_t n)
{
    trial t = {memory(NULL, n + SPARE), n, n + SPARE};
    if (n > 0) memcpy(t.byte, byte, n);
    return t;
}

void give_back_trial(trial *t) { free(t->byte); }

void splice(trial *t, size_t at, size_t gone, const void *byte, size_t n)
{
    if (t->n - gone + n > t->room) {
        t->room = t->n + n + SPARE;
        t->byte = memory(t->byte, t->room);
    }
    memmove(t->byte + at + n, t->byte + at + gone, t->n - at - gone);
    if (n > 0) memcpy(t->byte + at, byte, n);
    t->n = t->n - gone + n;
}

aral_place where(const trial *t) { return aral_where(t->byte, t->n); }

/* ---- Lines ---- */

size_t line_start(const uint8_t *sheet, size_t at)
{
    while (at > 0 && sheet[at - 1] != '\n') at--;
    return at;
}

size_t line_end(const uint8_t *sheet, size_t n, size_t at)
{
    const uint8_t *end = at < n ? memchr(sheet + at, '\n', n - at) : NULL;
    return end ? (size_t)(end - sheet) : n;
}

size_t start_above(const uint8_t *sheet, size_t at, uint32_t back)
{
    at = line_start(sheet, at);
    for (; back > 0 && at > 0; back--) at = line_start(sheet, at - 1);
    return at;
}

int is_missing(const uint8_t *sheet, size_t n, const aral_place *p)
{
    return p->section && !p->field && p->from == n && line_start(sheet, n) == n;
}

int is_unended(size_t n, const aral_place *p) { return p->section && !p->field && p->to == n && p->from < n; }

/* ---- Fields ---- */

void put_field(trial *t, const aral_place *p, const char *word)
{
    int missing = p->from == p->to && p->from == line_end(t->byte, t->n, p->from) && p->from > 0
               && t->byte[p->from - 1] != ' ' && t->byte[p->from - 1] != '\n';
    splice(t, p->from, p->to - p->from, word, strlen(word));
    if (missing) splice(t, p->from, 0, " ", 1);
}

const char *some_word(const aral_place *p)
{
    static char word[24];
    if (p->entry == 0 && p->field == 1) snprintf(word, sizeof word, "%c", p->section);
    else if (is_zone(p)) snprintf(word, sizeof word, "A");
    else snprintf(word, sizeof word, "%" PRId64, p->least);
    return word;
}

/* Adds a line where one is missing, or mends a field of what was added. */
static void fill_in(trial *t, const aral_place *p)
{
    const char *line = example_of(p, 0);
    if (!is_missing(t->byte, t->n, p)) {
        if (p->field && p->number == ARAL_FORM && p->least == 0 && p->greatest == 0 && p->field > 2)
            splice(t, p->from - 1, line_end(t->byte, t->n, p->from) - p->from + 1, "", 0);
        else put_field(t, p, some_word(p));
        return;
    }
    splice(t, t->n, 0, line, strlen(line));
    splice(t, t->n, 0, "\n", 1);
}

int job_before(const uint8_t *sheet, const aral_place *p, aral_job *job)
{
    static aral_edited opened;
    trial t = try_text(sheet, p->section ? start_above(sheet, p->from, p->entry) : p->from);
    aral_place q = where(&t);
    for (int steps = 0; q.number && steps < STEPS; steps++) {
        fill_in(&t, &q);
        q = where(&t);
    }
    opened = aral_open(t.byte, t.n);
    give_back_trial(&t);
    *job = opened.worksheet.job;
    return opened.number == 0;
}
