/* The plain calculator's mending: four passes over the text, one after another, as the paper lists them. Each marks the
   bytes that go and then closes up what is left. Beside each byte stands where it was received, so the list is written
   at the end from the marks. It takes memory for that, which the library does without. */
#include "plain.h"
#include <stdio.h>
#include <stdlib.h>
#include <string.h>

enum { ROOM = 7 };
enum { STAYS, RETURN, SPACE, PLUS, ZERO, END };

/* What the passes so far have left: its bytes, and where each was received. Of each byte received, by that place: the
   kind of the pass that took it out, or STAYS. */
typedef struct { uint8_t *byte; size_t *from, length; uint8_t *kind; } left;

static void *memory(size_t count, size_t size)
{
    void *got = calloc(count + 1, size);
    if (got) return got;
    fprintf(stderr, "no memory to be had\n");
    exit(2);
}

static left all_of(const uint8_t *sheet, size_t n)
{
    left t = {memory(n, 1), memory(n, sizeof *t.from), n, memory(n, 1)};
    for (size_t i = 0; i < n; i++) {
        t.byte[i] = sheet[i];
        t.from[i] = i;
    }
    return t;
}

static void release(left *t)
{
    free(t->byte);
    free(t->from);
    free(t->kind);
}

static void mark(left *t, size_t i, uint8_t kind) { t->kind[t->from[i]] = kind; }

static void close_up(left *t)
{
    size_t kept = 0;
    for (size_t i = 0; i < t->length; i++) {
        if (t->kind[t->from[i]] != STAYS) continue;
        t->byte[kept] = t->byte[i];
        t->from[kept++] = t->from[i];
    }
    t->length = kept;
}

/* ---- What the passes see ---- */

static int is_digit(uint8_t byte) { return byte >= '0' && byte <= '9'; }

static int ends_line(const left *t, size_t i) { return i == t->length || t->byte[i] == '\n'; }

static int ends_field(const left *t, size_t i) { return ends_line(t, i) || t->byte[i] == ' '; }

static int opens_field(const left *t, size_t i) { return i == 0 || ends_field(t, i - 1); }

static int only_spaces_on(const left *t, size_t i)
{
    while (!ends_line(t, i))
        if (t->byte[i++] != ' ') return 0;
    return 1;
}

static int only_digits_on(const left *t, size_t i)
{
    while (!ends_field(t, i))
        if (!is_digit(t->byte[i++])) return 0;
    return 1;
}

/* ---- The passes ---- */

static void mark_returns(left *t)
{
    for (size_t i = 0; i < t->length; i++)
        if (t->byte[i] == '\r') mark(t, i, RETURN);
}

static void mark_spaces(left *t)
{
    for (size_t i = 0; i < t->length; i++)
        if (t->byte[i] == ' ' && ((i > 0 && t->byte[i - 1] == ' ') || only_spaces_on(t, i))) mark(t, i, SPACE);
}

static void mark_pluses(left *t)
{
    for (size_t i = 0; i + 1 < t->length; i++)
        if (t->byte[i] == '+' && opens_field(t, i) && is_digit(t->byte[i + 1])) mark(t, i, PLUS);
}

static void mark_zeros(left *t)
{
    for (size_t i = 0; i < t->length; i++) {
        if (!opens_field(t, i)) continue;
        size_t digit = t->byte[i] == '-' ? i + 1 : i;
        if (!only_digits_on(t, digit)) continue;
        for (; digit + 1 < t->length && t->byte[digit] == '0' && is_digit(t->byte[digit + 1]); digit++)
            mark(t, digit, ZERO);
    }
}

static void mend_all(left *t)
{
    static void (*const pass[])(left *) = {mark_returns, mark_spaces, mark_pluses, mark_zeros};
    for (int i = 0; i < 4; i++) {
        pass[i](t);
        close_up(t);
    }
}

/* ---- The list ---- */

/* The changes, and the end if one is added, written where there is a list. Answers how many there are. */
static uint64_t list_changes(const left *t, const uint8_t *sheet, size_t n, int added, uint64_t *list)
{
    uint64_t line = 1, place = 1, count = 0;
    for (size_t i = 0; i < n + (size_t)added; i++) {
        uint8_t kind = i < n ? t->kind[i] : END;
        if (kind != STAYS && list) memcpy(list + 3 * count, (uint64_t[]){line, kind, place}, 3 * sizeof *list);
        count += kind != STAYS;
        place++;
        if (i < n && sheet[i] == '\n') line++, place = 1;
    }
    return count;
}

aral_mended ENTRY(mend)(const uint8_t *sheet, size_t n, uint8_t *out, size_t room, uint64_t *list, size_t list_room)
{
    left t = all_of(sheet, n);
    mend_all(&t);
    int added = t.length > 0 && t.byte[t.length - 1] != '\n';
    aral_mended m = {.length = t.length + (size_t)added, .changes = list_changes(&t, sheet, n, added, NULL)};
    if (m.length > room || 3 * m.changes > list_room) {
        release(&t);
        return (aral_mended){.number = ROOM};
    }
    if (t.length > 0) memcpy(out, t.byte, t.length);
    if (added) out[t.length] = '\n';
    if (m.changes > 0) list_changes(&t, sheet, n, added, list);
    release(&t);
    aral_answer read = ENTRY(read)(out, m.length);
    m.refused_number = read.number;
    m.refused_line = read.line;
    return m;
}
