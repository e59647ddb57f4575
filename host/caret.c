/* Shows a line with a mark under the bytes at fault. Bytes that a screen would not show are written as `<CR>`, `<TAB>`,
   `<a0>`, spaces at the line's end as `<SPACE>`; of a long line the part around the fault. */
#include "caret.h"
#include <stdio.h>
#include <string.h>

enum { WIDE = 76, BEFORE = 40, TOLD = 40 }; /* how much is shown of a line, before its fault, and of a field */

/* How a byte is shown. */
static const char *shown(uint8_t byte, int at_end)
{
    static char text[8];
    if (byte == '\r') return "<CR>";
    if (byte == '\t') return "<TAB>";
    if (byte == ' ' && at_end) return "<SPACE>";
    snprintf(text, sizeof text, byte < ' ' || byte > '~' ? "<%02x>" : "%c", byte);
    return text;
}

/* Where the spaces at the line's end begin. */
static size_t tail_of(const shown_line *l)
{
    size_t tail = l->length;
    while (!l->more && tail > 0 && l->byte[tail - 1] == ' ') tail--;
    return tail;
}

static size_t width_of(const shown_line *l, size_t tail, size_t from, size_t to)
{
    size_t width = 0;
    for (size_t i = from; i < to; i++) width += strlen(shown(l->byte[i], i >= tail));
    return width;
}

/* The part that is shown: all of the line, or what is around the fault. */
static void part_of(const shown_line *l, size_t tail, size_t *start, size_t *end)
{
    size_t width = 0;
    *start = l->from;
    for (; *start > 0 && width <= BEFORE; --*start) width += strlen(shown(l->byte[*start - 1], *start - 1 >= tail));
    if (l->length <= WIDE && width_of(l, tail, 0, l->from) <= BEFORE) *start = 0;
    for (*end = *start, width = 0; *end < l->length && width < WIDE; ++*end)
        width += strlen(shown(l->byte[*end], *end >= tail));
}

static void print_mark(int gutter, size_t before, size_t width, const char *label)
{
    printf("%*s| %*s^", gutter, "", (int)before, "");
    for (size_t i = 1; i < width; i++) putchar('^');
    printf(" %s\n", label);
}

void show_line(const shown_line *l)
{
    size_t start, end, tail = tail_of(l), mark;
    int gutter = printf("\n  line %u ", l->number) - 1;
    part_of(l, tail, &start, &end);
    printf("| ");
    mark = start > 0 ? (size_t)printf(".. ") : 0;
    if (!l->there) printf("(the sheet ends before this line)");
    for (size_t i = start; i < end; i++) printf("%s", shown(l->byte[i], i >= tail));
    if (start > 0 || end < l->length || l->more) printf(" .. (%zu bytes)", l->length + l->more);
    if (l->there && !l->ended) printf("<no line end>");
    printf("\n");
    mark += width_of(l, tail, start, l->from < end ? l->from : end);
    print_mark(gutter, mark, width_of(l, tail, l->from, l->to < end ? l->to : end), l->label);
    printf("\n");
}

void print_bytes(const uint8_t *byte, size_t n)
{
    size_t i = 0;
    printf("`");
    for (size_t width = 0; i < n && width < TOLD; i++) {
        width += strlen(shown(byte[i], 0));
        printf("%s", shown(byte[i], 0));
    }
    printf("%s`", i < n ? ".." : "");
}
