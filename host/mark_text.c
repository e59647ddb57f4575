/* Prints the marks of a folder for the terminal and for a spreadsheet. Totals are in newtons, with every digit that
   they have. */
#include "decimal.h"
#include "edit.h"
#include "mark.h"
#include "signs.h"
#include "words.h"
#include <stdio.h>

/* A total without the zeros at its end. */
static const char *total_of_mark(const mark *m, int line, char room[DECIMAL_ROOM])
{
    const char *text = newtons(m->total[line - 1], room);
    room[(text - room) + (long)without_zeros(text)] = 0;
    return text;
}

static void pad(size_t width, size_t to)
{
    for (; width < to; width++) putchar(' ');
}

static size_t widest_name(const marks *m)
{
    size_t most = 4;
    for (size_t i = 0; i < m->count; i++)
        if (width_of_signs(m->entry[i].name) > most) most = width_of_signs(m->entry[i].name);
    return most;
}

static size_t widest_total(const marks *m, int line)
{
    size_t most = 7;
    char room[DECIMAL_ROOM];
    for (size_t i = 0; i < m->count; i++) {
        if (m->entry[i].status != ACCEPTED) continue;
        size_t width = width_of_signs(total_of_mark(&m->entry[i], line, room));
        if (width > most) most = width;
    }
    return most;
}

/* Only accepted sheets have totals, so other verdicts may stand in their place. */
void print_marks(const marks *m)
{
    size_t names = widest_name(m), wide[6];
    char room[DECIMAL_ROOM], summary[SUMMARY_ROOM];
    for (int line = 1; line <= 6; line++) wide[line - 1] = widest_total(m, line);
    pad(print_signs("file"), names);
    printf("  verdict ");
    for (int line = 1; line <= 6; line++) printf("  %*s N", (int)wide[line - 1] - 2, line_name(line));
    printf("\n");
    for (size_t i = 0; i < m->count; i++) {
        const mark *e = &m->entry[i];
        pad(print_signs(e->name), names);
        printf("  %s", e->verdict);
        for (int line = 1; line <= 6 && e->status == ACCEPTED; line++)
            printf("  %*s", (int)wide[line - 1], total_of_mark(e, line, room));
        printf("\n");
    }
    printf("\n%s\n", summary_of(m, summary));
}

/* By RFC 4180: fields with commas between them, and lines that end in CRLF. */
void print_marks_csv(const marks *m)
{
    char room[DECIMAL_ROOM];
    printf("file,verdict");
    for (int line = 1; line <= 6; line++) printf(",%s (N)", line_name(line));
    printf("\r\n");
    for (size_t i = 0; i < m->count; i++) {
        const mark *e = &m->entry[i];
        print_csv(e->name);
        printf(",");
        print_csv(e->verdict);
        for (int line = 1; line <= 6; line++)
            printf(",%s", e->status == ACCEPTED ? total_of_mark(e, line, room) : "");
        printf("\r\n");
    }
}
