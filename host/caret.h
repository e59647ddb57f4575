/* A line shown as it stands, with a mark under the bytes that are at fault (caret.c). */
#ifndef CARET_H
#define CARET_H

#include <stddef.h>
#include <stdint.h>

/* The line without its LF, of which `more` bytes at its end are not at hand; whether it is there and has its LF; the
   bytes at fault, counted in it; and what is said of them beside the mark. */
typedef struct {
    uint32_t number;
    const uint8_t *byte;
    size_t length, more;
    int there, ended;
    size_t from, to;
    const char *label;
} shown_line;

void show_line(const shown_line *l);

/* Some bytes between backquotes, as they are shown in a line; of many the first ones. */
void print_bytes(const uint8_t *byte, size_t n);

#endif
