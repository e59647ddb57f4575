/* Names and texts as a terminal, a page or a table shows them: signs of UTF-8 as they are, and any byte that is none,
   or would not be seen, as `<1b>` (signs.c). */
#ifndef SIGNS_H
#define SIGNS_H

#include <stddef.h>

/* Prints the text for a terminal; answers how many signs wide it is. And how many it would be. */
size_t print_signs(const char *text);
size_t width_of_signs(const char *text);

/* Prints the text into a page: `<`, `>`, `&` and quotes are escaped. */
void print_html(const char *text);

/* Prints the text as a field of a table by RFC 4180: between quotes where it has a quote, a comma or a line end. */
void print_csv(const char *text);

#endif
