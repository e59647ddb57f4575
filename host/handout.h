/* The printed handout for people: `aral column` (handout.c). */
#ifndef HANDOUT_H
#define HANDOUT_H

#include <stddef.h>
#include <stdint.h>

/* Prints the newtons of each face for one line of the report, 1 to 6, and how they add up to its total. Answers what
   aral ends with, and says a refusal in words. */
int show_column(const uint8_t *sheet, size_t n, int64_t line);

#endif
