/* The plain engine for people: `aral plain` (cases.c). Both answer what aral ends with, and say a refusal in words. */
#ifndef CASES_H
#define CASES_H

#include <stddef.h>
#include <stdint.h>

/* Prints the six lines of a sheet by the plain engine, and how many cases it walked. */
int show_plain(const uint8_t *sheet, size_t n);

/* Prints every case that the plain engine walks, in its order: the wind, the internal coefficient, the alternative of
   each face, and the totals on x, y and z. */
int show_cases(const uint8_t *sheet, size_t n);

#endif
