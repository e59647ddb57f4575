/* The command `aral check` (check.c). */
#ifndef CHECK_H
#define CHECK_H

#include <stddef.h>
#include <stdint.h>

/* Says whether the sheet is accepted, and what it holds or what is wrong with it. `longer` is whether the text has more
   bytes than are at hand. Answers what aral ends with. */
int check_sheet(const uint8_t *sheet, size_t n, int longer);

#endif
