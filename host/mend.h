/* Sheets mended for people: `aral mend`, and whether mending would help (mend.c). */
#ifndef MEND_H
#define MEND_H

#include "aralimogga.h"

/* Writes the mended sheet on standard output. From then on what is printed goes to standard error: what was taken out
   where, and what is refused all the same. Answers what aral ends with. */
int show_mended(const uint8_t *sheet, size_t n);

/* Prints what mending would take out of a refused sheet and what then comes of it; nothing where the refusal stays. */
void tell_mending(const uint8_t *sheet, size_t n, aral_answer refusal);

#endif
