/* The dialogue of `aral edit` (edit.c). */
#ifndef EDIT_H
#define EDIT_H

#include <stddef.h>
#include <stdint.h>

/* What aral ends with. */
enum { ACCEPTED, REFUSED, MISUSED };

/* Holds the sheet as a worksheet and carries out the lines of standard input, until `quit` or its end. Answers the
   worst that came of a line: REFUSED where an edit was refused, MISUSED where a line was not understood or a file could
   not be written; or REFUSED at once where the sheet is. */
int edit(const uint8_t *sheet, size_t n);

#endif
