/* What a field out of form looks like: a slip that has a name (slip.c). */
#ifndef SLIP_H
#define SLIP_H

#include <stddef.h>
#include <stdint.h>

enum { MEANT = 24 };

/* What stands in the field, as `a decimal comma`; what to do about it, or ""; and what was probably meant, or "". */
typedef struct { const char *what, *advice; char meant[MEANT]; } slip;

/* The slip of a field that should be a number, or a direction or mark; and of one that should be this letter, or a zone
   where it is 0. */
slip slip_of_number(const uint8_t *field, size_t n);
slip slip_of_letter(const uint8_t *field, size_t n, char letter);

/* What is wrong with the file as a whole, to be said once: its encoding or its line ends. */
enum { WHOLE_RIGHT, WHOLE_UTF16, WHOLE_MARK, WHOLE_RETURNS, WHOLE_CR };
int slip_of_file(const uint8_t *sheet, size_t n);

#endif
