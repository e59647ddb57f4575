/* What may stand in a field that no range speaks of: a direction, a mark, a zone (allowed.c). */
#ifndef ALLOWED_H
#define ALLOWED_H

#include "aralimogga.h"

/* Whether the library has no more to say against the faulty field once this word stands there. */
int takes(const uint8_t *sheet, size_t n, const aral_place *p, const char *word);

/* The directions, marks or zones that it takes there, as `0, 90 or -` or `A to F`. The text lasts for one call. */
const char *allowed_at(const uint8_t *sheet, size_t n, const aral_place *p);

#endif
