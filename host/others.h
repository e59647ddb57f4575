/* The faults of a sheet behind the first one (others.c). */
#ifndef OTHERS_H
#define OTHERS_H

#include <stddef.h>
#include <stdint.h>

/* Prints which other lines of a refused sheet look wrong, once the first fault is mended. Nothing where none does. */
void tell_others(const uint8_t *sheet, size_t n);

#endif
