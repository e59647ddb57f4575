/* The winds of a sheet that change nothing, in words (winds.c). */
#ifndef WINDS_H
#define WINDS_H

#include <stddef.h>
#include <stdint.h>

/* Prints which winds of an accepted sheet none of the six lines names; nothing where there are none. */
void tell_unnamed_winds(const uint8_t *sheet, size_t n);

#endif
