/* The doubles next to a finite one, by its bits: libm is not asked, since Debian's cross compiler can't link it
   statically. */
#ifndef STEP_H
#define STEP_H

#include <stdint.h>
#include <string.h>

/* The bits of a double count its size up from zero; the sign is the first of them, as it is in a whole number. */
static inline double next_above(double number)
{
    int64_t bits;
    memcpy(&bits, &number, sizeof bits);
    bits = number == 0 ? 1 : number > 0 ? bits + 1 : bits - 1;
    memcpy(&number, &bits, sizeof bits);
    return number;
}

static inline double next_below(double number) { return -next_above(-number); }

#endif
