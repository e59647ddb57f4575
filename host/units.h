/* Newtons and a remainder as one whole number of units: of long sheds it can take more than 64 bits. */
#ifndef UNITS_H
#define UNITS_H

#include "aralimogga.h"

#define NEWTON INT64_C(20000000000)
typedef __int128 units;

static inline units units_of(const aral_extreme *e) { return (units)NEWTON * e->newtons + (units)e->remainder; }

/* Its digits, written from the end of the room, which holds any of them; answers where they begin. */
enum { UNITS_ROOM = 48 };
static inline const char *text_of(units number, char room[UNITS_ROOM])
{
    char *at = room + UNITS_ROOM - 1;
    units size = number < 0 ? -number : number;
    *at = 0;
    do *--at = (char)('0' + (int)(size % 10));
    while (size /= 10);
    if (number < 0) *--at = '-';
    return at;
}

#endif
