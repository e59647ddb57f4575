/* Slips of the keyboard put into a sheet in form, each of which mending takes back (slipped.c). */
#ifndef SLIPPED_H
#define SLIPPED_H

#include "sheets.h"

/* Some zeros, pluses, spaces and returns, and the last end left out or not; perhaps none of these. */
void put_slips_in(dice *d, text *t);

#endif
