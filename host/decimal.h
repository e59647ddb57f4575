/* Exact decimals: forces, pressures, speeds and coefficients are whole numbers of a unit that has finitely many
   decimals, and are written without rounding and without a double (decimal.c). */
#ifndef DECIMAL_H
#define DECIMAL_H

#include "units.h"

enum { DECIMAL_ROOM = 64 };

/* The number over ten to the power `places`, with so many decimals, written into the room; answers where it begins. */
const char *decimal(units number, int places, char room[DECIMAL_ROOM]);

/* The same with a plus where it is over zero. */
const char *signed_decimal(units number, int places, char room[DECIMAL_ROOM]);

/* Units of force as newtons, with the 11 decimals that they have; and units of pressure as Pa, with their 6. */
const char *newtons(units force, char room[DECIMAL_ROOM]);
const char *pascals(int64_t pressure, char room[DECIMAL_ROOM]);

/* How many bytes of a decimal stay without the zeros at its end, and without its point where none stays behind it. */
size_t without_zeros(const char *decimal);

#endif
