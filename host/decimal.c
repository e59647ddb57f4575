/* Writes whole numbers of small units as decimals, exactly. */
#include "decimal.h"
#include <string.h>

/* From the end of the room: the decimals, the point, and at least one digit before it. */
const char *decimal(units number, int places, char room[DECIMAL_ROOM])
{
    char *at = room + DECIMAL_ROOM - 1;
    units size = number < 0 ? -number : number;
    *at = 0;
    for (int i = 0; i <= places || size > 0; i++, size /= 10) {
        if (i == places && places > 0) *--at = '.';
        *--at = (char)('0' + (int)(size % 10));
    }
    if (number < 0) *--at = '-';
    return at;
}

const char *signed_decimal(units number, int places, char room[DECIMAL_ROOM])
{
    char *at = room + (decimal(number, places, room) - room);
    if (number > 0) *--at = '+';
    return at;
}

/* One unit is 5 of the last decimal. */
const char *newtons(units force, char room[DECIMAL_ROOM]) { return decimal(5 * force, 11, room); }

const char *pascals(int64_t pressure, char room[DECIMAL_ROOM]) { return decimal(5 * (units)pressure, 6, room); }

size_t without_zeros(const char *text)
{
    size_t n = strlen(text);
    if (!strchr(text, '.')) return n;
    while (text[n - 1] == '0') n--;
    return text[n - 1] == '.' ? n - 1 : n;
}
