/* The plain calculator's newton column. The job is judged and its total found as those of the sheet that it would be;
   the newtons still missing are handed out one after another, each to the face that has the best claim by then. */
#include "plain.h"

enum { RANGE = 3, ROOM = 7, FACES = 240 };
#define NEWTON INT64_C(20000000000)

static int64_t rounded_down(int64_t force)
{
    int64_t newtons = force / NEWTON;
    return newtons * NEWTON > force ? newtons - 1 : newtons;
}

/* The face with the largest of the remainders, the first of those; what it left behind is no remainder any more. */
static size_t take_largest(int64_t *remainder, size_t n)
{
    size_t largest = 0;
    for (size_t i = 1; i < n; i++)
        if (remainder[i] > remainder[largest]) largest = i;
    remainder[largest] = -1;
    return largest;
}

aral_answer ENTRY(column)(aral_setting s, const aral_face *faces, size_t n, int64_t line, int64_t *column, size_t room)
{
    uint8_t sheet[PLAIN_PAGE];
    int64_t force[FACES], remainder[FACES];
    size_t length = ENTRY(sheet_of)(&s, faces, n, sheet);
    aral_answer own = ENTRY(read)(sheet, length);
    if (own.number) return own;
    if (line < 1 || line > 6) return (aral_answer){RANGE, 0};
    if (room < n) return (aral_answer){ROOM, 0};
    int64_t missing = ENTRY(total)(sheet, length, line).newtons;
    ENTRY(forces)(sheet, length, line, force);
    for (size_t i = 0; i < n; i++) {
        column[i] = rounded_down(force[i]);
        remainder[i] = force[i] - NEWTON * column[i];
        missing -= column[i];
    }
    for (; missing > 0; missing--) column[take_largest(remainder, n)]++;
    return (aral_answer){0, 0};
}
