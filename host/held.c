/* Says what an accepted sheet holds, by the worksheet that the library reads it into. */
#include "words.h"
#include <inttypes.h>
#include <stdio.h>

static void describe_profile(const aral_job *j)
{
    const aral_step *first = &j->profile.entry[0], *last = &j->profile.entry[j->profile.count - 1];
    printf("It is of year %" PRId64 ": each face has the wind's speed at its own height. Lines of the profile: %u,\n",
           j->year, j->profile.count);
    printf("from %" PRId64 "/1000 of the speed at %" PRId64 " cm to %" PRId64 "/1000 at %" PRId64 " cm.\n",
           first->factor, first->height, last->factor, last->height);
    if (j->year < 4) return;
    printf("A total is two numbers: whole newtons, rounded down, and what remains, 0 to 19999999999 units.\n");
}

void describe(const uint8_t *sheet, size_t n)
{
    static aral_edited opened;
    opened = aral_open(sheet, n);
    const aral_job *j = &opened.worksheet.job;
    const aral_building *g = &j->building;
    printf("accepted: winds %u, internal coefficients %u, faces %u\n", j->winds.count, j->internals.count,
           j->faces.count);
    printf("The building is %" PRId64 " cm high and %" PRId64 " by %" PRId64 " cm wide, with ", g->h, g->a, g->b);
    print_roof(g->kind, g->x);
    printf("; its zones are %s.\n", zones_of(g->kind));
    if (g->a == g->b)
        printf("Its plan is square, which sheets may be from year 3 on; its walls have the rows of a/b to 3/2.\n");
    if (g->kind == 6)
        printf("Its winds may be %s; walls add nothing under 45, 135 and 180, where the book has none.\n",
               winds_of(g->kind));
    if (j->profile.count) describe_profile(j);
}
