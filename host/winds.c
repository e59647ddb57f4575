/* Says which winds of a sheet can be dropped. It is proved that a wind which none of the six lines names can be taken
   out of an accepted job of two winds or more, and that the lines stay but for the numbers of later winds. They then
   name the same winds as before, so the next one can be taken out too. */
#include "winds.h"
#include "aralimogga.h"
#include "words.h"
#include <stdio.h>

enum { WINDS = 8 };

void tell_unnamed_winds(const uint8_t *sheet, size_t n)
{
    uint32_t winds = aral_open(sheet, n).worksheet.job.winds.count, unnamed[WINDS], count = 0;
    int named[WINDS + 1] = {0};
    for (int64_t line = 1; line <= 6; line++) named[aral_total(sheet, n, line).wind] = 1;
    for (uint32_t wind = 1; wind <= winds; wind++)
        if (!named[wind]) unnamed[count++] = wind;
    if (count == 0) return;
    fputs(count == 1 ? "Wind " : "Winds ", stdout);
    print_list(unnamed, count);
    fputs(count == 1 ? " changes nothing: no line names it. Without it the six totals and their cases stay, except\n"
                       "that later winds are numbered one lower.\n"
                     : " change nothing: no line names them. Without one or all of them the six totals and their\n"
                       "cases stay, except that later winds are numbered lower.\n",
          stdout);
}
