/* Checks a sheet for people: of an accepted one what it holds, of a refused one the verdict in words, the other lines
   that look wrong, and whether mending would help. */
#include "check.h"
#include "aralimogga.h"
#include "edit.h"
#include "mend.h"
#include "others.h"
#include "winds.h"
#include "words.h"
#include <stdio.h>

int check_sheet(const uint8_t *sheet, size_t n, int longer)
{
    aral_answer answer = aral_read(sheet, n);
    if (!answer.number) {
        describe(sheet, n);
        tell_unnamed_winds(sheet, n);
        return ACCEPTED;
    }
    explain_refusal(sheet, n, answer);
    tell_others(sheet, n);
    if (longer) printf("\nOf this text the first %zu bytes were looked at: no sheet is so long.\n", n);
    else tell_mending(sheet, n, answer);
    return REFUSED;
}
