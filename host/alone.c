/* Cuts a job down to one wind, one internal coefficient and one face, and asks the library for a job's totals. */
#include "alone.h"

aral_job alone(const aral_job *j, uint32_t wind, uint32_t internal, uint32_t face)
{
    aral_job one = *j;
    one.winds = (aral_winds){1, {j->winds.entry[wind]}};
    one.internals = (aral_internals){1, {j->internals.entry[internal]}};
    one.faces = (aral_faces){1, {j->faces.entry[face]}};
    return one;
}

aral_extreme total_of(const aral_job *j, int64_t line)
{
    uint8_t sheet[ARAL_SHEET_MOST];
    aral_text written = aral_write((aral_worksheet){.job = *j}, sheet, sizeof sheet);
    return aral_total(sheet, written.length, line);
}
