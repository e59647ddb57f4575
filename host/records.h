/* Worksheets for the tests, made from a seed: of acceptable jobs, with anything where a job does not look, and with
   fields that no sheet could carry (records.c). */
#ifndef RECORDS_H
#define RECORDS_H

#include "aralimogga.h"
#include "sheets.h"

aral_face face_at(const sample *s, int i);                      /* face i of a job, from 0 */
void record_of(const sample *s, aral_worksheet *w);             /* what reading its sheet gives, but its sums are 0 */
void litter(dice *d, aral_worksheet *w);                        /* anything where the job does not look */
void clear_litter(aral_worksheet *w);                           /* zero there, as reading its sheet gives */
void spoil_record(dice *d, aral_worksheet *w);                  /* one field, mostly not allowed */
void spoil_face(dice *d, aral_face *f);
void spoil_sums(dice *d, aral_worksheet *w);                    /* other sums than those of the faces */
int no_jobs(const aral_sums *sums, int64_t year);               /* whether one is none that its year's jobs can have */

/* Every field of a worksheet, in order, those of its sums last, two for each: a record's padding is no part of it. */
enum { JOB_FIELDS = 1 + 6 + (1 + 8 * 2) + (1 + 4) + (1 + 16 * 2) + (1 + ARAL_FACES_MOST * 6), SUMS = 32 * 3 * 2 };
enum { RECORD_FIELDS = JOB_FIELDS + 2 * SUMS };
void fields_of(const aral_worksheet *w, int64_t field[RECORD_FIELDS]);
aral_pair *sum_at(aral_sums *sums, int i);                      /* sum i, from 0 */

#endif
