/* A copy of a sheet, changed in memory, that the library is asked about again (trial.c). */
#ifndef TRIAL_H
#define TRIAL_H

#include "aralimogga.h"

typedef struct { uint8_t *byte; size_t n, room; } trial;

/* A copy of the bytes, to be given back in the end. Where there is no memory the program ends and says so. */
trial try_text(const uint8_t *byte, size_t n);
void give_back_trial(trial *t);

/* Puts n bytes in place of the `gone` bytes at `at`. */
void splice(trial *t, size_t at, size_t gone, const void *byte, size_t n);

aral_place where(const trial *t);

/* The line that holds the byte at `at`: where it starts, and where it ends without its LF. */
size_t line_start(const uint8_t *sheet, size_t at);
size_t line_end(const uint8_t *sheet, size_t n, size_t at);

/* The start of the line that is `back` lines above the one at `at`. */
size_t start_above(const uint8_t *sheet, size_t at, uint32_t back);

/* Whether the faulty line is not there at all; and whether it is there without its LF. */
int is_missing(const uint8_t *sheet, size_t n, const aral_place *p);
int is_unended(size_t n, const aral_place *p);

/* Puts a word into the faulty field, also where the field is missing at the line's end. */
void put_field(trial *t, const aral_place *p, const char *word);

/* A word that the field may hold, as far as the place says: the letter called for, the least number, a 0. */
const char *some_word(const aral_place *p);

/* The job that the sections before the fault's own say, with the others filled in. Answers whether it was found. */
int job_before(const uint8_t *sheet, const aral_place *p, aral_job *job);

#endif
