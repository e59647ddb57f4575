/* A change of a sheet that would let it be read on, found by trying (guess.c). */
#ifndef GUESS_H
#define GUESS_H

#include "trial.h"

enum { NO_GUESS, OTHER_COUNT, OTHER_LINE, NO_COUNT_LINE, NO_ENTRY, NO_SECTION, YEAR_FOR_COUNT, LATER_SHEET, EXTRA_LINE,
       SWAPPED };

/* What was probably meant: the bytes to be put in place of `gone` bytes at `at`, which add so many lines; and of which
   line and section that speaks, with how many entries that section has then; and whether the sheet is then accepted. */
typedef struct {
    int kind;
    size_t at, gone;
    char word[100];
    int added;
    uint32_t line, entries;
    char section;
    int accepted;
} guess;

/* The guess for a refused sheet, or NO_GUESS: only one after which the library reads on past the faulty line. */
guess guess_meant(const uint8_t *sheet, size_t n, const aral_place *p);

void apply_guess(trial *t, const guess *g);

/* The guess as a question to the student, and in a few words after the number of its line. */
void print_guess(const uint8_t *sheet, size_t n, const guess *g);
void print_guess_shortly(const guess *g);

#endif
