/* The words that the commands share: what sections, lines and fields are called, and what a refusal is (words.c); what
   a refusal means, for a first-year student (refusal.c, observation.c); which zones and winds a building has
   (allowed.c); and what an accepted sheet holds (held.c). */
#ifndef WORDS_H
#define WORDS_H

#include "aralimogga.h"

/* Prints the refusal of a sheet: the line it names with a mark under the field, what stands there and what may. */
void explain_refusal(const uint8_t *sheet, size_t n, aral_answer refusal);

/* The same of a file of observations, by the line it names: its text, of which `kept` of `length` bytes are at hand. */
void explain_observation(const uint8_t *line, size_t kept, size_t length, int ended, aral_answer refusal);

/* What a refusal of a sheet is, in a few words: of 3, `a number outside its range`. */
const char *title_of(uint32_t number);

/* ---- Names ---- */

/* A field of a line: what it is called, with its unit, and how a value of daily life is written there, or "". Of one
   that the line has not the name is "". */
typedef struct { const char *name, *written; } field_words;
field_words field_name(const aral_place *p, int high);

/* Fields that no range speaks of: whether it is a direction, a mark, a zone, or the letter of a count line. */
int is_direction(const aral_place *p);
int is_mark(const aral_place *p);
int is_zone(const aral_place *p);
int is_letter(const aral_place *p);

/* A section as `the winds`; its entries, one or several of them, as `wind` and `winds`; and what is called for, as
   `wind 2`, `the building` or `section I`, where the entry is 0. */
const char *section_name(char section);
const char *entry_name(char section, int several);
const char *called_name(char section, uint32_t entry);

/* What the line is for, as `Line 2 is the building ..`, printed; and a line of that kind which is in form. `high` is
   whether faces have heights. */
void print_purpose(const aral_place *p, int high, const char *count);
const char *example_of(const aral_place *p, int high);

/* ---- What a building has ---- */

/* The roof of a kind and number, as `a gable roof of 12.3 degrees`, printed. */
void print_roof(int64_t kind, int64_t x);

/* The zones that a building of this roof kind has, as `A to D`. */
const char *zones_of(int64_t kind);

/* Whether a roof of this kind has the wind direction, and those that it has, as `0 or 90`. */
int has_wind(int64_t kind, int64_t direction);
const char *winds_of(int64_t kind);

/* ---- The rest ---- */

/* Prints what an accepted sheet holds. */
void describe(const uint8_t *sheet, size_t n);

/* What a line of the report is called, 1 to 6: `x max` to `z min`. */
const char *line_name(int64_t line);

/* Numbers as `2, 5 and 6`, printed. */
void print_list(const uint32_t *number, uint32_t count);

#endif
