/* The names of things: sections, lines, fields, refusals, roofs. No limit stands here: those the library says. */
#include "words.h"
#include <stdio.h>
#include <string.h>

/* ---- Fields ---- */

#define LENGTH "5.2 m is written 520"
#define AREA "10.5 m2 is written 1050"

/* A section: its letter, what it is called and its entries are called; which an entry is, after `is`, with `#` for its
   number; what it holds, and one in form; and its fields in their order. */
typedef struct {
    char letter;
    const char *called, *one, *several, *which, *holds, *example;
    field_words field[6];
} section_words;

static const section_words sections[] = {
    {'V', "the year", "year", "years", "the year", "the one that the sheet is written for", "3",
     {{"the year", ""}}},
    {'B', "the building", "building", "buildings", "the building",
     "height h, longer side a and shorter side b in cm,\nair density in g/m3, roof kind and roof number x",
     "500 1200 1000 1250 2 0",
     {{"the height h, in cm", LENGTH},
      {"the longer side a, in cm", LENGTH},
      {"the shorter side b, in cm", LENGTH},
      {"the air density, in g/m3", "1.25 kg/m3 is written 1250"},
      {"the roof kind", ""},
      {"the roof number x, in tenths of a degree or in cm", "12.5 degrees is written 125"}}},
    {'W', "the winds", "wind", "winds", "wind #", "its direction and its speed", "0 400",
     {{"the wind's direction, in degrees", ""}, {"the wind's speed, in tenths of m/s", "40.5 m/s is written 405"}}},
    {'I', "the internal coefficients", "internal coefficient", "internal coefficients", "internal coefficient #",
     "in hundredths", "-30", {{"the internal coefficient, in hundredths", "-0.3 is written -30"}}},
    {'P', "the wind's profile", "line of the profile", "lines of the profile", "line # of the profile",
     "a height, above the one before it, and the part\nof the wind's speed that blows there", "1200 950",
     {{"the height, in cm", LENGTH}, {"the factor of the speed, in thousandths", "0.95 is written 950"}}},
    {'F', "the faces", "face", "faces", "face #", "its zone, its mark and its areas on x, y and z", "A 0 1000 0 0",
     {{"the zone", ""},
      {"the mark, a wind's direction or -", ""},
      {"the area on x, in dm2", AREA},
      {"the area on y, in dm2", AREA},
      {"the area on z, in dm2", AREA}}},
    {'F', "the faces", "face", "faces", "face #", "its zone, its mark, its height and its areas on x, y and z",
     "A 0 600 1000 0 0",
     {{"the zone", ""},
      {"the mark, a wind's direction or -", ""},
      {"the face's height, in cm", LENGTH},
      {"the area on x, in dm2", AREA},
      {"the area on y, in dm2", AREA},
      {"the area on z, in dm2", AREA}}},
};

/* The words of a section; of faces with heights the last ones. */
static const section_words *words_of(uint8_t letter, int high)
{
    const section_words *found = NULL;
    for (size_t i = 0; i < sizeof sections / sizeof *sections; i++)
        if (sections[i].letter == letter && (!found || high)) found = &sections[i];
    return found;
}

field_words field_name(const aral_place *p, int high)
{
    const section_words *s = words_of(p->section, high);
    field_words none = {"", ""};
    if (!s || !p->field) return none;
    if (p->entry == 0 && p->field == 1) return (field_words){"the section's letter", ""};
    if (p->entry == 0 && p->field == 2) return (field_words){"the count", ""};
    if (p->entry == 0 || p->field > 6 || !s->field[p->field - 1].name) return none;
    return s->field[p->field - 1];
}

int is_direction(const aral_place *p) { return p->section == 'W' && p->entry > 0 && p->field == 1; }

int is_mark(const aral_place *p) { return p->section == 'F' && p->entry > 0 && p->field == 2; }

int is_zone(const aral_place *p) { return p->section == 'F' && p->entry > 0 && p->field == 1; }

int is_letter(const aral_place *p) { return p->section && p->entry == 0 && p->field == 1; }

/* ---- Lines ---- */

const char *section_name(char section)
{
    const section_words *s = words_of((uint8_t)section, 0);
    return s ? s->called : "";
}

const char *entry_name(char section, int several)
{
    const section_words *s = words_of((uint8_t)section, 0);
    return !s ? "line" : several ? s->several : s->one;
}

/* These words with the number in place of their `#`, where they have one. */
static const char *numbered(const char *words, const char *number)
{
    static char name[80];
    int before = (int)strcspn(words, "#");
    snprintf(name, sizeof name, "%.*s%s%s", before, words, words[before] ? number : "",
             words + before + !!words[before]);
    return name;
}

const char *called_name(char section, uint32_t entry)
{
    char number[16];
    const section_words *s = words_of((uint8_t)section, 0);
    if (entry == 0) snprintf(number, sizeof number, "%c", section);
    else snprintf(number, sizeof number, "%u", entry);
    return numbered(entry == 0 ? "section #" : s ? s->which : "entry #", number);
}

const char *example_of(const aral_place *p, int high)
{
    static char opening[] = "? 1";
    const section_words *s = words_of(p->section, high);
    if (p->entry > 0) return s ? s->example : "0";
    opening[0] = (char)p->section;
    return opening;
}

void print_purpose(const aral_place *p, int high, const char *count)
{
    const section_words *s = words_of(p->section, high);
    char which[40];
    if (!s) return;
    printf("Line %u ", p->line);
    if (*count) snprintf(which, sizeof which, "%u of %.20s", p->entry, count);
    else snprintf(which, sizeof which, "%u", p->entry);
    if (p->entry == 0) printf("opens section %c, %s", s->letter, s->called);
    else printf("is %s", numbered(s->which, which));
    printf(", as `%s`: %s.\n", example_of(p, high), p->entry ? s->holds : "its letter, a space and how many follow");
}

/* ---- Refusals ---- */

const char *title_of(uint32_t number)
{
    static const char *const title[] = {
        "", "not in form", "a count outside its limits", "a number outside its range",
        "proportions that the tables do not cover", "a roof number that its kind does not allow",
        "a zone that this building has not, or not in this wind", "no room", "a height outside the profile"};
    return number < sizeof title / sizeof *title ? title[number] : "";
}

/* ---- The rest ---- */

void print_roof(int64_t kind, int64_t x)
{
    static const char *const what[] = {
        "no roof", "a gable roof of", "a flat roof with straight eaves", "a flat roof with a parapet of",
        "a flat roof with curved eaves of radius", "a flat roof with a mansard of", "a single-slope roof of"};
    if (kind < 0 || kind > 6) return;
    printf("%s", what[kind]);
    if (kind == 1 || kind == 5 || kind == 6) printf(" %d.%d degrees", (int)(x / 10), (int)(x % 10));
    if (kind == 3 || kind == 4) printf(" %d cm", (int)x);
}

const char *line_name(int64_t line)
{
    static const char *const name[] = {"x max", "x min", "y max", "y min", "z max", "z min"};
    return name[line - 1];
}

void print_list(const uint32_t *number, uint32_t count)
{
    for (uint32_t i = 0; i < count; i++) printf("%s%u", i == 0 ? "" : i + 1 < count ? ", " : " and ", number[i]);
}
