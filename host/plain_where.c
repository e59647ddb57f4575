/* The plain calculator's own account of where a sheet's first fault lies: a walk from line to line, with a table of
   what each field of a line may be. It reads the sheet apart from plain.c, so that the two can be held against each
   other. */
#include "plain.h"
#include <string.h>

enum { FORM = 1, COUNT, RANGE, RATIO, ROOF, PLACE, HEIGHT = 8 };
enum { CAPITAL, NUMBER, DIRECTION, MARK }; /* what a field is called for as; of these only a number has a range */
enum { SINGLE = 6, FIELDS = 6, DIGITS = 7 };
enum { EVERY = 99999999 }; /* the mark `-`: no number in form is so large */

typedef struct { int form; int64_t least, greatest; } wanted;

/* What the entries of a section have, field by field. A face has its height only in a sheet that opens with V. */
static const wanted year_line[] = {{NUMBER, 2, 4}};
static const wanted building_line[] = {{NUMBER, 100, 30000}, {NUMBER, 100, 30000}, {NUMBER, 100, 30000},
                                       {NUMBER, 1000, 1500}, {NUMBER, 0, 6}, {NUMBER, 0, 30000}};
static const wanted wind_line[] = {{DIRECTION, 0, 0}, {NUMBER, 1, 1000}};
static const wanted internal_line[] = {{NUMBER, -100, 100}};
static const wanted profile_line[] = {{NUMBER, 0, 30000}, {NUMBER, 1, 1000}};
static const wanted face_line[] = {{CAPITAL, 0, 0}, {MARK, 0, 0}, {NUMBER, -100000, 100000},
                                   {NUMBER, -100000, 100000}, {NUMBER, -100000, 100000}};
static const wanted high_face_line[] = {{CAPITAL, 0, 0}, {MARK, 0, 0}, {NUMBER, 0, 30000}, {NUMBER, -100000, 100000},
                                        {NUMBER, -100000, 100000}, {NUMBER, -100000, 100000}};

/* The line looked at, from its start to its end without LF; what was called for there; and what the lines before it
   said: the year, the building, and the lowest and highest height of the profile. */
typedef struct {
    const uint8_t *sheet;
    size_t n, start, end, next;
    int there, ended;
    uint32_t line, entry;
    char section;
    int64_t year, house[6], lowest, highest, value[FIELDS];
} look;

static int within(int64_t value, int64_t least, int64_t greatest) { return least <= value && value <= greatest; }

static int high(const look *l) { return l->year >= 2; }

/* ---- Lines and fields ---- */

static void go_to_next(look *l, char section, uint32_t entry)
{
    const uint8_t *end = l->next < l->n ? memchr(l->sheet + l->next, '\n', l->n - l->next) : NULL;
    l->start = l->next;
    l->there = l->next < l->n;
    l->ended = end != NULL;
    l->end = end ? (size_t)(end - l->sheet) : l->n;
    l->next = end ? l->end + 1 : l->n;
    l->line++;
    l->section = section;
    l->entry = entry;
}

/* Field i of the line, from 0: where it begins and ends. Answers whether there is one. */
static int field_at(const look *l, int i, size_t *from, size_t *to)
{
    *from = l->start;
    for (;; i--) {
        const uint8_t *space = *from < l->end ? memchr(l->sheet + *from, ' ', l->end - *from) : NULL;
        *to = space ? (size_t)(space - l->sheet) : l->end;
        if (i == 0) return 1;
        if (!space) return 0;
        *from = *to + 1;
    }
}

/* Whether the bytes are a number in form: at most 7 digits, no plus, no leading zero, no -0. */
static int read_number(const uint8_t *byte, size_t n, int64_t *value)
{
    size_t minus = n > 0 && byte[0] == '-', digits = n - minus;
    *value = 0;
    if (digits < 1 || digits > DIGITS) return 0;
    if (byte[minus] == '0' && n > 1) return 0;
    for (size_t i = minus; i < n; i++) {
        if (byte[i] < '0' || byte[i] > '9') return 0;
        *value = 10 * *value + (byte[i] - '0');
    }
    if (minus) *value = -*value;
    return 1;
}

static int read_field(const uint8_t *byte, size_t n, int form, int64_t *value)
{
    if (form == CAPITAL) {
        *value = n == 1 ? byte[0] : 0;
        return within(*value, 'A', 'Z');
    }
    if (form == MARK && n == 1 && byte[0] == '-') {
        *value = EVERY;
        return 1;
    }
    return read_number(byte, n, value);
}

/* ---- The answer ---- */

static aral_place fault(const look *l, uint32_t number, uint32_t field, int64_t least, int64_t greatest)
{
    size_t from = l->start, to = l->end;
    if (field > 0 && !field_at(l, (int)field - 1, &from, &to)) from = to = l->end;
    return (aral_place){number, l->line, (uint8_t)l->section, l->entry, field, from, to, least, greatest};
}

static aral_place no_fault(void) { return (aral_place){0}; }

/* The fault of a line that is missing, unended or out of form; else its values are read. */
static aral_place form_fault(look *l, const wanted *want, int fields)
{
    size_t from, to;
    if (!l->there || !l->ended) return fault(l, FORM, 0, 0, 0);
    for (int i = 0; i < fields; i++) {
        if (field_at(l, i, &from, &to) && read_field(l->sheet + from, to - from, want[i].form, &l->value[i])) continue;
        return fault(l, FORM, (uint32_t)i + 1, want[i].least, want[i].greatest);
    }
    if (field_at(l, fields, &from, &to)) return fault(l, FORM, (uint32_t)fields + 1, 0, 0);
    return no_fault();
}

/* ---- Counts ---- */

static int64_t most_of(const look *l, char section)
{
    switch (section) {
    case 'W': return 8;
    case 'I': return 4;
    case 'P': return 16;
    case 'F': return l->year >= 4 ? 240 : 24;
    default: return 1;
    }
}

static aral_place count_fault(look *l, char section)
{
    wanted want[] = {{CAPITAL, 0, 0}, {NUMBER, 1, most_of(l, section)}};
    go_to_next(l, section, 0);
    aral_place p = form_fault(l, want, 2);
    if (p.number) return p;
    if (l->value[0] != section) return fault(l, FORM, 1, 0, 0);
    if (!within(l->value[1], want[1].least, want[1].greatest))
        return fault(l, COUNT, 2, want[1].least, want[1].greatest);
    return no_fault();
}

/* ---- Entries ---- */

static int knows(const look *l, int64_t direction)
{
    if (direction == 0 || direction == 90) return 1;
    return l->house[4] == SINGLE && (direction == 45 || direction == 135 || direction == 180);
}

static int field_fits(const look *l, const wanted *want, int64_t value)
{
    switch (want->form) {
    case CAPITAL: return 1;
    case MARK: return value == EVERY || knows(l, value);
    case DIRECTION: return knows(l, value);
    default: return within(value, want->least, want->greatest);
    }
}

/* The first field outside its range; of a profile also a height that is in range and does not rise. */
static aral_place range_fault(const look *l, const wanted *want, int fields)
{
    for (int i = 0; i < fields; i++) {
        if (!field_fits(l, &want[i], l->value[i]))
            return fault(l, RANGE, (uint32_t)i + 1, want[i].least, want[i].greatest);
        if (l->section == 'P' && i == 0 && l->value[0] <= l->highest)
            return fault(l, RANGE, 1, l->highest + 1, want[0].greatest);
    }
    return no_fault();
}

static int64_t smaller(int64_t p, int64_t q) { return p < q ? p : q; }

/* The roof numbers of a kind: of a parapet 0.025 to 0.10 of h, of curved eaves 0.05 to 0.20 of it. */
static void roof_range(int64_t kind, int64_t h, int64_t *least, int64_t *greatest)
{
    static const int64_t range[7][2] = {{0, 0}, {0, 600}, {0, 0}, {25, 100}, {50, 200}, {300, 900}, {50, 300}};
    *least = range[kind][0];
    *greatest = range[kind][1];
    if (kind != 3 && kind != 4) return;
    *least = (*least * h + 999) / 1000;
    *greatest = *greatest * h / 1000;
}

static aral_place building_fault(const look *l)
{
    int64_t h = l->value[0], a = l->value[1], b = l->value[2], least, greatest;
    int64_t shortest = l->year >= 3 ? b : b + 1, longest = smaller(30000, 4 * b);
    if (h > 6 * b) return fault(l, RATIO, 1, 100, smaller(30000, 6 * b));
    if (!within(a, shortest, longest)) return fault(l, RATIO, 2, shortest, longest);
    roof_range(l->value[4], h, &least, &greatest);
    return within(l->value[5], least, greatest) ? no_fault() : fault(l, ROOF, 6, least, greatest);
}

/* The zones go to D without a roof, to H on a gable and a single slope, to F on a flat roof. */
static aral_place face_fault(const look *l)
{
    static const char last[] = "DHFFFFH";
    int64_t zone = l->value[0], mark = l->value[1];
    if (zone > last[l->house[4]]) return fault(l, PLACE, 1, 0, 0);
    if (l->house[4] == SINGLE && zone <= 'D' && mark != 0 && mark != 90) return fault(l, PLACE, 2, 0, 0);
    if (high(l) && !within(l->value[2], l->lowest, l->highest)) return fault(l, HEIGHT, 3, l->lowest, l->highest);
    return no_fault();
}

/* What a line without fault says to those after it. */
static void learn(look *l)
{
    if (l->section == 'V') l->year = l->value[0];
    if (l->section == 'B') memcpy(l->house, l->value, sizeof l->house);
    if (l->section != 'P') return;
    if (l->entry == 1) l->lowest = l->value[0];
    l->highest = l->value[0];
}

static const wanted *line_of(const look *l, char section, int *fields)
{
#define LINE(line) (*fields = (int)(sizeof line / sizeof *line), line)
    switch (section) {
    case 'V': return LINE(year_line);
    case 'B': return LINE(building_line);
    case 'W': return LINE(wind_line);
    case 'I': return LINE(internal_line);
    case 'P': return LINE(profile_line);
    default: return high(l) ? LINE(high_face_line) : LINE(face_line);
    }
#undef LINE
}

static aral_place entry_fault(look *l, char section, uint32_t entry)
{
    int fields;
    const wanted *want = line_of(l, section, &fields);
    go_to_next(l, section, entry);
    aral_place p = form_fault(l, want, fields);
    if (p.number) return p;
    if (section == 'F' && l->value[0] > 'H') return fault(l, FORM, 1, 0, 0);
    p = range_fault(l, want, fields);
    if (!p.number && section == 'B') p = building_fault(l);
    if (!p.number && section == 'F') p = face_fault(l);
    if (!p.number) learn(l);
    return p;
}

/* ---- The sheet ---- */

/* A sheet has the sections of the later years where its first line is ended and its first field is V. */
static const char *sections_of(const uint8_t *sheet, size_t n)
{
    int later = n > 1 && sheet[0] == 'V' && (sheet[1] == ' ' || sheet[1] == '\n') && memchr(sheet, '\n', n);
    return later ? "VBWIPF" : "BWIF";
}

aral_place ENTRY(where)(const uint8_t *sheet, size_t n)
{
    look l = {.sheet = sheet, .n = n, .year = 1, .highest = -1};
    for (const char *section = sections_of(sheet, n); *section; section++) {
        aral_place p = count_fault(&l, *section);
        int64_t count = l.value[1];
        for (uint32_t entry = 1; !p.number && entry <= count; entry++) p = entry_fault(&l, *section, entry);
        if (p.number) return p;
    }
    go_to_next(&l, 0, 0);
    return l.there ? fault(&l, FORM, 0, 0, 0) : no_fault();
}
