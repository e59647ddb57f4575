/* Says a refusal of a sheet in words: the line with a mark under the field, what stands there, what may stand there,
   and what the line is for. Where the fault lies and what is allowed there is the library's answer throughout. */
#include "allowed.h"
#include "caret.h"
#include "guess.h"
#include "slip.h"
#include "trial.h"
#include "words.h"
#include <inttypes.h>
#include <stdio.h>
#include <stdlib.h>
#include <string.h>

/* The sheet and its fault; the line at fault; the job of the sections before it, where `known`, and whether its faces
   have heights; what is wrong with the file; and what was probably meant. */
typedef struct {
    const uint8_t *sheet;
    size_t n;
    aral_place p;
    size_t start, end;
    int known, high, file;
    aral_job job;
    guess meant;
} fault;

static const fault *look_at(const uint8_t *sheet, size_t n)
{
    static fault f;
    f.sheet = sheet;
    f.n = n;
    f.p = aral_where(sheet, n);
    f.start = line_start(sheet, f.p.from);
    f.end = line_end(sheet, n, f.p.from);
    f.known = job_before(sheet, &f.p, &f.job);
    f.high = f.known && f.p.section == 'F' && f.job.profile.count > 0;
    f.file = slip_of_file(sheet, n);
    f.meant = guess_meant(sheet, n, &f.p);
    return &f;
}

/* ---- Fields of the faulty line ---- */

static const uint8_t *field_of(const fault *f) { return f->sheet + f->p.from; }

static size_t length_of(const fault *f) { return (size_t)(f->p.to - f->p.from); }

/* Field i of the line, from 1: where it begins, and its length. Nothing where there is none. */
static size_t field_at(const fault *f, int i, const uint8_t **from)
{
    size_t at = f->start, to;
    for (;; i--, at = to + 1) {
        for (to = at; to < f->end && f->sheet[to] != ' ';) to++;
        *from = f->sheet + at;
        if (i == 1 || to == f->end) return i == 1 ? to - at : 0;
    }
}

/* Its number, of a line in form. */
static long number_at(const fault *f, int i)
{
    const uint8_t *from;
    char digits[16] = "";
    size_t n = field_at(f, i, &from);
    memcpy(digits, from, n < sizeof digits ? n : sizeof digits - 1);
    return strtol(digits, NULL, 10);
}

/* The line of the sheet that is this entry of the section, by what the library calls for there; 0 where none is. */
static uint32_t line_of(const fault *f, char section, uint32_t entry)
{
    uint32_t line = 1;
    for (size_t at = 0; at <= f->start; at = line_end(f->sheet, f->n, at) + 1, line++) {
        aral_place q = aral_where(f->sheet, at);
        if (q.section == (uint8_t)section && q.entry == entry) return line;
    }
    return 0;
}

/* ---- The line ---- */

/* What a field with nothing in it comes of. */
enum { FILLED, MISSING, EMPTY_LINE, SPACE_BEFORE, SPACE_BETWEEN, SPACE_BEHIND };

/* Whether the line called for has no such field. */
static int is_too_many(const fault *f) { return f->p.field && !*field_name(&f->p, f->high).name; }

static int nothing_of(const fault *f)
{
    if (!f->p.field || f->p.from < f->p.to) return FILLED;
    if (f->start == f->end) return EMPTY_LINE;
    if (f->p.from == f->start) return SPACE_BEFORE;
    for (size_t i = (size_t)f->p.from; i < f->end; i++)
        if (f->sheet[i] != ' ') return SPACE_BETWEEN;
    return is_too_many(f) ? SPACE_BEHIND : MISSING;
}

static const char *label_of(const fault *f)
{
    static const char *const of_space[] = {
        [SPACE_BEFORE] = "a space before the first field", [SPACE_BETWEEN] = "a second space",
        [SPACE_BEHIND] = "a space at the line's end"};
    static char label[120];
    const aral_place *p = &f->p;
    const char *name = field_name(p, f->high).name;
    if (!p->section) return "after the last face, where the sheet must end";
    if (is_unended(f->n, p)) return "the line has no line end";
    if (nothing_of(f) >= SPACE_BEFORE) return of_space[nothing_of(f)];
    if (p->field && nothing_of(f) != EMPTY_LINE) return *name ? name : "one field more than this line has";
    snprintf(label, sizeof label, "%s is called for here", called_name((char)p->section, p->entry));
    return label;
}

/* A space is marked itself, and not the nothing behind it. */
static void show(const fault *f)
{
    size_t from = (size_t)f->p.from - f->start, to = (size_t)f->p.to - f->start;
    int missing = is_missing(f->sheet, f->n, &f->p), behind = nothing_of(f) == SPACE_BEHIND;
    shown_line l = {f->p.line, f->sheet + f->start, f->end - f->start, 0, !missing, f->end < f->n || missing,
                    is_unended(f->n, &f->p) ? to : from - (size_t)behind, to, label_of(f)};
    if (behind) l.to = l.length;
    show_line(&l);
}

/* ---- The file ---- */

static void tell_file(const fault *f)
{
    static const char *const what[] = {
        [WHOLE_UTF16] = "The file is written in UTF-16, with two bytes for each sign. Save it as plain text: ASCII, or "
                        "UTF-8\nwithout a byte order mark.",
        [WHOLE_MARK] = "The file opens with a byte order mark, the bytes ef bb bf, which an editor puts there unseen. "
                       "Save it as\nASCII, or as UTF-8 without a byte order mark.",
        [WHOLE_RETURNS] = "The lines of this file end in CR LF, as those of Windows do. Save it with LF line ends.",
        [WHOLE_CR] = "The lines of this file end in CR alone, as those of old Macs do. Save it with LF line ends.",
    };
    if (f->file != WHOLE_RIGHT) printf("%s\n", what[f->file]);
}

/* Whether the file's slip is all there is to say of the field. */
static int is_of_file(const fault *f)
{
    if (f->file == WHOLE_UTF16 || f->file == WHOLE_CR) return 1;
    if (f->file == WHOLE_MARK) return f->p.from == 0;
    if (f->file != WHOLE_RETURNS || length_of(f) == 0 || field_of(f)[length_of(f) - 1] != '\r') return 0;
    char word[24];
    snprintf(word, sizeof word, "%.*s", (int)(length_of(f) - 1 < 20 ? length_of(f) - 1 : 20), field_of(f));
    return takes(f->sheet, f->n, &f->p, word);
}

/* ---- What may stand there ---- */

/* `why` is what the range goes by, as ` for h 500`, or "". */
static void print_allowed(const fault *f, const char *why)
{
    const aral_place *p = &f->p;
    const char *list = is_zone(p) || is_direction(p) || is_mark(p) ? allowed_at(f->sheet, f->n, p) : "";
    if (*list) printf("It may be %s%s.\n", list, is_mark(p) && strchr(list, '-') ? ", which is for every wind" : "");
    else if (is_letter(p) && p->line == 1 && p->section == 'B')
        printf("The letter B is called for, or V in a sheet that names its year.\n");
    else if (is_letter(p)) printf("The letter %c is called for.\n", p->section);
    else if (p->least > p->greatest)
        printf("Nothing can stand there%s: it would be %" PRId64 " or more.\n", why, p->least);
    else if (p->least == p->greatest) printf("It must be %" PRId64 "%s.\n", p->least, why);
    else printf("It may be %" PRId64 " to %" PRId64 "%s.\n", p->least, p->greatest, why);
}

/* ---- 1: the form ---- */

static void tell_too_many(const fault *f)
{
    slip s = slip_of_number(field_of(f), length_of(f));
    printf("There stands ");
    print_bytes(field_of(f), length_of(f));
    printf(", and the line should end before it.\n");
    if (!strcmp(s.what, "a remark")) printf("A sheet has no remarks.\n");
    if (f->p.section == 'F' && f->p.entry && !f->high && f->p.to == f->end)
        printf("A face has a height only in a sheet that opens with `V 1`.\n");
}

/* A field with nothing in it: missing at the line's end, or empty beside a space. */
static void tell_nothing(const fault *f)
{
    switch (nothing_of(f)) {
    case EMPTY_LINE: printf("The line is empty.\n"); break;
    case SPACE_BEFORE: printf("No space may stand before the first field.\n"); break;
    case SPACE_BETWEEN: printf("Fields are parted by one space.\n"); break;
    case SPACE_BEHIND: printf("No space may stand behind the last field.\n"); break;
    default:
        printf("The line ends before %s: a field is left out.\n", field_name(&f->p, f->high).name);
        if (f->high && f->p.entry && f->p.field == 6)
            printf("In a sheet that opens with `V 1` each face has a height after its mark.\n");
        print_allowed(f, "");
    }
}

static void tell_slip(const fault *f)
{
    const aral_place *p = &f->p;
    char letter = is_letter(p) ? (char)p->section : 0;
    slip s = is_letter(p) || is_zone(p) ? slip_of_letter(field_of(f), length_of(f), letter)
                                        : slip_of_number(field_of(f), length_of(f));
    const char *written = field_name(p, f->high).written;
    int other = f->meant.kind == OTHER_LINE && f->meant.line == p->line;
    if (other && !strcmp(s.what, "a decimal comma")) s.what = "a list with commas", s.advice = "";
    printf("There stands ");
    print_bytes(field_of(f), length_of(f));
    printf(": %s.%s%s", s.what, *s.advice ? " " : "", s.advice);
    if (*written && (!strcmp(s.advice, "Numbers are whole.") || strstr(s.what, "unit"))) printf(" Here %s.", written);
    printf("\n");
    if (other || f->meant.kind == EXTRA_LINE) return;
    if (is_letter(p) && length_of(f) == 1 && *field_of(f) == 'P' && f->meant.kind != LATER_SHEET)
        printf("A profile is for sheets that open with `V 1` and a year.\n");
    print_allowed(f, "");
}

/* A count line that opens with another letter, and has yet another fault further on. */
static void tell_other_letter(const fault *f)
{
    const uint8_t *from;
    size_t n = field_at(f, 1, &from);
    if (f->p.entry || f->p.field < 2 || (n == 1 && *from == f->p.section)) return;
    printf("Section %c is called for here, and the line opens with ", f->p.section);
    print_bytes(from, n);
    printf(".\n");
}

static void tell_form(const fault *f)
{
    const aral_place *p = &f->p;
    tell_other_letter(f);
    if (f->n == 0) printf("The sheet is empty.\n");
    else if (is_missing(f->sheet, f->n, p)) printf("The sheet ends where a line is still called for.\n");
    else if (!p->section) printf("Nothing may follow the last face, not even an empty line.\n");
    else if (is_unended(f->n, p)) printf("Press Enter after it: every line has an end, the last one too.\n");
    else if (nothing_of(f) != FILLED) tell_nothing(f);
    else if (is_too_many(f)) tell_too_many(f);
    else tell_slip(f);
}

/* ---- 2 to 5: numbers ---- */

static void print_there(const fault *f)
{
    printf("There stands ");
    print_bytes(field_of(f), length_of(f));
    printf(". ");
}

/* The first year whose sheets may have so many faces. */
static void tell_later_faces(const fault *f)
{
    long count = number_at(f, 2);
    int64_t year = f->known ? f->job.year : 1, later = year;
    if (f->p.section != 'F' || count < 1 || count > ARAL_FACES_MOST) return;
    while (ARAL_FACES_OF(later) < count) later++;
    if (later == year) return;
    printf("From year %" PRId64 " on a sheet may have up to %d faces: it then opens with `V 1` and the line `%" PRId64
           "`.\n",
           later, ARAL_FACES_OF(later), later);
}

static void print_building(const fault *f)
{
    const aral_building *g = &f->job.building;
    print_roof(g->kind, g->x);
    printf(" (kind %" PRId64 " on line %u)", g->kind, line_of(f, 'B', 1));
}

static void tell_direction(const fault *f)
{
    long direction = number_at(f, (int)f->p.field);
    if (!f->known || !has_wind(6, direction)) return;
    printf("The book has winds 45, 135 and 180 on single-slope roofs (kind 6) alone; this building has\n");
    print_building(f);
    printf(".\n");
}

static void tell_range(const fault *f)
{
    const aral_place *p = &f->p;
    const char *written = field_name(p, f->high).written;
    print_there(f);
    print_allowed(f, "");
    if (is_direction(p) || is_mark(p)) tell_direction(f);
    if (p->section == 'P' && p->field == 1 && p->least > 0)
        printf("The line before has %" PRId64 ": a profile goes up, each height above the last.\n", p->least - 1);
    else if (*written) printf("In this unit %s.\n", written);
    if (p->section == 'V' && p->entry && number_at(f, 1) == 1)
        printf("A sheet of year 1 has no section V: it opens with `B 1`.\n");
}

static void tell_walls(const fault *f)
{
    char why[60];
    snprintf(why, sizeof why, " beside a shorter side b of %ld", number_at(f, 3));
    print_there(f);
    print_allowed(f, why);
    if (f->p.field == 2 && number_at(f, 2) == number_at(f, 3))
        printf("A square plan has no row in years 1 and 2. From year 3 on it has: a sheet then opens with `V 1` and\n"
               "the line `3`, and a question says `year 3`.\n");
}

static void tell_roof(const fault *f)
{
    static const char *const rule[] = {
        "is no roof, and has no number", "is a gable: x is its slope in tenths of a degree",
        "has straight eaves, and no number", "has a parapet: x is its height in cm",
        "has curved eaves: x is their radius in cm", "has a mansard: x is its angle in tenths of a degree",
        "is a single slope: x is the slope in tenths of a degree"};
    long kind = number_at(f, 5);
    char why[40] = "";
    if (kind == 3 || kind == 4) snprintf(why, sizeof why, " for h %ld", number_at(f, 1));
    print_there(f);
    if (kind >= 0 && kind < (long)(sizeof rule / sizeof *rule)) printf("Kind %ld %s. ", kind, rule[kind]);
    print_allowed(f, why);
}

/* ---- 6 and 8: faces ---- */

static void tell_zone(const fault *f)
{
    print_there(f);
    print_allowed(f, "");
    if (f->p.field == 1) printf("Zone %c is not on this building, which has ", *field_of(f));
    else printf("Zone %c is a wall, and this building has ", f->sheet[f->start]);
    print_building(f);
    printf(".\n");
    if (f->p.field == 2)
        printf("Beside it the book's table 3.2.2.2.1 has walls in no other wind. For both write two lines, one for "
               "each.\n");
}

static void tell_height(const fault *f)
{
    uint32_t opens = f->p.line - f->p.entry, steps = f->job.profile.count;
    int64_t least = f->p.least, greatest = f->p.greatest;
    print_there(f);
    print_allowed(f, "");
    printf("The face stands %s the profile, which ", number_at(f, (int)f->p.field) < least ? "below" : "above");
    if (steps == 1) printf("has the one height %" PRId64 " (line %u).\n", least, opens - 1);
    else printf("goes from %" PRId64 " (line %u) to %" PRId64 " (line %u).\n", least, opens - steps, greatest,
                opens - 1);
    printf("Outside the profile no speed is known: correct the height, or give the profile a line that reaches it.\n");
}

/* ---- The whole ---- */

static void tell_fault(const fault *f)
{
    switch (f->p.number) {
    case ARAL_FORM: tell_form(f); break;
    case ARAL_WALLS: tell_walls(f); break;
    case ARAL_ROOF: tell_roof(f); break;
    case ARAL_ZONE: tell_zone(f); break;
    case ARAL_HEIGHT: tell_height(f); break;
    default: tell_range(f); break;
    }
    if (f->p.number == ARAL_COUNT) tell_later_faces(f);
    if (nothing_of(f) < SPACE_BEFORE) print_guess(f->sheet, f->n, &f->meant);
}

/* What the section's count line says, where it was read. */
static const char *counted(const fault *f)
{
    static char count[24];
    size_t at = start_above(f->sheet, f->p.from, f->p.entry), end = line_end(f->sheet, f->n, at);
    count[0] = 0;
    if (f->p.entry && end > at + 2)
        snprintf(count, sizeof count, "%.*s", (int)(end - at - 2), (const char *)f->sheet + at + 2);
    return count;
}

void explain_refusal(const uint8_t *sheet, size_t n, aral_answer refusal)
{
    const fault *f = look_at(sheet, n);
    printf("refused with %u at line %u: %s\n", refusal.number, refusal.line, title_of(refusal.number));
    if (f->p.number != refusal.number || f->p.line != refusal.line) return;
    show(f);
    tell_file(f);
    if (is_of_file(f)) return;
    tell_fault(f);
    if (f->meant.kind == OTHER_LINE && f->meant.word[0] == 'V') return; /* of another section than was called for */
    print_purpose(&f->p, f->high, counted(f));
}
