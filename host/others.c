/* Goes on past the first fault of a sheet. Each fault is mended on a copy, by what was probably meant or else by a
   value that the library takes, and the library is asked for the next. What may come of such a value is not told. */
#include "others.h"
#include "allowed.h"
#include "caret.h"
#include "guess.h"
#include "slip.h"
#include "trial.h"
#include "words.h"
#include <inttypes.h>
#include <stdio.h>
#include <string.h>

enum { LOOKED_AT = 1 << 16, STEPS = 2000, TOLD = 20 };

/* The copy, and whether its end was cut off; how many lines the student's text has more up to here; what was told; the
   line of the copy that has a field too many or too few; and what was made up: a value on this line of the copy, which
   fields of it, the roof of the building, a height of the profile. */
typedef struct {
    trial t;
    int cut;
    int64_t shift;
    uint32_t told, more;
    uint32_t spoilt_line, made_up_line, made_up_fields;
    int made_up_building, made_up_profile;
    aral_place verdict;
} look;

/* ---- Telling ---- */

static uint32_t own_line(const look *l, uint32_t line) { return (uint32_t)((int64_t)line + l->shift); }

/* Begins an item, with its heading before the first; answers whether it is to be told. */
static int begins(look *l, uint32_t line)
{
    if (l->told == TOLD) {
        l->more++;
        return 0;
    }
    if (l->told++ == 0) printf("\nThat is the verdict. Other lines that look wrong, once the first is mended:\n");
    printf("  line %u", line);
    return 1;
}

static void tell_word(const look *l, const aral_place *p)
{
    printf(": ");
    print_bytes(l->t.byte + p->from, p->to - p->from);
}

static void tell_allowed(const look *l, const aral_place *p)
{
    tell_word(l, p);
    if (is_zone(p) || is_direction(p) || is_mark(p))
        printf(", and it may be %s\n", allowed_at(l->t.byte, l->t.n, p));
    else if (p->least == p->greatest) printf(", and it must be %" PRId64 "\n", p->least);
    else if (p->least < p->greatest) printf(", and it may be %" PRId64 " to %" PRId64 "\n", p->least, p->greatest);
    else printf(", and nothing can stand there\n");
}

static void tell_slip(const look *l, const aral_place *p)
{
    const uint8_t *field = l->t.byte + p->from;
    size_t n = p->to - p->from;
    slip s = is_letter(p) || is_zone(p) ? slip_of_letter(field, n, 0) : slip_of_number(field, n);
    tell_word(l, p);
    printf(", %s\n", s.what);
}

static void tell_nothing(const look *l, const aral_place *p, int high)
{
    size_t end = line_end(l->t.byte, l->t.n, p->from), start = line_start(l->t.byte, p->from);
    if (start == end) printf(": it is empty\n");
    else if (p->from < end || !*field_name(p, high).name) printf(": a space too many\n");
    else printf(": it is missing\n");
}

/* The field by its name, without its unit. */
static void tell_field(look *l, const aral_place *p, int high)
{
    const char *name = field_name(p, high).name;
    if (!begins(l, own_line(l, p->line))) return;
    if (line_start(l->t.byte, p->from) == line_end(l->t.byte, l->t.n, p->from)) name = "";
    else if (!*name) name = "one field too many";
    if (*name) printf(", %.*s", (int)strcspn(name, ","), name);
    if (p->number != ARAL_FORM) tell_allowed(l, p);
    else if (p->from == p->to) tell_nothing(l, p, high);
    else if (!*field_name(p, high).name) tell_word(l, p), printf("\n");
    else tell_slip(l, p);
}

static void tell_rest(look *l, const aral_place *p)
{
    uint32_t lines = 0;
    for (size_t i = p->from; i < l->t.n; i = line_end(l->t.byte, l->t.n, i) + 1) lines++;
    if (l->cut || !begins(l, own_line(l, p->line))) return;
    printf(lines > 1 ? ": it and all after it stand after the last face\n" : ": it stands after the last face\n");
}

/* ---- What is left untold ---- */

/* A fault that goes by a value which was made up, or of a line that was told as too short or too long. */
static int is_made_up(const look *l, const aral_place *p)
{
    int by_building = p->number == ARAL_ZONE || (p->number == ARAL_RANGE && (is_direction(p) || is_mark(p)));
    int rising = p->section == 'P' && p->field == 1 && p->least > 0;
    int by_profile = p->number == ARAL_HEIGHT || (p->number == ARAL_RANGE && rising);
    int here = l->made_up_line == p->line;
    if (l->spoilt_line == p->line || (here && (l->made_up_fields >> (p->field & 31) & 1))) return 1;
    if (here && p->number >= ARAL_WALLS && p->number <= ARAL_ZONE) return 1;
    if (here && p->number == ARAL_FORM && p->from == p->to) return 1;
    return (by_building && l->made_up_building) || (by_profile && l->made_up_profile);
}

static int is_verdict(const look *l, const aral_place *p)
{
    return l->told == 0 && p->number == l->verdict.number && p->field == l->verdict.field
        && own_line(l, p->line) == l->verdict.line;
}

static void make_up(look *l, const aral_place *p)
{
    if (l->made_up_line != p->line) l->made_up_fields = 0;
    l->made_up_line = p->line;
    l->made_up_fields |= (uint32_t)1 << (p->field & 31);
}

/* A whole line of this section. */
static void make_up_section(look *l, char section)
{
    l->made_up_building |= section == 'B';
    l->made_up_profile |= section == 'P';
}

/* ---- Mending ---- */

/* Puts another text in place of a line where the library then reads past it. */
static int put_line(look *l, const aral_place *p, const char *line)
{
    size_t start = line_start(l->t.byte, p->from), end = line_end(l->t.byte, l->t.n, p->from);
    trial t = try_text(l->t.byte, l->t.n);
    splice(&t, start, end - start, line, strlen(line));
    aral_place q = where(&t);
    if (!q.number || q.line > p->line) {
        give_back_trial(&l->t);
        l->t = t;
        return 1;
    }
    give_back_trial(&t);
    return 0;
}

/* Whether the line looks like what is called for: it opens as the example does, with a letter or with a number, or the
   like; a count line with its own letter. */
static int looks_right(const look *l, const aral_place *p)
{
    size_t start = line_start(l->t.byte, p->from);
    uint8_t first = start < l->t.n ? l->t.byte[start] : '\n';
    int letter = (first >= 'A' && first <= 'Z') || (first >= 'a' && first <= 'z');
    if (p->entry == 0) return first == p->section || first == p->section + 'a' - 'A';
    if (first == '\n') return 1;
    return (p->section == 'F') == letter || (first == 'O' || first == 'l' || first == ' ');
}

/* Whether a value was put for what the student wrote that is surely what was meant. */
static int mend_as_meant(look *l, const aral_place *p)
{
    const uint8_t *field = l->t.byte + p->from;
    size_t n = p->to - p->from;
    if (p->number != ARAL_FORM || n == 0) return 0;
    slip s = is_letter(p) || is_zone(p) ? slip_of_letter(field, n, is_letter(p) ? (char)p->section : 0)
                                        : slip_of_number(field, n);
    if (!s.meant[0] || !takes(l->t.byte, l->t.n, p, s.meant)) return 0;
    put_field(&l->t, p, s.meant);
    return 1;
}

/* A value that the library takes there. The least one may be too low yet by the lines before it, and is then raised. */
static int mend_by_value(look *l, const aral_place *p)
{
    trial t = try_text(l->t.byte, l->t.n);
    put_field(&t, p, some_word(p));
    aral_place q = where(&t);
    if (q.number == p->number && q.line == p->line && q.field == p->field) put_field(&t, &q, some_word(&q));
    q = where(&t);
    if (q.number && q.line == p->line && q.field == p->field) {
        give_back_trial(&t);
        return 0;
    }
    give_back_trial(&l->t);
    l->t = t;
    return 1;
}

/* An empty field beside a space, which is taken out. */
static int mend_space(look *l, const aral_place *p, int high)
{
    size_t start = line_start(l->t.byte, p->from), end = line_end(l->t.byte, l->t.n, p->from);
    if (p->from < p->to || start == end) return 0;
    if (p->from == end && (l->t.byte[end - 1] != ' ' || *field_name(p, high).name)) return 0;
    splice(&l->t, p->from - (p->from == end), 1, "", 0);
    return 1;
}

/* The field by what was meant; or cut off, where it is too many; or by a value that the library takes there. */
static int mend_field(look *l, const aral_place *p, int high)
{
    size_t end = line_end(l->t.byte, l->t.n, p->from);
    if (mend_space(l, p, high)) return 1;
    make_up(l, p);
    if (mend_as_meant(l, p)) return 1;
    if (p->number == ARAL_COUNT || !looks_right(l, p)) return 0;
    l->spoilt_line = p->from == end || !*field_name(p, high).name ? p->line : l->spoilt_line;
    if (!*field_name(p, high).name) {
        splice(&l->t, p->from - 1, end - p->from + 1, "", 0);
        return 1;
    }
    l->made_up_building |= p->section == 'B' && p->field == 5;
    l->made_up_profile |= p->section == 'P' && p->field == 1;
    if (mend_by_value(l, p)) return 1;
    make_up_section(l, (char)p->section);
    return put_line(l, p, example_of(p, high));
}

/* The sheet's end comes too early, or too late: there is nothing more to be looked at. */
static int stop_at_end(look *l, const aral_place *p, int told)
{
    if (!told) return 0;
    if (!p->section) tell_rest(l, p);
    else if (!l->cut && begins(l, own_line(l, p->line)))
        printf(": the sheet ends before it, and %s is called for\n", called_name((char)p->section, p->entry));
    return 0;
}

static int end_line(look *l, const aral_place *p, int told)
{
    if (told && !l->cut && begins(l, own_line(l, p->line))) printf(": it has no line end\n");
    splice(&l->t, l->t.n, 0, "\n", 1);
    return !l->cut;
}

static int go_by_guess(look *l, const aral_place *p, const guess *g, int told)
{
    int space = g->kind == OTHER_LINE && p->from == p->to;
    if (told && begins(l, own_line(l, g->line))) {
        if (space) printf(": a space too many\n");
        else print_guess_shortly(g);
    }
    apply_guess(&l->t, g);
    l->shift -= g->added;
    if (g->kind == NO_ENTRY || g->kind == NO_SECTION) make_up_section(l, g->section);
    return 1;
}

/* Mends the fault, and tells it where it is not the verdict. Answers whether there is more to be looked at. */
static int mend(look *l, const aral_place *p, int told)
{
    aral_job job;
    int high = p->section == 'F' && job_before(l->t.byte, p, &job) && job.profile.count > 0;
    guess g = guess_meant(l->t.byte, l->t.n, p);
    if (is_unended(l->t.n, p)) return end_line(l, p, told);
    if (g.kind != NO_GUESS) return go_by_guess(l, p, &g, told);
    if (!p->field) return stop_at_end(l, p, told);
    if (told) tell_field(l, p, high);
    return mend_field(l, p, high);
}

/* ---- The file ---- */

/* Takes out the returns before line ends. */
static void drop_returns(trial *t)
{
    size_t n = 0;
    for (size_t i = 0; i < t->n; i++)
        if (t->byte[i] != '\r' || i + 1 == t->n || t->byte[i + 1] != '\n') t->byte[n++] = t->byte[i];
    t->n = n;
}

/* The signs of UTF-16 in one byte each: of those that have more, a question mark. */
static void narrow(trial *t)
{
    size_t n = 0, first = t->n >= 2 && (t->byte[0] >= 0xfe) ? 2 : 0;
    int low = t->n >= 2 && (t->byte[0] == 0xfe || (t->byte[0] == 0 && first == 0));
    for (size_t i = first; i + 1 < t->n; i += 2)
        t->byte[n++] = t->byte[i + (size_t)!low] ? '?' : t->byte[i + (size_t)low];
    t->n = n;
}

/* What is wrong with the file as a whole is mended before the lines are looked at. */
static void mend_file(trial *t)
{
    int slip = slip_of_file(t->byte, t->n);
    if (slip == WHOLE_UTF16) narrow(t);
    if (slip == WHOLE_MARK) splice(t, 0, 3, "", 0);
    if (slip == WHOLE_CR)
        for (size_t i = 0; i < t->n; i++)
            if (t->byte[i] == '\r') t->byte[i] = '\n';
    if (slip_of_file(t->byte, t->n) == WHOLE_RETURNS) drop_returns(t);
}

/* ---- The look ---- */

/* Whether the next fault lies behind this one. */
static int lies_behind(const aral_place *q, uint32_t own, const aral_place *p, uint32_t before)
{
    if (own != before) return own > before;
    return q->number > p->number || (q->number == p->number && q->field > p->field);
}

void tell_others(const uint8_t *sheet, size_t n)
{
    look l = {.t = try_text(sheet, n < LOOKED_AT ? n : LOOKED_AT), .cut = n > LOOKED_AT};
    l.verdict = aral_where(sheet, n);
    mend_file(&l.t);
    aral_place p = where(&l.t);
    for (int steps = 0; p.number && steps < STEPS; steps++) {
        uint32_t before = own_line(&l, p.line);
        int told = !is_verdict(&l, &p) && !is_made_up(&l, &p);
        size_t length = l.t.n;
        if (!mend(&l, &p, told)) break;
        aral_place q = where(&l.t);
        if (q.number && l.t.n >= length && !lies_behind(&q, own_line(&l, q.line), &p, before)) break;
        p = q;
    }
    if (l.more) printf("  and %u more\n", l.more);
    give_back_trial(&l.t);
}
