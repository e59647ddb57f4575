/* Guesses what was meant: another count, a line written in another way, a line or a section that is left out or too
   many, sides exchanged. Each is tried on a copy of the sheet, and is a guess only where the library then reads on. */
#include "guess.h"
#include "caret.h"
#include "words.h"
#include <stdio.h>
#include <string.h>

enum { LONGEST = 1 << 16, MOST = ARAL_FACES_MOST }; /* no acceptable sheet is so long, nor has such a count */

/* The sheet and its fault, and the line at fault without its LF. */
typedef struct { const uint8_t *sheet; size_t n; const aral_place *p; size_t start, end; } fault;

static const guess nothing = {.kind = NO_GUESS};

void apply_guess(trial *t, const guess *g) { splice(t, g->at, g->gone, g->word, strlen(g->word)); }

/* What the library says of the sheet with the guess. */
static aral_place outcome(const fault *f, const guess *g)
{
    trial t = try_text(f->sheet, f->n);
    apply_guess(&t, g);
    aral_place q = where(&t);
    give_back_trial(&t);
    return q;
}

/* The guess, if the sheet with it is read past this line. */
static guess if_read_past(const fault *f, const guess *g, uint32_t line)
{
    aral_place q = outcome(f, g);
    return !q.number || q.line > line ? *g : nothing;
}

static guess at_line(const fault *f, int kind, int added)
{
    return (guess){.kind = kind, .at = f->start, .added = added, .line = f->p->line, .section = (char)f->p->section};
}

/* ---- Counts ---- */

/* Another count on the line that starts at `at`: its second field is replaced. */
static guess other_count(const fault *f, size_t at, uint32_t line, char section, uint32_t count)
{
    size_t end = line_end(f->sheet, f->n, at);
    guess g = {.kind = OTHER_COUNT, .at = at + 2, .gone = end - at - 2, .line = line, .entries = count,
               .section = section};
    if (end < at + 2) return nothing;
    snprintf(g.word, sizeof g.word, "%u", count);
    return g;
}

/* Too many are counted: the faulty line is no entry, and what comes after the section stands there. */
static guess fewer(const fault *f)
{
    uint32_t entry = f->p->entry;
    if (entry < 2) return nothing;
    size_t at = start_above(f->sheet, f->p->from, entry);
    guess g = other_count(f, at, f->p->line - entry, (char)f->p->section, entry - 1);
    return if_read_past(f, &g, f->p->line);
}

/* Too few are counted: the faulty line and those after it are entries too. At the end of a sheet all of them are. What
   the line above is, the library says of the sheet cut off before it. */
static guess more(const fault *f)
{
    size_t above = start_above(f->sheet, f->p->from, 1);
    aral_place last = aral_where(f->sheet, above);
    if (f->p->line < 2 || last.entry == 0) return nothing;
    size_t at = start_above(f->sheet, above, last.entry);
    guess best = nothing;
    for (uint32_t added = 1; last.entry + added <= MOST; added++) {
        guess g = other_count(f, at, last.line - last.entry, (char)last.section, last.entry + added);
        aral_place q = outcome(f, &g);
        if (!q.number || (f->p->section && q.line > f->p->line + added)) return g;
        if (q.line < f->p->line + added) break;
        if (!f->p->section) best = g;
    }
    return best;
}

/* A count outside its limits, and so many entries behind it as would be allowed. */
static guess as_many_as_follow(const fault *f)
{
    for (int64_t count = f->p->least; count <= f->p->greatest; count++) {
        guess g = other_count(f, f->start, f->p->line, (char)f->p->section, (uint32_t)count);
        aral_place q = outcome(f, &g);
        if (!q.number || q.line > f->p->line + count + 1) return g;
        if (q.line <= f->p->line + count) break;
    }
    return nothing;
}

/* The year in place of the count of years. */
static guess year_for_count(const fault *f)
{
    guess g = {.kind = YEAR_FOR_COUNT, .at = f->p->from, .gone = (size_t)(f->p->to - f->p->from), .added = 1,
               .line = f->p->line, .section = (char)f->p->section};
    snprintf(g.word, sizeof g.word, "1\n%.*s", (int)g.gone, (const char *)f->sheet + f->p->from);
    return if_read_past(f, &g, f->p->line + 1);
}

/* ---- A line written in another way ---- */

static guess line_as(const fault *f, const char *word)
{
    guess g = at_line(f, OTHER_LINE, 0);
    g.gone = f->end - f->start;
    snprintf(g.word, sizeof g.word, "%s", word);
    return if_read_past(f, &g, f->p->line);
}

static int parts_fields(uint8_t byte) { return byte == 0xa0 || byte == 0xc2 || strchr(" ,;|\t\r", byte) != NULL; }

/* The line with one space between its fields, where other signs part them. */
static guess parted(const fault *f)
{
    char line[sizeof nothing.word];
    size_t n = 0;
    for (size_t i = f->start; i < f->end; i++) {
        if (n + 1 == sizeof line || !f->sheet[i]) return nothing;
        if (!parts_fields(f->sheet[i])) line[n++] = (char)f->sheet[i];
        else if (n > 0 && line[n - 1] != ' ') line[n++] = ' ';
    }
    if (n > 0 && line[n - 1] == ' ') n--;
    line[n] = 0;
    return line_as(f, line);
}

/* A minus with a space behind it, and the number that it belongs to. */
static guess joined(const fault *f)
{
    char line[sizeof nothing.word];
    const char *sheet = (const char *)f->sheet;
    size_t from = (size_t)f->p->from, to = (size_t)f->p->to;
    if (to - from != 1 || sheet[from] != '-' || to >= f->end || f->end - f->start >= sizeof line) return nothing;
    snprintf(line, sizeof line, "%.*s%.*s", (int)(to - f->start), sheet + f->start, (int)(f->end - to - 1),
             sheet + to + 1);
    return line_as(f, line);
}

static int is_digit(uint8_t byte) { return byte >= '0' && byte <= '9'; }

/* A count line of the right letter with a number somewhere, as `B1` or `w: 2 winds`; or the number alone. A first line
   may open with V. */
static guess count_line(const fault *f)
{
    char line[16];
    unsigned count = 0;
    size_t i = f->start, digits;
    uint8_t letter = f->p->section, first = i < f->end ? f->sheet[i] : 0;
    if (f->p->line == 1 && (first == 'v' || first == 'V')) letter = 'V';
    while (i < f->end && !is_digit(f->sheet[i])) i++;
    for (digits = i; i < f->end && is_digit(f->sheet[i]) && count < 100000; i++)
        count = 10 * count + (unsigned)(f->sheet[i] - '0');
    int alone = digits == f->start && i == f->end;
    if (digits == f->end || (first != letter && first != letter + 'a' - 'A' && !alone)) return nothing;
    snprintf(line, sizeof line, "%c %u", letter, count);
    return line_as(f, line);
}

/* The first line opens with V, and the building stands where the year should. */
static guess building_for_year(const fault *f)
{
    guess g = {.kind = OTHER_LINE, .gone = line_end(f->sheet, f->n, 0), .word = "B 1", .line = 1, .section = 'B'};
    return f->p->section == 'V' ? if_read_past(f, &g, f->p->line) : nothing;
}

/* ---- Lines left out, or too many ---- */

static guess no_count_line(const fault *f)
{
    guess g = at_line(f, NO_COUNT_LINE, 1);
    for (g.entries = 1; g.entries <= MOST; g.entries++) {
        snprintf(g.word, sizeof g.word, "%c %u\n", g.section, g.entries);
        aral_place q = outcome(f, &g);
        if (!q.number || q.line > f->p->line + g.entries + 1) return g;
        if (q.line <= f->p->line + g.entries) break;
    }
    return nothing;
}

static guess no_entry(const fault *f)
{
    guess g = at_line(f, NO_ENTRY, 1);
    g.entries = f->p->entry;
    snprintf(g.word, sizeof g.word, "%s\n", example_of(f->p, 0));
    return f->p->from < f->n ? if_read_past(f, &g, f->p->line + 1) : nothing;
}

static guess no_section(const fault *f)
{
    guess g = at_line(f, NO_SECTION, 2);
    aral_place entry = *f->p;
    entry.entry = 1;
    snprintf(g.word, sizeof g.word, "%c 1\n%s\n", g.section, example_of(&entry, 0));
    return if_read_past(f, &g, f->p->line + 2);
}

/* Section V is left out: with it the profile and the first face are read. */
static guess later_sheet(const fault *f)
{
    guess g = {.kind = LATER_SHEET, .word = "V 1\n3\n", .added = 2, .line = 1, .section = 'V'};
    aral_place q = outcome(f, &g);
    return !q.number || !q.section || (q.section == 'F' && q.entry > 1) ? g : nothing;
}

/* An empty line, a remark, or at a count line anything: without it what comes next stands in its place. */
static guess extra_line(const fault *f)
{
    guess g = at_line(f, EXTRA_LINE, -1);
    uint8_t first = f->start < f->end ? f->sheet[f->start] : '#';
    if (f->end == f->n || (f->p->entry && first != '#' && first != '/')) return nothing;
    g.gone = f->end + 1 - f->start;
    aral_place q = outcome(f, &g);
    int fits = !q.number || (q.line > f->p->line && (!f->p->entry || q.section != f->p->section));
    return fits ? g : nothing;
}

/* ---- Sides ---- */

/* Fields 2 and 3 of the building exchanged. */
static guess swapped(const fault *f)
{
    guess g = at_line(f, SWAPPED, 0);
    const char *line = (const char *)f->sheet + f->p->from;
    int a = 0, b = 0;
    while (line[a] != ' ') a++;
    while (line[a + 1 + b] != ' ') b++;
    g.at = (size_t)f->p->from;
    g.gone = (size_t)(a + 1 + b);
    snprintf(g.word, sizeof g.word, "%.*s %.*s", b, line + a + 1, a, line);
    return if_read_past(f, &g, f->p->line);
}

/* ---- The guess ---- */

typedef guess guesser(const fault *);

/* The first of these that helps. */
static guess first_of(const fault *f, guesser *const *some)
{
    guess g = nothing;
    for (; *some && g.kind == NO_GUESS; some++) g = (*some)(f);
    return g;
}

static guess guess_of(const fault *f)
{
    static guesser *const at_count[] = {
        parted, no_count_line, more, count_line, later_sheet, extra_line, no_section, NULL};
    static guesser *const at_entry[] = {
        parted, joined, fewer, extra_line, no_entry, building_for_year, later_sheet, NULL};
    static guesser *const at_end[] = {more, NULL};
    static guesser *const of_count[] = {as_many_as_follow, year_for_count, NULL};
    static guesser *const of_sides[] = {swapped, NULL};
    const aral_place *p = f->p;
    if (p->number == ARAL_COUNT) return first_of(f, of_count);
    if (p->number == ARAL_WALLS && p->field == 2) return first_of(f, of_sides);
    if (p->number != ARAL_FORM) return nothing;
    if (!p->section) return first_of(f, at_end);
    return first_of(f, p->entry ? at_entry : at_count);
}

guess guess_meant(const uint8_t *sheet, size_t n, const aral_place *p)
{
    fault f = {sheet, n, p, line_start(sheet, p->from), line_end(sheet, n, p->from)};
    if (n > LONGEST || is_unended(n, p)) return nothing;
    guess g = guess_of(&f);
    g.accepted = g.kind != NO_GUESS && !outcome(&f, &g).number;
    return g;
}

/* ---- In words ---- */

static const char *came_of(const guess *g) { return g->accepted ? "accepted" : "read on"; }

static void print_followers(const guess *g)
{
    printf("%u %s follow%s", g->entries, entry_name(g->section, g->entries > 1), g->entries > 1 ? "" : "s");
}

static void print_counted(const uint8_t *sheet, size_t n, const guess *g)
{
    size_t start = line_start(sheet, g->at);
    printf("Is the count on line %u right? There stands ", g->line);
    print_bytes(sheet + start, line_end(sheet, n, start) - start);
    printf(", and ");
    print_followers(g);
    printf(": with `%c %u` the sheet is %s.\n", g->section, g->entries, came_of(g));
}

void print_guess(const uint8_t *sheet, size_t n, const guess *g)
{
    switch (g->kind) {
    case OTHER_COUNT: print_counted(sheet, n, g); break;
    case OTHER_LINE:
        printf("Is line %u meant to be `%s`? With that the sheet is %s.\n", g->line, g->word, came_of(g));
        break;
    case NO_COUNT_LINE:
        printf("Is the count line left out? With `%c %u` before line %u the sheet is %s.\n", g->section, g->entries,
               g->line, came_of(g));
        break;
    case NO_ENTRY: /* which one, the student knows */
        printf("Is a line left out? With %s before line %u the sheet is read on.\n",
               called_name(g->section, g->entries), g->line);
        break;
    case NO_SECTION:
        printf("Is section %c, %s, left out? With it before line %u the sheet is read on.\n", g->section,
               section_name(g->section), g->line);
        break;
    case YEAR_FOR_COUNT:
        printf("Is it the year? It has a line of its own: `V 1`, and then `%s`.\n", strchr(g->word, '\n') + 1);
        break;
    case LATER_SHEET:
        printf("A profile and heights of faces are for sheets that open with `V 1` and a year: with `V 1` and `3` as\n"
               "its first two lines the sheet is %s.\n",
               came_of(g));
        break;
    case EXTRA_LINE: printf("Without line %u the sheet is %s.\n", g->line, came_of(g)); break;
    case SWAPPED: printf("Are the two sides exchanged? The longer one comes first: `%s`.\n", g->word); break;
    default: break;
    }
}

void print_guess_shortly(const guess *g)
{
    switch (g->kind) {
    case OTHER_COUNT:
        printf(", the count: ");
        print_followers(g);
        printf("\n");
        break;
    case OTHER_LINE: printf(": it is meant to be `%s`\n", g->word); break;
    case NO_COUNT_LINE: printf(": `%c %u` is left out before it\n", g->section, g->entries); break;
    case NO_ENTRY: printf(": %s is left out before it\n", called_name(g->section, g->entries)); break;
    case NO_SECTION: printf(": section %c is left out before it\n", g->section); break;
    case YEAR_FOR_COUNT: printf(": the year has a line of its own\n"); break;
    case LATER_SHEET: printf(": a section V is left out before it\n"); break;
    case EXTRA_LINE: printf(": it is a line too many\n"); break;
    case SWAPPED: printf(": the two sides are exchanged\n"); break;
    default: break;
    }
}
