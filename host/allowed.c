/* Finds what may stand in a field that no range speaks of: every direction, mark or zone is put there, and the library
   is asked whether it still finds a fault with that field. So no list of winds or zones stands here. */
#include "allowed.h"
#include "trial.h"
#include "words.h"
#include <inttypes.h>
#include <stdio.h>
#include <string.h>

enum { DEGREES = 360, LISTED = 32 };

/* ---- One field ---- */

int takes(const uint8_t *sheet, size_t n, const aral_place *p, const char *word)
{
    size_t end = line_end(sheet, n, p->from);
    trial t = try_text(sheet, end);
    put_field(&t, p, word);
    splice(&t, t.n, 0, "\n", 1);
    aral_place q = where(&t);
    give_back_trial(&t);
    return !q.number || q.line != p->line || q.field != p->field;
}

/* The sheet up to the fault's section, and then that section with one entry, which is in form: of a face with the zone
   that stands there, where the library takes it. `line` is that entry's. */
typedef struct { trial t; size_t start; uint32_t line; const char *example; char zone[2]; } probe;

/* Puts a word for a field of the example, and says where the fault of that line then lies; 0 where it has none. */
static uint32_t fault_with(probe *b, uint32_t field, const char *word)
{
    char line[80];
    size_t n = 0;
    uint32_t i = 1;
    for (const char *at = b->example; *at && n + 30 < sizeof line; i++) {
        size_t length = strcspn(at, " ");
        const char *put = i == field ? word : i == 1 && *b->zone ? b->zone : at;
        n += (size_t)snprintf(line + n, sizeof line - n, "%s%.*s", i > 1 ? " " : "",
                              put == at ? (int)length : 20, put);
        at += length + (at[length] == ' ');
    }
    b->t.n = b->start;
    splice(&b->t, b->start, 0, line, n);
    splice(&b->t, b->start + n, 0, "\n", 1);
    aral_place q = where(&b->t);
    return q.number && q.line == b->line ? q.field : 0;
}

static probe begin_probe(const uint8_t *sheet, size_t n, const aral_place *p)
{
    aral_job job;
    char opening[] = "? 1\n";
    size_t start = line_start(sheet, p->from);
    int high = p->section == 'F' && job_before(sheet, p, &job) && job.profile.count > 0;
    size_t before = start_above(sheet, p->from, p->entry);
    probe b = {try_text(sheet, before), 0, p->line - p->entry + 1, example_of(p, high), ""};
    opening[0] = (char)p->section;
    splice(&b.t, b.t.n, 0, opening, 4);
    b.start = b.t.n;
    if (!is_mark(p) || start >= n) return b;
    b.zone[0] = (char)sheet[start];
    if (fault_with(&b, 2, "0") == 1) b.zone[0] = 0;
    return b;
}

/* ---- Lists ---- */

typedef struct { char word[LISTED][16]; int count; } list;

static void add_word(list *l, const char *word)
{
    if (l->count < LISTED) snprintf(l->word[l->count++], sizeof l->word[0], "%s", word);
}

static int follows(const char *before, const char *word)
{
    return before[0] >= 'A' && word[0] == before[0] + 1 && !word[1];
}

/* Letters that follow one another are told as `A to F`. */
static const char *told(const list *l)
{
    static char text[LISTED * 24];
    size_t n = 0;
    text[0] = 0;
    for (int i = 0; i < l->count; i++) {
        int last = i;
        while (last + 1 < l->count && follows(l->word[last], l->word[last + 1])) last++;
        const char *between = i == 0 ? "" : last + 1 < l->count ? ", " : " or ";
        n += (size_t)snprintf(text + n, sizeof text - n, "%s%s", between, l->word[i]);
        if (last > i + 1) n += (size_t)snprintf(text + n, sizeof text - n, " to %s", l->word[last]);
        if (last > i + 1) i = last;
    }
    return text;
}

const char *allowed_at(const uint8_t *sheet, size_t n, const aral_place *p)
{
    list l = {.count = 0};
    char word[16];
    probe b = begin_probe(sheet, n, p);
    for (int letter = 'A'; is_zone(p) && letter <= 'Z'; letter++) {
        snprintf(word, sizeof word, "%c", letter);
        if (fault_with(&b, p->field, word) != p->field) add_word(&l, word);
    }
    for (int degrees = 0; (is_direction(p) || is_mark(p)) && degrees < DEGREES; degrees++) {
        snprintf(word, sizeof word, "%d", degrees);
        if (fault_with(&b, p->field, word) != p->field) add_word(&l, word);
    }
    if (is_mark(p) && fault_with(&b, p->field, "-") != p->field) add_word(&l, "-");
    give_back_trial(&b.t);
    return told(&l);
}

/* ---- By the roof's kind ---- */

/* A sheet with this roof up to the field that is asked about, and the place of that field, which has a fault. The
   roof's number is the least that the library takes. Answers whether there is such a roof. */
static int asked_of(int64_t kind, const char *rest, trial *t, aral_place *p)
{
    char text[80];
    int n = snprintf(text, sizeof text, "B 1\n1000 1500 1000 1250 %" PRId64 " -1\n%s", kind, rest);
    *t = try_text((const uint8_t *)text, (size_t)n);
    for (int steps = 0; steps < 4 && (*p = where(t)).line == 2 && p->field == 6; steps++) put_field(t, p, some_word(p));
    return p->line > 2;
}

static const char *allowed_of(int64_t kind, const char *rest)
{
    trial t;
    aral_place p;
    const char *text = asked_of(kind, rest, &t, &p) ? allowed_at(t.byte, t.n, &p) : "";
    give_back_trial(&t);
    return text;
}

const char *zones_of(int64_t kind) { return allowed_of(kind, "W 1\n0 1\nI 1\n0\nF 1\n? 0 0 0 0\n"); }

const char *winds_of(int64_t kind) { return allowed_of(kind, "W 1\n? 1\n"); }

int has_wind(int64_t kind, int64_t direction)
{
    char word[24];
    trial t;
    aral_place p;
    snprintf(word, sizeof word, "%" PRId64, direction);
    int has = asked_of(kind, "W 1\n? 1\n", &t, &p) && takes(t.byte, t.n, &p, word);
    give_back_trial(&t);
    return has;
}
