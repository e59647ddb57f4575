/* The plain calculator's worksheets. A record is judged, added up, shown and written as the sheet that it would be: the
   sheet is made here, and plain.c reads it. */
#include "plain.h"
#include "setting.h"
#include <string.h>

enum { COUNT = 2, ROOM = 7, NO_FACE = 9 };
enum { WINDS = 8, INTERNALS = 4, STEPS = 16, FACES = 240, CELLS = WINDS * INTERNALS };
enum { LONG = 4 }; /* the first year whose jobs may have so many faces; before it 24 */

/* ---- The sheet of a record ---- */

typedef struct { uint8_t *text; size_t length; } page;

static void put(page *p, uint8_t byte) { p->text[p->length++] = byte; }

static void put_letter(page *p, uint8_t letter)
{
    put(p, letter);
    put(p, ' ');
}

/* A number of any length, and the byte that ends its field. */
static void put_number(page *p, int64_t value, char end)
{
    p->length += ENTRY(digits)(value, p->text + p->length, PLAIN_PAGE - p->length).length;
    put(p, (uint8_t)end);
}

/* A count line. One above the room is written as one too many, also where it has more digits than a sheet takes.
   Answers how many entries can follow. */
static size_t put_count(page *p, char letter, size_t count, size_t room)
{
    size_t shown = count > room ? room + 1 : count;
    put_letter(p, (uint8_t)letter);
    put_number(p, (int64_t)shown, '\n');
    return shown > room ? 0 : shown;
}

static int has_heights(int64_t year) { return year != 1; }

static void put_face(page *p, const aral_face *f, int high)
{
    put_letter(p, f->zone);
    if (f->mark == ARAL_BOTH) put_letter(p, '-');
    else put_number(p, f->mark, ' ');
    if (high) put_number(p, f->height, ' ');
    put_number(p, f->x, ' ');
    put_number(p, f->y, ' ');
    put_number(p, f->z, '\n');
}

static void put_building(page *p, const aral_building *g)
{
    const int64_t number[] = {g->h, g->a, g->b, g->density, g->kind, g->x};
    put_count(p, 'B', 1, 1);
    for (int i = 0; i < 6; i++) put_number(p, number[i], i < 5 ? ' ' : '\n');
}

static void put_profile(page *p, const aral_profile *profile)
{
    size_t count = put_count(p, 'P', profile->count, STEPS);
    for (size_t i = 0; i < count; i++) {
        put_number(p, profile->entry[i].height, ' ');
        put_number(p, profile->entry[i].factor, '\n');
    }
}

static void put_setting(page *p, const aral_setting *s)
{
    if (has_heights(s->year)) {
        put_count(p, 'V', 1, 1);
        put_number(p, s->year, '\n');
    }
    put_building(p, &s->building);
    size_t winds = put_count(p, 'W', s->winds.count, WINDS);
    for (size_t i = 0; i < winds; i++) {
        put_number(p, s->winds.entry[i].direction, ' ');
        put_number(p, s->winds.entry[i].speed, '\n');
    }
    size_t internals = put_count(p, 'I', s->internals.count, INTERNALS);
    for (size_t i = 0; i < internals; i++) put_number(p, s->internals.entry[i], '\n');
    if (has_heights(s->year)) put_profile(p, &s->profile);
}

/* What follows a count above its room does not matter: that line is refused. */
size_t ENTRY(sheet_of)(const aral_setting *s, const aral_face *face, size_t faces, uint8_t text[PLAIN_PAGE])
{
    page p = {text, 0};
    put_setting(&p, s);
    size_t shown = put_count(&p, 'F', faces, FACES);
    for (size_t i = 0; i < shown; i++) put_face(&p, &face[i], has_heights(s->year));
    return p.length;
}

static size_t put_job(uint8_t text[PLAIN_PAGE], const aral_job *j)
{
    aral_setting s = setting_of(j);
    return ENTRY(sheet_of)(&s, j->faces.entry, j->faces.count, text);
}

static aral_answer judge(const aral_worksheet *w)
{
    uint8_t text[PLAIN_PAGE];
    return ENTRY(read)(text, put_job(text, &w->job));
}

/* ---- The record of a sheet ---- */

/* The fields of a sheet that was accepted, one after another. */
typedef struct { const uint8_t *at; } fields;

static uint8_t letter(fields *f)
{
    uint8_t byte = *f->at;
    f->at += 2;
    return byte;
}

static int64_t number(fields *f)
{
    int negative = *f->at == '-';
    int64_t size = 0;
    for (f->at += negative; *f->at >= '0' && *f->at <= '9'; f->at++) size = 10 * size + (*f->at - '0');
    f->at++;
    return negative ? -size : size;
}

static uint32_t count(fields *f)
{
    letter(f);
    return (uint32_t)number(f);
}

static int64_t mark(fields *f)
{
    if (f->at[0] != '-' || f->at[1] != ' ') return number(f);
    f->at += 2;
    return ARAL_BOTH;
}

static void read_face(fields *f, int high, aral_face *face)
{
    face->zone = letter(f);
    face->mark = mark(f);
    if (high) face->height = number(f);
    face->x = number(f);
    face->y = number(f);
    face->z = number(f);
}

static void read_building(fields *f, aral_building *g)
{
    int64_t *const place[] = {&g->h, &g->a, &g->b, &g->density, &g->kind, &g->x};
    count(f);
    for (int i = 0; i < 6; i++) *place[i] = number(f);
}

/* Into a record that is all zero. */
static void read_job(fields *f, aral_job *j)
{
    j->year = 1;
    if (*f->at == 'V') {
        count(f);
        j->year = number(f);
    }
    read_building(f, &j->building);
    j->winds.count = count(f);
    for (uint32_t i = 0; i < j->winds.count; i++) {
        j->winds.entry[i].direction = number(f);
        j->winds.entry[i].speed = number(f);
    }
    j->internals.count = count(f);
    for (uint32_t i = 0; i < j->internals.count; i++) j->internals.entry[i] = number(f);
    if (has_heights(j->year)) j->profile.count = count(f);
    for (uint32_t i = 0; i < j->profile.count; i++) {
        j->profile.entry[i].height = number(f);
        j->profile.entry[i].factor = number(f);
    }
    j->faces.count = count(f);
    for (uint32_t i = 0; i < j->faces.count; i++) read_face(f, has_heights(j->year), &j->faces.entry[i]);
}

aral_edited ENTRY(open)(const uint8_t *sheet, size_t n)
{
    aral_edited opened;
    aral_answer answer = ENTRY(read)(sheet, n);
    memset(&opened, 0, sizeof opened);
    opened.number = answer.number;
    opened.line = answer.line;
    if (!answer.number) read_job(&(fields){sheet}, &opened.worksheet.job);
    opened.worksheet.sums = ENTRY(add_up)(sheet, n);
    return opened;
}

/* ---- Sums ---- */

/* No sum of a face is larger: 2200 thousandths at a pressure number of 1500 x 1000 x 1000 on an area of 100000. */
#define LARGEST_FACE ((units)2200 * 1500 * 1000000 * 100000)
#define NEWTON 20000000000u

static int most_faces(int64_t year) { return year >= LONG ? FACES : 24; }

static aral_sums sums_of(const aral_job *j)
{
    uint8_t text[PLAIN_PAGE];
    return ENTRY(add_up)(text, put_job(text, j));
}

/* What a face of the job brings into each sum: what the sums of the job would be if it had this face alone. */
static aral_sums part_of(const aral_job *j, const aral_face *f)
{
    uint8_t text[PLAIN_PAGE];
    aral_setting s = setting_of(j);
    return ENTRY(add_up)(text, ENTRY(sheet_of)(&s, f, 1, text));
}

static int allowed(aral_pair p, units largest)
{
    units sum = ENTRY(units_of)(p);
    return p.remainder < NEWTON && -largest <= sum && sum <= largest;
}

static int both_allowed(aral_span s, units largest)
{
    return allowed(s.greatest, largest) && allowed(s.least, largest);
}

/* Whether each of the pairs, also past the counts, is one that a sum of a job of the year can be. */
static int all_allowed(const aral_sums *sums, int64_t year)
{
    units largest = most_faces(year) * LARGEST_FACE;
    for (int i = 0; i < CELLS; i++) {
        const aral_sum_cell *c = &sums->cell[i];
        if (!both_allowed(c->x, largest) || !both_allowed(c->y, largest) || !both_allowed(c->z, largest)) return 0;
    }
    return 1;
}

static aral_pair moved(aral_pair p, int sign, aral_pair part)
{
    return ENTRY(pair_of)(ENTRY(units_of)(p) + sign * ENTRY(units_of)(part));
}

static aral_span both_moved(aral_span s, int sign, aral_span part)
{
    return (aral_span){moved(s.greatest, sign, part.greatest), moved(s.least, sign, part.least)};
}

/* The face's part added to each sum (sign 1) or taken out of it (sign -1). Past the counts it has none. */
static void move_sums(aral_worksheet *w, int sign, const aral_face *f)
{
    aral_sums part = part_of(&w->job, f);
    for (int i = 0; i < CELLS; i++) {
        aral_sum_cell *c = &w->sums.cell[i];
        c->x = both_moved(c->x, sign, part.cell[i].x);
        c->y = both_moved(c->y, sign, part.cell[i].y);
        c->z = both_moved(c->z, sign, part.cell[i].z);
    }
}

/* The sums after an edit, by the face that left and the one that came, NULL where none did. */
static void keep_sums(aral_worksheet *w, const aral_face *left, const aral_face *came)
{
    if (!all_allowed(&w->sums, w->job.year)) {
        w->sums = sums_of(&w->job);
        return;
    }
    if (left) move_sums(w, -1, left);
    if (came) move_sums(w, 1, came);
}

/* ---- Edits ---- */

static aral_edited answered(uint32_t number, uint32_t line, const aral_worksheet *w)
{
    return (aral_edited){number, line, *w};
}

static int has_face(const aral_worksheet *w, int64_t face) { return face >= 1 && face <= w->job.faces.count; }

/* The face as the record holds it: in year 1 without its height. */
static aral_face held(const aral_worksheet *w, aral_face f)
{
    if (!has_heights(w->job.year)) f.height = 0;
    return f;
}

/* What comes of an edit of one face: which left, and which came in its place. A new face is judged as the line of the
   sheet after the edit, since every other line is accepted. */
static aral_edited edited(const aral_worksheet *before, aral_worksheet *after, const aral_face *left,
                          const aral_face *came)
{
    aral_answer fault = judge(after);
    if (fault.number) return answered(fault.number, fault.line, before);
    keep_sums(after, left, came);
    return answered(0, 0, after);
}

aral_edited ENTRY(add)(aral_worksheet w, aral_face f)
{
    aral_answer own = judge(&w);
    if (own.number) return answered(own.number, own.line, &w);
    if ((int)w.job.faces.count == most_faces(w.job.year)) return answered(COUNT, 0, &w);
    aral_worksheet after = w;
    after.job.faces.entry[after.job.faces.count++] = held(&w, f);
    return edited(&w, &after, NULL, &f);
}

aral_edited ENTRY(replace)(aral_worksheet w, int64_t face, aral_face f)
{
    aral_answer own = judge(&w);
    if (own.number) return answered(own.number, own.line, &w);
    if (!has_face(&w, face)) return answered(NO_FACE, 0, &w);
    aral_worksheet after = w;
    after.job.faces.entry[face - 1] = held(&w, f);
    return edited(&w, &after, &w.job.faces.entry[face - 1], &f);
}

aral_edited ENTRY(take_out)(aral_worksheet w, int64_t face)
{
    aral_answer own = judge(&w);
    if (own.number) return answered(own.number, own.line, &w);
    if (!has_face(&w, face)) return answered(NO_FACE, 0, &w);
    if (w.job.faces.count == 1) return answered(COUNT, 0, &w);
    aral_worksheet after = w;
    aral_face *entry = after.job.faces.entry;
    uint32_t last = --after.job.faces.count;
    for (uint32_t i = (uint32_t)face - 1; i < last; i++) entry[i] = entry[i + 1];
    memset(&entry[last], 0, sizeof entry[last]);
    return edited(&w, &after, &w.job.faces.entry[face - 1], NULL);
}

/* ---- Texts ---- */

aral_text ENTRY(show)(aral_worksheet w, uint8_t *out, size_t room)
{
    uint8_t text[PLAIN_PAGE];
    size_t length = put_job(text, &w.job);
    if (!all_allowed(&w.sums, w.job.year)) return ENTRY(report)(text, length, out, room);
    return ENTRY(report_by)(text, length, &w.sums, out, room);
}

aral_text ENTRY(write)(aral_worksheet w, uint8_t *out, size_t room)
{
    uint8_t text[PLAIN_PAGE];
    size_t length = put_job(text, &w.job);
    aral_answer own = ENTRY(read)(text, length);
    if (own.number) return (aral_text){own.number, own.line, 0};
    if (length > room) return (aral_text){ROOM, 0, 0};
    memcpy(out, text, length);
    return (aral_text){0, 0, length};
}
