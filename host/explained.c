/* Gathers what the library says of a sheet, line by line and face by face. */
#include "explained.h"
#include <inttypes.h>
#include <stdio.h>
#include <string.h>

/* The sums are those of the table, whose foot has the library's total beside them. */
static explained_line line_of(const uint8_t *sheet, size_t n, int line)
{
    static explained_line l;
    l = (explained_line){.total = aral_total(sheet, n, line)};
    for (uint32_t i = 0; i < l.total.faces; i++) {
        l.face[i] = aral_share(sheet, n, line, i + 1);
        l.force += l.face[i].force;
        l.newtons += l.face[i].newtons;
    }
    return l;
}

aral_answer explain_sheet(const char *name, const uint8_t *sheet, size_t n, explained *e)
{
    static aral_edited opened;
    opened = aral_open(sheet, n);
    e->name = name;
    e->job = opened.worksheet.job;
    for (int line = 1; line <= 6 && !opened.number; line++) e->line[line - 1] = line_of(sheet, n, line);
    return (aral_answer){opened.number, opened.line};
}

const aral_wind *wind_of(const explained *e, const explained_line *l) { return &e->job.winds.entry[l->total.wind - 1]; }

int64_t internal_of(const explained *e, const explained_line *l)
{
    return e->job.internals.entry[l->total.internal - 1];
}

/* ---- Rows ---- */

int takes_part(const aral_part *p) { return p->lower > 0; }

/* Whether a face of this zone takes part under a wind of this direction. */
static int is_looked_up(const aral_job *j, int64_t direction, int zone)
{
    for (uint32_t i = 0; i < j->faces.count; i++) {
        const aral_face *f = &j->faces.entry[i];
        if (f->zone == zone && (f->mark == ARAL_BOTH || f->mark == direction)) return 1;
    }
    return 0;
}

static int is_first(const aral_winds *w, uint32_t wind)
{
    for (uint32_t i = 0; i < wind; i++)
        if (w->entry[i].direction == w->entry[wind].direction) return 0;
    return 1;
}

static int same_answer(const aral_coefficient *p, const aral_coefficient *q)
{
    return p->count == q->count && p->value[0] == q->value[0] && p->value[1] == q->value[1] && p->lower == q->lower
        && p->upper == q->upper && p->part == q->part && p->whole == q->whole;
}

/* Puts a zone's answer into the list: to another zone of the same table and wind that has the same, or at its end. */
static uint32_t put_answer(looked_up *list, uint32_t count, const asked *q, const aral_coefficient *c)
{
    for (uint32_t i = 0; i < count; i++) {
        const asked *other = &list[i].question;
        size_t n = strlen(list[i].zones);
        if (other->direction != q->direction || table_of(other) != table_of(q)) continue;
        if (!same_answer(&list[i].answer, c)) continue;
        snprintf(list[i].zones + n, ZONES_ROOM - n, ", %c", q->place);
        return count;
    }
    list[count] = (looked_up){.question = *q, .answer = *c, .zones = {(char)q->place}};
    return count + 1;
}

uint32_t look_up(const explained *e, looked_up list[LOOKED_UP_MOST])
{
    const aral_job *j = &e->job;
    const aral_building *g = &j->building;
    uint32_t count = 0;
    for (uint32_t i = 0; i < j->winds.count; i++) {
        int64_t direction = j->winds.entry[i].direction;
        for (uint8_t zone = 'A'; zone <= 'H' && is_first(&j->winds, i); zone++) {
            if (!is_looked_up(j, direction, zone)) continue;
            asked q = {j->year, g->h, g->a, g->b, g->density, g->kind, g->x, direction, zone};
            aral_coefficient c =
                aral_outside(j->year, g->h, g->a, g->b, g->density, g->kind, g->x, direction, zone);
            count = put_answer(list, count, &q, &c);
        }
    }
    return count;
}

/* No name of a row depends on the wind. */
asked question_of(const explained *e, const aral_part *p)
{
    const aral_building *g = &e->job.building;
    return (asked){e->job.year, g->h, g->a, g->b, g->density, g->kind, g->x, 0, p->zone};
}

/* ---- Words ---- */

const char *line_words(int line)
{
    static const char *const words[] = {"the greatest force along x", "the least force along x",
                                        "the greatest force along y", "the least force along y",
                                        "the greatest force along z, upwards", "the least force along z, upwards"};
    return words[line - 1];
}

const char *total_words(const explained *e, const explained_line *l, char text[TOTAL_ROOM])
{
    const aral_extreme *t = &l->total;
    if (e->job.year < 4) snprintf(text, TOTAL_ROOM, "%" PRId64 " units", t->total);
    else snprintf(text, TOTAL_ROOM, "%" PRId64 " N and %" PRIu64 " units", t->newtons, t->remainder);
    return text;
}

const char *panel_words(const explained *e, const explained_line *l, char text[PANEL_ROOM])
{
    int long_shed = e->job.year >= 4;
    const aral_extreme *t = &l->total;
    aral_double d = long_shed ? aral_panel_newtons(t->newtons, t->remainder) : aral_panel(t->total);
    const char *unit = long_shed ? "N" : "units";
    if (d.exact) snprintf(text, PANEL_ROOM, "The panel may show exactly %.0f %s.", d.low, unit);
    else snprintf(text, PANEL_ROOM, "The panel may show between %.0f and %.0f %s: no double is the total.", d.low,
                  d.high, unit);
    return text;
}
