/* Shows the plain engine at work: its six lines, how many cases it walked, and each case by itself. Every number comes
   from the library; what is done here is to name the cases in order and to add up the forces of their faces. */
#include "cases.h"
#include "alone.h"
#include "aralimogga.h"
#include "edit.h"
#include "units.h"
#include "words.h"
#include <inttypes.h>
#include <stdio.h>

static aral_job job;

/* ---- Choices ---- */

/* How many alternatives a face has under a wind: one where it does not act, or else as many as its zone. */
static uint32_t alternatives(uint32_t wind, uint32_t face)
{
    const aral_building *b = &job.building;
    const aral_face *f = &job.faces.entry[face];
    int64_t direction = job.winds.entry[wind].direction;
    if (f->mark != ARAL_BOTH && f->mark != direction) return 1;
    return aral_outside(job.year, b->h, b->a, b->b, b->density, b->kind, b->x, direction, f->zone).count;
}

static int chooses(uint32_t face)
{
    for (uint32_t wind = 0; wind < job.winds.count; wind++)
        if (alternatives(wind, face) > 1) return 1;
    return 0;
}

/* How many choices of the faces' alternatives there are under a wind. */
static unsigned choices(uint32_t wind)
{
    unsigned count = 1;
    for (uint32_t face = 0; face < job.faces.count; face++) count *= alternatives(wind, face);
    return count;
}

/* ---- What the plain engine answers ---- */

static void explain_choosing(void)
{
    uint32_t face[ARAL_FACES_MOST], count = 0;
    for (uint32_t i = 0; i < job.faces.count; i++)
        if (chooses(i)) face[count++] = i + 1;
    printf("refused with %d: more faces with two alternatives than the plain engine takes\n\n", ARAL_CASES);
    printf("%u faces have two alternatives under at least one of the winds: ", count);
    print_list(face, count);
    printf(".\n");
    printf("The plain engine takes at most %d such faces: it walks every case, and each of them doubles the cases.\n",
           ARAL_CHOICES_MOST);
    printf("The sheet itself is in order, as `aral check` says, and `aral totals` still gives its six lines.\n");
}

/* The plain engine's six lines, with the job they are of; a refusal is said in words. */
static aral_text walked(const uint8_t *sheet, size_t n, uint8_t out[ARAL_REPORT_MOST])
{
    aral_text report = aral_plain(sheet, n, out, ARAL_REPORT_MOST);
    job = aral_open(sheet, n).worksheet.job;
    if (report.number == ARAL_CASES) explain_choosing();
    else if (report.number) explain_refusal(sheet, n, (aral_answer){report.number, report.line});
    return report;
}

static void say(unsigned count, const char *one, const char *more) { printf("%u %s", count, count == 1 ? one : more); }

static void tell_cases(void)
{
    uint32_t winds = job.winds.count, internals = job.internals.count;
    unsigned all = 0, alike = 1;
    for (uint32_t wind = 0; wind < winds; wind++) {
        all += internals * choices(wind);
        alike &= choices(wind) == choices(0);
    }
    say(all, "case was walked: ", "cases were walked: ");
    say(winds, "wind, ", "winds, ");
    say(internals, "internal coefficient, ", "internal coefficients, ");
    if (alike) {
        say(choices(0), "choice of alternatives", "choices of alternatives");
        printf("%s.\n", winds > 1 ? " under each wind" : "");
        return;
    }
    printf("and choices that differ with the wind:\n");
    for (uint32_t wind = 0; wind < winds; wind++) {
        printf("  wind %u, %" PRId64 " degrees: ", wind + 1, job.winds.entry[wind].direction);
        say(choices(wind), "choice of alternatives, ", "choices of alternatives, ");
        say(internals * choices(wind), "case\n", "cases\n");
    }
}

int show_plain(const uint8_t *sheet, size_t n)
{
    uint8_t out[ARAL_REPORT_MOST];
    aral_text report = walked(sheet, n, out);
    if (report.number) return REFUSED;
    fwrite(out, 1, report.length, stdout);
    tell_cases();
    return ACCEPTED;
}

/* ---- Each case ---- */

/* A face under one wind and internal coefficient: how many alternatives it has, and the forces of each. */
typedef struct { uint32_t count; int64_t force[2][3]; } part;

/* The forces are read off the library's totals of the job that has this wind, internal coefficient and face alone: on
   each axis the greatest and the least are those of the alternatives that they name. Where both name the same one, the
   other has the same force. */
static part part_of(uint32_t wind, uint32_t internal, uint32_t face)
{
    part p = {.count = alternatives(wind, face)};
    aral_job one = alone(&job, wind, internal, face);
    for (int axis = 0; axis < 3; axis++) {
        aral_extreme greatest = total_of(&one, 2 * axis + 1), least = total_of(&one, 2 * axis + 2);
        p.force[0][axis] = p.force[1][axis] = (int64_t)units_of(&greatest);
        p.force[least.alternative[0] - 1][axis] = (int64_t)units_of(&least);
    }
    return p;
}

/* The next choice of alternatives, the last face's changing first; 0 after the last. */
static int next_choice(const part *p, uint32_t *alternative)
{
    for (uint32_t i = job.faces.count; i-- > 0;) {
        if (alternative[i] < p[i].count) {
            alternative[i]++;
            return 1;
        }
        alternative[i] = 1;
    }
    return 0;
}

/* How wide the columns of the faces and of the totals are: those of year 4 have two numbers. */
static int face_width(void) { return job.faces.count < 100 ? 3 : 4; }

static int has_pairs(void) { return job.year >= 4; }

static void print_heading(void)
{
    printf("wind internal");
    for (uint32_t i = 1; i <= job.faces.count; i++) {
        char name[16];
        snprintf(name, sizeof name, "f%u", i);
        printf(" %*s", face_width(), name);
    }
    for (const char *axis = "xyz"; *axis; axis++) printf(" %*c", has_pairs() ? 23 : 20, *axis);
    printf("\n");
}

static void print_total(units total)
{
    units newtons = total / NEWTON - (total % NEWTON < 0);
    if (has_pairs()) printf(" %11" PRId64 " %11" PRId64, (int64_t)newtons, (int64_t)(total - NEWTON * newtons));
    else printf(" %20" PRId64, (int64_t)total);
}

static void print_case(uint32_t wind, uint32_t internal, const part *p, const uint32_t *alternative)
{
    units total[3] = {0, 0, 0};
    printf("%4u %8u", wind + 1, internal + 1);
    for (uint32_t i = 0; i < job.faces.count; i++) {
        printf(" %*u", face_width(), alternative[i]);
        for (int axis = 0; axis < 3; axis++) total[axis] += p[i].force[alternative[i] - 1][axis];
    }
    for (int axis = 0; axis < 3; axis++) print_total(total[axis]);
    printf("\n");
}

int show_cases(const uint8_t *sheet, size_t n)
{
    uint8_t out[ARAL_REPORT_MOST];
    if (walked(sheet, n, out).number) return REFUSED;
    print_heading();
    for (uint32_t wind = 0; wind < job.winds.count; wind++)
        for (uint32_t internal = 0; internal < job.internals.count; internal++) {
            part p[ARAL_FACES_MOST];
            uint32_t alternative[ARAL_FACES_MOST];
            for (uint32_t i = 0; i < job.faces.count; i++) {
                p[i] = part_of(wind, internal, i);
                alternative[i] = 1;
            }
            do print_case(wind, internal, p, alternative);
            while (next_choice(p, alternative));
        }
    return ACCEPTED;
}
