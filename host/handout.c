/* Prints a newton column so that it can be added up by hand. No force is reckoned here. In the case that a line names,
   each face goes as far as it can by itself, so its force is the library's total of the job that has this wind, this
   internal coefficient and this face alone; and that force rounded down is the column of that job. */
#include "handout.h"
#include "alone.h"
#include "aralimogga.h"
#include "edit.h"
#include "setting.h"
#include "units.h"
#include "words.h"
#include <inttypes.h>
#include <stdio.h>

/* A line of the table: a force, what it is rounded down and what remains, and the newtons of the column. */
typedef struct { units force; int64_t down, remainder, newtons; } entry;

static aral_answer newtons_of(const aral_job *j, int64_t line, int64_t column[ARAL_FACES_MOST])
{
    return aral_column(setting_of(j), j->faces.entry, j->faces.count, line, column, ARAL_FACES_MOST);
}

static entry entry_of(const aral_job *j, const aral_extreme *e, int64_t line, uint32_t face, int64_t newtons)
{
    int64_t down[ARAL_FACES_MOST] = {0};
    aral_job one = alone(j, e->wind - 1, e->internal - 1, face);
    aral_extreme own = total_of(&one, line);
    newtons_of(&one, line, down);
    return (entry){units_of(&own), down[0], (int64_t)(units_of(&own) - (units)NEWTON * down[0]), newtons};
}

static void print_heading(const aral_job *j, const aral_extreme *e, int64_t line)
{
    const aral_wind *wind = &j->winds.entry[e->wind - 1];
    printf("%s: wind %u (%" PRId64 " degrees, %" PRId64 " tenths of m/s), internal coefficient %u (%" PRId64
           " hundredths)\n",
           line_name(line), e->wind, wind->direction, wind->speed, e->internal, j->internals.entry[e->internal - 1]);
    printf("Forces and remainders are in units of 0.00000000005 N: %" PRId64 " units are 1 N.\n\n", NEWTON);
    printf("face zone alternative %20s %12s %12s     %10s\n", "force", "rounded down", "remainder", "newtons");
}

/* `more` of the newtons were missing. */
static void print_entry(const entry *t, int64_t more)
{
    char room[UNITS_ROOM];
    printf(" %20s %12" PRId64 " %12" PRId64, text_of(t->force, room), t->down, t->remainder);
    if (more > 0) printf(" %+3" PRId64, more);
    else printf("    ");
    printf(" %10" PRId64 "\n", t->newtons);
}

/* The faces, their sum, and beside it the total with nothing but itself rounded down. Answers how many newtons were
   shared out. */
static int64_t print_table(const aral_job *j, const aral_extreme *e, int64_t line, const int64_t *column)
{
    entry sum = {0, 0, 0, 0};
    for (uint32_t i = 0; i < j->faces.count; i++) {
        entry t = entry_of(j, e, line, i, column[i]);
        printf("%4u %4c %11u", i + 1, j->faces.entry[i].zone, e->alternative[i]);
        print_entry(&t, t.newtons - t.down);
        sum = (entry){sum.force + t.force, sum.down + t.down, sum.remainder + t.remainder, sum.newtons + t.newtons};
    }
    printf("%-21s", "sum");
    print_entry(&sum, sum.newtons - sum.down);
    printf("%-21s", "total");
    print_entry(&(entry){units_of(e), e->newtons, (int64_t)e->remainder, e->newtons}, 0);
    return sum.newtons - sum.down;
}

static void tell_missing(int64_t missing)
{
    if (missing == 0) printf("\nRounded down, the forces add up to the total rounded down: no newton is missing.\n");
    else if (missing == 1)
        printf("\nRounded down, the forces add up to 1 N less than the total rounded down. It goes to the face\n"
               "with the largest remainder, marked +1; of equal ones to that of the earlier face.\n");
    else
        printf("\nRounded down, the forces add up to %" PRId64 " N less than the total rounded down. They go one each\n"
               "to the faces with the largest remainders, marked +1; of equal ones to that of the earlier face.\n",
               missing);
}

/* A column is refused with the sheet's own line, or else for its report line. */
static int refuse(const uint8_t *sheet, size_t n, aral_answer answer, int64_t line)
{
    if (answer.line) explain_refusal(sheet, n, answer);
    else printf("refused with %u: there is no report line %" PRId64 "; they are 1 (%s) to 6 (%s)\n", answer.number,
                line, line_name(1), line_name(6));
    return REFUSED;
}

int show_column(const uint8_t *sheet, size_t n, int64_t line)
{
    int64_t column[ARAL_FACES_MOST];
    aral_edited opened = aral_open(sheet, n);
    const aral_job *j = &opened.worksheet.job;
    aral_answer answer = {opened.number, opened.line};
    if (!answer.number) answer = newtons_of(j, line, column);
    if (answer.number) return refuse(sheet, n, answer, line);
    aral_extreme e = aral_total(sheet, n, line);
    print_heading(j, &e, line);
    tell_missing(print_table(j, &e, line, column));
    return ACCEPTED;
}
