/* Says the refusal of a line of observations in words. The library tells the line alone; which of its fields is at
   fault is found by asking about each beside another that is right. */
#include "caret.h"
#include "slip.h"
#include "words.h"
#include <stdio.h>
#include <string.h>

enum { SHORT = 64 }; /* no acceptable line is so long */

static const char *const fields[] = {"the direction, in whole degrees", "the speed, in tenths of m/s"};

/* The fields of the line, cut at its first spaces: up to two, and what is too many. */
typedef struct { size_t from[3], to[3]; int count; } parts;

static parts cut(const uint8_t *line, size_t n)
{
    parts p = {.count = 0};
    size_t at = 0;
    for (size_t i = 0; i <= n && p.count < 3; i++) {
        if (i < n && (line[i] != ' ' || p.count == 2)) continue;
        p.from[p.count] = at;
        p.to[p.count++] = i;
        at = i + 1;
    }
    return p;
}

/* What the library answers to a line with this as one of its fields, and 0 as the other. */
static uint32_t answer_to(const uint8_t *field, size_t n, int which)
{
    char text[SHORT + 8];
    if (n > SHORT || memchr(field, 0, n)) return ARAL_FORM;
    int length = snprintf(text, sizeof text, which ? "0 %.*s\n" : "%.*s 0\n", (int)n, (const char *)field);
    return aral_rose_take(aral_rose_new(), (const uint8_t *)text, (size_t)length).number;
}

/* The first field with this fault: 0 or 1, 2 for what is too many, and the count where one is missing. */
static int faulty(const uint8_t *line, const parts *p, uint32_t number)
{
    int i = 0;
    while (i < p->count && i < 2) {
        uint32_t answer = answer_to(line + p->from[i], p->to[i] - p->from[i], i);
        if (answer && answer <= number) break;
        i++;
    }
    return i;
}

static void tell_field(const uint8_t *field, size_t n, uint32_t number, int which)
{
    slip s = slip_of_number(field, n);
    if (n == 0) {
        printf("Nothing stands there: one space goes between the two fields, and none elsewhere.\n");
        return;
    }
    printf("There stands ");
    print_bytes(field, n);
    if (number == ARAL_FORM) printf(": %s.%s%s\n", s.what, *s.advice ? " " : "", s.advice);
    else printf(". It may be 0 to %s.\n", which ? "1000" : "359");
}

static void tell_fault(const uint8_t *line, const parts *p, int which, int ended, uint32_t number)
{
    if (number == ARAL_OBSERVATIONS) printf("A rose takes %d observations.\n", ARAL_OBSERVATIONS_MOST);
    else if (!ended) printf("Press Enter after it: every line has an end, the last one too.\n");
    else if (which < p->count && which < 2)
        tell_field(line + p->from[which], p->to[which] - p->from[which], number, which);
    else if (which == 2) printf("The line should end before it: nothing stands behind the speed, not even a space.\n");
    else printf("The line ends before %s: a field is left out.\n", fields[which]);
}

void explain_observation(const uint8_t *line, size_t kept, size_t length, int ended, aral_answer refusal)
{
    parts p = cut(line, kept);
    int which = faulty(line, &p, refusal.number), there = which < p.count;
    int whole = refusal.number == ARAL_OBSERVATIONS;
    const char *label = !ended ? "the line has no line end" : whole ? "one more than a rose takes"
                      : which < 2 ? fields[which] : "more than an observation has";
    shown_line l = {refusal.line, line, kept, length - kept, 1, ended, there ? p.from[which] : kept,
                    there ? p.to[which] : kept, label};
    if (whole) l.from = 0, l.to = kept;
    if (!ended) l.from = l.to = kept;
    if (ended && which == 2 && l.from == l.to && l.from > 0) l.from--; /* a space at the end is marked itself */
    printf("refused with %u at line %u: %s\n", refusal.number, refusal.line,
           whole ? "more observations than a rose takes" : title_of(refusal.number));
    show_line(&l);
    tell_fault(line, &p, which, ended, refusal.number);
    printf("Line %u is an observation: the direction in whole degrees (0 to 359) and the speed in tenths of m/s "
           "(0 to 1000), as `225 64`.\n", refusal.line);
}
