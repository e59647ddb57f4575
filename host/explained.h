/* A sheet with every step to its six lines, for the terminal (explain_text.c) and as a page (explain_html.c). All
   numbers are the library's answers; what is added up here are the feet of the tables (explained.c). */
#ifndef EXPLAINED_H
#define EXPLAINED_H

#include "aralimogga.h"
#include "rows.h"
#include "units.h"

/* A report line: its total and case, each face's share, and the sums of their forces and newtons. */
typedef struct { aral_extreme total; aral_part face[ARAL_FACES_MOST]; units force; int64_t newtons; } explained_line;

/* The sheet's name, its job, and its report lines 1 to 6 at 0 to 5. */
typedef struct { const char *name; aral_job job; explained_line line[6]; } explained;

/* Asks the library for all of it. Answers the refusal of the sheet, where it has one. */
aral_answer explain_sheet(const char *name, const uint8_t *sheet, size_t n, explained *e);

/* The wind and the internal coefficient, in hundredths, of a line's case. */
const aral_wind *wind_of(const explained *e, const explained_line *l);
int64_t internal_of(const explained *e, const explained_line *l);

/* Whether a share comes from the tables: not that of a face that takes no part in the case. */
int takes_part(const aral_part *p);

/* The coefficients that the sheet looks up, by direction, as its winds come, and by zone: each question and its answer.
   Zones that have the same one are put together, as `E, F`. Answers how many there are. */
enum { LOOKED_UP_MOST = 5 * 8, ZONES_ROOM = 3 * 8 };
typedef struct { asked question; aral_coefficient answer; char zones[ZONES_ROOM]; } looked_up;
uint32_t look_up(const explained *e, looked_up list[LOOKED_UP_MOST]);

/* The question that a share's rows answer: which table it is, and what stands at its rows. */
asked question_of(const explained *e, const aral_part *p);

/* What a line is: `the greatest force along x`. */
const char *line_words(int line);

/* A line's total as the report has it: `149973027750000 units`, and of long sheds `1825817 N and 15312500000 units`. */
enum { TOTAL_ROOM = 80 };
const char *total_words(const explained *e, const explained_line *l, char text[TOTAL_ROOM]);

/* What a panel may show for the line's total, as a sentence. */
enum { PANEL_ROOM = 200 };
const char *panel_words(const explained *e, const explained_line *l, char text[PANEL_ROOM]);

/* The commands: as text on standard output, and as a page in a file, `-` for standard output. They answer what aral
   ends with. */
int explain_as_text(const char *name, const uint8_t *sheet, size_t n, int longer);
int explain_as_page(const char *out, const char *name, const uint8_t *sheet, size_t n, int longer);

#endif
