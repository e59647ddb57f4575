/* The command `aral mark`: every sheet of a folder in one table (mark.c), as text or for a spreadsheet (mark_text.c) or
   as a page (mark_html.c). */
#ifndef MARK_H
#define MARK_H

#include "units.h"
#include <stddef.h>

/* What became of an entry of the folder: ACCEPTED with its six totals, REFUSED, MISUSED where it can't be read, or one
   that is no file; and that in words. */
enum { NO_FILE = 3, VERDICT_ROOM = 200 };
typedef struct { char *name; int status; char verdict[VERDICT_ROOM]; units total[6]; } mark;

/* The folder's entries by their names, and how many of them are of which status. */
typedef struct { const char *folder; mark *entry; size_t count, of[NO_FILE + 1]; } marks;

/* The three tables, on standard output. */
void print_marks(const marks *m);
void print_marks_csv(const marks *m);
void print_marks_page(const marks *m);

/* Marks the folder, and prints by `table`. Answers what aral ends with: that of the worst of its files. */
int mark_folder(const char *folder, void (*table)(const marks *));

/* How many of what there are, as `5 sheets: 4 accepted, 1 refused`. */
enum { SUMMARY_ROOM = 160 };
const char *summary_of(const marks *m, char text[SUMMARY_ROOM]);

#endif
