/* Which printed rows a coefficient comes from, in words (rows.c). */
#ifndef ROWS_H
#define ROWS_H

#include "aralimogga.h"

/* A question about a coefficient, as aral_outside takes it. */
typedef struct { int64_t year, h, a, b, density, kind, x, direction; uint8_t place; } asked;

/* Prints the rows of an answered question, without a line end, as `row 3 (10 degrees): -1.200` or
   `between row 6 (45 degrees, 0.30) and row 7 (60 degrees, 0.70), 1/150 of the way: 0.303`. */
void print_rows(const asked *q, const aral_coefficient *c);

/* Where a row of the question's table stands, as the book says it: `h/b to 1/2, a/b to 3/2`, `45 degrees`. */
enum { ROW_NAME_ROOM = 48 };
const char *row_name(const asked *q, uint32_t row, char name[ROW_NAME_ROOM]);

/* The same as short as a column of a page wants it: `h/b to 3/2, a/b to 4` by the rows' upper ends, `45°`. */
const char *short_row_name(const asked *q, uint32_t row, char name[ROW_NAME_ROOM]);

/* The book's number of the table that has the rows. */
const char *table_of(const asked *q);

#endif
