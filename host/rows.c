/* Says which printed rows a coefficient comes from. Where each row stands is written here; what is printed in it is
   asked of the library at that place, so that no coefficient is written twice. */
#include "rows.h"
#include <stdio.h>
#include <string.h>

/* Gables at tenths of a degree: rows 1 to 7 for h/b to 1/2, 8 to 14 to 3/2, 15 to 22 above. */
static const int gable_at[] = {0, 50, 100, 200, 300, 450, 600, 0, 50, 100, 200, 300, 450, 600,
                               0, 50, 100, 200, 300, 400, 500, 600};

/* Single slopes at tenths of a degree; the first row is printed for 5 to 10 degrees. */
static const int single_at[] = {100, 150, 200, 250, 300};

/* Flat roofs, the kind of each row and where it stands: parapets and curved eaves at thousandths of h, mansards at
   tenths of a degree. */
static const struct { int kind, at; } flat_at[] = {{2, 0},   {3, 25},  {3, 50},  {3, 100}, {4, 50},
                                                   {4, 100}, {4, 200}, {5, 300}, {5, 450}, {5, 600}};

static int on_wall(const asked *q) { return (q->place >= 'A' && q->place <= 'D') || q->place == 'w'; }

const char *row_name(const asked *q, uint32_t row, char name[ROW_NAME_ROOM])
{
    static const char *const tall[] = {"to 1/2", "over 1/2 to 3/2", "over 3/2 to 6"};
    static const char *const wide[] = {"to 3/2", "over 3/2 to 4"};
    uint32_t k = row - 1;
    size_t n = ROW_NAME_ROOM;
    if (on_wall(q)) snprintf(name, n, "h/b %s, a/b %s", tall[k / 2], wide[k % 2]);
    else if (q->kind == 1) snprintf(name, n, "%d degrees", gable_at[k] / 10);
    else if (q->kind == 6) snprintf(name, n, "%s%d degrees", k == 0 ? "5 to " : "", single_at[k] / 10);
    else if (flat_at[k].kind == 2) snprintf(name, n, "straight eaves%s", q->kind == 5 ? " at 90 degrees" : "");
    else if (flat_at[k].kind == 5) snprintf(name, n, "%d degrees", flat_at[k].at / 10);
    else snprintf(name, n, "x/h 0.%03d", flat_at[k].at);
    return name;
}

const char *short_row_name(const asked *q, uint32_t row, char name[ROW_NAME_ROOM])
{
    static const char *const tall[] = {"1/2", "3/2", "6"};
    uint32_t k = row - 1;
    char *degrees = strstr(row_name(q, row, name), " degrees");
    if (on_wall(q)) snprintf(name, ROW_NAME_ROOM, "h/b to %s, a/b to %s", tall[k / 2], k % 2 ? "4" : "3/2");
    else if (degrees) strcpy(degrees, "°");
    return name;
}

/* What is printed for the place in a row of a roof's table. On flat roofs h, a and b make no difference: those here
   put every row at a whole number of centimetres. */
static aral_coefficient printed_in(const asked *q, uint32_t row)
{
    uint32_t k = row - 1;
    if (q->kind == 1 || q->kind == 6) {
        int at = q->kind == 1 ? gable_at[k] : single_at[k];
        return aral_outside(q->year, q->h, q->a, q->b, q->density, q->kind, at, q->direction, q->place);
    }
    int kind = flat_at[k].kind, x = kind == 5 ? flat_at[k].at : 4 * flat_at[k].at;
    return aral_outside(q->year, 4000, 4800, 4000, q->density, kind, x, q->direction, q->place);
}

/* As the book prints it: with its sign where both signs are meant, else only where it is negative. */
static void print_decimals(const aral_coefficient *c, int decimals)
{
    for (uint32_t i = 0; i < c->count; i++) {
        int size = c->value[i] < 0 ? -c->value[i] : c->value[i];
        printf("%s%s%d.", i ? " or " : "", c->value[i] < 0 ? "-" : c->count == 2 ? "+" : "", size / 1000);
        if (decimals == 3) printf("%03d", size % 1000);
        else printf("%02d", size % 1000 / 10);
    }
}

static void print_row(const asked *q, uint32_t row)
{
    char name[ROW_NAME_ROOM];
    aral_coefficient printed = printed_in(q, row);
    printf("row %u (%s, ", row, row_name(q, row, name));
    print_decimals(&printed, 2);
    printf(")");
}

void print_rows(const asked *q, const aral_coefficient *c)
{
    char name[ROW_NAME_ROOM];
    if (c->lower == c->upper) {
        printf("row %u (%s)", c->lower, row_name(q, c->lower, name));
    } else {
        printf("between ");
        print_row(q, c->lower);
        printf(" and ");
        print_row(q, c->upper);
        printf(", %u/%u of the way", c->part, c->whole);
    }
    printf(": ");
    print_decimals(c, 3);
}

const char *table_of(const asked *q)
{
    if (on_wall(q)) return "3.2.2.2.1";
    return q->kind == 1 ? "3.2.2.2.2" : q->kind == 6 ? "3.2.2.2.3" : "3.2.2.2.4";
}
