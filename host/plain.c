/* The plain calculator: an ordinary C program for the same entry points, written from the papers alone. It shares no
   code and no table with the proved crates, so that where the two differ one of them misread the papers.
   Worksheets are in plain_edits.c, the column in plain_column.c, shares in plain_share.c, mending in plain_mend.c,
   roses in plain_rose.c, and where a fault lies in plain_where.c. */
#include "plain.h"
#include "step.h"
#include <string.h>

enum { WINDS = 8, INTERNALS = 4, STEPS = 16, FACES = 240, TURNS = 5 };
enum { FEW = 24 };         /* the most faces of a sheet up to year 3: their forces add up within 64 bits */
enum { LONG = 4 };         /* the first year of long sheds: up to FACES faces, and totals of two numbers */
enum { LAST_YEAR = 4 };    /* the sheets of years 2 to here open with V and have one form */
enum { EVERY = 99999999 }; /* a face's mark `-`, for every wind: no number in form is so large */
enum { FORM = 1, COUNT, RANGE, RATIO, ROOF, PLACE, ROOM, HEIGHT, CASES = 10 };
enum { NO_ROOF, GABLE, STRAIGHT, PARAPET, CURVED, MANSARD, SINGLE };

typedef struct { int64_t h, a, b, density, kind, x; } building;
typedef struct { int height, factor; } step; /* a line of the profile */
typedef struct { char zone; int mark, height, area[3]; } face;
typedef struct {
    int year;
    building house;
    int winds, internals, steps, faces;
    int direction[WINDS], speed[WINDS], internal[INTERNALS];
    step step[STEPS];
    face face[FACES];
} job;

static int within(int64_t value, int64_t least, int64_t greatest) { return least <= value && value <= greatest; }

/* Whether the job has a profile, and a height for each face. */
static int profiled(const job *j) { return j->year >= 2; }

/* The most faces that a job of a year may have. */
static int most_faces(int year) { return year >= LONG ? FACES : FEW; }

/* ---- The printed tables, in hundredths ---- */

/* Walls: rows 1 to 6, by h/b, then by a/b; wind 0 and wind 90 on A, B, C, D; the local. */
static const struct { int general[2][4], local; } walls[6] = {
    {{{70, -20, -50, -50}, {-50, -50, 70, -20}}, -80},
    {{{70, -25, -60, -60}, {-50, -50, 70, -10}}, -100},
    {{{70, -25, -60, -60}, {-60, -60, 70, -25}}, -110},
    {{{70, -30, -70, -70}, {-50, -50, 70, -10}}, -110},
    {{{80, -25, -80, -80}, {-80, -80, 80, -25}}, -120},
    {{{70, -40, -70, -70}, {-50, -50, 80, -10}}, -120},
};

/* A row of a roof's table: its number there from 1, where it stands, and its columns. */
typedef struct { int number, at, value[2 * TURNS]; } printed_row;

/* Gables: by h/b; rows at slopes in tenths of a degree; wind 0 EF, wind 0 GH, wind 90 EG, wind 90 FH. */
static const printed_row gables[3][8] = {
    {{1, 0, {-80, -40, -80, -40}},
     {2, 50, {-90, -40, -80, -40}},
     {3, 100, {-120, -40, -80, -60}},
     {4, 200, {-40, -40, -70, -60}},
     {5, 300, {0, -40, -70, -60}},
     {6, 450, {30, -50, -70, -60}},
     {7, 600, {70, -60, -70, -60}}},
    {{8, 0, {-80, -60, -100, -60}},
     {9, 50, {-90, -60, -90, -60}},
     {10, 100, {-110, -60, -80, -60}},
     {11, 200, {-70, -50, -80, -60}},
     {12, 300, {-20, -50, -80, -80}},
     {13, 450, {20, -50, -80, -80}},
     {14, 600, {60, -50, -80, -80}}},
    {{15, 0, {-70, -60, -90, -70}},
     {16, 50, {-70, -60, -80, -80}},
     {17, 100, {-70, -60, -80, -80}},
     {18, 200, {-80, -60, -80, -80}},
     {19, 300, {-100, -50, -80, -70}},
     {20, 400, {-20, -50, -80, -70}},
     {21, 500, {20, -50, -80, -70}},
     {22, 600, {50, -50, -80, -70}}},
};

/* Flat roofs: rows at thousandths of h, or at tenths of a degree for a mansard, which ends in row 1; E, L1, L2. */
static const printed_row straight_row = {1, 0, {-70, -250, -200}};
static const printed_row parapet_rows[] = {
    {2, 25, {-70, -220, -180}}, {3, 50, {-70, -200, -160}}, {4, 100, {-70, -180, -140}}};
static const printed_row curved_rows[] = {
    {5, 50, {-40, -150, -180}}, {6, 100, {-30, -120, -140}}, {7, 200, {-30, -80, -80}}};
static const printed_row mansard_rows[] = {{8, 300, {-30, -150, -150}},
                                           {9, 450, {-40, -180, -190}},
                                           {10, 600, {-50, -190, -190}},
                                           {1, 900, {-70, -250, -200}}};

/* Single slopes: the first row is printed for 5 to 10 degrees and stands here at its end; wind 0 EF GH, wind 45 EF GH,
   wind 90 EG FH, wind 135 EF GH, wind 180 EF GH. */
static const printed_row single_rows[] = {{1, 100, {-100, -50, -100, -90, -100, -50, -90, -100, -50, -100}},
                                          {2, 150, {-90, -50, -100, -70, -100, -50, -60, -100, -30, -100}},
                                          {3, 200, {-80, -50, -100, -60, -90, -50, -50, -100, -20, -100}},
                                          {4, 250, {-70, -50, -100, -60, -80, -50, -30, -90, -10, -90}},
                                          {5, 300, {-50, -50, -100, -60, -80, -50, -10, -60, 0, -60}}};

static int flat(const building *house) { return within(house->kind, STRAIGHT, MANSARD); }

static int sloping(const building *house) { return house->kind == GABLE || house->kind == SINGLE; }

/* The directions: two on every roof, three more on a single slope. */
static int straight_on(int64_t direction) { return direction == 0 || direction == 90; }

static int slanting_or_back(int64_t direction) { return direction == 45 || direction == 135 || direction == 180; }

static int knows(const building *house, int64_t direction)
{
    return straight_on(direction) || (house->kind == SINGLE && slanting_or_back(direction));
}

/* 0 for h/b to 1/2, 1 for to 3/2, 2 above. */
static int height_block(const building *house)
{
    return 2 * house->h <= house->b ? 0 : 2 * house->h <= 3 * house->b ? 1 : 2;
}

static int side_block(const building *house) { return 2 * house->a > 3 * house->b; }

static int wall_row(const building *house) { return 2 * height_block(house) + side_block(house) + 1; }

/* Where a roof lies in its table: `part` of `whole` on the way from one row to the next. */
typedef struct { const printed_row *lower, *upper; int64_t part, whole; } spot;

/* The rows stand at multiples of the unit, and x is not past the last. */
static spot between(const printed_row *row, int64_t unit, int64_t x)
{
    while (x > row[1].at * unit) row++;
    return (spot){&row[0], &row[1], x - row[0].at * unit, (row[1].at - row[0].at) * unit};
}

static spot spot_of(const building *house)
{
    switch (house->kind) {
    case GABLE: return between(gables[height_block(house)], 1, house->x);
    case PARAPET: return between(parapet_rows, house->h, 1000 * house->x);
    case CURVED: return between(curved_rows, house->h, 1000 * house->x);
    case MANSARD: return between(mansard_rows, 1, house->x);
    case SINGLE: return between(single_rows, 1, house->x < 100 ? 100 : house->x);
    default: return (spot){&straight_row, &straight_row, 0, 1};
    }
}

/* A column of the roof's table, on the straight line: thousandths, rounded once, a half away from zero. */
static int roof_value(const building *house, int column)
{
    spot s = spot_of(house);
    int64_t exact = 10 * (s.lower->value[column] * (s.whole - s.part) + s.upper->value[column] * s.part);
    int64_t size = exact < 0 ? -exact : exact;
    int rounded = (int)((2 * size + s.whole) / (2 * s.whole));
    return exact < 0 ? -rounded : rounded;
}

static int on_wall(uint8_t place) { return ('A' <= place && place <= 'D') || place == 'w'; }

/* The column of a zone in the table of a gable or a single slope: two for each of its winds, in their order. */
static int column_of(const building *house, int direction, uint8_t zone)
{
    int wind = direction / (house->kind == SINGLE ? 45 : 90);
    int second = direction == 90 ? zone == 'F' || zone == 'H' : zone >= 'G';
    return 2 * wind + second;
}

/* The outside coefficients of a place in thousandths, and how many; 0 where the building has no such place, or its
   table not this wind. */
static int outside(const building *house, int direction, uint8_t place, int value[2])
{
    value[0] = value[1] = 0;
    if (on_wall(place)) {
        int row = wall_row(house) - 1;
        if (!straight_on(direction)) return 0;
        value[0] = 10 * (place == 'w' ? walls[row].local : walls[row].general[direction == 90][place - 'A']);
    } else if (sloping(house) && 'E' <= place && place <= 'H') {
        value[0] = roof_value(house, column_of(house, direction, place));
    } else if (flat(house) && place == 'F') {
        value[0] = 200;
        value[1] = -200;
        return 2;
    } else if (flat(house) && (place == 'E' || place == '1' || place == '2')) {
        value[0] = roof_value(house, place == 'E' ? 0 : place - '0');
    } else {
        return 0;
    }
    return 1;
}

/* Whether the building has the face's zone: a wall beside a single slope only in a wind of the walls' table. */
static int zone_fits(const building *house, const face *f)
{
    if (f->zone <= 'D') return house->kind != SINGLE || straight_on(f->mark);
    return sloping(house) || (flat(house) && f->zone <= 'F');
}

/* ---- The building's own faults ---- */

static int roof_number_fits(const building *house)
{
    int64_t h = house->h, x = house->x;
    switch (house->kind) {
    case GABLE: return x <= 600;
    case PARAPET: return 40 * x >= h && 10 * x <= h;
    case CURVED: return 20 * x >= h && 5 * x <= h;
    case MANSARD: return within(x, 300, 900);
    case SINGLE: return within(x, 50, 300);
    default: return x == 0;
    }
}

/* The first row of the walls' table starts just over a square plan, and from year 3 on at it. */
static int sides_fit(int64_t year, const building *house)
{
    return (year >= 3 ? house->a >= house->b : house->a > house->b) && house->a <= 4 * house->b;
}

static int building_fault(int64_t year, const building *house)
{
    if (!within(house->h, 100, 30000) || !within(house->a, 100, 30000) || !within(house->b, 100, 30000)
        || !within(house->density, 1000, 1500) || !within(house->kind, NO_ROOF, SINGLE) || !within(house->x, 0, 30000))
        return RANGE;
    if (house->h > 6 * house->b || !sides_fit(year, house)) return RATIO;
    return roof_number_fits(house) ? 0 : ROOF;
}

/* ---- Reading ---- */

typedef struct { const uint8_t *text; size_t length, at; uint32_t line; } reader;

static int peek(const reader *r) { return r->at < r->length ? r->text[r->at] : -1; }

static int take(reader *r, int byte)
{
    if (peek(r) != byte) return 0;
    r->at++;
    return 1;
}

/* Takes a number in form: at most 7 digits, no plus, no leading zero, no -0. */
static int number(reader *r, int *value)
{
    int negative = take(r, '-'), first = peek(r), digits = 0, size = 0;
    while (digits < 8 && within(peek(r), '0', '9')) {
        size = 10 * size + (r->text[r->at++] - '0');
        digits++;
    }
    *value = negative ? -size : size;
    return within(digits, 1, 7) && !(first == '0' && (digits > 1 || negative));
}

/* Takes `count` numbers with one space between them, and the line's end. */
static int numbers(reader *r, int count, int *value)
{
    for (int i = 0; i < count; i++)
        if ((i > 0 && !take(r, ' ')) || !number(r, &value[i])) return 0;
    return take(r, '\n');
}

static int read_count(reader *r, char letter, int greatest, int *count)
{
    r->line++;
    if (!take(r, letter) || !take(r, ' ') || !numbers(r, 1, count)) return FORM;
    return within(*count, 1, greatest) ? 0 : COUNT;
}

/* A sheet is of year 1 unless its first line begins with V. */
static int read_year(reader *r, job *j)
{
    int count, fault;
    j->year = 1;
    if (peek(r) != 'V') return 0;
    fault = read_count(r, 'V', 1, &count);
    if (fault) return fault;
    r->line++;
    if (!numbers(r, 1, &j->year)) return FORM;
    return within(j->year, 2, LAST_YEAR) ? 0 : RANGE;
}

static int read_building(reader *r, job *j)
{
    int value[6];
    r->line++;
    if (!numbers(r, 6, value)) return FORM;
    j->house = (building){value[0], value[1], value[2], value[3], value[4], value[5]};
    return building_fault(j->year, &j->house);
}

static int read_winds(reader *r, job *j)
{
    int fault = read_count(r, 'W', WINDS, &j->winds);
    for (int i = 0; !fault && i < j->winds; i++) {
        int value[2];
        r->line++;
        if (!numbers(r, 2, value)) return FORM;
        if (!knows(&j->house, value[0]) || !within(value[1], 1, 1000)) return RANGE;
        j->direction[i] = value[0];
        j->speed[i] = value[1];
    }
    return fault;
}

static int read_internals(reader *r, job *j)
{
    int fault = read_count(r, 'I', INTERNALS, &j->internals);
    for (int i = 0; !fault && i < j->internals; i++) {
        r->line++;
        if (!numbers(r, 1, &j->internal[i])) return FORM;
        if (!within(j->internal[i], -100, 100)) return RANGE;
    }
    return fault;
}

static int read_profile(reader *r, job *j)
{
    j->steps = 0;
    if (!profiled(j)) return 0;
    int fault = read_count(r, 'P', STEPS, &j->steps);
    for (int i = 0; !fault && i < j->steps; i++) {
        int value[2];
        r->line++;
        if (!numbers(r, 2, value)) return FORM;
        if (!within(value[0], 0, 30000) || !within(value[1], 1, 1000)) return RANGE;
        if (i > 0 && value[0] <= j->step[i - 1].height) return RANGE;
        j->step[i] = (step){value[0], value[1]};
    }
    return fault;
}

/* A mark is a number, or a dash before a space. */
static int read_mark(reader *r, int *mark)
{
    if (peek(r) == '-' && r->at + 1 < r->length && r->text[r->at + 1] == ' ') {
        r->at++;
        *mark = EVERY;
        return 1;
    }
    return number(r, mark);
}

/* What a face line says, in its form: without a profile no height, which is then 0. */
static int take_face(reader *r, int high, face *f)
{
    int value[4] = {0}, first = high ? 0 : 1;
    if (!within(peek(r), 'A', 'H')) return 0;
    f->zone = (char)r->text[r->at++];
    if (!take(r, ' ') || !read_mark(r, &f->mark) || !take(r, ' ') || !numbers(r, 4 - first, value + first)) return 0;
    f->height = value[0];
    for (int axis = 0; axis < 3; axis++) f->area[axis] = value[1 + axis];
    return 1;
}

static int read_face(reader *r, const job *j, face *f)
{
    r->line++;
    if (!take_face(r, profiled(j), f)) return FORM;
    if (f->mark != EVERY && !knows(&j->house, f->mark)) return RANGE;
    if (!within(f->height, 0, 30000)) return RANGE;
    for (int axis = 0; axis < 3; axis++)
        if (!within(f->area[axis], -100000, 100000)) return RANGE;
    if (!zone_fits(&j->house, f)) return PLACE;
    if (profiled(j) && !within(f->height, j->step[0].height, j->step[j->steps - 1].height)) return HEIGHT;
    return 0;
}

static int read_faces(reader *r, job *j)
{
    int fault = read_count(r, 'F', most_faces(j->year), &j->faces);
    for (int i = 0; !fault && i < j->faces; i++) fault = read_face(r, j, &j->face[i]);
    return fault;
}

static aral_answer read_job(const uint8_t *sheet, size_t n, job *j)
{
    reader r = {sheet, n, 0, 0};
    int count, fault = read_year(&r, j);
    if (!fault) fault = read_count(&r, 'B', 1, &count);
    if (!fault) fault = read_building(&r, j);
    if (!fault) fault = read_winds(&r, j);
    if (!fault) fault = read_internals(&r, j);
    if (!fault) fault = read_profile(&r, j);
    if (!fault) fault = read_faces(&r, j);
    if (!fault && r.at < n) {
        r.line++;
        fault = FORM;
    }
    return fault ? (aral_answer){(uint32_t)fault, r.line} : (aral_answer){0, 0};
}

/* ---- Writing ---- */

typedef struct { char text[ARAL_SHEET_MOST]; size_t length; } writer;

static void put(writer *w, char byte) { w->text[w->length++] = byte; }

static void put_number(writer *w, int64_t value)
{
    char digit[20];
    int count = 0;
    uint64_t size = value < 0 ? 0 - (uint64_t)value : (uint64_t)value;
    if (value < 0) put(w, '-');
    do digit[count++] = (char)('0' + size % 10);
    while (size /= 10);
    while (count > 0) put(w, digit[--count]);
}

static void put_after_space(writer *w, int64_t value)
{
    put(w, ' ');
    put_number(w, value);
}

static void put_count(writer *w, char letter, int count)
{
    put(w, letter);
    put_after_space(w, count);
    put(w, '\n');
}

/* Numbers with one space between them, and the line's end. */
static void put_numbers(writer *w, int count, const int64_t *value)
{
    put_number(w, value[0]);
    for (int i = 1; i < count; i++) put_after_space(w, value[i]);
    put(w, '\n');
}

static aral_text hand_over(const writer *w, uint8_t *out, size_t room)
{
    if (w->length > room) return (aral_text){ROOM, 0, 0};
    memcpy(out, w->text, w->length);
    return (aral_text){0, 0, w->length};
}

static void put_face(writer *w, const face *f, int high)
{
    put(w, f->zone);
    put(w, ' ');
    if (f->mark == EVERY) put(w, '-');
    else put_number(w, f->mark);
    if (high) put_after_space(w, f->height);
    put(w, ' ');
    put_numbers(w, 3, (int64_t[]){f->area[0], f->area[1], f->area[2]});
}

static void put_sheet(writer *w, const job *j)
{
    const building *house = &j->house;
    if (profiled(j)) {
        put_count(w, 'V', 1);
        put_numbers(w, 1, (int64_t[]){j->year});
    }
    put_count(w, 'B', 1);
    put_numbers(w, 6, (int64_t[]){house->h, house->a, house->b, house->density, house->kind, house->x});
    put_count(w, 'W', j->winds);
    for (int i = 0; i < j->winds; i++) put_numbers(w, 2, (int64_t[]){j->direction[i], j->speed[i]});
    put_count(w, 'I', j->internals);
    for (int i = 0; i < j->internals; i++) put_numbers(w, 1, (int64_t[]){j->internal[i]});
    if (profiled(j)) put_count(w, 'P', j->steps);
    for (int i = 0; i < j->steps; i++) put_numbers(w, 2, (int64_t[]){j->step[i].height, j->step[i].factor});
    put_count(w, 'F', j->faces);
    for (int i = 0; i < j->faces; i++) put_face(w, &j->face[i], profiled(j));
}

/* ---- The worst cases ---- */

/* What a face offers under one direction, by the direction's eighths of a turn: no alternative where it is marked for
   another. */
typedef struct { int count, value[2]; } offer;
typedef struct { units total; int wind, internal; } best;
typedef struct { offer offer[FACES][TURNS]; int64_t weight[WINDS][FACES][3]; best best[6]; } worst;

static int turn_of(int direction) { return direction / 45; }

static void gather_offers(const job *j, worst *w)
{
    int used[TURNS] = {0};
    for (int i = 0; i < j->winds; i++) used[turn_of(j->direction[i])] = 1;
    for (int turn = 0; turn < TURNS; turn++)
        for (int i = 0; used[turn] && i < j->faces; i++) {
            const face *f = &j->face[i];
            offer *o = &w->offer[i][turn];
            if (f->mark != EVERY && f->mark != 45 * turn) o->count = 0;
            else o->count = outside(&j->house, 45 * turn, (uint8_t)f->zone, o->value);
        }
}

/* The factor at a height of the profile, on the straight line between its lines and not rounded. */
typedef struct { int64_t part, whole; } ratio;

static ratio factor_at(const job *j, int height)
{
    const step *s = j->step;
    if (!profiled(j)) return (ratio){1, 1};
    if (j->steps == 1) return (ratio){s->factor, 1000};
    while (height > s[1].height) s++;
    int64_t span = s[1].height - s[0].height, way = height - s[0].height;
    return (ratio){s[0].factor * (span - way) + s[1].factor * way, 1000 * span};
}

/* The speed at a face: the wind's times the factor, rounded once to a tenth, a half up. */
static int64_t face_speed(int64_t speed, ratio factor)
{
    if (factor.whole == 1) return speed;
    return (2 * speed * factor.part + factor.whole) / (2 * factor.whole);
}

/* What a thousandth of a net coefficient brings in each wind on each axis: the pressure at the face times its area. */
static void weigh(const job *j, worst *w)
{
    for (int i = 0; i < j->faces; i++) {
        ratio factor = factor_at(j, j->face[i].height);
        for (int wind = 0; wind < j->winds; wind++) {
            int64_t speed = face_speed(j->speed[wind], factor), pressure = j->house.density * speed * speed;
            for (int axis = 0; axis < 3; axis++) w->weight[wind][i][axis] = pressure * j->face[i].area[axis];
        }
    }
}

/* What faces `from` up to `to` bring to the greatest and the least total on each axis under one wind and internal: each
   chooses by itself. So few are added up here that 64 bits hold it. Inline, so that a report, which the benchmark
   measures, is not slowed by the sums, which it does not need. */
static inline void sum_few(const job *j, const worst *w, int wind, int internal, int from, int to, int64_t sum[6])
{
    int turn = turn_of(j->direction[wind]), inside = 10 * j->internal[internal];
    memset(sum, 0, 6 * sizeof *sum);
    for (int i = from; i < to; i++) {
        const offer *o = &w->offer[i][turn];
        if (o->count == 0) continue;
        for (int axis = 0; axis < 3; axis++) {
            int64_t weight = w->weight[wind][i][axis], first = (o->value[0] - inside) * weight, second = first;
            if (o->count == 2) second = (o->value[1] - inside) * weight;
            sum[2 * axis] += first > second ? first : second;
            sum[2 * axis + 1] += first < second ? first : second;
        }
    }
}

/* The greatest and the least total on each axis under one wind and internal. */
static inline void sum_case(const job *j, const worst *w, int wind, int internal, units sum[6])
{
    for (int k = 0; k < 6; k++) sum[k] = 0;
    for (int from = 0; from < j->faces; from += FEW) {
        int64_t part[6];
        sum_few(j, w, wind, internal, from, from + FEW < j->faces ? from + FEW : j->faces, part);
        for (int k = 0; k < 6; k++) sum[k] += part[k];
    }
}

/* Report lines 0, 2 and 4 want the greatest, the others the least. */
static int beats(int k, units total, units than) { return k % 2 == 0 ? total > than : total < than; }

/* The same where 64 bits hold both, which takes less time. */
static int beats_few(int k, int64_t total, int64_t than) { return k % 2 == 0 ? total > than : total < than; }

/* Takes the sums of a wind and internal where they are the first, or further out than all before. */
static void keep_best(worst *w, const units sum[6], int wind, int internal)
{
    for (int k = 0; k < 6; k++) {
        best found = {sum[k], wind, internal};
        if ((wind == 0 && internal == 0) || beats(k, found.total, w->best[k].total)) w->best[k] = found;
    }
}

/* The same of few faces. */
static void keep_few(worst *w, const int64_t sum[6], int wind, int internal)
{
    for (int k = 0; k < 6; k++) {
        best found = {sum[k], wind, internal};
        if ((wind == 0 && internal == 0) || beats_few(k, sum[k], (int64_t)w->best[k].total)) w->best[k] = found;
    }
}

/* Years 1 to 3 do not pay for the long sheds. */
static inline void try_case(const job *j, worst *w, int wind, int internal)
{
    units sum[6];
    int64_t few[6];
    if (j->faces <= FEW) {
        sum_few(j, w, wind, internal, 0, j->faces, few);
        keep_few(w, few, wind, internal);
    } else {
        sum_case(j, w, wind, internal, sum);
        keep_best(w, sum, wind, internal);
    }
}

static void find_worst(const job *j, worst *w)
{
    gather_offers(j, w);
    weigh(j, w);
    for (int wind = 0; wind < j->winds; wind++)
        for (int internal = 0; internal < j->internals; internal++) try_case(j, w, wind, internal);
}

/* The alternative that face i takes in the case found for report line k: the first that is as good as any. */
static int alternative(const job *j, const worst *w, int k, int i)
{
    const best *b = &w->best[k];
    const offer *o = &w->offer[i][turn_of(j->direction[b->wind])];
    if (o->count < 2) return 1;
    int64_t weight = w->weight[b->wind][i][k / 2], inside = 10 * j->internal[b->internal];
    int64_t first = (o->value[0] - inside) * weight, second = (o->value[1] - inside) * weight;
    return beats_few(k, second, first) ? 2 : 1;
}

/* ---- Newtons and remainders ---- */

#define NEWTON INT64_C(20000000000)

aral_pair ENTRY(pair_of)(units total)
{
    int64_t newtons = (int64_t)(total / NEWTON), over = (int64_t)(total % NEWTON);
    return over < 0 ? (aral_pair){newtons - 1, (uint64_t)(over + NEWTON)} : (aral_pair){newtons, (uint64_t)over};
}

units ENTRY(units_of)(aral_pair p) { return (units)NEWTON * p.newtons + p.remainder; }

/* A total as the report of a year has it. */
static void put_total(writer *out, int year, units total)
{
    if (year < LONG) {
        put_after_space(out, (int64_t)total);
        return;
    }
    aral_pair p = ENTRY(pair_of)(total);
    put_after_space(out, p.newtons);
    put_after_space(out, (int64_t)p.remainder);
}

/* ---- The report ---- */

/* A line of the report up to its alternatives. Inline for the same reason as sum_few. */
static inline void put_best(writer *out, int year, int k, const best *b)
{
    put(out, "xyz"[k / 2]);
    for (const char *side = k % 2 == 0 ? " max" : " min"; *side; side++) put(out, *side);
    put_total(out, year, b->total);
    put_after_space(out, b->wind + 1);
    put_after_space(out, b->internal + 1);
}

static void put_report(writer *out, const job *j, const worst *w)
{
    for (int k = 0; k < 6; k++) {
        put_best(out, j->year, k, &w->best[k]);
        for (int i = 0; i < j->faces; i++) put_after_space(out, alternative(j, w, k, i));
        put(out, '\n');
    }
}

/* ---- The plain engine ---- */

/* The most faces with two alternatives under at least one of the winds. */
enum { CHOICES = 8 };

/* A case: its wind and internal coefficient, from 0, and each face's alternative, from 1. */
typedef struct { int wind, internal; uint8_t alternative[FACES]; } one_case;
typedef struct { units total; one_case first; } reached;

/* A face has one alternative, number 1, where it adds nothing. */
static int alternatives(const job *j, const worst *w, int wind, int i)
{
    return w->offer[i][turn_of(j->direction[wind])].count == 2 ? 2 : 1;
}

static int choosing_faces(const job *j, const worst *w)
{
    int count = 0;
    for (int i = 0; i < j->faces; i++) {
        int most = 1;
        for (int wind = 0; wind < j->winds; wind++)
            if (alternatives(j, w, wind, i) > most) most = alternatives(j, w, wind, i);
        count += most == 2;
    }
    return count;
}

/* The case after this one, 0 after the last: the last face's alternative changes first, then the internal coefficient,
   then the wind. */
static int next_case(const job *j, const worst *w, one_case *c)
{
    for (int i = j->faces - 1; i >= 0; i--) {
        if (c->alternative[i] < alternatives(j, w, c->wind, i)) {
            c->alternative[i]++;
            return 1;
        }
        c->alternative[i] = 1;
    }
    if (++c->internal < j->internals) return 1;
    c->internal = 0;
    return ++c->wind < j->winds;
}

static void total_case(const job *j, const worst *w, const one_case *c, units total[3])
{
    int turn = turn_of(j->direction[c->wind]), inside = 10 * j->internal[c->internal];
    for (int axis = 0; axis < 3; axis++) total[axis] = 0;
    for (int i = 0; i < j->faces; i++) {
        const offer *o = &w->offer[i][turn];
        if (o->count == 0) continue;
        int64_t net = o->value[c->alternative[i] - 1] - inside;
        for (int axis = 0; axis < 3; axis++) total[axis] += net * w->weight[c->wind][i][axis];
    }
}

/* Of the alternatives only those of the job's faces are kept. */
static void keep_case(const job *j, reached *r, units total, const one_case *c)
{
    r->total = total;
    r->first.wind = c->wind;
    r->first.internal = c->internal;
    memcpy(r->first.alternative, c->alternative, (size_t)j->faces);
}

/* Walks every case, and keeps the first that is furthest out. */
static void walk_cases(const job *j, const worst *w, reached r[6])
{
    one_case c;
    int first = 1;
    c.wind = c.internal = 0;
    for (int i = 0; i < j->faces; i++) c.alternative[i] = 1;
    do {
        units total[3];
        total_case(j, w, &c, total);
        for (int k = 0; k < 6; k++)
            if (first || beats(k, total[k / 2], r[k].total)) keep_case(j, &r[k], total[k / 2], &c);
        first = 0;
    } while (next_case(j, w, &c));
}

aral_text ENTRY(plain)(const uint8_t *sheet, size_t n, uint8_t *out, size_t room)
{
    job j;
    worst found;
    reached r[6];
    aral_answer answer = read_job(sheet, n, &j);
    if (answer.number) return (aral_text){answer.number, answer.line, 0};
    gather_offers(&j, &found);
    if (choosing_faces(&j, &found) > CHOICES) return (aral_text){CASES, 0, 0};
    weigh(&j, &found);
    walk_cases(&j, &found, r);
    writer w;
    w.length = 0;
    for (int k = 0; k < 6; k++) {
        const one_case *c = &r[k].first;
        put_best(&w, j.year, k, &(best){r[k].total, c->wind, c->internal});
        for (int i = 0; i < j.faces; i++) put_after_space(&w, c->alternative[i]);
        put(&w, '\n');
    }
    return hand_over(&w, out, room);
}

/* ---- The sums of a worksheet ---- */

static int cell_of(int wind, int internal) { return INTERNALS * wind + internal; }

static aral_span span_of(units greatest, units least)
{
    return (aral_span){ENTRY(pair_of)(greatest), ENTRY(pair_of)(least)};
}

aral_sums ENTRY(add_up)(const uint8_t *sheet, size_t n)
{
    aral_sums sums;
    job j;
    worst w;
    memset(&sums, 0, sizeof sums);
    if (read_job(sheet, n, &j).number) return sums;
    gather_offers(&j, &w);
    weigh(&j, &w);
    for (int wind = 0; wind < j.winds; wind++)
        for (int internal = 0; internal < j.internals; internal++) {
            units sum[6];
            sum_case(&j, &w, wind, internal, sum);
            sums.cell[cell_of(wind, internal)] =
                (aral_sum_cell){span_of(sum[0], sum[1]), span_of(sum[2], sum[3]), span_of(sum[4], sum[5])};
        }
    return sums;
}

/* The six best of the stored sums. The faces are asked for their alternatives alone. */
static void find_stored(const job *j, const aral_sums *sums, worst *w)
{
    gather_offers(j, w);
    weigh(j, w);
    for (int wind = 0; wind < j->winds; wind++)
        for (int internal = 0; internal < j->internals; internal++) {
            const aral_sum_cell *c = &sums->cell[cell_of(wind, internal)];
            const aral_pair pair[6] = {c->x.greatest, c->x.least, c->y.greatest,
                                       c->y.least,    c->z.greatest, c->z.least};
            units sum[6];
            for (int k = 0; k < 6; k++) sum[k] = ENTRY(units_of)(pair[k]);
            keep_best(w, sum, wind, internal);
        }
}

aral_text ENTRY(report_by)(const uint8_t *sheet, size_t n, const aral_sums *sums, uint8_t *out, size_t room)
{
    job j;
    worst found;
    aral_answer answer = read_job(sheet, n, &j);
    if (answer.number) return (aral_text){answer.number, answer.line, 0};
    find_stored(&j, sums, &found);
    writer w;
    w.length = 0;
    put_report(&w, &j, &found);
    return hand_over(&w, out, room);
}

/* ---- The forces of a column ---- */

void ENTRY(forces)(const uint8_t *sheet, size_t n, int64_t line, int64_t force[ARAL_FACES_MOST])
{
    job j;
    worst found;
    if (read_job(sheet, n, &j).number) return;
    find_worst(&j, &found);
    int k = (int)line - 1;
    const best *b = &found.best[k];
    for (int i = 0; i < j.faces; i++) {
        const offer *o = &found.offer[i][turn_of(j.direction[b->wind])];
        int net = o->count == 0 ? 0 : o->value[alternative(&j, &found, k, i) - 1] - 10 * j.internal[b->internal];
        force[i] = net * found.weight[b->wind][i][k / 2];
    }
}

/* ---- The entry points ---- */

aral_answer ENTRY(read)(const uint8_t *sheet, size_t n)
{
    job j;
    return read_job(sheet, n, &j);
}

aral_text ENTRY(rewrite)(const uint8_t *sheet, size_t n, uint8_t *out, size_t room)
{
    job j;
    aral_answer answer = read_job(sheet, n, &j);
    if (answer.number) return (aral_text){answer.number, answer.line, 0};
    writer w;
    w.length = 0;
    put_sheet(&w, &j);
    return hand_over(&w, out, room);
}

aral_text ENTRY(report)(const uint8_t *sheet, size_t n, uint8_t *out, size_t room)
{
    job j;
    worst found;
    aral_answer answer = read_job(sheet, n, &j);
    if (answer.number) return (aral_text){answer.number, answer.line, 0};
    find_worst(&j, &found);
    writer w;
    w.length = 0;
    put_report(&w, &j, &found);
    return hand_over(&w, out, room);
}

aral_extreme ENTRY(total)(const uint8_t *sheet, size_t n, int64_t line)
{
    job j;
    worst found;
    aral_extreme e = {0};
    aral_answer answer = read_job(sheet, n, &j);
    if (!answer.number && !within(line, 1, 6)) answer.number = RANGE;
    e.number = answer.number;
    e.line = answer.line;
    if (answer.number) return e;
    find_worst(&j, &found);
    int k = (int)line - 1;
    aral_pair p = ENTRY(pair_of)(found.best[k].total);
    if (j.year < LONG) e.total = (int64_t)found.best[k].total;
    e.newtons = p.newtons;
    e.remainder = p.remainder;
    e.wind = (uint32_t)found.best[k].wind + 1;
    e.internal = (uint32_t)found.best[k].internal + 1;
    e.faces = (uint32_t)j.faces;
    for (int i = 0; i < j.faces; i++) e.alternative[i] = (uint8_t)alternative(&j, &found, k, i);
    return e;
}

aral_text ENTRY(digits)(int64_t number, uint8_t *out, size_t room)
{
    writer w;
    w.length = 0;
    put_number(&w, number);
    return hand_over(&w, out, room);
}

static aral_coefficient refused(int fault, uint32_t line)
{
    return (aral_coefficient){.number = (uint32_t)fault, .line = line};
}

/* The greatest number that divides both. */
static int64_t common(int64_t p, int64_t q) { return q == 0 ? p : common(q, p % q); }

static void set_rows(aral_coefficient *c, int lower, int upper, int64_t part, int64_t whole)
{
    int64_t shared = common(part, whole);
    c->lower = (uint32_t)lower;
    c->upper = (uint32_t)upper;
    c->part = (uint32_t)(part / shared);
    c->whole = (uint32_t)(whole / shared);
}

/* The rows that a place was found between; on the walls and on a row itself one, with 0/1. All places of a roof have
   the same, also zone F of a flat one. */
static void find_rows(aral_coefficient *c, const building *house, uint8_t place)
{
    spot s = spot_of(house);
    if (on_wall(place)) set_rows(c, wall_row(house), wall_row(house), 0, 1);
    else if (s.part == 0) set_rows(c, s.lower->number, s.lower->number, 0, 1);
    else if (s.part == s.whole) set_rows(c, s.upper->number, s.upper->number, 0, 1);
    else set_rows(c, s.lower->number, s.upper->number, s.part, s.whole);
}

aral_coefficient ENTRY(outside)(int64_t year, int64_t h, int64_t a, int64_t b, int64_t density, int64_t kind,
                                int64_t x, int64_t direction, uint8_t place)
{
    building house = {h, a, b, density, kind, x};
    int64_t number[6] = {h, a, b, density, kind, x};
    int value[2], fault = 0;
    if (!within(year, 1, LAST_YEAR)) return refused(RANGE, 0);
    for (int i = 0; i < 6; i++)
        if (!within(number[i], -9999999, 9999999)) fault = FORM;
    if (!fault) fault = building_fault(year, &house);
    if (fault) return refused(fault, year == 1 ? 2 : 4);
    if (!knows(&house, direction)) return refused(RANGE, 0);
    int count = outside(&house, (int)direction, place, value);
    if (count == 0) return refused(PLACE, 0);
    aral_coefficient c = {.count = (uint32_t)count, .value = {value[0], value[1]}};
    find_rows(&c, &house, place);
    return c;
}

aral_coefficient ENTRY(net)(int64_t year, int64_t h, int64_t a, int64_t b, int64_t density, int64_t kind, int64_t x,
                            int64_t direction, uint8_t place, int64_t internal)
{
    aral_coefficient c = ENTRY(outside)(year, h, a, b, density, kind, x, direction, place);
    if (c.number) return c;
    if (!within(internal, -100, 100)) return refused(RANGE, 0);
    for (uint32_t i = 0; i < c.count; i++) c.value[i] -= 10 * (int32_t)internal;
    return c;
}

aral_double ENTRY(panel)(int64_t total)
{
    const double top = 9223372036854775808.0; /* 2^63, where a total just below it rounds to */
    double near = (double)total;
    if (near < top && (int64_t)near == total) return (aral_double){1, near, near};
    if (near < top && (int64_t)near < total) return (aral_double){0, near, next_above(near)};
    return (aral_double){0, next_below(near), near};
}

aral_point ENTRY(chart)(int64_t x, int64_t y, int64_t z)
{
    aral_double dx = ENTRY(panel)(x), dy = ENTRY(panel)(y), dz = ENTRY(panel)(z);
    return (aral_point){dx.low, dx.high, dy.low, dy.high, dz.low, dz.high};
}

/* The greatest double at or below a number of newtons is the panel's low one. One newton more than the greatest number
   of 64 bits is 2^63, which is a double and the one next above it. */
aral_double ENTRY(panel_newtons)(int64_t newtons, uint64_t remainder)
{
    aral_double d = ENTRY(panel)(newtons);
    if (remainder == 0) return d;
    d.exact = 0;
    if (newtons < INT64_MAX) d.high = ENTRY(panel)(newtons + 1).high;
    return d;
}

aral_point ENTRY(chart_newtons)(aral_pair x, aral_pair y, aral_pair z)
{
    aral_double dx = ENTRY(panel_newtons)(x.newtons, x.remainder), dy = ENTRY(panel_newtons)(y.newtons, y.remainder);
    aral_double dz = ENTRY(panel_newtons)(z.newtons, z.remainder);
    return (aral_point){dx.low, dx.high, dy.low, dy.high, dz.low, dz.high};
}
