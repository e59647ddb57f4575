/* The newton column by hand: how the missing newtons are shared out, and what is refused in which order. */
#include "setting.h"
#include "worked.h"
#include <stdio.h>
#include <string.h>

/* At 400 tenths of m/s a thousandth is worth 1250 x 400^2 = 200000000 on each dm2, a hundredth of a newton. Under wind
   0 and at internal 0.01, A has 0.69, B -0.21 and C -0.51: 6.9 N, -2.1 N and -5.1 N on one dm2. Zone F has 0.19 and
   -0.21. Rounded down and what remains: 6 and 0.9, -3 and 0.9, -6 and 0.9. */
#define FLAT "B 1\n500 1200 1000 1250 2 0\n"
#define JOB(faces) FLAT "W 1\n0 400\nI 1\n1\n" faces
#define HIGH "V 1\n2\n" FLAT "W 1\n0 400\nI 1\n0\nP 2\n0 500\n600 1000\n"
#define LONG_JOB "V 1\n4\n" FLAT "W 1\n0 400\nI 1\n1\nP 1\n600 1000\n"
#define THREE(line) "F 3\n" line line line

enum { SHOWN = 4, ROOM = 250, MANY = 1000, KEPT = -77 };
typedef struct { const char *name, *sheet; int64_t line, newtons[SHOWN]; } shared;
static const shared columns[] = {
    {"the sample's column: 5000, 4000 and 0",
     FLAT "W 1\n0 400\nI 2\n20\n-30\nF 3\nA 0 1000 0 0\nB - -1000 0 0\nF 0 0 0 -2000\n", 1, {5000, 4000, 0}},
    {"whole newtons", JOB("F 2\nA 0 10 0 0\nC 0 10 0 0\n"), 1, {69, -51}},
    {"20.7 of three times 6.9: the earlier faces first", JOB(THREE("A 0 1 0 0\n")), 1, {7, 7, 6}},
    {"41.4 of 6.9, 13.8 and 20.7: the largest remainders", JOB("F 3\nA 0 1 0 0\nA 0 2 0 0\nA 0 3 0 0\n"), 1,
     {7, 14, 20}},
    {"the same from behind", JOB("F 3\nA 0 3 0 0\nA 0 2 0 0\nA 0 1 0 0\n"), 1, {20, 14, 7}},
    {"the same in the middle", JOB("F 3\nA 0 2 0 0\nA 0 1 0 0\nA 0 3 0 0\n"), 1, {14, 7, 20}},
    {"one newton for the largest, which is the last: 32.4 of 25.5 and 6.9", JOB("F 2\nC 0 -5 0 0\nA 0 1 0 0\n"), 1,
     {25, 7}},
    {"-0.3 of -2.1, 6.9 and -5.1: three remainders alike", JOB("F 3\nB 0 1 0 0\nA 0 1 0 0\nC 0 1 0 0\n"), 1,
     {-2, 7, -6}},
    {"below zero, towards minus infinity: -10.2", JOB("F 2\nC 0 1 0 0\nC 0 1 0 0\n"), 2, {-5, -6}},
    {"a sum of 0 of 0.9 and -0.9 away", JOB("F 2\nA 0 1 0 0\nA 0 -1 0 0\n"), 1, {7, -7}},
    {"a face alone: 6.9", JOB("F 1\nA 0 1 0 0\n"), 1, {6}},
    {"a face alone: -6.9", JOB("F 1\nA 0 -1 0 0\n"), 1, {-7}},
    {"what does not act has none: 13.8", JOB("F 4\nA 90 1 0 0\nA 0 1 0 0\nB 90 1 0 0\nA 0 1 0 0\n"), 1, {0, 7, 0, 6}},
    {"y max", JOB(THREE("A 0 0 1 0\n")), 3, {7, 7, 6}},
    {"y min, with nothing on y", JOB(THREE("A 0 1 0 1\n")), 4, {0, 0, 0}},
    {"z max: the second alternative, 2.1", JOB(THREE("F 0 0 0 -1\n")), 5, {2, 2, 2}},
    {"z min: the first, -1.9 each and -5.7", JOB(THREE("F 0 0 0 -1\n")), 6, {-2, -2, -2}},
    {"z max of 8.4 of 6.3 and 2.1", JOB("F 2\nF 0 0 0 -3\nF 0 0 0 -1\n"), 5, {6, 2}},
    {"z max of 39.9: 18.9 and 2.1, and 18.9", JOB("F 3\nF 0 0 0 -1\nF - 0 0 -9\nF 0 0 0 -9\n"), 5, {2, 19, 18}},
    {"x min under the second wind, a quarter: 1.725 each",
     FLAT "W 2\n0 400\n0 200\nI 1\n1\n" THREE("A 0 1 0 0\n"), 2, {2, 2, 1}},
    {"x max at the second internal: 7.1", FLAT "W 1\n0 400\nI 2\n1\n-1\n" THREE("A 0 10 0 0\n"), 1, {71, 71, 71}},
    {"of two cases alike the first: 2 under wind 0 and under wind 90", FLAT
     "W 2\n0 400\n90 400\nI 1\n0\nF 2\nD 90 -1 0 0\nB 0 -1 0 0\n", 2, {0, 2}},
    {"20.7 in year 4 too", LONG_JOB THREE("A 0 600 1 0 0\n"), 1, {7, 7, 6}},
    {"-0.3 in year 4 too", LONG_JOB "F 3\nB 0 600 1 0 0\nA 0 600 1 0 0\nC 0 600 1 0 0\n", 1, {-2, 7, -6}},
    {"at the heights of year 2: 7, and a quarter of it", HIGH "F 3\nA 0 600 1 0 0\nA 0 0 1 0 0\nA 0 0 1 0 0\n", 1,
     {7, 2, 1}},
};

/* What a call is handed, and what it must answer. */
typedef struct { aral_setting s; aral_face face[MANY]; size_t n; int64_t line; size_t room; } call;

static call call_of(const calculator *c, const char *sheet, int64_t line)
{
    call t = {.line = line};
    aral_job j = c->open((const uint8_t *)sheet, strlen(sheet)).worksheet.job;
    t.s = setting_of(&j);
    t.n = t.room = j.faces.count;
    memcpy(t.face, j.faces.entry, sizeof j.faces.entry);
    for (size_t i = t.n; i < MANY; i++) t.face[i] = t.face[0];
    return t;
}

/* The answer, with every entry of the column as it was before it. */
static aral_answer answer_to(const calculator *c, const call *t, int64_t column[ROOM])
{
    for (int i = 0; i < ROOM; i++) column[i] = KEPT;
    return c->column(t->s, t->n ? t->face : NULL, t->n, t->line, t->room ? column : NULL, t->room);
}

/* That the column is these newtons, and every entry after them as it was. */
static int holds(const int64_t column[ROOM], const int64_t *newtons, size_t n)
{
    for (size_t i = 0; i < ROOM; i++)
        if (column[i] != (i < n ? newtons[i] : KEPT)) return 0;
    return 1;
}

static void check_shared(const calculator *c)
{
    int64_t column[ROOM];
    for (size_t i = 0; i < sizeof columns / sizeof *columns; i++) {
        const shared *e = &columns[i];
        call t = call_of(c, e->sheet, e->line);
        for (size_t more = 0; more < 3; more++) {
            t.room = more == 2 ? ROOM : t.n + more;
            expect(c, e->name, answer_to(c, &t, column).number == 0 && holds(column, e->newtons, t.n));
        }
        t.room = t.n - 1;
        aral_answer a = answer_to(c, &t, column);
        expect(c, e->name, a.number == ARAL_ROOM && a.line == 0 && holds(column, NULL, 0));
    }
}

/* 24 faces: of 165.6 N 144 by rounding 6.9 down, so that three of them get none of the 21; and the largest there are,
   16500000 N each either way. */
static void check_most(const calculator *c)
{
    int64_t column[ROOM], newtons[ARAL_FACES_MOST];
    call t = call_of(c, JOB("F 1\nA 0 1 0 0\n"), 1);
    t.n = t.room = 24;
    for (int i = 0; i < 24; i++) newtons[i] = i < 21 ? 7 : 6;
    expect(c, "24 faces", answer_to(c, &t, column).number == 0 && holds(column, newtons, 24));
    t = call_of(c, "B 1\n500 1200 1000 1500 1 100\nW 1\n0 1000\nI 1\n100\nF 1\nE 0 -100000 100000 0\n", 1);
    t.n = t.room = 24;
    for (int i = 0; i < 24; i++) newtons[i] = 16500000;
    expect(c, "the largest", answer_to(c, &t, column).number == 0 && holds(column, newtons, 24));
    t.line = 4;
    for (int i = 0; i < 24; i++) newtons[i] = -16500000;
    expect(c, "the least", answer_to(c, &t, column).number == 0 && holds(column, newtons, 24));
}

/* 240 faces in year 4: of 1656 N 1440 by rounding 6.9 down, so that the first 216 get one more; and the largest. */
static void check_long_sheds(const calculator *c)
{
    int64_t column[ROOM], newtons[ARAL_FACES_MOST];
    call t = call_of(c, LONG_JOB "F 1\nA 0 600 1 0 0\n", 1);
    t.n = t.room = 240;
    for (int i = 0; i < 240; i++) newtons[i] = i < 216 ? 7 : 6;
    expect(c, "240 faces", answer_to(c, &t, column).number == 0 && holds(column, newtons, 240));
    t.room = 239;
    expect(c, "240 faces in a column of 239", answer_to(c, &t, column).number == ARAL_ROOM && holds(column, NULL, 0));
    t.n = t.room = 241;
    aral_answer a = answer_to(c, &t, column);
    expect(c, "241 faces", a.number == ARAL_COUNT && a.line == 11 && holds(column, NULL, 0));
    t.s.year = 3;
    t.n = 25;
    a = answer_to(c, &t, column);
    expect(c, "25 faces in year 3", a.number == ARAL_COUNT && a.line == 11 && holds(column, NULL, 0));
    t = call_of(c, "V 1\n4\nB 1\n500 1200 1000 1500 1 100\nW 1\n0 1000\nI 1\n100\nP 1\n0 1000\n"
                   "F 1\nE 0 0 -100000 100000 0\n", 1);
    t.n = t.room = 240;
    for (int i = 0; i < 240; i++) newtons[i] = 16500000;
    expect(c, "the largest of 240", answer_to(c, &t, column).number == 0 && holds(column, newtons, 240));
}

/* ---- Refusals ---- */

/* Lines 5 to 7 are the winds, 8 to 10 the internals, 11 to 13 the profile, 14 the faces' count, 15 to 17 the faces. */
#define THREE_FACES \
    "V 1\n2\n" FLAT "W 2\n0 400\n90 300\nI 2\n20\n-30\nP 2\n0 800\n1200 1000\n" \
    "F 3\nA 0 600 1000 0 0\nB - 600 -1000 0 0\nF 0 0 0 0 -2000\n"
#define SLIP(name, ...) \
    static void name(call *t) { __VA_ARGS__; }
SLIP(nothing, (void)t)
SLIP(no_face, t->n = 0)
SLIP(face_25, t->n = 25; t->room = ROOM)
SLIP(face_1000, t->n = MANY; t->room = ROOM)
SLIP(zone_1_of_25, t->n = 25; t->face[0].zone = 'I')
SLIP(zone_1, t->face[0].zone = 'I')
SLIP(zone_3, t->face[2].zone = 'G')
SLIP(mark_2, t->face[1].mark = 45)
SLIP(mark_cut, t->face[1].mark = INT64_C(1) << 32)
SLIP(height_2, t->face[1].height = 1201)
SLIP(area_3, t->face[2].z = -100001)
SLIP(area_long, t->face[2].y = 10000000)
SLIP(zone_4, t->face[3].zone = 'I')
SLIP(year_0, t->s.year = 0)
SLIP(year_4, t->s.year = 4)
SLIP(year_5, t->s.year = 5)
SLIP(year_4_face_25, t->s.year = 4; t->n = 25; t->room = 25)
SLIP(year_4_face_241, t->s.year = 4; t->n = 241; t->room = ROOM)
SLIP(h_long, t->s.building.h = 10000000)
SLIP(square, t->s.building.a = t->s.building.b)
SLIP(eaves, t->s.building.x = 1)
SLIP(winds_0, t->s.winds.count = 0)
SLIP(winds_9, t->s.winds.count = 9)
SLIP(winds_most, t->s.winds.count = UINT32_MAX)
SLIP(wind_2, t->s.winds.entry[1].speed = 1001)
SLIP(wind_3, t->s.winds.entry[2].speed = 1001)
SLIP(internals_5, t->s.internals.count = 5)
SLIP(internal_1, t->s.internals.entry[0] = 101)
SLIP(steps_17, t->s.profile.count = 17)
SLIP(step_2, t->s.profile.entry[1].height = 0)
SLIP(wind_2_and_no_face, wind_2(t); t->n = 0)
SLIP(line_0, t->line = 0)
SLIP(line_7, t->line = 7)
SLIP(line_cut, t->line = (INT64_C(1) << 32) + 1)
SLIP(line_least, t->line = INT64_MIN)
SLIP(room_2, t->room = 2)
SLIP(room_0, t->room = 0)
SLIP(line_7_and_room_0, t->line = 7; t->room = 0)
SLIP(zone_3_and_all, zone_3(t); line_7_and_room_0(t))
SLIP(no_face_and_all, t->n = 0; line_7_and_room_0(t))
SLIP(face_25_and_all, t->n = 25; line_7_and_room_0(t))
SLIP(zone_3_and_room_2, zone_3(t); t->room = 2)
SLIP(face_25_and_room_24, t->n = 25; t->room = 24)
SLIP(year_1, t->s.year = 1; t->s.profile.count = UINT32_MAX; t->face[1].height = INT64_MIN)
SLIP(year_1_no_face, t->s.year = 1; t->n = 0)
SLIP(year_1_zone_3, t->s.year = 1; t->face[2].zone = 'G')

static const struct { const char *name; void (*slip)(call *); uint32_t number, line; } refusals[] = {
    {"three faces", nothing, 0, 0},
    {"no face", no_face, 2, 14},
    {"25 faces", face_25, 2, 14},
    {"1000 faces", face_1000, 2, 14},
    {"the count before the first face", zone_1_of_25, 2, 14},
    {"a zone that is none", zone_1, 1, 15},
    {"a zone that the building has not", zone_3, 6, 17},
    {"a mark of another roof", mark_2, 3, 16},
    {"a mark of eight digits and more", mark_cut, 1, 16},
    {"a height outside the profile", height_2, 8, 16},
    {"an area outside its range", area_3, 3, 17},
    {"an area of eight digits", area_long, 1, 17},
    {"what stands past the faces", zone_4, 0, 0},
    {"year 0", year_0, 3, 2},
    {"year 4", year_4, 0, 0},
    {"year 5", year_5, 3, 2},
    {"25 faces in year 4", year_4_face_25, 0, 0},
    {"241 faces in year 4", year_4_face_241, 2, 14},
    {"a height of eight digits", h_long, 1, 4},
    {"a square plan in year 2", square, 4, 4},
    {"straight eaves with a number", eaves, 5, 4},
    {"no wind", winds_0, 2, 5},
    {"nine winds", winds_9, 2, 5},
    {"a count of winds of ten digits", winds_most, 2, 5},
    {"the second wind", wind_2, 3, 7},
    {"what stands past the winds", wind_3, 0, 0},
    {"five internal coefficients", internals_5, 2, 8},
    {"the first internal coefficient", internal_1, 3, 9},
    {"17 lines of the profile", steps_17, 2, 11},
    {"a profile that does not rise", step_2, 3, 13},
    {"a wind before the number of faces", wind_2_and_no_face, 3, 7},
    {"report line 0", line_0, 3, 0},
    {"report line 7", line_7, 3, 0},
    {"a report line that 32 bits cut to 1", line_cut, 3, 0},
    {"the least report line", line_least, 3, 0},
    {"a column of two for three faces", room_2, 7, 0},
    {"no column", room_0, 7, 0},
    {"the report line before the room", line_7_and_room_0, 3, 0},
    {"a face before the report line and the room", zone_3_and_all, 6, 17},
    {"no face before the report line and the room", no_face_and_all, 2, 14},
    {"25 faces before the report line and the room", face_25_and_all, 2, 14},
    {"a face before the room", zone_3_and_room_2, 6, 17},
    {"25 faces before a room of 24", face_25_and_room_24, 2, 14},
    {"in year 1 neither profile nor heights", year_1, 0, 0},
    {"no face in year 1: section F opens on line 9", year_1_no_face, 2, 9},
    {"the third face in year 1", year_1_zone_3, 6, 12},
};

static void check_refusals(const calculator *c)
{
    int64_t column[ROOM];
    for (size_t i = 0; i < sizeof refusals / sizeof *refusals; i++) {
        call t = call_of(c, THREE_FACES, 1);
        refusals[i].slip(&t);
        aral_answer a = answer_to(c, &t, column);
        expect(c, refusals[i].name, a.number == refusals[i].number && a.line == refusals[i].line);
        if (a.number) expect(c, refusals[i].name, holds(column, NULL, 0));
    }
}

void check_newtons(const calculator *c)
{
    check_shared(c);
    check_most(c);
    check_long_sheds(c);
    check_refusals(c);
}
