/* The plain engine by hand: jobs with as many faces of two alternatives as it takes, and with more. */
#include "worked.h"
#include <stdio.h>
#include <string.h>

/* A face of zone F has 0.2 and -0.2. At 400 tenths of m/s a thousandth is worth 1250 x 400^2 = 200000000 on each dm2.
   So at internal 0 a face of -1000 on z has there -40000000000000 by its first alternative and 40000000000000 by its
   second, and eight of them have 320000000000000. */
#define FLAT "B 1\n500 1200 1000 1250 2 0\n"
#define FACE(mark, z) "F " mark " 0 0 " z "\n"
#define FOUR(mark) FACE(mark, "-1000") FACE(mark, "-1000") FACE(mark, "-1000") FACE(mark, "-1000")
#define EIGHT(mark) FOUR(mark) FOUR(mark)
#define TWO_WAYS(mark) FACE(mark, "1000") FACE(mark, "-1000")
#define ONE_WIND "W 1\n0 400\n"
#define BOTH_WINDS "W 2\n0 400\n90 200\n"
#define NONE_INSIDE "I 1\n0\n"
#define HIGH_FACE "F - 600 0 0 -1000\n"
#define FOUR_HIGH HIGH_FACE HIGH_FACE HIGH_FACE HIGH_FACE
#define EIGHT_HIGH FOUR_HIGH FOUR_HIGH
#define FORTY_HIGH EIGHT_HIGH EIGHT_HIGH EIGHT_HIGH EIGHT_HIGH EIGHT_HIGH
#define EIGHTY_HIGH FORTY_HIGH FORTY_HIGH

/* What the plain engine answers, and one line of its report where it takes the job. */
typedef struct { const char *name, *sheet; uint32_t number, line; const char *has; } engine_case;
static const engine_case engine_cases[] = {
    {"the sample's second alternative",
     FLAT ONE_WIND "I 2\n20\n-30\nF 3\nA 0 1000 0 0\nB - -1000 0 0\nF 0 0 0 -2000\n", 0, 0,
     "z max 160000000000000 1 1 1 1 2\n"},
    {"eight faces: the last choice of all", FLAT ONE_WIND NONE_INSIDE "F 8\n" EIGHT("-"), 0, 0,
     "z max 320000000000000 1 1 2 2 2 2 2 2 2 2\n"},
    {"eight faces: the first choice of all", FLAT ONE_WIND NONE_INSIDE "F 8\n" EIGHT("-"), 0, 0,
     "z min -320000000000000 1 1 1 1 1 1 1 1 1 1\n"},
    {"by turns up and down", FLAT ONE_WIND NONE_INSIDE
     "F 8\n" TWO_WAYS("-") TWO_WAYS("0") TWO_WAYS("-") TWO_WAYS("0"), 0, 0,
     "z max 320000000000000 1 1 1 2 1 2 1 2 1 2\n"},
    {"by turns, the least", FLAT ONE_WIND NONE_INSIDE
     "F 8\n" TWO_WAYS("-") TWO_WAYS("0") TWO_WAYS("-") TWO_WAYS("0"), 0, 0,
     "z min -320000000000000 1 1 2 1 2 1 2 1 2 1\n"},
    {"of 256 cases and more that tie the first", FLAT "W 2\n0 400\n0 400\n" "I 2\n20\n-20\nF 8\n" EIGHT("-"), 0, 0,
     "y min 0 1 1 1 1 1 1 1 1 1 1\n"},
    {"two winds alike: the first", FLAT "W 2\n0 400\n0 400\n" NONE_INSIDE "F 8\n" EIGHT("-"), 0, 0,
     "z max 320000000000000 1 1 2 2 2 2 2 2 2 2\n"},
    {"the earlier wind: -0.7 + 0.2 under wind 0 or, at the internal before, -0.5 under 90", FLAT "W 2\n0 400\n90 400\n"
     "I 2\n0\n20\nF 2\nA 0 -1000 0 0\nA 90 1000 0 0\n", 0, 0, "x max -100000000000000 1 2 1 1\n"},
    {"internal 0.2: 0 or -0.4", FLAT ONE_WIND "I 2\n-20\n20\nF 8\n" EIGHT("-"), 0, 0,
     "z max 640000000000000 1 2 2 2 2 2 2 2 2 2\n"},
    {"internal -0.2: 0.4 or 0", FLAT ONE_WIND "I 2\n20\n-20\nF 8\n" EIGHT("-"), 0, 0,
     "z min -640000000000000 1 2 1 1 1 1 1 1 1 1\n"},
    {"four under each wind, of a quarter under the second", FLAT BOTH_WINDS NONE_INSIDE "F 8\n" FOUR("90") FOUR("0"), 0,
     0, "z max 160000000000000 1 1 1 1 1 1 2 2 2 2\n"},
    {"the last of all cases: wind 2, where four act at 400", FLAT "W 2\n90 200\n0 400\n" NONE_INSIDE
     "F 8\n" FOUR("90") FOUR("0"), 0, 0, "z max 160000000000000 2 1 1 1 1 1 2 2 2 2\n"},
    {"of year 3 at half the speed, a quarter each", "V 1\n3\nB 1\n500 1000 1000 1250 2 0\n" ONE_WIND NONE_INSIDE
     "P 1\n600 500\nF 8\n" EIGHT_HIGH, 0, 0,
     "z max 80000000000000 1 1 2 2 2 2 2 2 2 2\n"},
    {"of year 4: 4000 N and nothing remains", "V 1\n4\nB 1\n500 1000 1000 1250 2 0\n" ONE_WIND NONE_INSIDE
     "P 1\n600 500\nF 8\n" EIGHT_HIGH, 0, 0, "z max 4000 0 1 1 2 2 2 2 2 2 2 2\n"},
    {"nine of year 4", "V 1\n4\nB 1\n500 1000 1000 1250 2 0\n" ONE_WIND NONE_INSIDE
     "P 1\n600 500\nF 9\n" EIGHT_HIGH HIGH_FACE, 10, 0, ""},
    {"240 of a gable in year 4: 240 times a quarter of 8000 N", "V 1\n4\nB 1\n500 1200 1000 1250 1 0\n" ONE_WIND
     NONE_INSIDE "P 1\n600 500\nF 240\n" EIGHTY_HIGH EIGHTY_HIGH EIGHTY_HIGH, 0, 0, "z min 480000 0 1 1 1 1 1 1 1 1 1"},
    {"nine faces", FLAT ONE_WIND NONE_INSIDE "F 9\n" EIGHT("-") FACE("-", "-1000"), 10, 0, ""},
    {"nine, one of them without area", FLAT ONE_WIND NONE_INSIDE "F 9\n" FACE("0", "0") EIGHT("-"), 10, 0, ""},
    {"nine, of which one is for a wind that does not blow", FLAT ONE_WIND NONE_INSIDE
     "F 9\n" FACE("90", "-1000") EIGHT("-"), 0, 0, "z max 320000000000000 1 1 1 2 2 2 2 2 2 2 2\n"},
    {"nine, which no wind has all of", FLAT BOTH_WINDS NONE_INSIDE "F 9\n" EIGHT("0") FACE("90", "-1000"), 10, 0, ""},
    {"nine, one of them for the last wind", FLAT "W 3\n0 400\n0 300\n90 1\n" NONE_INSIDE
     "F 9\n" FACE("90", "-1000") EIGHT("0"), 10, 0, ""},
    {"24, none of them for a wind that blows", FLAT ONE_WIND NONE_INSIDE "F 24\n" EIGHT("90") EIGHT("90") EIGHT("90"),
     0, 0, "z max 0 1 1 1 1 1 1 1 1 1 1 1 1 1 1 1 1 1 1 1 1 1 1 1 1 1 1\n"},
    {"24, all of them", FLAT ONE_WIND NONE_INSIDE "F 24\n" EIGHT("0") EIGHT("-") EIGHT("0"), 10, 0, ""},
    {"zone F of a gable has one alternative: 24 times 0.8", "B 1\n500 1200 1000 1250 1 0\n" ONE_WIND NONE_INSIDE
     "F 24\n" EIGHT("-") EIGHT("-") EIGHT("-"), 0, 0,
     "z min 3840000000000000 1 1 1 1 1 1 1 1 1 1 1 1 1 1 1 1 1 1 1 1 1 1 1 1 1 1\n"},
    {"the job's own refusal first", FLAT ONE_WIND NONE_INSIDE "F 9\n" EIGHT("-") FACE("-", "100001"), 3, 16, ""},
    {"a line too many first", FLAT ONE_WIND NONE_INSIDE "F 9\n" EIGHT("-") FACE("-", "0") "\n", 1, 17, ""},
};

enum { OUT = 4000 };

static int as_it_was(const char *out)
{
    for (int i = 0; i < OUT; i++)
        if (out[i] != 'x') return 0;
    return 1;
}

/* The plain engine's answer in this room; a refused call has left every byte. */
static aral_text answer_in(const calculator *c, const engine_case *e, size_t room, char out[OUT])
{
    memset(out, 'x', OUT);
    aral_text t = c->plain((const uint8_t *)e->sheet, strlen(e->sheet), (uint8_t *)out, room);
    if (t.number) expect(c, e->name, t.length == 0 && as_it_was(out));
    return t;
}

void check_engine(const calculator *c)
{
    char out[OUT], report[OUT];
    for (size_t i = 0; i < sizeof engine_cases / sizeof *engine_cases; i++) {
        const engine_case *e = &engine_cases[i];
        const uint8_t *sheet = (const uint8_t *)e->sheet;
        aral_text none = answer_in(c, e, 0, out);
        expect(c, e->name, none.number == (e->number ? e->number : ARAL_ROOM) && none.line == e->line);
        aral_text t = answer_in(c, e, OUT, out);
        expect(c, e->name, t.number == e->number && t.line == e->line);
        if (e->number) continue;
        aral_text first = c->report(sheet, strlen(e->sheet), (uint8_t *)report, OUT);
        expect(c, e->name, t.length == first.length && !memcmp(out, report, t.length));
        out[t.length] = 0;
        expect(c, e->name, strstr(out, e->has) != NULL);
        expect(c, e->name, answer_in(c, e, t.length, out).number == 0 && out[t.length] == 'x');
        aral_text short_one = answer_in(c, e, t.length - 1, out);
        expect(c, e->name, short_one.number == ARAL_ROOM && short_one.line == 0);
    }
}
