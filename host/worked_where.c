/* Where a sheet's first fault lies, by hand: each section, each kind of fault, and lines that are missing, extra or
   unended. Places are told by the bytes before the field and by the field itself, which are counted here. */
#include "worked.h"
#include <stdio.h>
#include <string.h>

/* Lines that are in order, up to the one at fault. */
#define HOUSE "B 1\n500 1200 1000 1250 2 0\n"
#define WINDS HOUSE "W 1\n0 400\n"
#define FIRST WINDS "I 2\n20\n-30\n"
#define SLOPE "B 1\n500 1200 1000 1250 6 100\nW 1\n45 400\nI 1\n0\n"
#define LATER(year) "V 1\n" year "\nB 1\n500 1200 1000 1250 2 0\nW 1\n0 400\nI 1\n0\n"
#define PROFILE(year) LATER(year) "P 2\n100 500\n600 1000\n"

/* A sheet: what stands before the fault, the faulty bytes, and what stands after them; then the answer. */
typedef struct {
    const char *name, *before, *field, *after;
    uint32_t number, line;
    char section;
    uint32_t entry, number_of_field;
    int64_t least, greatest;
} place;

static const place places[] = {
    {"a sheet in order", FIRST "F 1\nA 0 1000 0 0\n", "", "", 0, 0, 0, 0, 0, 0, 0},
    {"one of year 4", PROFILE("4") "F 1\nA 0 600 1000 0 0\n", "", "", 0, 0, 0, 0, 0, 0, 0},

    /* Lines as a whole. */
    {"nothing", "", "", "", 1, 1, 'B', 0, 0, 0, 0},
    {"an empty line has one field, which is empty", "", "", "\n", 1, 1, 'B', 0, 1, 0, 0},
    {"an empty line where a year is called for", "V 1\n", "", "\nB 1\n", 1, 2, 'V', 1, 1, 2, 4},
    {"a first line without its end is of year 1", "", "V 1", "", 1, 1, 'B', 0, 0, 0, 0},
    {"a wind that is missing", HOUSE "W 2\n0 400\n", "", "", 1, 5, 'W', 2, 0, 0, 0},
    {"a count line that is missing", WINDS, "", "", 1, 5, 'I', 0, 0, 0, 0},
    {"a face without its end", FIRST "F 1\n", "A 0 1000 0 0", "", 1, 9, 'F', 1, 0, 0, 0},
    {"one without its end is not looked into", FIRST "F 1\n", "Z 1001 x", "", 1, 9, 'F', 1, 0, 0, 0},
    {"a line after the last", FIRST "F 1\nA 0 1000 0 0\n", "B 0 0 0 0", "\nC 0\n", 1, 10, 0, 0, 0, 0, 0},
    {"an empty one", FIRST "F 1\nA 0 1000 0 0\n", "", "\n", 1, 10, 0, 0, 0, 0, 0},
    {"one without its end", FIRST "F 1\nA 0 1000 0 0\n", " ", "", 1, 10, 0, 0, 0, 0, 0},

    /* Form: a field, one too few, one too many. */
    {"a small letter", "", "b", " 1\n", 1, 1, 'B', 0, 1, 0, 0},
    {"the letter of another section", HOUSE, "I", " 1\n", 1, 3, 'W', 0, 1, 0, 0},
    {"another letter and a count out of form", HOUSE "I ", "x", "\n", 1, 3, 'W', 0, 2, 1, 8},
    {"VX is not V", "", "VX", " 1\n2\n", 1, 1, 'B', 0, 1, 0, 0},
    {"V alone is", "V", "", "\n2\n", 1, 1, 'V', 0, 2, 1, 1},
    {"a count that is no number", FIRST "F ", "three", "\n", 1, 8, 'F', 0, 2, 1, 24},
    {"one of year 4", PROFILE("4") "F ", "x", "\n", 1, 12, 'F', 0, 2, 1, 240},
    {"a field after the count", HOUSE "W 1 ", "2", "\n", 1, 3, 'W', 0, 3, 0, 0},
    {"a carriage return is the count's", "B ", "1\r", "\n", 1, 1, 'B', 0, 2, 1, 1},
    {"a decimal point", "B 1\n", "5.00", " 1200 1000 1250 2 0\n", 1, 2, 'B', 1, 1, 100, 30000},
    {"eight digits", "B 1\n500 ", "12000000", " 1000 1250 2 0\n", 1, 2, 'B', 1, 2, 100, 30000},
    {"a leading zero of the density", "B 1\n500 1200 1000 ", "01250", " 2 0\n", 1, 2, 'B', 1, 4, 1000, 1500},
    {"a plus before the kind", "B 1\n500 1200 1000 1250 ", "+2", " 0\n", 1, 2, 'B', 1, 5, 0, 6},
    {"-0", "B 1\n500 1200 1000 1250 2 ", "-0", "\n", 1, 2, 'B', 1, 6, 0, 30000},
    {"a seventh field", "B 1\n500 1200 1000 1250 2 0 ", "7", " 8\n", 1, 2, 'B', 1, 7, 0, 0},
    {"a space at the end is an empty one", "B 1\n500 1200 1000 1250 2 0 ", "", "\n", 1, 2, 'B', 1, 7, 0, 0},
    {"x is missing", "B 1\n500 1200 1000 1250 2", "", "\n", 1, 2, 'B', 1, 6, 0, 30000},
    {"between two spaces is an empty field", "B 1\n500 ", "", " 1200 1000 1250 2 0\n", 1, 2, 'B', 1, 2, 100, 30000},
    {"a dash for a direction", HOUSE "W 1\n", "-", " 400\n", 1, 4, 'W', 1, 1, 0, 0},
    {"a speed is missing", HOUSE "W 1\n0", "", "\n", 1, 4, 'W', 1, 2, 1, 1000},
    {"of two fields out of form the first", HOUSE "W 2\n0 400\n", "N", " 40,0\n", 1, 5, 'W', 2, 1, 0, 0},
    {"form goes before range", HOUSE "W 1\n45 ", "4x", "\n", 1, 4, 'W', 1, 2, 1, 1000},
    {"an internal coefficient", WINDS "I 2\n20\n", "-0.3", "\n", 1, 7, 'I', 2, 1, -100, 100},
    {"a height of the profile", LATER("2") "P 2\n100 500\n", "6m", " 1000\n", 1, 11, 'P', 2, 1, 0, 30000},
    {"a factor", LATER("2") "P 1\n0 ", "0.9", "\n", 1, 10, 'P', 1, 2, 1, 1000},
    {"zone I is no zone", FIRST "F 1\n", "I", " 0 1000 0 0\n", 1, 9, 'F', 1, 1, 0, 0},
    {"zone I, and an area out of form", FIRST "F 1\nI 0 1000 ", "x", " 0\n", 1, 9, 'F', 1, 4, -100000, 100000},
    {"a mark", FIRST "F 1\nA ", "--", " 1000 0 0\n", 1, 9, 'F', 1, 2, 0, 0},
    {"a dash for an area", FIRST "F 1\nA - 1000 ", "-", " 0\n", 1, 9, 'F', 1, 4, -100000, 100000},
    {"a height in year 1 is a field too many", FIRST "F 1\nA 0 600 1000 0 ", "0", "\n", 1, 9, 'F', 1, 6, 0, 0},
    {"no height in year 2 is one too few", PROFILE("2") "F 1\nA 0 1000 0 0", "", "\n", 1, 13, 'F', 1, 6, -100000,
     100000},
    {"a height of a face", PROFILE("3") "F 1\nA 0 ", "6.0", " 1000 0 0\n", 1, 13, 'F', 1, 3, 0, 30000},

    /* Counts. */
    {"no wind", HOUSE "W ", "0", "\n", 2, 3, 'W', 0, 2, 1, 8},
    {"two buildings", "B ", "2", "\n", 2, 1, 'B', 0, 2, 1, 1},
    {"25 faces", FIRST "F ", "25", "\n", 2, 8, 'F', 0, 2, 1, 24},
    {"241 faces in year 4", PROFILE("4") "F ", "241", "\n", 2, 12, 'F', 0, 2, 1, 240},
    {"a profile of 17", LATER("2") "P ", "17", "\n", 2, 9, 'P', 0, 2, 1, 16},
    {"two years", "V ", "2", "\n2\n", 2, 1, 'V', 0, 2, 1, 1},

    /* Ranges. */
    {"year 5", "V 1\n", "5", "\n", 3, 2, 'V', 1, 1, 2, 4},
    {"of two sides the first", "B 1\n500 ", "99", " 99 1250 2 0\n", 3, 2, 'B', 1, 2, 100, 30000},
    {"kind 7", "B 1\n500 1200 1000 1250 ", "7", " 0\n", 3, 2, 'B', 1, 5, 0, 6},
    {"a direction", HOUSE "W 1\n", "45", " 1001\n", 3, 4, 'W', 1, 1, 0, 0},
    {"a speed", HOUSE "W 1\n90 ", "1001", "\n", 3, 4, 'W', 1, 2, 1, 1000},
    {"an internal coefficient under its range", WINDS "I 1\n", "-101", "\n", 3, 6, 'I', 1, 1, -100, 100},
    {"a mark that the roof has not", FIRST "F 1\nG ", "45", " 100001 0 0\n", 3, 9, 'F', 1, 2, 0, 0},
    {"an area, before a zone that is not there", FIRST "F 2\nA 0 1 0 0\nG 0 0 0 ", "-100001", "\n", 3, 10, 'F', 2, 5,
     -100000, 100000},
    {"a face's height over every profile", PROFILE("2") "F 1\nG 0 ", "30001", " 0 0 0\n", 3, 13, 'F', 1, 3, 0, 30000},
    {"a height of the profile under 0", LATER("2") "P 2\n100 500\n", "-1", " 1000\n", 3, 11, 'P', 2, 1, 0, 30000},
    {"heights that do not rise", LATER("2") "P 2\n100 500\n", "100", " 1001\n", 3, 11, 'P', 2, 1, 101, 30000},
    {"a factor where the height rises", LATER("2") "P 2\n100 500\n101 ", "1001", "\n", 3, 11, 'P', 2, 2, 1, 1000},
    {"nothing is above 30000", LATER("2") "P 2\n30000 500\n", "30000", " 1\n", 3, 11, 'P', 2, 1, 30001, 30000},

    /* Proportions: 6 x 1000 and 4 x 1000; 4 x 10000 is over 30000. */
    {"h over 6 b", "B 1\n", "6001", " 999 1000 1250 2 0\n", 4, 2, 'B', 1, 1, 100, 6000},
    {"a square plan of year 2", "V 1\n2\nB 1\n500 ", "1000", " 1000 1250 2 0\n", 4, 4, 'B', 1, 2, 1001, 4000},
    {"a under b in year 3", "V 1\n3\nB 1\n500 ", "999", " 1000 1250 2 0\n", 4, 4, 'B', 1, 2, 1000, 4000},
    {"a over 4 b", "B 1\n500 ", "4001", " 1000 1250 2 1\n", 4, 2, 'B', 1, 2, 1001, 4000},
    {"a under a long b", "B 1\n500 ", "9999", " 10000 1250 2 0\n", 4, 2, 'B', 1, 2, 10001, 30000},
    {"no a is over 30000", "B 1\n500 ", "30000", " 30000 1250 2 0\n", 4, 2, 'B', 1, 2, 30001, 30000},

    /* Roofs. Of 510 a fortieth is 12.75 and a tenth 51; a twentieth is 25.5 and a fifth 102. */
    {"no roof has no number", "B 1\n500 1200 1000 1250 0 ", "1", "\n", 5, 2, 'B', 1, 6, 0, 0},
    {"a gable", "B 1\n500 1200 1000 1250 1 ", "601", "\n", 5, 2, 'B', 1, 6, 0, 600},
    {"a parapet", "B 1\n510 1200 1000 1250 3 ", "12", "\n", 5, 2, 'B', 1, 6, 13, 51},
    {"curved eaves", "B 1\n510 1200 1000 1250 4 ", "103", "\n", 5, 2, 'B', 1, 6, 26, 102},
    {"a mansard", "B 1\n500 1200 1000 1250 5 ", "299", "\n", 5, 2, 'B', 1, 6, 300, 900},
    {"a single slope", "B 1\n500 1200 1000 1250 6 ", "301", "\n", 5, 2, 'B', 1, 6, 50, 300},

    /* Zones, and heights outside the profile. */
    {"a zone that a flat roof has not", FIRST "F 1\n", "G", " 0 0 0 0\n", 6, 9, 'F', 1, 1, 0, 0},
    {"a wall marked - beside a single slope", SLOPE "F 1\nD ", "-", " 0 0 0\n", 6, 8, 'F', 1, 2, 0, 0},
    {"a wall marked 180", SLOPE "F 2\nE - 0 0 0\nA ", "180", " 0 0 0\n", 6, 9, 'F', 2, 2, 0, 0},
    {"a zone before a height", PROFILE("2") "F 1\n", "H", " 0 99 0 0 0\n", 6, 13, 'F', 1, 1, 0, 0},
    {"a height over the profile", PROFILE("2") "F 1\nA - ", "601", " 0 0 0\n", 8, 13, 'F', 1, 3, 100, 600},
    {"a height under it", PROFILE("4") "F 2\nA - 100 0 0 0\nA 0 ", "99", " 0 0 0\n", 8, 14, 'F', 2, 3, 100, 600},
};

static int same_place(const aral_place *p, const place *e)
{
    size_t from = e->number ? strlen(e->before) : 0, to = from + strlen(e->field);
    return p->number == e->number && p->line == e->line && p->section == (uint8_t)e->section && p->entry == e->entry
        && p->field == e->number_of_field && p->from == from && p->to == to && p->least == e->least
        && p->greatest == e->greatest;
}

/* A zero byte is a byte like another. */
static void check_zero_byte(const calculator *c)
{
    aral_place p = c->where((const uint8_t *)"B \0\n", 4), q = c->where(NULL, 0);
    expect(c, "a zero byte for a count", p.number == 1 && p.line == 1 && p.field == 2 && p.from == 2 && p.to == 3);
    expect(c, "no pointer to nothing", q.number == 1 && q.line == 1 && q.section == 'B' && !q.from && !q.to);
}

void check_places(const calculator *c)
{
    char sheet[400];
    for (size_t i = 0; i < sizeof places / sizeof *places; i++) {
        const place *e = &places[i];
        int n = snprintf(sheet, sizeof sheet, "%s%s%s", e->before, e->field, e->after);
        aral_place p = c->where((const uint8_t *)sheet, (size_t)n);
        expect(c, e->name, same_place(&p, e));
    }
    check_zero_byte(c);
}
