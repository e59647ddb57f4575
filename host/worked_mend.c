/* Sheets mended, by hand: what goes and what stays, where the list says it stood, and rooms that are too short. */
#include "worked.h"
#include <string.h>

#define SHEET "B 1\n500 1200 1000 1250 2 0\nW 1\n0 400\nI 2\n20\n-30\nF 3\nA 0 1000 0 0\nB - -1000 0 0\nF 0 0 0 -2000\n"

enum { CHANGES = 12, ROOM = 400, KEPT = 0x5a };
typedef struct { uint64_t line, kind, place; } change;
typedef struct {
    const char *name, *received;
    size_t n;
    const char *mended;
    size_t length;
    change list[CHANGES + 1]; /* up to the first with line 0 */
    uint32_t number, line;    /* of the mended text */
} slips;

/* A text may have bytes that are zero, so its length stands beside it. */
#define TEXT(text) text, sizeof text - 1
#define SAME(text) TEXT(text), TEXT(text), {{0}}

static const slips mendings[] = {
    {"a sheet in form", SAME(SHEET), 0, 0},
    {"one of year 3 in form",
     SAME("V 1\n3\nB 1\n500 1000 1000 1250 0 0\nW 1\n0 400\nI 1\n0\nP 1\n0 1000\nF 1\nA 0 0 1 0 0\n"), 0, 0},
    {"a count outside its limits is no slip", SAME("B 2\n"), 2, 1},
    {"nothing", SAME(""), 1, 1},
    {"an LF", SAME("\n"), 1, 1},
    {"two LFs", SAME("\n\n"), 1, 1},

    /* Returns. */
    {"a return before an LF", TEXT("B 1\r\n"), TEXT("B 1\n"), {{1, 1, 4}}, 1, 2},
    {"returns wherever they stand", TEXT("\rB\r \r\r1\n\r"), TEXT("B 1\n"),
     {{1, 1, 1}, {1, 1, 3}, {1, 1, 5}, {1, 1, 6}, {2, 1, 1}}, 1, 2},
    {"a return alone comes to nothing", TEXT("\r"), TEXT(""), {{1, 1, 1}}, 1, 1},
    {"returns for line ends are one line", TEXT("B 1\r2\r"), TEXT("B 12\n"), {{1, 1, 4}, {1, 1, 6}, {1, 5, 7}}, 2, 1},

    /* Spaces. */
    {"the second of two spaces", TEXT("B  1\n"), TEXT("B 1\n"), {{1, 2, 3}}, 1, 2},
    {"of four spaces the first stays", TEXT("B    1\n"), TEXT("B 1\n"), {{1, 2, 3}, {1, 2, 4}, {1, 2, 5}}, 1, 2},
    {"at a line's start one stays", TEXT("  B 1\n"), TEXT(" B 1\n"), {{1, 2, 2}}, 1, 1},
    {"one at a line's start", SAME(" B 1\n"), 1, 1},
    {"at a line's end none stays", TEXT("B 1  \n"), TEXT("B 1\n"), {{1, 2, 4}, {1, 2, 5}}, 1, 2},
    {"one at a line's end", TEXT("B 1 \n"), TEXT("B 1\n"), {{1, 2, 4}}, 1, 2},
    {"one at the text's end", TEXT("B 1\n2 "), TEXT("B 1\n2\n"), {{2, 2, 2}, {2, 5, 3}}, 1, 2},
    {"a line of spaces", TEXT("B 1\n   \n"), TEXT("B 1\n\n"), {{2, 2, 1}, {2, 2, 2}, {2, 2, 3}}, 1, 2},
    {"spaces alone come to nothing", TEXT("   "), TEXT(""), {{1, 2, 1}, {1, 2, 2}, {1, 2, 3}}, 1, 1},
    {"spaces of which a return was one's neighbour", TEXT("B \r 1 \r\n"), TEXT("B 1\n"),
     {{1, 1, 3}, {1, 2, 4}, {1, 2, 6}, {1, 1, 7}}, 1, 2},
    {"a tab is no space", SAME("B \t1\n"), 1, 1},
    {"nor does one end a run of them", TEXT("B 1 \t \n"), TEXT("B 1 \t\n"), {{1, 2, 6}}, 1, 1},

    /* Pluses. */
    {"a plus before a digit", TEXT("+5\n"), TEXT("5\n"), {{1, 3, 1}}, 1, 1},
    {"one in a later field", TEXT("B +1\n"), TEXT("B 1\n"), {{1, 3, 3}}, 1, 2},
    {"++5 stays", SAME("++5\n"), 1, 1},
    {"a lone plus stays", SAME("+\n"), 1, 1},
    {"one before a space", SAME("+ 5\n"), 1, 1},
    {"one after a space", SAME("5 +\n"), 1, 1},
    {"one at the text's end", TEXT("5 +"), TEXT("5 +\n"), {{1, 5, 4}}, 1, 1},
    {"one before a minus", SAME("+-5\n"), 1, 1},
    {"one after a minus", SAME("-+5\n"), 1, 1},
    {"one within a field", SAME("5+5\n"), 1, 1},
    {"one before a letter", SAME("+A\n"), 1, 1},
    {"one that opens a field of more than digits", TEXT("+5A\n"), TEXT("5A\n"), {{1, 3, 1}}, 1, 1},
    {"one before a return and a digit", TEXT("+\r5\n"), TEXT("5\n"), {{1, 3, 1}, {1, 1, 2}}, 1, 1},
    {"one after a return", TEXT("\r+5\n"), TEXT("5\n"), {{1, 1, 1}, {1, 3, 2}}, 1, 1},
    {"one after two spaces", TEXT("1  +5\n"), TEXT("1 5\n"), {{1, 2, 3}, {1, 3, 4}}, 1, 1},
    {"the second of two goes where the first is a field's", TEXT("+ +5\n"), TEXT("+ 5\n"), {{1, 3, 3}}, 1, 1},
    {"one after a tab opens no field", SAME("1\t+5\n"), 1, 1},

    /* Zeros. */
    {"a zero before a digit", TEXT("05\n"), TEXT("5\n"), {{1, 4, 1}}, 1, 1},
    {"00", TEXT("00\n"), TEXT("0\n"), {{1, 4, 1}}, 1, 1},
    {"0 stays", SAME("0\n"), 1, 1},
    {"-0 stays", SAME("-0\n"), 1, 1},
    {"-00 comes to -0, which stays", TEXT("-00\n"), TEXT("-0\n"), {{1, 4, 2}}, 1, 1},
    {"zeros behind a minus", TEXT("-005\n"), TEXT("-5\n"), {{1, 4, 2}, {1, 4, 3}}, 1, 1},
    {"a zero that does not lead", SAME("500\n"), 1, 1},
    {"only those that lead", TEXT("00500\n"), TEXT("500\n"), {{1, 4, 1}, {1, 4, 2}}, 1, 1},
    {"+05: the plus and then the zero", TEXT("+05\n"), TEXT("5\n"), {{1, 3, 1}, {1, 4, 2}}, 1, 1},
    {"+00", TEXT("+00\n"), TEXT("0\n"), {{1, 3, 1}, {1, 4, 2}}, 1, 1},
    {"+-05 stays", SAME("+-05\n"), 1, 1},
    {"--05 stays", SAME("--05\n"), 1, 1},
    {"++05 stays", SAME("++05\n"), 1, 1},
    {"05A is no field of digits", SAME("05A\n"), 1, 1},
    {"nor is A05", SAME("A05\n"), 1, 1},
    {"nor 05-", SAME("05-\n"), 1, 1},
    {"nor 05.0", SAME("05.0\n"), 1, 1},
    {"nor 0-05", SAME("0-05\n"), 1, 1},
    {"nor 05 before a tab", SAME("05\t5\n"), 1, 1},
    {"zeros parted by a return", TEXT("0\r05\n"), TEXT("5\n"), {{1, 4, 1}, {1, 1, 2}, {1, 4, 3}}, 1, 1},
    {"a zero and a digit of two fields", SAME("0 5\n"), 1, 1},
    {"a zero and a digit of two lines", SAME("0\n5\n"), 1, 1},
    {"each field for itself", TEXT("00 05A 01"), TEXT("0 05A 1\n"), {{1, 4, 1}, {1, 4, 8}, {1, 5, 10}}, 1, 1},
    {"a minus alone", SAME("- 05A\n"), 1, 1},
    {"a zero after a minus alone", TEXT("- 05\n"), TEXT("- 5\n"), {{1, 4, 3}}, 1, 1},

    /* The end. */
    {"an end one past the last byte", TEXT("B 1"), TEXT("B 1\n"), {{1, 5, 4}}, 1, 2},
    {"one past the bytes received, also those that go", TEXT("B 1\r \r"), TEXT("B 1\n"),
     {{1, 1, 4}, {1, 2, 5}, {1, 1, 6}, {1, 5, 7}}, 1, 2},
    {"no end where what is left ends in LF", TEXT("B 1\n \r"), TEXT("B 1\n"), {{2, 2, 1}, {2, 1, 2}}, 1, 2},

    /* Any byte. */
    {"letters stay", SAME("q B 1 x\n"), 1, 1},
    {"a zero byte stays and ends nothing", TEXT("0\0" "05\0  +05"), TEXT("0\0" "05\0 5\n"),
     {{1, 2, 7}, {1, 3, 8}, {1, 4, 9}, {1, 5, 11}}, 1, 1},
    {"bytes over 127 stay", TEXT("\xff\x8d \xa0 \xad+05\xb0 \n"), TEXT("\xff\x8d \xa0 \xad+05\xb0\n"), {{1, 2, 11}}, 1,
     1},
    {"other signs of white stay", SAME("\v\f\x1a\x85\xa0\n"), 1, 1},

    /* Sheets. */
    {"a sheet with each slip once",
     TEXT("B 1\r\n500  1200 1000 1250 2 0\nW 1\n0 +400\nI 2\n20 \n-030\nF 3\nA 0 1000 0 0\nB - -1000 0 0\n"
          "F 0 0 0 -2000"),
     TEXT(SHEET), {{1, 1, 4}, {2, 2, 5}, {4, 3, 3}, {6, 2, 3}, {7, 4, 2}, {11, 5, 14}}, 0, 0},
    {"a mark that stays a mark", TEXT("B 1\n500 1200 1000 1250 2 0\nW 1\n0 400\nI 1\n-00\nF 1\nA 00 1000 +0 0\n"),
     TEXT("B 1\n500 1200 1000 1250 2 0\nW 1\n0 400\nI 1\n-0\nF 1\nA 0 1000 0 0\n"),
     {{6, 4, 2}, {8, 4, 3}, {8, 3, 11}}, 1, 6},
    {"a number of eight digits that comes to seven, out of range",
     TEXT("B 1\n500 1200 1000 1250 2 0\nW 1\n0 00000401\nI 1\n09999999\n"),
     TEXT("B 1\n500 1200 1000 1250 2 0\nW 1\n0 401\nI 1\n9999999\n"),
     {{4, 4, 3}, {4, 4, 4}, {4, 4, 5}, {4, 4, 6}, {4, 4, 7}, {6, 4, 1}}, 3, 6},
    {"a line too many", TEXT(SHEET "\r\n"), TEXT(SHEET "\n"), {{12, 1, 1}}, 1, 12},
    {"spaces after the last line go", TEXT(SHEET "  "), TEXT(SHEET), {{12, 2, 1}, {12, 2, 2}}, 0, 0},
};

/* ---- One call ---- */

typedef struct { uint8_t text[ROOM]; uint64_t list[ROOM]; } buffers;

static size_t changes_of(const slips *s)
{
    size_t count = 0;
    while (s->list[count].line) count++;
    return count;
}

/* The answer, with both buffers as they were before it. */
static aral_mended answer_to(const calculator *c, const slips *s, size_t room, size_t list_room, buffers *b)
{
    memset(b, KEPT, sizeof *b);
    return c->mend((const uint8_t *)(s->n ? s->received : NULL), s->n, room ? b->text : NULL, room,
                   list_room ? b->list : NULL, list_room);
}

/* That the buffers begin with this text and this list, and have all else as it was. */
static int holds(const buffers *b, const char *text, size_t length, const change *list, size_t changes)
{
    buffers expected;
    memset(&expected, KEPT, sizeof expected);
    memcpy(expected.text, text, length);
    for (size_t i = 0; i < changes; i++) {
        uint64_t *at = expected.list + 3 * i;
        at[0] = list[i].line, at[1] = list[i].kind, at[2] = list[i].place;
    }
    return !memcmp(b, &expected, sizeof expected);
}

static void check_mended(const calculator *c, const slips *s, size_t room, size_t list_room)
{
    buffers b;
    size_t changes = changes_of(s);
    aral_mended m = answer_to(c, s, room, list_room, &b);
    expect(c, s->name, m.number == 0 && m.line == 0);
    expect(c, s->name, m.length == s->length && m.changes == changes);
    expect(c, s->name, m.refused_number == s->number && m.refused_line == s->line);
    expect(c, s->name, holds(&b, s->mended, s->length, s->list, changes));
}

static void check_no_room(const calculator *c, const slips *s, size_t room, size_t list_room)
{
    buffers b;
    aral_mended m = answer_to(c, s, room, list_room, &b);
    expect(c, s->name, m.number == ARAL_ROOM && m.line == 0);
    expect(c, s->name, m.length == 0 && m.changes == 0 && m.refused_number == 0 && m.refused_line == 0);
    expect(c, s->name, holds(&b, "", 0, NULL, 0));
}

/* A list that is one or two numbers short has room for the change before, and yet is not begun. */
void check_mending(const calculator *c)
{
    for (size_t i = 0; i < sizeof mendings / sizeof *mendings; i++) {
        const slips *s = &mendings[i];
        size_t numbers = 3 * changes_of(s);
        check_mended(c, s, s->length, numbers);
        check_mended(c, s, s->n + 1, 3 * (s->n + 1));
        check_mended(c, s, ROOM, ROOM);
        if (s->length) check_no_room(c, s, s->length - 1, ROOM);
        if (s->length) check_no_room(c, s, 0, 0);
        for (size_t less = 1; less <= 3 && numbers; less++) check_no_room(c, s, ROOM, numbers - less);
        if (numbers) check_no_room(c, s, ROOM, 0);
    }
}
