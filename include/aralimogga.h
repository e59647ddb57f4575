/* The entry points of libaralimogga.a, a proved wind load calculator, for a host program in C.
   Each call answers one record by value. None keeps anything between calls, none allocates, none prints and none
   fails otherwise than by the numbers below, so any thread may call any of them at any time.

   The library's objects are x86-64 code for Linux on every machine, and need no other library than C's. On x86-64 a
   program is compiled and linked as any other:
       cc -Iinclude program.c libaralimogga.a
   On Arm it is cross-compiled (Debian's gcc-x86-64-linux-gnu and libc6-dev-amd64-cross), linked statically, and run
   under an emulator (qemu-user), which then needs no C library for x86-64:
       x86_64-linux-gnu-gcc -Iinclude program.c libaralimogga.a -static -o program
       qemu-x86_64 ./program
   There -lm can't be linked with -static: Debian's cross libm.a is a linker script that names files of a native x86-64
   machine. The library itself needs no libm.

   number  given when
   0       accepted; the line is 0 too
   1       the line is missing, unended, extra or not in the sheet's form
   2       a count is not 1 for V and B, or not 1 to 8 for W, 1 to 4 for I, 1 to 16 for P, 1 to 24 for F, from year 4
           on 1 to 240; an edit would leave more faces than that, or none (line 0)
   3       a number is outside its range, the year is not 2 to 4, a direction or a mark is a number that the roof has
           no wind for, or a height of the profile does not rise
   4       h/b is over 6, or a/b is under 1 or over 4; in years 1 and 2 also where a/b is 1
   5       the roof number x is outside its kind's range
   6       the zone or local is not on this building; on one with roof kind 6 also a wall in another wind than 0 and 90
   7       a lent buffer, column or list is too short (line 0)
   8       the face's height is outside the profile
   9       there is no such face, to be edited or to have a share (line 0)
   10      more than 8 faces have two alternatives under at least one of the job's winds (line 0); by aral_plain alone
   11      an observation comes after 1,000,000 accepted ones; by a rose alone, whose other refusals are 1 and 3

   A sheet of year 1 opens with section B. One of a later year opens with section V and the year, 2 to 4; it has a
   section P after I, the profile, and a height after each face's mark. A face's speed is then the wind's times the
   profile's factor at its height, rounded once to a tenth, a half up. Year 3 has the form of year 2 and takes square
   plans too, a equal to b: their walls have the rows of a/b to 3/2. All else is the same in years 2 and 3. Year 4 has
   the form of year 3, with up to 240 faces, and its report has each total as newtons and a remainder.

   Roof kinds are 0 none, 1 gable, 2 flat with straight eaves, 3 with a parapet, 4 with curved eaves, 5 with a mansard,
   and 6 a single slope, whose x is 50 to 300 tenths of a degree. Winds, marks and questions have the directions 0 and
   90, and on kind 6 also 45, 135 and 180. The walls' table has 0 and 90 alone: on kind 6 every wall face is marked with
   one of these. The mark `-` is for every direction of the roof.

   `line` is the sheet's line, counted from 1: the first faulty line, and in it the lowest number. It is 0 where
   no line is at fault. The sheet is bytes, not a C string: a zero byte is a byte like another, and none ends it.

   What a caller owes: a pointer and its length name bytes or entries that may be read (`sheet`, `faces`, `part`) or
   written (`out`, `column`, `list`), no two of a call overlap, and no other thread writes them during the call. Where
   the length is 0 the pointer may be null. And it owes the stack: records are large, and no call takes more of it than
   ARAL_STACK_MOST bytes, the records that it is handed and answers included. */
#ifndef ARALIMOGGA_H
#define ARALIMOGGA_H

#include <stddef.h>
#include <stdint.h>

#ifdef __cplusplus
extern "C" {
#endif

/* The version of these shapes: it rises where a record or a call changes. 2: a coefficient names its rows. 3: a
   question names its year. 4: worksheets. 5: a worksheet keeps its sums. 6: the plain engine. 7: newton columns.
   8: sheets mended. 9: wind roses. 10: long sheds. 11: where a fault lies. 12: a face's share of a total. */
#define ARAL_VERSION 12

/* The refusals by name. */
enum {
    ARAL_FORM = 1,
    ARAL_COUNT = 2,
    ARAL_RANGE = 3,
    ARAL_WALLS = 4,
    ARAL_ROOF = 5,
    ARAL_ZONE = 6,
    ARAL_ROOM = 7,
    ARAL_HEIGHT = 8,
    ARAL_NO_FACE = 9,
    ARAL_CASES = 10,
    ARAL_OBSERVATIONS = 11
};

/* The greatest lengths: in bytes of an acceptable sheet, a report and the digits of a number. The faces that a record
   has room for, and how many of them a job of a year may have; and its winds, internal coefficients and lines of the
   profile. The most faces with two alternatives under at least one of the winds that aral_plain takes. And the stack of
   a call, in bytes. */
#define ARAL_SHEET_MOST 8967
#define ARAL_REPORT_MOST 3084
#define ARAL_DIGITS_MOST 20
#define ARAL_FACES_MOST 240
#define ARAL_FACES_OF(year) ((year) < 4 ? 24 : ARAL_FACES_MOST)
#define ARAL_WINDS_MOST 8
#define ARAL_INTERNALS_MOST 4
#define ARAL_PROFILE_MOST 16
#define ARAL_CHOICES_MOST 8
#define ARAL_STACK_MOST 262144

/* What always suffices to mend n bytes: of the text in bytes, and of the list in numbers. */
#define ARAL_MENDED_MOST(n) ((n) + 1)
#define ARAL_MEND_LIST_MOST(n) (3 * ((n) + 1))

/* Units of a newton. */
#define ARAL_NEWTON 20000000000

/* A rose has so many sectors, in each of them so many Beaufort numbers, and takes so many observations. */
#define ARAL_SECTORS 16
#define ARAL_BEAUFORT_NUMBERS 13
#define ARAL_OBSERVATIONS_MOST 1000000

/* Accepted (0, 0), or the refusal. */
typedef struct { uint32_t number, line; } aral_answer;

/* Where the first fault of a sheet lies, and what may stand there. `number` and `line` are those of aral_read, and
   everything is 0 where the sheet is accepted.
   `section` is the letter of the section that called for the line, 0 where no more lines were called for; `entry` is 0
   at the section's count line, and else the number of its entry, from 1. A first line that is not ended, or whose first
   field is not V, was called for by B.
   `field` is the first field with this fault, from 1; it is 0 for the line as a whole, where that is missing, extra or
   has no LF. With 1 it is the first field that is out of form, one too many, or the one that is missing; where all are
   in form, the letter that is not the section's, or no zone's. With 4 it is h where h/b is over 6, and else a; with 5
   it is x; with 6 the zone or, where a wall is not marked for a wind of its table, the mark.
   The field is sheet[from] to sheet[to - 1]; so is the line, without its LF, where `field` is 0. `from` and `to` are
   equal where nothing stands there: an empty field, at the line's end a missing one, and at n a missing line.
   `least` and `greatest` are what may stand there, where a range says it, and 0 and 0 where none does: for a letter, a
   direction, a mark, a field too many and the line as a whole. With 5 they always are a range, which for roofs without
   a number is 0 to 0. With 1 and 3 the range is that of the number by itself, but of a profile's height that does not
   rise from above the one before it; with 2 it goes by the section and the year, with 4 by b and the year, with 5 by
   the kind and h, with 8 by the profile. With 4, and of such a height, it may be empty, `least` being over `greatest`:
   then nothing can stand there. */
typedef struct {
    uint32_t number, line;
    uint8_t section;
    uint32_t entry, field;
    uint64_t from, to;
    int64_t least, greatest;
} aral_place;

/* Accepted (0, 0) with the length of the text now at the start of the buffer; or the refusal, with length 0. */
typedef struct { uint32_t number, line; uint64_t length; } aral_text;

/* What mending changes: the kinds of its list. ARAL_MEND_END is a byte added, the others are bytes taken out. */
enum {
    ARAL_MEND_RETURN = 1,
    ARAL_MEND_SPACE = 2,
    ARAL_MEND_PLUS = 3,
    ARAL_MEND_ZERO = 4,
    ARAL_MEND_END = 5
};

/* The call's own answer, (0, 0) or (7, 0); then the length of the mended text, how many changes the list has, and what
   aral_read answers of the mended text: (0, 0), or its refusal. Everything after `line` is 0 where refused with 7. */
typedef struct {
    uint32_t number, line;
    uint64_t length, changes;
    uint32_t refused_number, refused_line;
} aral_mended;

/* `count` coefficients in thousandths, a zone's alternatives in order; entries past the count are 0. Only zone F of a
   flat roof has two.
   The rest says which printed rows they come from: the outside coefficient lies `part`/`whole` of the way from row
   `lower` to row `upper`, and was rounded after that. The fraction is exact and in lowest terms. On a row itself, and
   where the table has nothing to interpolate, both are that row and the fraction is 0/1. A net coefficient has the rows
   of its outside one, and zone F of a flat roof those of E.
   Rows are numbered from 1 as the book prints them: in the table of the walls 1 to 6; of gables 1 to 22, 7 for h/b to
   1/2, 7 to 3/2 and 8 above; of single slopes 1 to 5; of flat roofs straight eaves 1, parapets 2 to 4, curved eaves 5
   to 7, mansards 8 to 10. A mansard of over 60 degrees lies between row 10 and row 1, which stands at 90 degrees,
   counted from row 10. A single slope from 5 to 10 degrees is on row 1.
   Everything after `line` is 0 where refused. */
typedef struct {
    uint32_t number, line, count;
    int32_t value[2];
    uint32_t lower, upper;
    uint32_t part, whole;
} aral_coefficient;

/* A number of units of 0.00000000005 N, of which 20,000,000,000 are one newton: whole newtons, rounded down towards
   minus infinity, and the units that remain, 0 to 19,999,999,999. So minus one unit is -1 and 19999999999. */
typedef struct { int64_t newtons; uint64_t remainder; } aral_pair;

/* One of the six totals as newtons and remainder, in years 1 to 3 also as units in `total`, which is 0 in year 4; and
   the first case that reaches it: the wind, the internal coefficient and each face's alternative, all numbered from 1.
   `alternative` is 0 past `faces`. Everything after `line` is 0 where refused. */
typedef struct {
    uint32_t number, line;
    int64_t total;
    int64_t newtons;
    uint64_t remainder;
    uint32_t wind, internal, faces;
    uint8_t alternative[ARAL_FACES_MOST];
} aral_extreme;

/* What one face brings to one of the six totals, step by step, in the case that reaches it. `zone` is the letter of its
   zone and `alternative` the one that it has there, from 1. `lower`, `upper`, `part` and `whole` are the rows and the
   fraction of its printed table, as in aral_coefficient. `outside` is that alternative's outside coefficient and `net`
   its net one, both in thousandths.
   `speed` is the wind's at the face, in tenths of m/s; `pressure` is the density times the speed squared, in units of
   0.000005 Pa; `area` is the face's on the line's axis, in dm2 as on the sheet. `force` is net times pressure times
   area, in units of 0.00000000005 N, which 64 bits hold also in year 4; the forces of all faces add up to the total.
   `newtons` is the face's entry in the column of aral_column for the line.
   A face that takes no part under the case's wind, being marked for another direction, has alternative 1, and 0 for
   rows, fraction, both coefficients, force and newtons. Its speed, pressure and area are given too.
   Everything after `line` is 0 where refused. */
typedef struct {
    uint32_t number, line;
    uint8_t zone, alternative;
    uint32_t lower, upper, part, whole;
    int32_t outside, net;
    int64_t speed, pressure, area, force, newtons;
} aral_part;

/* `exact` 1: low and high are both the number. `exact` 0: no double equals it, low is the nearest double below and
   high the nearest above. Of newtons and a remainder aral_panel_newtons says what they are. */
typedef struct { uint32_t exact; double low, high; } aral_double;

/* A chart point: for each axis the low and the high double of a total, the same where exact. */
typedef struct { double x_low, x_high, y_low, y_high, z_low, z_high; } aral_point;

/* A face's mark for every direction, which is `-` on a sheet. */
#define ARAL_BOTH 4294967295

/* A job as a record: what its sheet says, in the sheet's units. Numbers are wide, so that none of a host's is cut. A
   zone is its letter's byte, a mark a direction or ARAL_BOTH. Entries past a count are no part of the job, and
   neither are, in year 1, the profile and the faces' heights: its sheet does not carry them. */
typedef struct { int64_t h, a, b, density, kind, x; } aral_building;
typedef struct { int64_t direction, speed; } aral_wind;
typedef struct { int64_t height, factor; } aral_step; /* a line of the profile */
typedef struct { uint8_t zone; int64_t mark, height, x, y, z; } aral_face;
typedef struct { uint32_t count; aral_wind entry[ARAL_WINDS_MOST]; } aral_winds;
typedef struct { uint32_t count; int64_t entry[ARAL_INTERNALS_MOST]; } aral_internals;
typedef struct { uint32_t count; aral_step entry[ARAL_PROFILE_MOST]; } aral_profile;
typedef struct { uint32_t count; aral_face entry[ARAL_FACES_MOST]; } aral_faces;
typedef struct {
    int64_t year;
    aral_building building;
    aral_winds winds;
    aral_internals internals;
    aral_profile profile;
    aral_faces faces;
} aral_job;

/* A job without its faces. */
typedef struct {
    int64_t year;
    aral_building building;
    aral_winds winds;
    aral_internals internals;
    aral_profile profile;
} aral_setting;

/* For each wind and internal coefficient, both counted from 0, cell[ARAL_INTERNALS_MOST * wind + internal] has on each
   axis the greatest and the least total over every choice of the faces' alternatives, in every year as a pair. Cells
   past the counts are no part of the sums. */
typedef struct { aral_pair greatest, least; } aral_span;
typedef struct { aral_span x, y, z; } aral_sum_cell;
typedef struct { aral_sum_cell cell[ARAL_WINDS_MOST * ARAL_INTERNALS_MOST]; } aral_sums;

/* A job that the host holds while its faces are edited, and its sums, kept from edit to edit. It may hold anything:
   each call judges the held job first, with the number and line that its sheet would get. So a number of more than
   seven digits or a zone that is none of A to H is 1, a count above the room of its list 2, and so is one of more faces
   than its year may have; a year other than 1 to 4 is 3 at line 2. No call refuses sums: from aral_open on they are
   those of the faces after every edit, refused or not, and a host that puts others in their place is shown what it put
   there, if a job of the year could have it: see the edits. */
typedef struct { aral_job job; aral_sums sums; } aral_worksheet;

/* Accepted (0, 0) with the worksheet after the edit; or the refusal, with the worksheet as it was handed in. */
typedef struct { uint32_t number, line; aral_worksheet worksheet; } aral_edited;

/* A wind rose under way: the answer so far, (0, 0) or the refusal with its line in the file; how many observations were
   accepted, which is the sum over all cells; and how many of them are in each cell. Observations of sector s and
   Beaufort number b, both counted from 0, are in cell[ARAL_BEAUFORT_NUMBERS * s + b].
   `closed` is 0 while more is taken, and 1 after a refusal or the end. `pending` is the library's own account of the
   line that has no LF yet, all 0 where there is none; a host only hands it on. */
typedef struct {
    uint32_t number, line, accepted;
    uint32_t cell[ARAL_SECTORS * ARAL_BEAUFORT_NUMBERS];
    uint32_t closed;
    struct { uint32_t stage, direction; uint64_t kind, value; } pending;
} aral_rose;

/* Reads the n bytes of a sheet. Answers accepted, or refuses with 1 to 6 or 8 and the line. */
aral_answer aral_read(const uint8_t *sheet, size_t n);

/* Reads a sheet, and answers where its first fault lies. Never fails: an accepted sheet's answer is all 0. */
aral_place aral_where(const uint8_t *sheet, size_t n);

/* Reads a sheet and writes the job that was read as a sheet again.
   Refuses with 1 to 6 or 8 and the line as aral_read does; then with 7, line 0, where the text is longer than `room`.
   The text stands at the buffer's start and the bytes after it stay as they were; a refused call changes no byte.
   No text is longer than ARAL_SHEET_MOST bytes. */
aral_text aral_rewrite(const uint8_t *sheet, size_t n, uint8_t *out, size_t room);

/* Mends the slips of the keyboard in the n bytes of a text, whatever they are. Writes the mended text, and lists each
   byte taken out or added, in the order received. Taken out are, each over what the one before it left,
     1  every carriage return;
     2  every space that follows a space, or has only spaces up to its line's end;
     3  a plus that opens a field and stands directly before a digit;
     4  in a field of digits with at most one minus before them, every leading zero with a digit after it.
   Lines end with LF or with the text, and fields with a space or their line. If what is left is not empty and does not
   end in LF, one is added, which is kind 5. Nothing else changes: `++5`, `-0`, a lone plus and a tab stay.
   A change is three numbers of the list: line, kind, and place in the line. Line and place are those received, counted
   from 1; an added end stands one past the last byte of its line. They rise from change to change, and text and list
   give back what was received. Mended text mended again, and a sheet whose every line is in form, stay as they
   are, with no change.
   Refuses only with 7, line 0, where the text is longer than `room` or the list than `list_room`, which counts numbers
   and not changes; ARAL_MENDED_MOST(n) and ARAL_MEND_LIST_MOST(n) always suffice. Text and list stand at their buffers'
   starts and what is after them stays as it was; a refused call changes no byte of either. A refusal of the mended text
   is no refusal of the call: the text and the list stand beside it. */
aral_mended aral_mend(const uint8_t *sheet, size_t n, uint8_t *out, size_t room, uint64_t *list, size_t list_room);

/* Reads a sheet and writes the report of its worst cases: six lines, `x max`, `x min`, `y max`, `y min`, `z max`,
   `z min`, each followed by the total, the wind, the internal coefficient and each face's alternative. The total is in
   units; in year 4 it is two numbers, newtons and remainder, both without leading zeros: `-1 19999999999`.
   Refusals and the buffer as for aral_rewrite. No report is longer than ARAL_REPORT_MOST bytes. */
aral_text aral_report(const uint8_t *sheet, size_t n, uint8_t *out, size_t room);

/* Reads a sheet and writes the same six lines by the plain engine, which walks every case of the job one after another:
   by wind, then by internal coefficient, then by the alternatives of faces 1, 2 and on, the first face's changing last.
   It takes a job of which at most ARAL_CHOICES_MOST faces have two alternatives under at least one of its winds: faces
   of zone F on a flat roof, marked `-` or with the direction of one of the winds.
   Refuses with 1 to 6 or 8 and the line as aral_read does; then with 10, line 0, where there are more such faces; then
   with 7, line 0, where the text is longer than `room`. The buffer as for aral_rewrite. No report is longer than
   ARAL_REPORT_MOST bytes, and wherever aral_plain accepts, the text is that of aral_report. */
aral_text aral_plain(const uint8_t *sheet, size_t n, uint8_t *out, size_t room);

/* Reads a sheet and answers one line of its report as numbers: line 1 is `x max`, 2 `x min`, to 6 `z min`.
   Refuses with 1 to 6 or 8 and the sheet's line as aral_read does; then with 3, line 0, for another report line. */
aral_extreme aral_total(const uint8_t *sheet, size_t n, int64_t line);

/* Shares out the total of one report line, named 1 to 6 as for aral_total, as whole newtons for each face. The job is
   the setting with the n faces of the lent list, in their order.
   In the case that the line names, each face gets its own force rounded down, towards minus infinity, to whole newtons
   of 20,000,000,000 units. The newtons that are still missing to the total rounded down go one each to the faces with
   the largest remainders, the earlier face first where equal. So column[0] to column[n - 1], face by face, add up to
   the total rounded down, and each is less than 1 N from the face's force. Entries from column[n] on stay as they were.
   Refuses, in this order: the job, with the number and line that its sheet would get, as for a worksheet: no face, or
   more than 24, in year 4 more than 240, is 2 at the line of section F's count; another report line with 3, line 0; a
   column of `room` entries that is shorter than the faces with 7, line 0. A refused call changes no entry of the
   column. */
aral_answer aral_column(aral_setting s, const aral_face *faces, size_t n, int64_t line, int64_t *column, size_t room);

/* Reads a sheet and answers what face `face`, counted from 1, brings to the total of one report line, named 1 to 6 as
   for aral_total.
   Refuses, in this order: with 1 to 6 or 8 and the sheet's line as aral_read does; another report line with 3, line 0;
   a face other than 1 to the count of the sheet's faces with 9, line 0. */
aral_part aral_share(const uint8_t *sheet, size_t n, int64_t line, int64_t face);

/* Writes the decimal digits of any number, most significant first, after a `-` where it is negative.
   Refuses only with 7, line 0, where the text is longer than `room`. The buffer as for aral_rewrite.
   No text is longer than ARAL_DIGITS_MOST bytes. */
aral_text aral_digits(int64_t number, uint8_t *out, size_t room);

/* The outside coefficient of one place on a building under one wind direction, in thousandths, and its rows.
   The year, 1 to 4; height h, longer side a and shorter side b in cm, density in g/m3, the roof's kind and its number
   x, as on the building's line of a sheet of that year. `place` is the letter of a zone, `A` to `H`, or `w` for the
   wall local, `1` for L1, `2` for L2.
   Refuses, in this order: another year with 3, line 0; the building with 1, 3, 4 or 5 as its sheet would be, at line 2
   in year 1 and at line 4 in later ones (1 for a number of more than seven digits); a direction that the roof has not
   with 3, line 0, for locals too; a place that this building has not, a wall zone or the wall local in another
   direction than 0 and 90, or a byte that names none, with 6, line 0. */
aral_coefficient aral_outside(int64_t year, int64_t h, int64_t a, int64_t b, int64_t density, int64_t kind, int64_t x,
                              int64_t direction, uint8_t place);

/* The net coefficient: the outside one, rounded, minus the internal coefficient, which is given in hundredths.
   Refuses as aral_outside does, and then an internal coefficient outside -100 to 100 with 3, line 0. */
aral_coefficient aral_net(int64_t year, int64_t h, int64_t a, int64_t b, int64_t density, int64_t kind, int64_t x,
                          int64_t direction, uint8_t place, int64_t internal);

/* Reads a sheet into a worksheet and adds up its sums. Refuses as aral_read does, and the worksheet is then all zero.
   What the sheet does not carry is zero: entries and cells past a count, and in year 1 the profile and the faces'
   heights. */
aral_edited aral_open(const uint8_t *sheet, size_t n);

/* Edits, each of which leaves all else in the worksheet as it was, also entries past the counts: a face added after
   the last one; face `face`, counted from 1, replaced; or face `face` taken out, so that later faces move up by one
   and the entry that the last one had is zero. In year 1 a new face's height is not looked at, and the worksheet has
   0 for it.
   Each sum loses the part of the face that leaves, its greatest or least force there, and gains that of the face that
   comes; cells past the counts stay. But where one of the 192 pairs handed in, past the counts or not, is none that a
   job of its year can have, all are added up anew from the faces, with zero past the counts. Such a pair has a
   remainder of 20000000000 or more, or is over 7920000000000000000 units in size, which are 396000000 N; in year 4 over
   79200000000000000000, which are 3960000000 N.
   Refuse, in this order: the held job, as its sheet would be; a face other than 1 to the count with 9, line 0; adding
   to 24 faces, in year 4 to 240, or taking out the only one, with 2, line 0; the new face with 1, 3, 6 or 8 as its line
   of the sheet would be: one after the last face's where it is added, that of face `face` where it replaces it. */
aral_edited aral_add(aral_worksheet w, aral_face f);
aral_edited aral_replace(aral_worksheet w, int64_t face, aral_face f);
aral_edited aral_take_out(aral_worksheet w, int64_t face);

/* Write the report of the held job, as aral_report does of its sheet, and its sheet.
   The report is made from the sums: each total is the sum that is furthest out within the counts, with the first wind
   and internal coefficient that have it, and each face's alternative is the first that goes furthest out there. So it
   is the report of the sheet where the sums are those of the faces, and also where one of the 192 pairs is none that a
   job of its year can have, since they are then added up anew as by an edit. The sheet does not go by the sums.
   Refuse the held job as its sheet would be; then with 7, line 0, where the text is longer than `room`. The buffer as
   for aral_rewrite. No report is longer than ARAL_REPORT_MOST bytes, and no sheet than ARAL_SHEET_MOST. */
aral_text aral_show(aral_worksheet w, uint8_t *out, size_t room);
aral_text aral_write(aral_worksheet w, uint8_t *out, size_t room);

/* A wind rose of a file of observations that comes in parts: aral_rose_new, aral_rose_take for each part in order, and
   aral_rose_end. Each call answers the next record, and any cutting of the file, also inside a number or with nothing
   in a part, comes to the same one.
   A line is a direction, 0 to 359 whole degrees, a space, a speed, 0 to 1000 tenths of m/s, and LF; both are numbers as
   in a sheet. Of the 16 sectors the first is centred on north, the next on 22.5 degrees, and each reaches 11.25 degrees
   to either side. The Beaufort number is that of table 2.2.2.2.1 by its m/s: the greatest speeds of 0 to 11 are 2, 15,
   33, 54, 79, 107, 138, 171, 207, 244, 284 and 326 tenths. A calm is counted under its written direction.
   A line is judged at its LF. It is refused with 1 where it is not in form; then with 3 for a number outside its range;
   then with 11 after ARAL_OBSERVATIONS_MOST accepted ones. Bytes after the last LF are no line, and aral_rose_end
   refuses them with 1; a file with no byte is accepted. The refusal's line is one more than the lines accepted, and the
   cells stay as they were before it. After a refusal, and after aral_rose_end, nothing more is taken: both calls answer
   the record as it was handed in.
   A record handed in may hold anything. Where `closed` is not 0 it comes back as it is. Where it is 0, lines are judged
   and counted as ever from the numbers that it holds: `number` and `line` stay until a refusal, 11 goes by `accepted`,
   and a count of 4294967295 stays. What comes of a `pending` that no call answered is determined too. */
aral_rose aral_rose_new(void);
aral_rose aral_rose_take(aral_rose r, const uint8_t *part, size_t n);
aral_rose aral_rose_end(aral_rose r);

/* The panel's doubles of any number. Never refuses. Zero is positive zero. */
aral_double aral_panel(int64_t total);

/* The chart point of three totals. Never refuses. */
aral_point aral_chart(int64_t x, int64_t y, int64_t z);

/* The panel's doubles of a total of year 4, which are of the newtons alone; and the chart point of three such totals.
   Never refuse, whatever the numbers are. Where the remainder is 0 and a double equals the newtons, it is exact. Else
   low is the greatest double at or below the newtons, and high the least double at or above the newtons where the
   remainder is 0, and at or above one more where it is anything else. So -1 and 19999999999 are between -1 and +0;
   newtons that no double equals, all of them over 2^53 in size, are between those beside them. Zero is positive
   zero. */
aral_double aral_panel_newtons(int64_t newtons, uint64_t remainder);
aral_point aral_chart_newtons(aral_pair x, aral_pair y, aral_pair z);

#ifdef __cplusplus
}
#endif

#endif
