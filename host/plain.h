/* The entry points of the plain calculator: those of aralimogga.h, under another prefix. Worksheets are in
   plain_edits.c, the column in plain_column.c, shares in plain_share.c, mending in plain_mend.c, roses in plain_rose.c,
   where a fault lies in plain_where.c, all others in plain.c. */
#ifndef PLAIN_H
#define PLAIN_H

#include "aralimogga.h"

/* With -DSTAND_IN they carry the library's own names, and tests can be tried without the library. */
#ifdef STAND_IN
#define ENTRY(name) aral_##name
#else
#define ENTRY(name) plain_##name
#endif

aral_answer plain_read(const uint8_t *sheet, size_t n);
aral_place plain_where(const uint8_t *sheet, size_t n);
aral_text plain_rewrite(const uint8_t *sheet, size_t n, uint8_t *out, size_t room);
aral_mended plain_mend(const uint8_t *sheet, size_t n, uint8_t *out, size_t room, uint64_t *list, size_t list_room);
aral_text plain_report(const uint8_t *sheet, size_t n, uint8_t *out, size_t room);
aral_text plain_plain(const uint8_t *sheet, size_t n, uint8_t *out, size_t room);
aral_extreme plain_total(const uint8_t *sheet, size_t n, int64_t line);
aral_answer plain_column(aral_setting s, const aral_face *faces, size_t n, int64_t line, int64_t *column, size_t room);
aral_part plain_share(const uint8_t *sheet, size_t n, int64_t line, int64_t face);
aral_text plain_digits(int64_t number, uint8_t *out, size_t room);
aral_coefficient plain_outside(int64_t year, int64_t h, int64_t a, int64_t b, int64_t density, int64_t kind, int64_t x,
                               int64_t direction, uint8_t place);
aral_coefficient plain_net(int64_t year, int64_t h, int64_t a, int64_t b, int64_t density, int64_t kind, int64_t x,
                           int64_t direction, uint8_t place, int64_t internal);
aral_edited plain_open(const uint8_t *sheet, size_t n);
aral_edited plain_add(aral_worksheet w, aral_face f);
aral_edited plain_replace(aral_worksheet w, int64_t face, aral_face f);
aral_edited plain_take_out(aral_worksheet w, int64_t face);
aral_text plain_show(aral_worksheet w, uint8_t *out, size_t room);
aral_text plain_write(aral_worksheet w, uint8_t *out, size_t room);
aral_rose plain_rose_new(void);
aral_rose plain_rose_take(aral_rose r, const uint8_t *part, size_t n);
aral_rose plain_rose_end(aral_rose r);
aral_double plain_panel(int64_t total);
aral_point plain_chart(int64_t x, int64_t y, int64_t z);
aral_double plain_panel_newtons(int64_t newtons, uint64_t remainder);
aral_point plain_chart_newtons(aral_pair x, aral_pair y, aral_pair z);

/* A number of units is one whole number here, which 64 bits do not hold; and as newtons and remainder. */
typedef __int128 units;
aral_pair ENTRY(pair_of)(units total);
units ENTRY(units_of)(aral_pair p);

/* For plain_edits.c: the sums of a sheet, all zero where it is refused; and its report by stored sums, whether they are
   those of its faces or not. */
aral_sums ENTRY(add_up)(const uint8_t *sheet, size_t n);
aral_text ENTRY(report_by)(const uint8_t *sheet, size_t n, const aral_sums *sums, uint8_t *out, size_t room);

/* For plain_column.c: the sheet that a setting with these faces would be, and its length; and the force of each face in
   the case that a report line of an accepted sheet names, in units. */
enum { PLAIN_PAGE = 276 * 6 * 21 }; /* at most 276 lines, of at most 6 fields, each of at most 20 bytes and one after */
size_t ENTRY(sheet_of)(const aral_setting *s, const aral_face *face, size_t faces, uint8_t page[PLAIN_PAGE]);
void ENTRY(forces)(const uint8_t *sheet, size_t n, int64_t line, int64_t force[ARAL_FACES_MOST]);

/* The rose of a file's lines counted as a whole, where it is at hand in one piece: up to the first refusal, or all of
   them; `ended` 1 also refuses what has no LF. It is closed and has nothing pending. */
aral_rose ENTRY(rose_of)(const uint8_t *file, size_t n, int ended);

#endif
