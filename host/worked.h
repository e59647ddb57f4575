/* The two calculators that the worked cases are tried on, and how a case is told (worked.c). */
#ifndef WORKED_H
#define WORKED_H

#include "aralimogga.h"

typedef struct {
    const char *name;
    aral_answer (*read)(const uint8_t *, size_t);
    aral_place (*where)(const uint8_t *, size_t);
    aral_text (*report)(const uint8_t *, size_t, uint8_t *, size_t);
    aral_text (*plain)(const uint8_t *, size_t, uint8_t *, size_t);
    aral_coefficient (*outside)(int64_t, int64_t, int64_t, int64_t, int64_t, int64_t, int64_t, int64_t, uint8_t);
    aral_coefficient (*net)(int64_t, int64_t, int64_t, int64_t, int64_t, int64_t, int64_t, int64_t, uint8_t, int64_t);
    aral_extreme (*total)(const uint8_t *, size_t, int64_t);
    aral_double (*panel)(int64_t);
    aral_double (*panel_newtons)(int64_t, uint64_t);
    aral_point (*chart_newtons)(aral_pair, aral_pair, aral_pair);
    aral_edited (*open)(const uint8_t *, size_t);
    aral_edited (*add)(aral_worksheet, aral_face);
    aral_edited (*replace)(aral_worksheet, int64_t, aral_face);
    aral_edited (*take_out)(aral_worksheet, int64_t);
    aral_text (*show)(aral_worksheet, uint8_t *, size_t);
    aral_text (*write)(aral_worksheet, uint8_t *, size_t);
    aral_answer (*column)(aral_setting, const aral_face *, size_t, int64_t, int64_t *, size_t);
    aral_part (*share)(const uint8_t *, size_t, int64_t, int64_t);
    aral_mended (*mend)(const uint8_t *, size_t, uint8_t *, size_t, uint64_t *, size_t);
    aral_rose (*rose_new)(void);
    aral_rose (*rose_take)(aral_rose, const uint8_t *, size_t);
    aral_rose (*rose_end)(aral_rose);
} calculator;

/* Counts the case, and says which does not hold. */
void expect(const calculator *c, const char *what, int holds);

/* The worked edits (worked_edits.c), and the worked cases of long sheds (worked_long.c), of the plain engine
   (worked_engine.c), of the newton column (worked_column.c), of shares (worked_share.c), of where a fault lies
   (worked_where.c), of mending (worked_mend.c) and of wind roses (worked_rose.c). */
void check_edits(const calculator *c);
void check_long(const calculator *c);
void check_engine(const calculator *c);
void check_newtons(const calculator *c);
void check_shares(const calculator *c);
void check_places(const calculator *c);
void check_mending(const calculator *c);
void check_roses(const calculator *c);

#endif
