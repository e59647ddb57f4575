/* Sheets for the tests, made from a seed: jobs of every roof kind at and around each limit, their text, and damage. */
#ifndef SHEETS_H
#define SHEETS_H

#include "aralimogga.h"
#include <stddef.h>
#include <stdint.h>

typedef struct { uint64_t state; } dice;

/* A job as a test holds it. In year 1 it has no line of the profile. A mark is a number, or DASH. */
enum { DASH = 99999999 };
typedef struct {
    int64_t h, a, b, density, kind, x;
    int year, winds, internals, steps, faces;
    int direction[8], speed[8], internal[4];
    struct { int height, factor; } step[16];
    int mark[ARAL_FACES_MOST], height[ARAL_FACES_MOST], area[ARAL_FACES_MOST][3];
    char zone[ARAL_FACES_MOST];
} sample;

enum { TEXT_ROOM = 1 << 16 };
typedef struct { uint8_t byte[TEXT_ROOM]; size_t length; } text;

uint64_t roll(dice *d);                                       /* any 64 bits */
int64_t pick(dice *d, int64_t least, int64_t greatest);       /* a number of a range, ends included */
int64_t edge_of(dice *d, int64_t usual);                      /* `usual`, or a 64-bit number that is easily mistaken */

int direction_of(dice *d, int64_t kind);                      /* one that the roof kind has */
void make_building(dice *d, sample *s);                       /* an acceptable building of some year */
void make_sample(dice *d, sample *s);                         /* an acceptable job */
int some_faces(dice *d, int year);                            /* how many a job of the year may have, few more often */
void make_sized(dice *d, sample *s, int year, int64_t kind, int winds, int internals, int steps, int faces);
void make_face(dice *d, sample *s, int i);                    /* entry i, as the building and the profile allow */
void spoil(dice *d, sample *s);                               /* one number or letter, mostly not allowed */
void write_sample(const sample *s, text *t);                  /* its sheet */
void damage(dice *d, text *t);                                /* one slip, which may leave the sheet acceptable */

#endif
