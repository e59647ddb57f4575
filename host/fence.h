/* Memory between pages that can't be touched, to be lent to the library (fence.c). */
#ifndef FENCE_H
#define FENCE_H

#include <stddef.h>
#include <stdint.h>

typedef struct { uint8_t *start, *end; } fence; /* bytes between two pages that can't be touched */
enum { WATCHED = 16384 };                       /* the most that is lent as a room */

void fail(const char *what);                    /* says so, and ends the program */
void make_fences(void);                         /* what the rest needs; from then on a touched page fails */
fence make_fence(size_t size);                  /* one more */
void give_back(fence f);

/* A copy of the text that can only be read, against the page after it or the page before it. */
const uint8_t *lend(const uint8_t *bytes, size_t n, int after);

/* A room to write in, against the page after it or the page before it, filled with one byte as all around it is. */
uint8_t *lend_room(size_t room, int after);

/* Fails where the lent room does not begin with the text, or where a byte outside the text is not as it was. */
void check_room(const uint8_t *at, int after, const uint8_t *text, size_t length);

/* The same for a room within a fence of one's own, with so many bytes looked at from its page on. */
uint8_t *lend_within(fence f, size_t watched, size_t room, int after);
void check_within(fence f, size_t watched, const uint8_t *at, int after, const void *held, size_t length);

#endif
