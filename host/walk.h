/* The plainest reckoning there is: every case of a job, one after another (walk.c). */
#ifndef WALK_H
#define WALK_H

#include "sheets.h"
#include "aralimogga.h"

/* The six totals of an acceptable job, each with the first case that reaches it; answers 0 where there are more cases
   than `most`. */
int walk(const sample *s, uint64_t most, aral_extreme best[6]);

#endif
