/* A job cut down to one wind, one internal coefficient and one face: its totals are that face's forces (alone.c). */
#ifndef ALONE_H
#define ALONE_H

#include "aralimogga.h"

/* The job with these alone, by their numbers from 0. */
aral_job alone(const aral_job *j, uint32_t wind, uint32_t internal, uint32_t face);

/* One line of the report of an accepted job. */
aral_extreme total_of(const aral_job *j, int64_t line);

#endif
