/* The setting of a job: all of it but the faces, for the newton column. */
#ifndef SETTING_H
#define SETTING_H

#include "aralimogga.h"

static inline aral_setting setting_of(const aral_job *j)
{
    return (aral_setting){j->year, j->building, j->winds, j->internals, j->profile};
}

#endif
