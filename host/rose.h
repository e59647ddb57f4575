/* Wind roses for people: `aral rose`, and its drawing (rose.c, petals.c). */
#ifndef ROSE_H
#define ROSE_H

#include "aralimogga.h"

/* Reads the file of observations, or standard input for -, in parts, and prints its rose as a table or as a drawing, or
   what is refused: beside a drawing on standard error. Answers what aral ends with. */
int show_rose(const char *name, int drawn);

/* Prints the drawing of an accepted rose: one SVG text, which any browser shows. */
void draw_rose(const aral_rose *r);

/* A sector by its name, `N` to `NNW`, counted from 0. */
const char *sector_name(int sector);

/* The observations of a sector with Beaufort numbers from first to last. */
uint32_t count_within(const aral_rose *r, int sector, int first, int last);

/* The calms: those of Beaufort number 0, from every direction. */
uint32_t calms_of(const aral_rose *r);

/* A share of all observations in percent to a tenth, a half up, as `12.5 %`. The text lasts for four calls. */
const char *share_of(const aral_rose *r, uint32_t count);

#endif
