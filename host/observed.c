/* Counts a file of observations over and over, for the benchmark:
     observed library|plain FILE BYTES TIMES [timed]
   The library takes it in parts of so many bytes; the plain calculator counts it in one piece. Prints a sum over the
   rose, which is the same for both; or with `timed` how often in a second of processor time. */
#define _POSIX_C_SOURCE 199309L
#include "aralimogga.h"
#include "plain.h"
#include "seconds.h"
#include <stdio.h>
#include <stdlib.h>
#include <string.h>

static uint8_t file[1 << 23];

static aral_rose in_parts(size_t n, size_t part)
{
    aral_rose r = aral_rose_new();
    for (size_t at = 0; at < n; at += part) r = aral_rose_take(r, file + at, n - at < part ? n - at : part);
    return aral_rose_end(r);
}

static uint64_t sum_of(const aral_rose *r)
{
    uint64_t sum = r->number + r->line + r->accepted;
    for (int i = 0; i < ARAL_SECTORS * ARAL_BEAUFORT_NUMBERS; i++) sum = sum * 31 + r->cell[i];
    return sum;
}

int main(int argc, char **argv)
{
    int library = argc > 4 && !strcmp(argv[1], "library");
    FILE *from = library || (argc > 4 && !strcmp(argv[1], "plain")) ? fopen(argv[2], "rb") : NULL;
    size_t n = from ? fread(file, 1, sizeof file, from) : 0, part = from ? strtoul(argv[3], NULL, 10) : 0;
    if (!part) {
        fprintf(stderr, "observed library|plain FILE BYTES TIMES [timed]\n");
        return 2;
    }
    unsigned long count = strtoul(argv[4], NULL, 10);
    uint64_t sum = 0;
    double start = seconds();
    for (unsigned long i = 0; i < count; i++) {
        aral_rose r = library ? in_parts(n, part) : plain_rose_of(file, n, 1);
        sum = sum * 31 + sum_of(&r);
    }
    if (argc > 5) printf("%.1f\n", (double)count / (seconds() - start));
    else printf("%016llx\n", (unsigned long long)sum);
    return 0;
}
