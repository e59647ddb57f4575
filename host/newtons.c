/* Makes newton columns over and over, for the benchmark:
     newtons library|plain FACES COLUMNS [timed]
   Six jobs, of roof kinds 0 to 5, with 8 winds, 4 internals and so many faces, are taken in turn, and the six lines of
   each one after another. They are of year 1, and with more faces than it may have of year 4. Prints a sum over the
   columns, which is the same for both; or with `timed` columns per second of processor time. */
#define _POSIX_C_SOURCE 199309L
#include "aralimogga.h"
#include "plain.h"
#include "records.h"
#include "seconds.h"
#include "setting.h"
#include "sheets.h"
#include <stdio.h>
#include <stdlib.h>
#include <string.h>

enum { JOBS = 6, LINES = 6 };
typedef aral_answer columns(aral_setting, const aral_face *, size_t, int64_t, int64_t *, size_t);

int main(int argc, char **argv)
{
    static aral_worksheet w[JOBS];
    static sample s;
    int64_t out[ARAL_FACES_MOST];
    uint64_t sum = 0;
    dice die = {1};
    columns *column = argc < 4 ? NULL : !strcmp(argv[1], "library") ? aral_column
                    : !strcmp(argv[1], "plain") ? plain_column : NULL;
    if (!column) {
        fprintf(stderr, "newtons library|plain FACES COLUMNS [timed]\n");
        return 2;
    }
    int faces = atoi(argv[2]), year = faces <= ARAL_FACES_OF(1) ? 1 : 4;
    for (int i = 0; i < JOBS; i++) {
        make_sized(&die, &s, year, i, 8, 4, year == 1 ? 0 : 4, faces);
        record_of(&s, &w[i]);
    }
    unsigned long count = strtoul(argv[3], NULL, 10);
    double start = seconds();
    for (unsigned long i = 0; i < count; i++) {
        const aral_job *j = &w[i % JOBS].job;
        aral_answer a = column(setting_of(j), j->faces.entry, j->faces.count, 1 + (int64_t)(i / JOBS % LINES), out,
                               ARAL_FACES_MOST);
        sum = sum * 31 + a.number + (uint64_t)out[i % j->faces.count];
    }
    if (argc > 4) printf("%.0f\n", (double)count / (seconds() - start));
    else printf("%016llx\n", (unsigned long long)sum);
    return 0;
}
