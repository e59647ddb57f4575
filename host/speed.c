/* Makes reports over and over, for the benchmark:
     speed library|plain|cases YEAR KINDS WINDS INTERNALS STEPS FACES[/CHOOSING] REPORTS [timed]
   `cases` is the library's plain engine. KINDS are six digits, the roof kind of each of six sheets; STEPS the lines of
   the profile, 0 in year 1; CHOOSING, on flat roofs, how many of the faces have two alternatives, and then under every
   wind. The sheets are taken in turn, and read anew for each report; the buffer is not cleared between reports. Prints
   a sum over what was written and the six lines of each sheet, which are the same for all three, or with `timed`
   reports per second of processor time. */
#define _POSIX_C_SOURCE 199309L
#include "aralimogga.h"
#include "plain.h"
#include "seconds.h"
#include "sheets.h"
#include <stdio.h>
#include <stdlib.h>
#include <string.h>

typedef aral_text reports(const uint8_t *, size_t, uint8_t *, size_t);

static reports *named(const char *which)
{
    return !strcmp(which, "library") ? aral_report : !strcmp(which, "plain") ? plain_report
         : !strcmp(which, "cases") ? aral_plain : NULL;
}

/* Spreads the faces of zone F over the others, as many as are asked for. */
static void let_choose(sample *s, int choosing)
{
    for (int i = 0; i < s->faces; i++) {
        int chooses = (i + 1) * choosing / s->faces > i * choosing / s->faces;
        if (chooses) s->mark[i] = DASH;
        if (chooses) s->zone[i] = 'F';
        else if (s->zone[i] == 'F') s->zone[i] = 'E';
    }
}

int main(int argc, char **argv)
{
    static text sheet[6];
    static sample s;
    uint8_t out[ARAL_REPORT_MOST];
    uint64_t sum = 0;
    dice die = {1};
    reports *report = argc < 9 ? NULL : named(argv[1]);
    if (!report || strlen(argv[3]) != 6) {
        fprintf(stderr, "speed library|plain|cases YEAR KINDS WINDS INTERNALS STEPS FACES[/CHOOSING] REPORTS "
                        "[timed]\n");
        return 2;
    }
    const char *choosing = strchr(argv[7], '/');
    for (int i = 0; i < 6; i++) {
        make_sized(&die, &s, atoi(argv[2]), argv[3][i] - '0', atoi(argv[4]), atoi(argv[5]), atoi(argv[6]),
                   atoi(argv[7]));
        if (choosing) let_choose(&s, atoi(choosing + 1));
        write_sample(&s, &sheet[i]);
    }
    unsigned long count = strtoul(argv[8], NULL, 10);
    double start = seconds();
    for (unsigned long i = 0; i < count; i++) {
        const text *t = &sheet[i % 6];
        aral_text r = report(t->byte, t->length, out, sizeof out);
        sum = sum * 31 + r.length + out[r.length / 2];
    }
    if (argc > 9) {
        printf("%.0f\n", (double)count / (seconds() - start));
        return 0;
    }
    printf("%016llx\n", (unsigned long long)sum);
    for (int i = 0; i < 6; i++) fwrite(out, 1, report(sheet[i].byte, sheet[i].length, out, sizeof out).length, stdout);
    return 0;
}
