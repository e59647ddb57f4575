/* Mends a text over and over, for the benchmark:
     bytes library|plain sheet|spaces|zeros BYTES TIMES [timed]
   The text has so many bytes: a sheet with slips repeated and cut off there, or one byte. The buffers always suffice
   and are not cleared between times. Prints a sum over text and list, which is the same for both; or with `timed` how
   often in a second of processor time. */
#define _POSIX_C_SOURCE 199309L
#include "aralimogga.h"
#include "plain.h"
#include "seconds.h"
#include <stdio.h>
#include <stdlib.h>
#include <string.h>

/* A slip or more in most lines, as a sheet typed with CRLF line ends has. */
static const char bad_sheet[] =
    "B 1\r\n500  1200 1000 1250 2 0\r\nW 1\r\n0 +400\r\nI 2\r\n20 \r\n-030\r\nF 3\r\nA 0 1000 0 0\r\nB - -1000 0 0\r\n"
    "F 0 0 0 -2000\r\n";

typedef aral_mended mends(const uint8_t *, size_t, uint8_t *, size_t, uint64_t *, size_t);

static mends *named(const char *which)
{
    return !strcmp(which, "library") ? aral_mend : !strcmp(which, "plain") ? plain_mend : NULL;
}

static const char *part_of(const char *what)
{
    return !strcmp(what, "sheet") ? bad_sheet : !strcmp(what, "spaces") ? " " : !strcmp(what, "zeros") ? "0" : NULL;
}

int main(int argc, char **argv)
{
    mends *mend = argc < 5 ? NULL : named(argv[1]);
    const char *part = mend ? part_of(argv[2]) : NULL;
    if (!part) {
        fprintf(stderr, "bytes library|plain sheet|spaces|zeros BYTES TIMES [timed]\n");
        return 2;
    }
    size_t n = strtoul(argv[3], NULL, 10), size = strlen(part);
    uint8_t *received = malloc(n + 1), *out = calloc(n + 1, 1);
    uint64_t *list = calloc(n + 1, 3 * sizeof *list), sum = 0;
    if (!received || !out || !list) return 2;
    for (size_t i = 0; i < n; i++) received[i] = (uint8_t)part[i % size];
    unsigned long count = strtoul(argv[4], NULL, 10);
    double start = seconds();
    for (unsigned long i = 0; i < count; i++) {
        aral_mended m = mend(received, n, out, n + 1, list, 3 * (n + 1));
        sum = sum * 31 + m.length + m.changes + m.refused_line + out[m.length / 2] + list[3 * (m.changes / 2) + 2];
    }
    if (argc > 5) printf("%.1f\n", (double)count / (seconds() - start));
    else printf("%016llx\n", (unsigned long long)sum);
    return 0;
}
