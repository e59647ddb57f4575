/* Reads a file of observations in parts by the library, and prints its wind rose as a table, or says what is refused. A
   long file shows on a terminal how far it is. */
#define _POSIX_C_SOURCE 200809L
#include "rose.h"
#include "edit.h"
#include "words.h"
#include <errno.h>
#include <inttypes.h>
#include <stdio.h>
#include <string.h>
#include <sys/stat.h>
#include <unistd.h>

enum { PART = 1 << 16, KEPT = 1 << 10, TOLD_PARTS = 8 };
enum { SECTORS = ARAL_SECTORS, NUMBERS = ARAL_BEAUFORT_NUMBERS };

/* ---- Reading ---- */

/* The line that is looked at: its first bytes, and how many it has so far. */
typedef struct { uint8_t byte[KEPT]; size_t kept, length; } begun;

static void add_to(begun *b, const uint8_t *byte, size_t n)
{
    size_t more = n < KEPT - b->kept ? n : KEPT - b->kept;
    memcpy(b->byte + b->kept, byte, more);
    b->kept += more;
    b->length += n;
}

/* Goes past so many line ends, as far as there are any, and answers the place after the last of them. */
static const uint8_t *past_lines(const uint8_t *at, const uint8_t *end, uint32_t lines)
{
    for (const uint8_t *next; lines > 0 && (next = memchr(at, '\n', (size_t)(end - at))); lines--) at = next + 1;
    return at;
}

/* What is begun after a part of n bytes in which so many lines ended: the rest of the part up to its next line end. */
static void go_on(begun *b, const uint8_t *part, size_t n, uint32_t lines)
{
    const uint8_t *end = part + n, *from = past_lines(part, end, lines);
    const uint8_t *next = memchr(from, '\n', (size_t)(end - from));
    if (lines > 0) b->kept = b->length = 0;
    add_to(b, from, (size_t)((next ? next : end) - from));
}

/* Of a file whose size is known also how much of it was read. */
static void tell_progress(uint32_t lines, uint64_t bytes, uint64_t size)
{
    fprintf(stderr, "\r%" PRIu32 " lines", lines);
    if (size > 0 && bytes <= size) fprintf(stderr, ", %d %%", (int)(100 * bytes / size));
    fputs("  ", stderr);
}

static void end_progress(void) { fprintf(stderr, "\r%30s\r", ""); }

static uint64_t size_of(FILE *file)
{
    struct stat about;
    return fstat(fileno(file), &about) || !S_ISREG(about.st_mode) ? 0 : (uint64_t)about.st_size;
}

/* The rose of the file up to its end or its refusal, with the line refused. */
static aral_rose read_rose(FILE *file, begun *b)
{
    static uint8_t part[PART];
    uint64_t bytes = 0, parts = 0, size = size_of(file);
    int told = isatty(STDERR_FILENO);
    aral_rose rose = aral_rose_new();
    for (size_t n; !rose.number && (n = fread(part, 1, sizeof part, file)) > 0;) {
        uint32_t before = rose.accepted;
        rose = aral_rose_take(rose, part, n);
        go_on(b, part, n, rose.accepted - before);
        bytes += n;
        if (told && ++parts % TOLD_PARTS == 0) tell_progress(rose.accepted, bytes, size);
    }
    if (told && parts >= TOLD_PARTS) end_progress();
    return rose;
}

/* ---- Counts ---- */

const char *sector_name(int sector)
{
    static const char *const name[SECTORS] = {"N", "NNE", "NE", "ENE", "E", "ESE", "SE", "SSE",
                                              "S", "SSW", "SW", "WSW", "W", "WNW", "NW", "NNW"};
    return name[sector];
}

uint32_t count_within(const aral_rose *r, int sector, int first, int last)
{
    uint32_t count = 0;
    for (int number = first; number <= last; number++) count += r->cell[NUMBERS * sector + number];
    return count;
}

static uint32_t count_of(const aral_rose *r, int number)
{
    uint32_t count = 0;
    for (int sector = 0; sector < SECTORS; sector++) count += count_within(r, sector, number, number);
    return count;
}

uint32_t calms_of(const aral_rose *r) { return count_of(r, 0); }

const char *share_of(const aral_rose *r, uint32_t count)
{
    static char text[4][16];
    static int next;
    uint64_t all = r->accepted, tenths = all ? (2000 * (uint64_t)count + all) / (2 * all) : 0;
    next = (next + 1) % 4;
    snprintf(text[next], sizeof text[next], "%d.%d %%", (int)(tenths / 10), (int)(tenths % 10));
    return text[next];
}

/* ---- The table ---- */

/* A column is as wide as the longest number in it, which is its sum, and two spaces. */
static int width_of(uint32_t greatest)
{
    int width = 3;
    for (; greatest >= 10; greatest /= 10) width++;
    return width < 4 ? 4 : width;
}

static void print_row(const aral_rose *r, int sector)
{
    printf("%-6s", sector_name(sector));
    for (int number = 0; number < NUMBERS; number++)
        printf("%*" PRIu32, width_of(count_of(r, number)), count_within(r, sector, number, number));
    printf("%*" PRIu32 "\n", width_of(r->accepted) + 2, count_within(r, sector, 0, NUMBERS - 1));
}

static void print_table(const aral_rose *r)
{
    printf("%" PRIu32 " observation%s, by the sector the wind comes from and by Beaufort number\n\n      ", r->accepted,
           r->accepted == 1 ? "" : "s");
    for (int number = 0; number < NUMBERS; number++) printf("%*d", width_of(count_of(r, number)), number);
    printf("%*s\n", width_of(r->accepted) + 2, "sum");
    for (int sector = 0; sector < SECTORS; sector++) print_row(r, sector);
    printf("%-6s", "sum");
    for (int number = 0; number < NUMBERS; number++)
        printf("%*" PRIu32, width_of(count_of(r, number)), count_of(r, number));
    printf("%*" PRIu32 "\n\n", width_of(r->accepted) + 2, r->accepted);
    printf("Calms, which are Beaufort number 0: %s, each under its written direction.\n", share_of(r, calms_of(r)));
    printf("A sector reaches 11.25 degrees to either side; N is around 0. Beaufort numbers are by table 2.2.2.2.1, in\n"
           "m/s: 0 below 0.3, 1 to 1.5, 2 to 3.3, 3 to 5.4, 4 to 7.9, 5 to 10.7, 6 to 13.8, 7 to 17.1, 8 to 20.7,\n"
           "9 to 24.4, 10 to 28.4, 11 to 32.6, and 12 above.\n");
}

/* ---- The command ---- */

static int refuse(const aral_rose *r, const begun *b, int ended, int drawn)
{
    if (drawn) dup2(STDERR_FILENO, STDOUT_FILENO);
    explain_observation(b->byte, b->kept, b->length, ended, (aral_answer){r->number, r->line});
    return REFUSED;
}

int show_rose(const char *name, int drawn)
{
    static begun b;
    FILE *file = strcmp(name, "-") ? fopen(name, "rb") : stdin;
    if (!file) {
        fprintf(stderr, "aral: %s can't be opened: %s\n", name, strerror(errno));
        return MISUSED;
    }
    aral_rose taken = read_rose(file, &b), rose = aral_rose_end(taken);
    if (ferror(file)) {
        fprintf(stderr, "aral: %s can't be read: %s\n", file == stdin ? "standard input" : name, strerror(errno));
        return MISUSED;
    }
    if (file != stdin) fclose(file);
    if (rose.number) return refuse(&rose, &b, taken.number != 0, drawn);
    if (drawn) draw_rose(&rose);
    else print_table(&rose);
    return ACCEPTED;
}
