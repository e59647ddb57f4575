/* Checks damaged sheets as `aral check` does, one after another in one process: damaged SEED SHEETS. Each must get
   words and the status of its verdict; so must its first line where it is taken for an observation. To be compiled with
   sanitizers, which end it where memory is misused. It stops where something is not so. */
#define _POSIX_C_SOURCE 200809L
#include "aralimogga.h"
#include "check.h"
#include "edit.h"
#include "sheets.h"
#include "slipped.h"
#include "words.h"
#include <stdio.h>
#include <stdlib.h>
#include <string.h>
#include <unistd.h>

enum { WORDS = 1 << 16 };
static int said;     /* what is printed goes here */
static FILE *report; /* and what this program tells, here */
static struct { unsigned long sheets, accepted, refused[9], lines, bytes; } tally;

static void fail(const char *what, const text *t)
{
    fprintf(report, "FAILED: %s\n", what);
    for (size_t i = 0; i < t->length && i < 3000; i++)
        if (t->byte[i] == '\n' || (t->byte[i] >= ' ' && t->byte[i] < 127)) fputc(t->byte[i], report);
        else fprintf(report, "<%02x>", t->byte[i]);
    fprintf(report, "<end, %zu bytes>\n", t->length);
    fclose(report);
    exit(1);
}

/* What was printed since the last call: lines of plain signs, which begin with these words. */
static void expect_words(const char *words, const text *t)
{
    static char got[WORDS + 1];
    fflush(stdout);
    ssize_t n = pread(said, got, WORDS, 0);
    if (n <= 0 || n == WORDS || got[n - 1] != '\n') fail("no words, or no end to them", t);
    got[n] = 0;
    for (ssize_t i = 0; i < n; i++)
        if (got[i] != '\n' && (got[i] < ' ' || got[i] > '~')) fail("a byte that is no plain sign", t);
    if (strncmp(got, words, strlen(words))) fail("other words than of its verdict", t);
    tally.bytes += (unsigned long)n;
    if (ftruncate(said, 0)) fail("what was printed can't be cleared", t);
    rewind(stdout);
}

static void check_damaged(const text *t)
{
    char words[60] = "accepted: ";
    aral_answer answer = aral_read(t->byte, t->length);
    uint8_t *sheet = malloc(t->length ? t->length : 1); /* of its very length, so that a byte past it is found out */
    if (!sheet) exit(2);
    memcpy(sheet, t->byte, t->length);
    if (answer.number) snprintf(words, sizeof words, "refused with %u at line %u: ", answer.number, answer.line);
    if (check_sheet(sheet, t->length, 0) != (answer.number ? REFUSED : ACCEPTED)) fail("another status", t);
    expect_words(words, t);
    free(sheet);
    tally.sheets++;
    tally.accepted += !answer.number;
    if (answer.number) tally.refused[answer.number]++;
}

/* The first line as an observation. */
static void observe(const text *t)
{
    const uint8_t *end = memchr(t->byte, '\n', t->length);
    size_t n = end ? (size_t)(end - t->byte) : t->length;
    aral_rose r = aral_rose_take(aral_rose_new(), t->byte, n + (end != NULL));
    int ended = r.number != 0;
    if (!ended) r = aral_rose_end(r);
    if (!r.number) return;
    uint8_t *line = malloc(n ? n : 1);
    if (!line) exit(2);
    memcpy(line, t->byte, n);
    explain_observation(line, n < 1024 ? n : 1024, n, ended, (aral_answer){r.number, r.line});
    expect_words("refused with ", t);
    free(line);
    tally.lines++;
}

/* By turns damage, slips of the keyboard, a number that is not allowed, and several of these. */
static void make(dice *d, unsigned long i, text *t)
{
    static sample s;
    make_sample(d, &s);
    if (i % 4 == 2) spoil(d, &s);
    write_sample(&s, t);
    if (i % 4 == 1 && t->length > 0) put_slips_in(d, t);
    for (int64_t damages = i % 4 == 0 ? 1 : pick(d, 0, 4); damages > 0; damages--) damage(d, t);
}

int main(int argc, char **argv)
{
    static text t;
    FILE *words = tmpfile();
    if (argc != 3 || !words) {
        fprintf(stderr, "damaged SEED SHEETS\n");
        return 2;
    }
    dice die = {strtoull(argv[1], NULL, 10)};
    report = fdopen(dup(STDOUT_FILENO), "w");
    said = fileno(words);
    if (!report || dup2(said, STDOUT_FILENO) < 0) return 2;
    for (unsigned long i = 0, sheets = strtoul(argv[2], NULL, 10); i < sheets; i++) {
        make(&die, i, &t);
        check_damaged(&t);
        if (i % 4 == 0) observe(&t);
    }
    fprintf(report, "seed %s: %lu damaged sheets and %lu lines, %lu bytes of words; accepted %lu, refused", argv[1],
            tally.sheets, tally.lines, tally.bytes, tally.accepted);
    for (int number = 1; number <= 8; number++) fprintf(report, " %d: %lu", number, tally.refused[number]);
    fprintf(report, "\n");
    fclose(report);
    fclose(words);
    return 0;
}
