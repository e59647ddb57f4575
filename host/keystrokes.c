/* Edits worksheets over and over, for the benchmark:
     kept|unkept edit|keystroke FACES EDITS [timed]
   Six worksheets, of roof kinds 0 to 5, with 8 winds, 4 internals and so many faces, are taken in turn; they are of
   year 1, and with more faces than it may have of year 4. An edit puts another face in a face's place; a keystroke is
   an edit and the six lines after it. This file is compiled twice: the program `kept` holds the sums, and `unkept`,
   with -DUNKEPT, a job alone, whose faces are added up for each report.
   Prints a sum over what was shown and the six lines of each worksheet at the end, which are the same for both; or with
   `timed` edits or keystrokes per second of processor time. */
#define _POSIX_C_SOURCE 199309L
#include "aralimogga.h"
#include "plain.h"
#include "records.h"
#include "seconds.h"
#include "sheets.h"
#include <stdio.h>
#include <stdlib.h>
#include <string.h>

enum { SHEETS = 6, SPARES = 29 }; /* no number of faces divides 29, so that each place gets one after another */
static struct { unsigned long edits; int faces, shown; } wanted;

/* ---- The two ways ---- */

#ifdef UNKEPT

/* The library `unkept`: worksheets as they were before they had sums. */
typedef struct { uint32_t number, line; aral_job job; } aral_edited_job;
#ifndef STAND_FOR_UNKEPT
aral_edited_job unkept_replace(aral_job j, int64_t face, aral_face f);
aral_text unkept_show(aral_job j, uint8_t *out, size_t room);
#else /* by the plain calculator, where the benchmark itself is tried */
static aral_edited_job unkept_replace(aral_job j, int64_t face, aral_face f)
{
    aral_edited e = plain_replace((aral_worksheet){.job = j}, face, f);
    return (aral_edited_job){e.number, e.line, e.worksheet.job};
}

static aral_text unkept_show(aral_job j, uint8_t *out, size_t room)
{
    uint8_t sheet[ARAL_SHEET_MOST];
    aral_text written = plain_write((aral_worksheet){.job = j}, sheet, sizeof sheet);
    return plain_report(sheet, written.length, out, room);
}
#endif

typedef aral_job held;

static held opened(const text *t) { return plain_open(t->byte, t->length).worksheet.job; }

static uint32_t replace(held *w, int64_t face, aral_face f)
{
    aral_edited_job e = unkept_replace(*w, face, f);
    *w = e.job;
    return e.number;
}

static aral_text show(const held *w, uint8_t *out, size_t room) { return unkept_show(*w, out, room); }

#else

typedef aral_worksheet held;

static held opened(const text *t) { return plain_open(t->byte, t->length).worksheet; }

static uint32_t replace(held *w, int64_t face, aral_face f)
{
    aral_edited e = aral_replace(*w, face, f);
    *w = e.worksheet;
    return e.number;
}

static aral_text show(const held *w, uint8_t *out, size_t room) { return aral_show(*w, out, room); }

#endif

/* ---- The loop ---- */

static held worksheet[SHEETS];
static aral_face spare[SHEETS][SPARES];

static void make_worksheets(void)
{
    static text t;
    static sample s;
    dice die = {1};
    int year = wanted.faces <= ARAL_FACES_OF(1) ? 1 : 4;
    for (int i = 0; i < SHEETS; i++) {
        make_sized(&die, &s, year, i, 8, 4, year == 1 ? 0 : 4, wanted.faces);
        write_sample(&s, &t);
        worksheet[i] = opened(&t);
        for (int k = 0; k < SPARES; k++) {
            make_face(&die, &s, 0);
            spare[i][k] = face_at(&s, 0);
        }
    }
}

/* Answers a sum over what was shown. */
static uint64_t edit_over_and_over(void)
{
    uint8_t out[ARAL_REPORT_MOST];
    uint64_t sum = 0;
    for (unsigned long i = 0; i < wanted.edits; i++) {
        unsigned long round = i / SHEETS;
        held *w = &worksheet[i % SHEETS];
        int64_t face = 1 + (int64_t)(round % (unsigned)wanted.faces);
        if (replace(w, face, spare[i % SHEETS][round % SPARES])) {
            fprintf(stderr, "an edit was refused\n");
            exit(1);
        }
        if (!wanted.shown) continue;
        aral_text r = show(w, out, sizeof out);
        sum = sum * 31 + r.length + out[i % r.length];
    }
    return sum;
}

int main(int argc, char **argv)
{
    if (argc < 4 || (strcmp(argv[1], "edit") && strcmp(argv[1], "keystroke"))) {
        fprintf(stderr, "%s edit|keystroke FACES EDITS [timed]\n", argv[0]);
        return 2;
    }
    wanted.shown = !strcmp(argv[1], "keystroke");
    wanted.faces = atoi(argv[2]);
    wanted.edits = strtoul(argv[3], NULL, 10);
    make_worksheets();
    double start = seconds();
    uint64_t sum = edit_over_and_over();
    if (argc > 4) {
        printf("%.0f\n", (double)wanted.edits / (seconds() - start));
        return 0;
    }
    printf("%016llx\n", (unsigned long long)sum);
    for (int i = 0; i < SHEETS; i++) {
        uint8_t out[ARAL_REPORT_MOST];
        aral_text r = show(&worksheet[i], out, sizeof out);
        fwrite(out, 1, r.length, stdout);
    }
    return 0;
}
