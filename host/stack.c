/* Measures how much stack each entry point takes: stack SEED. Each is called on a stack of its own, all of one byte
   before, and what is another byte afterwards was used. It counts from the record that is handed in to the one that is
   answered, and fails where a call takes more than the header says. */
#include "aralimogga.h"
#include "fence.h"
#include "records.h"
#include "setting.h"
#include "sheets.h"
#include <stdio.h>
#include <stdlib.h>
#include <string.h>
#include <ucontext.h>

enum { STACK = 4 * ARAL_STACK_MOST, FILL = 0xa5, OUT = 16384, JOBS = 14 };
static uint8_t *stack;
static ucontext_t back;

/* ---- What is called ---- */

static text sheet;
static aral_worksheet held;
static aral_face face;
static aral_rose rose;
static uint8_t out[OUT];
static int64_t column[ARAL_FACES_MOST];
static uint64_t list[3 * OUT];
static union {
    aral_answer answer;
    aral_text text;
    aral_mended mended;
    aral_place place;
    aral_extreme extreme;
    aral_part part;
    aral_coefficient coefficient;
    aral_edited edited;
    aral_rose rose;
    aral_double number;
    aral_point point;
} got;

#define SHEET sheet.byte, sheet.length
#define HOUSE held.job.year, 500, 1200, 1000, 1250, 4, 51, 90, 'E'
#define CALL(name, field, ...) \
    static void call_##name(void) { got.field = aral_##name(__VA_ARGS__); }
CALL(read, answer, SHEET)
CALL(rewrite, text, SHEET, out, OUT)
CALL(mend, mended, SHEET, out, OUT, list, 3 * OUT)
CALL(where, place, SHEET)
CALL(report, text, SHEET, out, OUT)
CALL(plain, text, SHEET, out, OUT)
CALL(total, extreme, SHEET, 5)
CALL(column, answer, setting_of(&held.job), held.job.faces.entry, held.job.faces.count, 5, column, ARAL_FACES_MOST)
CALL(share, part, SHEET, 5, held.job.faces.count)
CALL(digits, text, INT64_MIN, out, OUT)
CALL(outside, coefficient, HOUSE)
CALL(net, coefficient, HOUSE, 20)
CALL(open, edited, SHEET)
CALL(add, edited, held, face)
CALL(replace, edited, held, 1, face)
CALL(take_out, edited, held, 1)
CALL(show, text, held, out, OUT)
CALL(write, text, held, out, OUT)
static void call_rose_new(void) { got.rose = aral_rose_new(); }
CALL(rose_take, rose, rose, (const uint8_t *)"225 64\n359 ", 11)
CALL(rose_end, rose, rose)
CALL(panel, number, INT64_MAX)
CALL(chart, point, INT64_MAX, 0, INT64_MIN)
CALL(panel_newtons, number, INT64_MAX, 1)
CALL(chart_newtons, point, (aral_pair){-1, 1}, (aral_pair){INT64_MAX, 1}, (aral_pair){INT64_MIN, 1})

static struct { const char *name; void (*call)(void); size_t most; } entry[] = {
    {"read", call_read, 0},           {"rewrite", call_rewrite, 0},
    {"mend", call_mend, 0},           {"report", call_report, 0},
    {"plain", call_plain, 0},         {"total", call_total, 0},
    {"column", call_column, 0},       {"digits", call_digits, 0},
    {"outside", call_outside, 0},     {"net", call_net, 0},
    {"open", call_open, 0},           {"add", call_add, 0},
    {"replace", call_replace, 0},     {"take_out", call_take_out, 0},
    {"show", call_show, 0},           {"write", call_write, 0},
    {"rose_new", call_rose_new, 0},   {"rose_take", call_rose_take, 0},
    {"rose_end", call_rose_end, 0},   {"panel", call_panel, 0},
    {"chart", call_chart, 0},         {"panel_newtons", call_panel_newtons, 0},
    {"chart_newtons", call_chart_newtons, 0}, {"where", call_where, 0},
    {"share", call_share, 0}};
enum { ENTRIES = sizeof entry / sizeof *entry };

/* ---- How much it takes ---- */

/* The stack is left as it was found: all of one byte. */
static size_t stack_of(void (*call)(void))
{
    ucontext_t there;
    size_t untouched = 0;
    getcontext(&there);
    there.uc_stack.ss_sp = stack;
    there.uc_stack.ss_size = STACK;
    there.uc_link = &back;
    makecontext(&there, call, 0);
    swapcontext(&back, &there);
    while (untouched < STACK && stack[untouched] == FILL) untouched++;
    memset(stack + untouched, FILL, STACK - untouched);
    return STACK - untouched;
}

static void try_all(void)
{
    for (int i = 0; i < ENTRIES; i++) {
        size_t used = stack_of(entry[i].call);
        if (used > entry[i].most) entry[i].most = used;
    }
}

/* A job as large as its year allows, and a face of its own to edit with. */
static void make_job(dice *d, int year, int64_t kind)
{
    static sample s;
    make_sized(d, &s, year, kind, 8, 4, year == 1 ? 0 : 16, ARAL_FACES_OF(year));
    face = face_at(&s, 3);
    write_sample(&s, &sheet);
    held = aral_open(sheet.byte, sheet.length).worksheet;
}

/* As they are, with a face less so that one can be added, and with sums that no job has. */
int main(int argc, char **argv)
{
    if (argc != 2) {
        fprintf(stderr, "stack SEED\n");
        return 2;
    }
    dice die = {strtoull(argv[1], NULL, 10)};
    stack = make_fence(STACK).start;
    memset(stack, FILL, STACK);
    rose = aral_rose_new();
    for (int i = 0; i < JOBS; i++) {
        make_job(&die, i % 2 ? 4 : 1, i / 2);
        try_all();
        held = aral_take_out(held, 2).worksheet;
        try_all();
        held.sums.cell[31].z.least.remainder = UINT64_MAX;
        try_all();
    }
    size_t most = 0;
    printf("bytes of stack, the records handed in and answered included:\n");
    for (int i = 0; i < ENTRIES; i++) {
        printf("%s%s %zu", i % 8 ? ", " : i ? ",\n" : "", entry[i].name, entry[i].most);
        if (entry[i].most > most) most = entry[i].most;
    }
    printf("\nthe most is %zu, of %d that the header allows\n", most, ARAL_STACK_MOST);
    if (most > ARAL_STACK_MOST) fail("a call that takes more stack than the header says");
    return 0;
}
