/* Edits worksheets with the library and with the plain calculator side by side: edits SEED SEQUENCES. After every step
   the answers, every field of the records, and what is shown and written must be the same. From an accepted job on the
   sums must be those of the faces, and wherever they are, a worksheet must show what the report of its sheet has. Some
   records are handed in with other sums. It stops where they differ. */
#include "aralimogga.h"
#include "fence.h"
#include "plain.h"
#include "records.h"
#include "walk.h"
#include <inttypes.h>
#include <stdio.h>
#include <stdlib.h>
#include <string.h>

enum { ADD, REPLACE, TAKE_OUT, EDITS };
static const char *const names[EDITS] = {"added", "replaced", "taken out"};
static struct {
    unsigned long opened, walked, steps, done[EDITS][10], anew, texts, shown[2], shown_anew, plain[2], most;
} tally;
static dice die;

static void show_worksheet(const aral_worksheet *w)
{
    int64_t field[RECORD_FIELDS];
    fields_of(w, field);
    printf("the worksheet's fields in order:");
    for (int i = 0; i < RECORD_FIELDS; i++) printf(" %" PRId64, field[i]);
    printf("\n");
}

static void differ(const char *what, const aral_worksheet *w)
{
    printf("DIFFERENT: %s\n", what);
    if (w) show_worksheet(w);
    exit(1);
}

/* How many fields are the same before the first that is not. */
static int same_fields(const aral_worksheet *p, const aral_worksheet *q)
{
    int64_t mine[RECORD_FIELDS], other[RECORD_FIELDS];
    int same = 0;
    fields_of(p, mine);
    fields_of(q, other);
    while (same < RECORD_FIELDS && mine[same] == other[same]) same++;
    return same;
}

static int same_worksheet(const aral_worksheet *p, const aral_worksheet *q)
{
    return same_fields(p, q) == RECORD_FIELDS;
}

/* The answers and every field of both records. */
static void compare_edited(const char *what, const aral_worksheet *w, const aral_edited *p, const aral_edited *q)
{
    if (p->number != q->number || p->line != q->line) {
        printf("library %u %u, plain %u %u\n", p->number, p->line, q->number, q->line);
        differ(what, w);
    }
    if (same_worksheet(&p->worksheet, &q->worksheet)) return;
    int same = same_fields(&p->worksheet, &q->worksheet), sum = (same - JOB_FIELDS) / 2;
    printf("both answer %u %u; after it field %d differs", p->number, p->line, same);
    if (same >= JOB_FIELDS)
        printf(", %c %s of cell %d", "xyz"[sum % 6 / 2], sum % 2 ? "least" : "greatest", sum / 6);
    printf("; of the library and of the plain calculator:\n");
    show_worksheet(&p->worksheet);
    show_worksheet(&q->worksheet);
    differ(what, w);
}

/* ---- Shown and written ---- */

typedef aral_text writes(aral_worksheet, uint8_t *, size_t);

/* One call with a room of this size against a page; the text goes into `text` too. */
static aral_text compare_text(const char *what, writes *ours, writes *theirs, const aral_worksheet *w, size_t room,
                              uint8_t *text)
{
    int after = (int)pick(&die, 0, 1);
    uint8_t *at = lend_room(room, after);
    aral_text p = ours(*w, at, room), q = theirs(*w, text, room);
    tally.texts++;
    if (p.number != q.number || p.line != q.line || p.length != q.length) {
        printf("library %u %u %" PRIu64 ", plain %u %u %" PRIu64 ", room %zu\n", p.number, p.line, p.length, q.number,
               q.line, q.length, room);
        differ(what, w);
    }
    check_room(at, after, text, p.length);
    return p;
}

/* In a room of every kind: ample, just enough, one short, some other, and none. */
static aral_text compare_rooms(const char *what, writes *ours, writes *theirs, const aral_worksheet *w, uint8_t *text)
{
    static uint8_t other[WATCHED];
    aral_text whole = compare_text(what, ours, theirs, w, WATCHED, text), none = ours(*w, NULL, 0);
    int64_t about = whole.number ? 1000 : (int64_t)whole.length;
    compare_text(what, ours, theirs, w, (size_t)pick(&die, 0, about + about / 4), other);
    if (whole.number) {
        if (none.number != whole.number || none.line != whole.line) differ("a refusal and one without a buffer", w);
        return whole;
    }
    compare_text(what, ours, theirs, w, whole.length, other);
    if (compare_text(what, ours, theirs, w, whole.length - 1, other).number != ARAL_ROOM) differ("one short", w);
    if (none.number != ARAL_ROOM || none.line || none.length) differ("no room through no pointer", w);
    return whole;
}

/* The plain engine has the same lines of the sheet written afresh, where it takes the job. */
static void compare_engines(const aral_worksheet *w, const uint8_t *sheet, size_t n, const uint8_t *shown,
                            size_t length)
{
    static uint8_t mine[WATCHED], other[WATCHED];
    aral_text p = aral_plain(sheet, n, mine, sizeof mine), q = plain_plain(sheet, n, other, sizeof other);
    if (p.number != q.number || p.line != q.line || p.length != q.length) differ("the plain engine's answers", w);
    if (p.number == 0 && (p.length != length || memcmp(mine, shown, length)))
        differ("what is shown and the lines of the plain engine", w);
    if (p.number && (p.number != ARAL_CASES || p.line)) differ("what the plain engine refuses", w);
    tally.plain[p.number == 0]++;
}

/* What is written is a sheet that opens as the same job. Where the sums are those of its faces, as they must be where
   they were kept from an accepted job on, its report is what is shown; and so where one is none that a job can have. */
static void compare_texts(const aral_worksheet *w, int kept)
{
    static uint8_t shown[WATCHED], written[WATCHED], report[WATCHED];
    aral_text s = compare_rooms("a worksheet shown", aral_show, plain_show, w, shown);
    aral_text t = compare_rooms("a worksheet written", aral_write, plain_write, w, written);
    if (s.number != t.number || s.line != t.line) differ("what showing and writing answer", w);
    if (s.number) return;
    aral_edited again = aral_open(written, t.length);
    aral_worksheet job = *w;
    clear_litter(&job);
    int same = same_fields(&again.worksheet, &job);
    if (again.number || same < JOB_FIELDS) differ("a worksheet and its sheet opened", w);
    if (kept && same < RECORD_FIELDS) differ("the sums kept and those of the faces", w);
    tally.shown[same == RECORD_FIELDS]++;
    tally.shown_anew += no_jobs(&w->sums, w->job.year);
    if (same < RECORD_FIELDS && !no_jobs(&w->sums, w->job.year)) return;
    aral_text r = aral_report(written, t.length, report, sizeof report);
    if (r.number || r.length != s.length || memcmp(report, shown, r.length))
        differ("what is shown and the report of the sheet written afresh", w);
    compare_engines(w, written, t.length, shown, s.length);
}

/* ---- Steps ---- */

static void compare_open(const text *t, int after)
{
    static const aral_worksheet nothing;
    const uint8_t *sheet = lend(t->byte, t->length, after);
    aral_edited p = aral_open(sheet, t->length), q = plain_open(sheet, t->length);
    aral_answer read = aral_read(sheet, t->length);
    tally.opened++;
    compare_edited("a sheet opened", NULL, &p, &q);
    if (p.number != read.number || p.line != read.line) differ("a sheet opened and the same read", NULL);
    if (p.number && !same_worksheet(&p.worksheet, &nothing)) differ("a refused sheet and nothing", &p.worksheet);
}

/* A cell's sums are the furthest totals of the job that has its wind and internal alone, over every case that is then
   left; tried where they are few. */
static void compare_walk(const sample *s, aral_worksheet *w)
{
    for (int wind = 0; wind < s->winds; wind++)
        for (int internal = 0; internal < s->internals; internal++) {
            sample one = *s;
            aral_extreme best[6];
            one.winds = one.internals = 1;
            one.direction[0] = s->direction[wind];
            one.speed[0] = s->speed[wind];
            one.internal[0] = s->internal[internal];
            if (!walk(&one, 300, best)) continue;
            tally.walked++;
            for (int k = 0; k < 6; k++) {
                aral_pair sum = *sum_at(&w->sums, 6 * (4 * wind + internal) + k);
                if (sum.newtons != best[k].newtons || sum.remainder != best[k].remainder)
                    differ("the sums of a sheet opened and all its cases walked", w);
            }
        }
}

/* A face to edit with: one that the job could have, with none, one or two of its fields off. */
static aral_face new_face(sample *s)
{
    sample one = *s;
    make_face(&die, &one, 0);
    aral_face f = face_at(&one, 0);
    if (one.year == 1) f.height = edge_of(&die, 0);
    for (int64_t slips = pick(&die, 0, 5) - 3; slips > 0; slips--) spoil_face(&die, &f);
    return f;
}

/* A number of a face: mostly of one that is there. */
static int64_t some_face(const aral_worksheet *w)
{
    int64_t count = w->job.faces.count > ARAL_FACES_MOST ? ARAL_FACES_MOST : w->job.faces.count;
    return pick(&die, 0, 4) ? pick(&die, 1, count ? count : 1) : edge_of(&die, count);
}

static void call(int edit, const aral_worksheet *w, int64_t face, aral_face f, aral_edited *p, aral_edited *q)
{
    switch (edit) {
    case ADD:
        *p = aral_add(*w, f);
        *q = plain_add(*w, f);
        break;
    case REPLACE:
        *p = aral_replace(*w, face, f);
        *q = plain_replace(*w, face, f);
        break;
    default:
        *p = aral_take_out(*w, face);
        *q = plain_take_out(*w, face);
    }
}

/* One edit, often of the kind that this sequence likes; answers whether it was accepted. */
static int step(sample *s, aral_worksheet *w, int liked)
{
    int edit = pick(&die, 0, 1) ? liked : (int)pick(&die, 0, EDITS - 1);
    int64_t face = some_face(w);
    aral_edited p, q;
    call(edit, w, face, new_face(s), &p, &q);
    tally.steps++;
    tally.done[edit][p.number < 10 ? p.number : 0]++;
    tally.anew += !p.number && no_jobs(&w->sums, w->job.year);
    tally.most += !p.number && p.worksheet.job.faces.count > 24;
    compare_edited(names[edit], w, &p, &q);
    if (p.number && !same_worksheet(&p.worksheet, w)) differ("a refused edit's worksheet and the one handed in", w);
    *w = p.worksheet;
    return p.number == 0;
}

/* An acceptable job as it was read, and its sheet opened, damaged and opened again. */
static void start(sample *s, aral_worksheet *w, int after)
{
    static text t;
    make_sample(&die, s);
    write_sample(s, &t);
    record_of(s, w);
    aral_edited opened = aral_open(t.byte, t.length);
    w->sums = opened.worksheet.sums;
    if (opened.number || !same_worksheet(&opened.worksheet, w)) differ("a job and its sheet opened", w);
    compare_walk(s, w);
    compare_open(&t, after);
    damage(&die, &t);
    compare_open(&t, after);
}

/* From an acceptable job on, as it was read, with anything where it does not look, spoiled, or with other sums. */
static void sequence(unsigned long i)
{
    static sample s;
    aral_worksheet w;
    int spoiled = i % 4 == 3, other_sums = i % 3 == 2, kept = !spoiled && !other_sums;
    start(&s, &w, (int)(i % 2));
    if (i % 2) litter(&die, &w);
    for (int64_t slips = spoiled ? pick(&die, 1, 2) : 0; slips > 0; slips--) spoil_record(&die, &w);
    if (other_sums) spoil_sums(&die, &w);
    compare_texts(&w, kept);
    int liked = (int)pick(&die, 0, EDITS - 1);
    for (int64_t steps = pick(&die, 1, spoiled ? 4 : 30); steps > 0; steps--) {
        if (step(&s, &w, liked)) compare_texts(&w, kept);
        if (other_sums && pick(&die, 0, 3) == 0) spoil_sums(&die, &w);
    }
}

static void no_sheet(void)
{
    aral_edited p = aral_open(NULL, 0), q = plain_open(NULL, 0);
    compare_edited("nothing opened through no pointer", NULL, &p, &q);
    if (p.number != ARAL_FORM || p.line != 1) differ("nothing opened and (1, 1)", NULL);
}

int main(int argc, char **argv)
{
    if (argc != 3) {
        fprintf(stderr, "edits SEED SEQUENCES\n");
        return 2;
    }
    die.state = strtoull(argv[1], NULL, 10);
    printf("seed %s\n", argv[1]);
    make_fences();
    no_sheet();
    for (unsigned long i = 0, count = strtoul(argv[2], NULL, 10); i < count; i++) sequence(i);
    for (int edit = 0; edit < EDITS; edit++) {
        printf("%s: %lu accepted, refused by number", names[edit], tally.done[edit][0]);
        for (int number = 1; number <= 9; number++)
            if (number != ARAL_ROOM) printf(" %d: %lu", number, tally.done[edit][number]);
        printf("\n");
    }
    printf("shown by the sums of the faces %lu, by others %lu; with sums that no job has %lu shown, %lu edited\n",
           tally.shown[1], tally.shown[0], tally.shown_anew, tally.anew);
    printf("%lu cells walked; %lu edits left more than 24 faces\n", tally.walked, tally.most);
    printf("shown by the plain engine too %lu, with more faces than it takes %lu\n", tally.plain[1], tally.plain[0]);
    printf("%lu sheets opened, %lu edits, %lu texts: all the same\n", tally.opened, tally.steps, tally.texts);
    return 0;
}
