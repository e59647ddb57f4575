/* aral: the calculator on the command line, for people. It links libaralimogga.a and reckons nothing itself: where it
   shows each case, a column or every step, it adds up the faces' forces; of a rose it adds up cells. */
#include "aralimogga.h"
#include "cases.h"
#include "check.h"
#include "edit.h"
#include "explained.h"
#include "handout.h"
#include "help.h"
#include "mark.h"
#include "mend.h"
#include "rose.h"
#include "rows.h"
#include "units.h"
#include "words.h"
#include <errno.h>
#include <inttypes.h>
#include <stdio.h>
#include <stdlib.h>
#include <string.h>

/* ---- Sheets ---- */

/* No acceptable sheet is so long (ARAL_SHEET_MOST), so what lies past this much of a text changes no answer. But then
   it can't be mended. */
static uint8_t sheet[1 << 24];
static size_t length;
static int longer;

static int load(const char *name)
{
    FILE *file = strcmp(name, "-") ? fopen(name, "rb") : stdin;
    if (!file) {
        fprintf(stderr, "aral: %s can't be opened: %s\n", name, strerror(errno));
        return 0;
    }
    length = fread(sheet, 1, sizeof sheet, file);
    longer = length == sizeof sheet && getc(file) != EOF;
    int good = !ferror(file);
    if (file == stdin) name = "standard input";
    if (!good) fprintf(stderr, "aral: %s can't be read: %s\n", name, strerror(errno));
    if (file != stdin) fclose(file);
    return good;
}

static int totals(void)
{
    static uint8_t out[ARAL_REPORT_MOST];
    aral_text report = aral_report(sheet, length, out, sizeof out);
    if (report.number) {
        printf("refused %u %u\n", report.number, report.line);
        fprintf(stderr, "aral: `aral check` says why\n");
        return REFUSED;
    }
    fwrite(out, 1, report.length, stdout);
    return ACCEPTED;
}

static int check(void) { return check_sheet(sheet, length, longer); }

static int mend(void)
{
    if (longer) {
        fprintf(stderr, "aral: what has more than %zu bytes is not mended\n", sizeof sheet);
        return MISUSED;
    }
    int status = show_mended(sheet, length);
    if (!ferror(stdout)) return status;
    clearerr(stdout); /* it was said */
    return MISUSED;
}

static int edit_sheet(void) { return edit(sheet, length); }

static int plain(void) { return show_plain(sheet, length); }

/* A total in newtons to three decimals, the rest cut off; what is then zero has no sign. */
static void print_newtons(units total)
{
    uint64_t milli = (uint64_t)((total < 0 ? -total : total) / (NEWTON / 1000));
    const char *sign = total < 0 && milli > 0 ? "-" : "";
    char text[40];
    snprintf(text, sizeof text, "%s%" PRIu64 ".%03d", sign, milli / 1000, (int)(milli % 1000));
    printf("%16s N", text);
}

/* The panel's doubles of a total: of its units, and of long sheds of its newtons. */
static void print_doubles(const aral_extreme *e, int long_shed)
{
    aral_double d = long_shed ? aral_panel_newtons(e->newtons, e->remainder) : aral_panel(e->total);
    const char *what = long_shed ? "N" : "units";
    if (long_shed) printf("   %" PRId64 " N and %" PRIu64 " units:", e->newtons, e->remainder);
    else printf("  ");
    if (d.exact) printf(" exactly %.0f %s", d.low, what);
    else printf(" between %.0f and %.0f %s", d.low, d.high, what);
}

static int panel(void)
{
    int long_shed = aral_open(sheet, length).worksheet.job.year >= 4;
    for (int line = 1; line <= 6; line++) {
        aral_extreme e = aral_total(sheet, length, line);
        if (e.number) {
            explain_refusal(sheet, length, (aral_answer){e.number, e.line});
            return REFUSED;
        }
        printf("%s ", line_name(line));
        print_newtons(units_of(&e));
        print_doubles(&e, long_shed);
        printf(", wind %u, internal %u, alternatives", e.wind, e.internal);
        for (uint32_t i = 0; i < e.faces; i++) printf(" %u", e.alternative[i]);
        printf("\n");
    }
    printf("\nPositive pushes along the axis, negative against it; z is up. One newton is 20000000000 units;\n"
           "the newtons here are cut to three decimals, the units are whole.\n");
    if (long_shed)
        printf("In year 4 the doubles are of the newtons rounded down, and of one more where units remain.\n");
    return ACCEPTED;
}

/* ---- Words ---- */

/* Whether the word is a whole number, digits with at most one minus before them, and which. */
static int whole(const char *word, int64_t *number)
{
    const char *digits = word + (*word == '-');
    if (!*digits || digits[strspn(digits, "0123456789")]) return 0;
    errno = 0;
    *number = strtoll(word, NULL, 10);
    return !errno;
}

/* ---- Columns ---- */

/* A line by its name or its number: any whole one, since the library refuses those that are no line's. */
static int line_of(const char *said, int64_t *line)
{
    for (*line = 1; *line <= 6; ++*line)
        if (!strcmp(said, line_name(*line))) return 1;
    return whole(said, line);
}

/* The line is said in one word or two. */
static int column(const char *file, int count, char **word)
{
    char said[40];
    int64_t line;
    snprintf(said, sizeof said, "%s%s%s", word[0], count == 1 ? "" : " ", count == 1 ? "" : word[1]);
    if (!line_of(said, &line)) return misused("column", "not a line 1 to 6, or `x max` to `z min`:", said);
    return load(file) ? show_column(sheet, length, line) : MISUSED;
}

/* ---- Questions ---- */

enum { YEAR, H, A, B, KIND, X, WIND, DENSITY, INTERNAL, NUMBERS };
typedef struct { int64_t number[NUMBERS]; int given[NUMBERS]; uint8_t place; } question;

static uint8_t place_of(const char *kind, const char *word)
{
    if (!strcmp(kind, "zone")) return word[0] >= 'A' && word[0] <= 'H' && !word[1] ? (uint8_t)word[0] : 0;
    return !strcmp(word, "wall") ? 'w' : !strcmp(word, "L1") ? '1' : !strcmp(word, "L2") ? '2' : 0;
}

static int misasked(const char *what, const char *word) { return misused("ask", what, word); }

/* Takes the place that is said, `zone E` or `local wall`; 0, or the status of a misuse. */
static int take_place(char **word, question *q)
{
    if (q->place) return misasked("a question has one zone or local, and another is said:", word[1]);
    q->place = place_of(word[0], word[1]);
    return q->place ? 0 : misasked("not a zone A to H or a local wall, L1 or L2:", word[1]);
}

/* Takes the words two by two; 0, or the status of a misuse. */
static int take_words(int count, char **word, question *q)
{
    static const char *const name[] = {"year", "h", "a", "b", "kind", "x", "wind", "density", "internal"};
    for (int i = 0; i < count; i += 2) {
        int k = 0;
        if (i + 1 == count) return misasked("nothing stands after", word[i]);
        if (!strcmp(word[i], "zone") || !strcmp(word[i], "local")) {
            if (take_place(word + i, q)) return MISUSED;
            continue;
        }
        while (k < NUMBERS && strcmp(word[i], name[k])) k++;
        if (k == NUMBERS) return misasked("not a word of a question:", word[i]);
        if (q->given[k]) return misasked("said twice:", word[i]);
        if (!whole(word[i + 1], &q->number[k])) return misasked("not a whole number:", word[i + 1]);
        q->given[k] = 1;
    }
    for (int k = H; k <= WIND; k++)
        if (!q->given[k] && k != KIND && k != X) return misasked("the question does not say", name[k]);
    return q->place ? 0 : misasked("the question does not say", "which zone or local");
}

static void print_thousandths(int32_t value)
{
    int size = value < 0 ? -value : value;
    printf("%s%d.%03d", value < 0 ? "-" : value > 0 ? "+" : "", size / 1000, size % 1000);
}

static int is_wall(uint8_t place) { return (place >= 'A' && place <= 'D') || place == 'w'; }

static int is_local(uint8_t place) { return place == 'w' || place == '1' || place == '2'; }

static void print_place(uint8_t place)
{
    if (place == 'w') printf("The local coefficient of the walls");
    else if (is_local(place)) printf("The local coefficient L%c", place);
    else printf("Zone %c", place);
}

static void print_values(const char *which, const aral_coefficient *c)
{
    printf("%s ", which);
    print_thousandths(c->value[0]);
    if (c->count == 2) {
        printf(" (alternative 1) or ");
        print_thousandths(c->value[1]);
        printf(" (alternative 2)");
    }
}

/* A wall is on every building, but not in every wind. */
static void refuse_place(const question *q)
{
    int64_t kind = q->number[KIND];
    print_place(q->place);
    if (is_wall(q->place)) {
        printf(" under wind %" PRId64 ": the book's table 3.2.2.2.1 has walls under 0 and 90 alone\n", q->number[WIND]);
        return;
    }
    printf(" is not on a building with ");
    print_roof(kind, q->number[X]);
    const char *more = kind >= 2 && kind <= 5 ? ", L1 and L2" : " alone";
    printf(": its zones are %s, its locals wall%s\n", zones_of(kind), more);
}

/* The building's line is explained as that of its sheet, which is written up to there. */
static void refuse_building(const int64_t *v, aral_answer refusal)
{
    char sheet[200] = "";
    int n = v[YEAR] == 1 ? 0 : snprintf(sheet, sizeof sheet, "V 1\n%" PRId64 "\n", v[YEAR]);
    n += snprintf(sheet + n, sizeof sheet - (size_t)n,
                  "B 1\n%" PRId64 " %" PRId64 " %" PRId64 " %" PRId64 " %" PRId64 " %" PRId64 "\n", v[H], v[A], v[B],
                  v[DENSITY], v[KIND], v[X]);
    printf("The building is refused as line %u of its sheet would be:\n", refusal.line);
    explain_refusal((const uint8_t *)sheet, (size_t)n, refusal);
}

static int refuse_question(const question *q, const aral_coefficient *c)
{
    const int64_t *v = q->number;
    if (c->line > 0) {
        refuse_building(v, (aral_answer){c->number, c->line});
        return REFUSED;
    }
    printf("refused with %u: ", c->number);
    if (c->number == 6) {
        refuse_place(q);
    } else if (v[YEAR] < 1 || v[YEAR] > 4) {
        printf("the year is %" PRId64 "; it must be 1 to 4\n", v[YEAR]);
    } else if (!has_wind(v[KIND], v[WIND])) {
        printf("the wind is %" PRId64 "; it must be %s on ", v[WIND], winds_of(v[KIND]));
        print_roof(v[KIND], v[X]);
        printf("\n");
    } else {
        printf("the internal coefficient is %" PRId64 " hundredths; it must be -100 to 100\n", v[INTERNAL]);
    }
    return REFUSED;
}

static void answer_question(const question *q, const asked *what, const aral_coefficient c[2])
{
    print_place(q->place);
    printf(" of a building with ");
    print_roof(what->kind, what->x);
    printf(", wind %d:\n", (int)what->direction);
    print_values("  outside", &c[0]);
    printf("\n    ");
    print_rows(what, &c[0]);
    printf("\n");
    if (q->given[INTERNAL]) {
        print_values("  net", &c[1]);
        printf(", the outside less the internal ");
        print_thousandths(10 * (int32_t)q->number[INTERNAL]);
        printf("\n");
    }
    printf("Rows are counted from 1 as table %s prints them.\n", table_of(what));
    if (c->lower != c->upper) printf("Between rows a value is on the straight line, rounded once to a thousandth.\n");
    printf("A coefficient is the part of the wind's pressure that acts: positive pushes the surface, negative "
           "sucks.\n");
    if (c->count == 2) printf("Of two alternatives each face takes the one that is worse for the total.\n");
    if (is_local(q->place)) printf("Local coefficients are for secondary elements and enter no total.\n");
}

static int ask(int count, char **word)
{
    question q = {.number = {[YEAR] = 1, [DENSITY] = 1250}};
    const int64_t *v = q.number;
    int status = take_words(count, word, &q);
    if (status) return status;
    asked what = {v[YEAR], v[H], v[A], v[B], v[DENSITY], v[KIND], v[X], v[WIND], q.place};
    aral_coefficient c[] = {
        aral_outside(v[YEAR], v[H], v[A], v[B], v[DENSITY], v[KIND], v[X], v[WIND], q.place),
        aral_net(v[YEAR], v[H], v[A], v[B], v[DENSITY], v[KIND], v[X], v[WIND], q.place, v[INTERNAL])};
    for (int net = 0; net < 2; net++)
        if (c[net].number) return refuse_question(&q, &c[net]);
    answer_question(&q, &what, c);
    return ACCEPTED;
}

/* ---- The commands ---- */

static int on_sheet(const char *name, int (*run)(void)) { return load(name) ? run() : MISUSED; }

static int each_case(void) { return show_cases(sheet, length); }

static int explain(char **word)
{
    if (!strcmp(word[0], "--html"))
        return load(word[2]) ? explain_as_page(word[1], word[2], sheet, length, longer) : MISUSED;
    return load(word[0]) ? explain_as_text(word[0], sheet, length, longer) : MISUSED;
}

static int mark_sheets(char **word)
{
    if (!strcmp(word[0], "--csv")) return mark_folder(word[1], print_marks_csv);
    if (!strcmp(word[0], "--html")) return mark_folder(word[1], print_marks_page);
    return mark_folder(word[0], print_marks);
}

/* Runs a command, whose words are as many as it takes. */
static int run_command(const char *name, int count, char **word)
{
    static const struct { const char *name; int (*run)(void); } command[] = {
        {"totals", totals}, {"check", check}, {"mend", mend}, {"plain", plain}, {"panel", panel}, {"edit", edit_sheet}};
    int option = !strcmp(word[0], "--svg") || !strcmp(word[0], "--cases");
    if (!strcmp(name, "rose")) return show_rose(word[option], option);
    if (!strcmp(name, "column")) return column(word[0], count - 1, word + 1);
    if (!strcmp(name, "explain")) return explain(word);
    if (!strcmp(name, "mark")) return mark_sheets(word);
    if (option) return on_sheet(word[1], each_case);
    if (!strcmp(name, "edit") && !strcmp(word[0], "-"))
        return misused(name, "standard input has the lines of the dialogue, and the sheet can't be", word[0]);
    for (size_t i = 0; i < sizeof command / sizeof *command; i++)
        if (!strcmp(name, command[i].name)) return on_sheet(word[0], command[i].run);
    return MISUSED;
}

int main(int argc, char **argv)
{
    int status = answer_front(argc - 1, argv + 1);
    if (status < 0 && !strcmp(argv[1], "ask")) status = ask(argc - 2, argv + 2);
    else if (status < 0) status = run_command(argv[1], argc - 2, argv + 2);
    int lost = ferror(stdout);
    errno = 0;
    if (!fflush(stdout) && !lost) return status;
    fprintf(stderr, "aral: standard output can't be written: %s\n", errno ? strerror(errno) : "some of it is lost");
    return MISUSED;
}
