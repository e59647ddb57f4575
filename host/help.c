/* What aral says of itself: its commands, the help of each, its version, and what is none of its words. It uses nothing
   of the library, so ./aral can ask it before that is built: FRONT makes it a program, which ends with 3 where the
   calculator is needed. */
#define _POSIX_C_SOURCE 200809L
#include "help.h"
#include "aralimogga.h"
#include "edit.h"
#include <stdio.h>
#include <string.h>

/* ---- The texts ---- */

static const char head[] = "aral: the forces of wind on a building, by the tables of ROM 0.4-95\n\n";

static const char files[] =
    "FILE is a sheet, or - for standard input; a name that begins with - is written as ./-NAME. A total is in units\n"
    "of 0.00000000005 N: 20000000000 of them are 1 N. That of year 4 is two numbers, whole newtons, rounded down, and\n"
    "what remains, 0 to 19999999999 units.\n";

static const char sheets[] =
    "In a sheet of kind 6 winds and marks may be 0, 45, 90, 135 and 180, and - marks a roof face for all five. A wall\n"
    "face, A to D, is then marked 0 or 90, since the book has walls in no other wind; one for both takes two lines.\n"
    "A sheet of year 2 opens with `V 1` and the line `2`. After I it has a section P, the wind's profile: heights in\n"
    "cm, each with its part of the speed in thousandths; and each face has a height in cm after its mark.\n"
    "One of year 3 opens with `V 1` and `3`, is written in the same way, and may have a square plan, a equal to b.\n"
    "One of year 4 opens with `V 1` and `4`, is written in the same way, and may have 240 faces; others have 24.\n";

static const char statuses[] =
    "The exit status is 0; 1 where the sheet, the question, an edit or the observations are refused; 2 where the\n"
    "words are none of these, or something can't be read or written.\n";

static const char help_brief[] =
    "  aral help          this text\n"
    "  aral help COMMAND  that of one command, as aral COMMAND --help\n"
    "  aral --version     the version, which is that of the library's header\n";

/* A command: its name, the options of which it may begin with one, and how many words that takes; how many words it
   takes after that, and what they are; then what it does, in the list of commands, and what else there is to say of
   it. */
typedef struct {
    const char *name, *option[2];
    int taken, least, most;
    const char *words, *brief, *more;
} command;

static const command commands[] = {
    {"totals", {""}, 0, 1, 1, "FILE",
     "  aral totals FILE   the six worst totals: axis, max or min, total, wind, internal, each face's alternative\n",
     "A sheet that is refused gets the line `refused` in `totals`, with the number of the refusal and the sheet's "
     "line.\n"},
    {"check", {""}, 0, 1, 1, "FILE",
     "  aral check FILE    whether the sheet is accepted, and if not, which line is wrong and what it may say;\n"
     "                     of an accepted one also which of its winds change nothing, of another also whether\n"
     "                     mending would help\n",
     ""},
    {"mend", {""}, 0, 1, 1, "FILE",
     "  aral mend FILE     the sheet without slips of the keyboard; on standard error what was taken out, at which\n"
     "                     byte of which line, and what is refused all the same: aral mend FILE >NEW\n",
     "`mend` takes out carriage returns, spaces that follow a space or end a line, a plus before a number and zeros\n"
     "that lead it, and ends the last line. It changes nothing else, and a sheet in form not at all. Its status is 1\n"
     "where the mended sheet is refused.\n"},
    {"plain", {"--cases"}, 0, 1, 1, "FILE",
     "  aral plain FILE    the same six lines by the plain engine, which walks every case, and how many there were\n"
     "  aral plain --cases FILE   each of these cases, with its totals on x, y and z\n",
     "`plain` takes a sheet of which at most 8 faces have two alternatives: zone F of a flat roof, under a wind of\n"
     "its mark.\n"},
    {"column", {""}, 0, 2, 3, "FILE and LINE",
     "  aral column FILE LINE     whole newtons for each face that add up to the total of one line, for the handout;\n"
     "                            LINE is 1 to 6, or as the line begins: aral column FILE x max\n",
     ""},
    {"panel", {""}, 0, 1, 1, "FILE",
     "  aral panel FILE    the six totals in newtons, and the doubles that a panel shows for them\n",
     "In `panel` newtons are cut to three decimals, so 0.000 N is any force below a thousandth, either way.\n"},
    {"explain", {"--html"}, 1, 1, 1, "FILE",
     "  aral explain FILE  every step from the printed row to the six lines: for each line a table of the faces, with\n"
     "                     rows, coefficients, speed, pressure, area and force, every digit, that adds up\n"
     "  aral explain --html OUT FILE   the same as a page to print, with the building drawn to scale; - for standard\n"
     "                     output\n",
     "The page of `explain --html` is one file without scripts, fit for A4. One of a refused sheet has what `check`\n"
     "says of it.\n"},
    {"mark", {"--csv", "--html"}, 0, 1, 1, "FOLDER",
     "  aral mark FOLDER   every sheet of a folder, by name: its verdict and its six totals in newtons, every digit\n"
     "  aral mark --csv FOLDER    the same for a spreadsheet: aral mark --csv FOLDER >marks.csv\n"
     "  aral mark --html FOLDER   the same as a page: aral mark --html FOLDER >marks.html\n",
     "`mark` leaves out names that begin with a dot, and looks into no folder in FOLDER. Its status is that of the\n"
     "worst file: 1 where a sheet is refused, 2 where a file can't be read.\n"},
    {"edit", {""}, 0, 1, 1, "FILE",
     "  aral edit FILE     faces added, replaced and taken out line by line, with the six totals after each;\n"
     "                     its `help` says how, and its lines may come through a pipe\n",
     "The status of `edit` is the worst of its lines: 1 where an edit was refused, 2 where a line was none of its own\n"
     "or a file could not be written.\n"},
    {"rose", {"--svg"}, 0, 1, 1, "FILE",
     "  aral rose FILE     a wind rose as a table: the observations of FILE by sector and Beaufort number\n"
     "  aral rose --svg FILE      the same as a drawing, for a browser: aral rose --svg FILE >rose.svg\n",
     "The FILE of `rose`, or - for standard input, has a line for each observation, written as those of a sheet: the\n"
     "direction that the wind comes from, in whole degrees, 0 to 359, and its speed in tenths of m/s, 0 to 1000. It\n"
     "may have 1000000 lines.\n"},
    {"ask", {""}, 0, 0, 1000, "",
     "  aral ask WORDS     one coefficient and the printed rows that it comes from, as:\n"
     "                       aral ask h 500 a 1200 b 1000 kind 1 x 123 wind 0 zone E internal -30\n"
     "                       aral ask year 3 h 500 a 1000 b 1000 wind 0 zone B\n",
     "In `ask` each word is said once, in any order, with what it is after it:\n"
     "  h, a, b    height, longer side and shorter side in cm, 100 to 30000\n"
     "  wind       0 or 90, with kind 6 also 45, 135 or 180\n"
     "  zone       A to H; or in its place local: wall, L1 or L2\n"
     "  kind, x    the roof's, 0 where left out: kind 0 none; 1 gable, x the slope in tenths of a degree, 0 to 600;\n"
     "             2 flat, straight eaves; 3 parapet, x its height in cm, 0.025 to 0.10 of h; 4 curved eaves, x the\n"
     "             radius in cm, 0.05 to 0.20 of h; 5 mansard, x its angle in tenths of a degree, 300 to 900;\n"
     "             6 a single slope, x in tenths of a degree, 50 to 300\n"
     "  year       1 to 4, and 1 where left out; from year 3 on a may be equal to b\n"
     "  density    of the air in g/m3, 1000 to 1500, and 1250 where left out; no coefficient depends on it\n"
     "  internal   the internal coefficient in hundredths, -100 to 100: asks for the net too\n"}};

enum { COMMANDS = sizeof commands / sizeof *commands };

/* ---- Help ---- */

static int takes_sheet(const command *c)
{
    return strcmp(c->name, "ask") && strcmp(c->name, "rose") && strcmp(c->name, "mark");
}

static int help_all(void)
{
    fputs(head, stdout);
    for (int i = 0; i < COMMANDS; i++) fputs(commands[i].brief, stdout);
    printf("%s\n%s", help_brief, files);
    for (int i = 0; i < COMMANDS; i++) fputs(commands[i].more, stdout);
    printf("%s\n%s", sheets, statuses);
    return ACCEPTED;
}

static int help_on(const command *c)
{
    printf("%s\n", c->brief);
    if (takes_sheet(c)) fputs(files, stdout);
    printf("%s\n%s", c->more, statuses);
    return ACCEPTED;
}

/* ---- Misuse ---- */

static const command *command_of(const char *name)
{
    for (int i = 0; i < COMMANDS; i++)
        if (!strcmp(name, commands[i].name)) return &commands[i];
    return NULL;
}

/* The command's words, as `  aral plain --cases FILE`: of each line of what it does the start, up to two spaces. */
static void show_words(const command *c)
{
    for (const char *line = c->brief; *line; line = strchr(line, '\n') + 1) {
        if (strncmp(line, "  aral", 6)) continue;
        fprintf(stderr, "%.*s\n", (int)(strstr(line + 2, "  ") - line), line);
    }
}

int misused(const char *name, const char *what, const char *word)
{
    fprintf(stderr, "aral: %s %s; `aral %s --help` shows how\n", what, word, name);
    return MISUSED;
}

static int misused_shape(const command *c, const char *what, const char *word)
{
    misused(c->name, what, word);
    show_words(c);
    return MISUSED;
}

static int unknown(const char *what, const char *word)
{
    fprintf(stderr, "aral: %s%s\n", what, word);
    for (int i = 0; i < COMMANDS; i++) show_words(&commands[i]);
    fputs("`aral help` says what each does, and `aral COMMAND --help` what one does\n", stderr);
    return MISUSED;
}

/* ---- What needs no calculator ---- */

static int is_one_of(const char *word, const char *one, const char *other)
{
    return !strcmp(word, one) || !strcmp(word, other);
}

static int asks_help(int count, char **word)
{
    for (int i = 0; i < count; i++)
        if (is_one_of(word[i], "--help", "-h")) return 1;
    return 0;
}

/* How many words the option has that these begin with, its own among them; 0 where they begin with none. */
static int words_of_option(const command *c, int count, char **word)
{
    for (int i = 0; i < 2 && c->option[i] && count > 0; i++)
        if (*c->option[i] && !strcmp(word[0], c->option[i])) return 1 + c->taken;
    return 0;
}

static int looks_like_option(const char *word) { return word[0] == '-' && word[1]; }

/* Whether so many words can be the command's, and FILE none that looks like an option. */
static int judge_words(const command *c, int count, char **word)
{
    int taken = words_of_option(c, count, word);
    if (c->least == 0) return -1;
    if (taken > count) return misused_shape(c, "nothing stands after", word[0]);
    if (taken > 1 && looks_like_option(word[1])) return misused_shape(c, "not the name of a file:", word[1]);
    count -= taken;
    word += taken;
    if (count > 0 && looks_like_option(word[0]))
        return misused_shape(c, "neither a FILE nor a word of this command:", word[0]);
    if (count < c->least) return misused_shape(c, "this command needs", c->words);
    if (count > c->most) return misused_shape(c, "one word too many:", word[c->most]);
    return -1;
}

int answer_front(int count, char **word)
{
    if (count == 0) return unknown("no command was given", "");
    if (!strcmp(word[0], "help") || asks_help(1, word)) {
        if (count == 1 || (count == 2 && !strcmp(word[1], "help"))) return help_all();
        if (count > 2) return unknown("one word too many: ", word[2]);
        return command_of(word[1]) ? help_on(command_of(word[1])) : unknown("no such command: ", word[1]);
    }
    if (is_one_of(word[0], "--version", "-V")) {
        if (count > 1) return unknown("one word too many: ", word[1]);
        printf("aral %d\n", ARAL_VERSION);
        return ACCEPTED;
    }
    const command *c = command_of(word[0]);
    if (!c) return unknown("no such command: ", word[0]);
    return asks_help(count - 1, word + 1) ? help_on(c) : judge_words(c, count - 1, word + 1);
}

#ifdef FRONT
#include <errno.h>
#include <sys/stat.h>
#include <unistd.h>

/* What can't be read is told before the calculator is built for it. It is not opened: a pipe is read once. */
static int judge_file(int count, char **word)
{
    const command *c = command_of(word[0]);
    struct stat about;
    if (c->least == 0) return 3;
    const char *name = word[1 + words_of_option(c, count - 1, word + 1)];
    int folder = !strcmp(c->name, "mark"), reason = 0;
    if (!strcmp(name, "-") && !folder) return 3;
    if (access(name, R_OK) || stat(name, &about)) reason = errno;
    else if (!S_ISDIR(about.st_mode) != !folder) reason = folder ? ENOTDIR : EISDIR;
    if (reason) fprintf(stderr, "aral: %s can't be read: %s\n", name, strerror(reason));
    return reason ? MISUSED : 3;
}

int main(int argc, char **argv)
{
    int status = answer_front(argc - 1, argv + 1);
    if (status == ACCEPTED && fflush(stdout)) {
        perror("aral: standard output can't be written");
        return MISUSED;
    }
    return status < 0 ? judge_file(argc - 1, argv + 1) : status;
}
#endif
