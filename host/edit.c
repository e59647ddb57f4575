/* The dialogue of `aral edit`: a worksheet, and a line for each thing to be done with it. The library judges every
   edit; a new face that it refuses is explained as the line that it would be on the sheet. */
#include "edit.h"
#include "aralimogga.h"
#include "words.h"
#include <errno.h>
#include <inttypes.h>
#include <stdio.h>
#include <stdlib.h>
#include <string.h>
#include <unistd.h>

enum { LINE_ROOM = 1000 }; /* far longer than any line in form */
static aral_worksheet held;
static int ended;

static int not_understood(const char *what, const char *word)
{
    fflush(stdout);
    fprintf(stderr, "aral: %s %s; `help` shows how\n", what, word);
    return MISUSED;
}

static int has_heights(void) { return held.job.year != 1; }

static uint32_t face_count(void) { return held.job.faces.count; }

/* ---- What does not change it ---- */

static int help(const char *rest)
{
    const char *fields = has_heights() ? "ZONE MARK HEIGHT X Y Z" : "ZONE MARK X Y Z";
    (void)rest;
    printf("  add %s\n      a face after the last one, in the fields of its line on the sheet\n", fields);
    printf("  replace FACE %s\n      another face in the place of face FACE, counted from 1\n", fields);
    printf("  take FACE     takes face FACE out; later faces move up\n"
           "  show          the six lines, which also follow every edit\n"
           "  write NAME    writes the sheet into the file NAME\n"
           "  help          this text\n"
           "  quit          ends, as the end of input does; what was not written is lost\n");
    return ACCEPTED;
}

static int show(const char *rest)
{
    uint8_t out[ARAL_REPORT_MOST];
    (void)rest;
    aral_text report = aral_show(held, out, sizeof out);
    fwrite(out, 1, report.length, stdout);
    return ACCEPTED;
}

static int quit(const char *rest)
{
    (void)rest;
    ended = 1;
    return ACCEPTED;
}

static int write_into(const char *name)
{
    uint8_t out[ARAL_SHEET_MOST];
    if (!*name) return not_understood("no name stands after", "`write`");
    aral_text sheet = aral_write(held, out, sizeof out);
    FILE *file = fopen(name, "wb");
    int good = file && fwrite(out, 1, sheet.length, file) == sheet.length;
    if (file && fclose(file)) good = 0;
    if (good) {
        printf("written into %s\n", name);
        return ACCEPTED;
    }
    int reason = errno;
    fflush(stdout);
    fprintf(stderr, "aral: %s can't be written: %s\n", name, strerror(reason));
    return MISUSED;
}

/* ---- A new face ---- */

typedef struct { char text[ARAL_SHEET_MOST + LINE_ROOM + 16]; size_t length; } sheet_text;

static const char *next_line(const char *at) { return strchr(at, '\n') + 1; }

/* The sheet with these fields as the line of a face: of one that is there, or of one more. */
static void put_face_line(uint32_t face, const char *fields, sheet_text *sheet)
{
    char now[ARAL_SHEET_MOST + 1];
    aral_text written = aral_write(held, (uint8_t *)now, ARAL_SHEET_MOST);
    now[written.length] = 0;
    const char *counted = strstr(now, "\nF ") + 1, *first = next_line(counted), *at = first;
    for (uint32_t i = 1; i < face; i++) at = next_line(at);
    uint32_t count = face > face_count() ? face : face_count();
    const char *rest = face > face_count() ? "" : next_line(at);
    sheet->length = (size_t)snprintf(sheet->text, sizeof sheet->text, "%.*sF %u\n%.*s%s\n%s", (int)(counted - now),
                                     now, count, (int)(at - first), first, fields, rest);
}

/* The face that a line in form says. A line that is not in form says none: the face without a zone that is answered
   then is refused by the library for the same. */
static aral_face face_of(const char *fields, const sheet_text *sheet)
{
    aral_face f = {.zone = 0};
    aral_answer read = aral_read((const uint8_t *)sheet->text, sheet->length);
    if (read.number == ARAL_FORM || strlen(fields) < 4) return f;
    char *at = (char *)fields + 2;
    f.zone = (uint8_t)fields[0];
    f.mark = ARAL_BOTH;
    if (at[0] == '-' && at[1] == ' ') at++;
    else f.mark = strtoll(at, &at, 10);
    if (has_heights()) f.height = strtoll(at, &at, 10);
    f.x = strtoll(at, &at, 10);
    f.y = strtoll(at, &at, 10);
    f.z = strtoll(at, &at, 10);
    return f;
}

/* ---- Edits ---- */

static void explain_count(int64_t face, uint32_t number)
{
    printf("refused with %u: ", number);
    if (number == ARAL_NO_FACE) printf("there is no face %" PRId64 "; the faces are 1 to %u\n", face, face_count());
    else if (face_count() == 1) printf("the only face can't be taken out: a sheet has at least one\n");
    else printf("there are %u faces, which is the most: take one out first\n", face_count());
}

/* Takes over an accepted edit and shows the six lines, or explains its refusal. */
static int settle(const aral_edited *e, int64_t face, const sheet_text *sheet)
{
    if (e->number == 0) {
        held = e->worksheet;
        return show("");
    }
    if (e->line == 0) explain_count(face, e->number);
    else explain_refusal((const uint8_t *)sheet->text, sheet->length, (aral_answer){e->number, e->line});
    return REFUSED;
}

static int add(const char *fields)
{
    sheet_text sheet;
    put_face_line(face_count() + 1, fields, &sheet);
    aral_edited e = aral_add(held, face_of(fields, &sheet));
    return settle(&e, 0, &sheet);
}

/* The number of a face and what follows it. */
static int take_number(const char *rest, int64_t *face, const char **after)
{
    char *end;
    errno = 0;
    *face = strtoll(rest, &end, 10);
    *after = *end == ' ' ? end + 1 : end;
    return end > rest && (*end == ' ' || !*end) && !errno;
}

static int replace(const char *rest)
{
    sheet_text sheet = {.length = 0};
    int64_t face;
    const char *fields;
    if (!take_number(rest, &face, &fields)) return not_understood("not the number of a face:", rest);
    if (face >= 1 && face <= face_count()) put_face_line((uint32_t)face, fields, &sheet);
    aral_edited e = aral_replace(held, face, face_of(fields, &sheet));
    return settle(&e, face, &sheet);
}

static int take_out(const char *rest)
{
    int64_t face;
    const char *after;
    if (!take_number(rest, &face, &after) || *after) return not_understood("not the number of a face:", rest);
    aral_edited e = aral_take_out(held, face);
    return settle(&e, face, NULL);
}

/* ---- The dialogue ---- */

/* A line of standard input without its end, or the start of one that is too long. Answers 0 at the end of input. */
static int take_line(char line[LINE_ROOM], int *whole)
{
    if (!fgets(line, LINE_ROOM, stdin)) return 0;
    *whole = strchr(line, '\n') || feof(stdin);
    for (int byte = *whole ? '\n' : 0; byte != '\n' && byte != EOF;) byte = getchar();
    line[*whole ? strcspn(line, "\r\n") : 20] = 0;
    return 1;
}

/* The line's first word, and what follows it after a space. */
static int carry_out(char *word)
{
    static const struct { const char *name; int (*run)(const char *), alone; } command[] = {
        {"add", add, 0},   {"replace", replace, 0}, {"take", take_out, 0}, {"write", write_into, 0},
        {"show", show, 1}, {"help", help, 1},       {"quit", quit, 1}};
    char *rest = word + strcspn(word, " ");
    if (*rest) *rest++ = 0;
    for (size_t i = 0; i < sizeof command / sizeof *command; i++) {
        if (strcmp(word, command[i].name)) continue;
        if (command[i].alone && *rest) return not_understood("nothing may stand after this word:", word);
        return command[i].run(rest);
    }
    return not_understood("not a word of this dialogue:", word);
}

static int not_read(void)
{
    fprintf(stderr, "aral: standard input can't be read: %s\n", strerror(errno));
    return MISUSED;
}

static int dialogue(void)
{
    char line[LINE_ROOM];
    int whole, worst = ACCEPTED, asked = isatty(STDIN_FILENO) && isatty(STDOUT_FILENO);
    if (asked) printf("`help` says what can be done.\n");
    while (!ended) {
        if (asked) printf("edit> ");
        fflush(stdout);
        if (!take_line(line, &whole)) return ferror(stdin) ? not_read() : worst;
        char *word = line + strspn(line, " ");
        int came = ACCEPTED;
        if (!whole) came = not_understood("too long, the line that begins", line);
        else if (*word) came = carry_out(word);
        if (came > worst) worst = came;
    }
    return worst;
}

int edit(const uint8_t *sheet, size_t n)
{
    aral_edited opened = aral_open(sheet, n);
    if (opened.number) {
        explain_refusal(sheet, n, (aral_answer){opened.number, opened.line});
        return REFUSED;
    }
    held = opened.worksheet;
    show("");
    return dialogue();
}
