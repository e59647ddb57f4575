/* Marks a folder: each file is read as a sheet, and gets its verdict and its six totals. What can't be read, or is no
   file, is told in its row. How far it is stands on standard error, where that is a terminal. */
#define _POSIX_C_SOURCE 200809L
#include "mark.h"
#include "aralimogga.h"
#include "edit.h"
#include "trial.h"
#include "words.h"
#include <dirent.h>
#include <errno.h>
#include <stdio.h>
#include <stdlib.h>
#include <string.h>
#include <sys/stat.h>
#include <unistd.h>

/* ---- One entry ---- */

/* No acceptable sheet is so long (ARAL_SHEET_MOST), and a first fault lies before the end of this. */
static uint8_t sheet[1 << 16];

static void unreadable(mark *m, int reason)
{
    m->status = MISUSED;
    snprintf(m->verdict, VERDICT_ROOM, "can't be read: %s", strerror(reason));
}

/* The refusal with its line, the field at fault by its name, without its unit, and what is wrong. */
static void refuse(mark *m, size_t n)
{
    static aral_job job;
    aral_place p = aral_where(sheet, n);
    int high = p.section == 'F' && job_before(sheet, &p, &job) && job.profile.count > 0;
    const char *field = field_name(&p, high).name;
    m->status = REFUSED;
    snprintf(m->verdict, VERDICT_ROOM, "refused with %u at line %u%s%.*s: %s", p.number, p.line, *field ? ", " : "",
             (int)strcspn(field, ","), field, title_of(p.number));
}

static void mark_sheet(mark *m, size_t n)
{
    if (aral_read(sheet, n).number) {
        refuse(m, n);
        return;
    }
    m->status = ACCEPTED;
    snprintf(m->verdict, VERDICT_ROOM, "accepted");
    for (int line = 1; line <= 6; line++) {
        aral_extreme e = aral_total(sheet, n, line);
        m->total[line - 1] = units_of(&e);
    }
}

/* Only files are opened: a pipe would be waited for. */
static void mark_file(mark *m, const char *path)
{
    struct stat about;
    if (stat(path, &about)) {
        unreadable(m, errno);
        return;
    }
    if (!S_ISREG(about.st_mode)) {
        m->status = NO_FILE;
        snprintf(m->verdict, VERDICT_ROOM, S_ISDIR(about.st_mode) ? "a folder: not looked into" : "not a file");
        return;
    }
    FILE *file = fopen(path, "rb");
    size_t n = file ? fread(sheet, 1, sizeof sheet, file) : 0;
    if (!file || ferror(file)) unreadable(m, errno);
    else mark_sheet(m, n);
    if (file) fclose(file);
}

/* ---- The folder ---- */

static void no_memory(void)
{
    fprintf(stderr, "aral: there is no memory for so many sheets\n");
    exit(MISUSED);
}

static int by_name(const void *one, const void *other)
{
    return strcmp(((const mark *)one)->name, ((const mark *)other)->name);
}

/* The entries in the order of their names' bytes, without those that begin with a dot; 0, or why it can't be read. */
static int list_folder(marks *m)
{
    size_t room = 0;
    DIR *folder = opendir(m->folder);
    if (!folder) return errno;
    errno = 0;
    for (struct dirent *d; (d = readdir(folder)); errno = 0) {
        if (d->d_name[0] == '.') continue;
        if (m->count == room) m->entry = realloc(m->entry, (room = 2 * room + 16) * sizeof *m->entry);
        if (!m->entry || !(m->entry[m->count++] = (mark){.name = strdup(d->d_name)}).name) no_memory();
    }
    int reason = errno;
    closedir(folder);
    if (m->count) qsort(m->entry, m->count, sizeof *m->entry, by_name);
    return reason;
}

static void mark_entry(const char *folder, mark *m)
{
    size_t room = strlen(folder) + strlen(m->name) + 2;
    char *path = malloc(room);
    if (!path) no_memory();
    snprintf(path, room, "%s/%s", folder, m->name);
    mark_file(m, path);
    free(path);
}

static void release(marks *m)
{
    for (size_t i = 0; i < m->count; i++) free(m->entry[i].name);
    free(m->entry);
}

const char *summary_of(const marks *m, char text[SUMMARY_ROOM])
{
    size_t sheets = m->of[ACCEPTED] + m->of[REFUSED];
    int n = snprintf(text, SUMMARY_ROOM, "%zu sheet%s: %zu accepted, %zu refused", sheets, sheets == 1 ? "" : "s",
                     m->of[ACCEPTED], m->of[REFUSED]);
    if (m->of[MISUSED]) n += snprintf(text + n, SUMMARY_ROOM - (size_t)n, "; %zu can't be read", m->of[MISUSED]);
    if (m->of[NO_FILE]) snprintf(text + n, SUMMARY_ROOM - (size_t)n, "; %zu no file", m->of[NO_FILE]);
    return text;
}

int mark_folder(const char *folder, void (*table)(const marks *))
{
    marks m = {.folder = folder};
    int reason = list_folder(&m), told = isatty(STDERR_FILENO);
    if (reason) {
        fprintf(stderr, "aral: %s can't be read: %s\n", folder, strerror(reason));
        return MISUSED;
    }
    for (size_t i = 0; i < m.count; i++) {
        if (told) fprintf(stderr, "\r%zu of %zu ", i + 1, m.count);
        mark_entry(folder, &m.entry[i]);
        m.of[m.entry[i].status]++;
    }
    if (told) fprintf(stderr, "\r%40s\r", "");
    table(&m);
    release(&m);
    return m.of[MISUSED] ? MISUSED : m.of[REFUSED] ? REFUSED : ACCEPTED;
}
