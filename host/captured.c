/* Keeps what is printed on standard output in memory, and gives it back as a text. */
#define _GNU_SOURCE
#include "captured.h"
#include <stdio.h>
#include <stdlib.h>
#include <sys/mman.h>
#include <unistd.h>

static int kept, before; /* a file of no folder, and standard output as it was */

int begin_capture(void)
{
    fflush(stdout);
    before = dup(STDOUT_FILENO);
    kept = memfd_create("printed", 0);
    return before >= 0 && kept >= 0 && dup2(kept, STDOUT_FILENO) >= 0;
}

char *end_capture(void)
{
    fflush(stdout);
    dup2(before, STDOUT_FILENO);
    close(before);
    off_t n = lseek(kept, 0, SEEK_END);
    char *text = n < 0 ? NULL : calloc((size_t)n + 1, 1);
    if (text && pread(kept, text, (size_t)n, 0) != n) {
        free(text);
        text = NULL;
    }
    close(kept);
    return text;
}
