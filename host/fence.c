/* Lends memory between pages that can't be touched. A byte read or written outside of it fails, and what a call left in
   a lent room is looked at byte by byte. */
#define _DEFAULT_SOURCE
#include "fence.h"
#include "sheets.h"
#include <signal.h>
#include <stdio.h>
#include <stdlib.h>
#include <string.h>
#include <sys/mman.h>

enum { PAGE = 65536, FILL = 0xa5 }; /* PAGE: a multiple of any machine's page */
enum { BESIDE = 4096 };             /* how much beside a lent room is looked at */
static fence input, output;
static size_t looked_at;            /* how much of the output is: the room lent last, and what is beside it */

void fail(const char *what)
{
    printf("FAILED: %s\n", what);
    exit(1);
}

fence make_fence(size_t size)
{
    uint8_t *all = mmap(NULL, size + 2 * PAGE, PROT_NONE, MAP_PRIVATE | MAP_ANONYMOUS, -1, 0);
    if (all == MAP_FAILED || mprotect(all + PAGE, size, PROT_READ | PROT_WRITE)) {
        fprintf(stderr, "no memory to be had\n");
        exit(2);
    }
    return (fence){all + PAGE, all + PAGE + size};
}

void give_back(fence f) { munmap(f.start - PAGE, (size_t)(f.end - f.start) + 2 * PAGE); }

static int around(fence f, const uint8_t *at) { return f.start - PAGE <= at && at < f.end + PAGE; }

/* Says what was touched. The load or store that brings us here is one of a call and none of printf's: it may print. */
static void touched(int number, siginfo_t *info, void *context)
{
    (void)number;
    (void)context;
    if (around(output, info->si_addr)) fail("a page beside the buffer was touched");
    if (around(input, info->si_addr)) fail("a page beside what was lent to be read was touched, or that written to");
    fail("memory was touched that was not lent");
}

void make_fences(void)
{
    struct sigaction watch = {.sa_sigaction = touched, .sa_flags = SA_SIGINFO};
    input = make_fence(TEXT_ROOM);
    output = make_fence(PAGE);
    sigaction(SIGSEGV, &watch, NULL);
}

const uint8_t *lend(const uint8_t *bytes, size_t n, int after)
{
    size_t size = (size_t)(input.end - input.start);
    uint8_t *at = after ? input.end - n : input.start;
    mprotect(input.start, size, PROT_READ | PROT_WRITE);
    memcpy(at, bytes, n);
    mprotect(input.start, size, PROT_READ);
    return at;
}

/* The bytes that are looked at round a room lent at one end of a fence. */
static uint8_t *watched_in(fence f, size_t watched, int after) { return after ? f.end - watched : f.start; }

uint8_t *lend_within(fence f, size_t watched, size_t room, int after)
{
    memset(watched_in(f, watched, after), FILL, watched);
    return after ? f.end - room : f.start;
}

static int filled(const uint8_t *from, const uint8_t *to)
{
    while (from < to)
        if (*from++ != FILL) return 0;
    return 1;
}

void check_within(fence f, size_t watched, const uint8_t *at, int after, const void *held, size_t length)
{
    const uint8_t *from = watched_in(f, watched, after);
    if (memcmp(at, held, length)) fail("the text at an edge");
    if (!filled(from, at) || !filled(at + length, from + watched)) fail("a byte that should have stayed");
}

uint8_t *lend_room(size_t room, int after)
{
    looked_at = room + BESIDE;
    return lend_within(output, looked_at, room, after);
}

void check_room(const uint8_t *at, int after, const uint8_t *text, size_t length)
{
    check_within(output, looked_at, at, after, text, length);
}
