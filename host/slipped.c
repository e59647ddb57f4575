/* Puts slips of the keyboard into a sheet in form. They come in the other order than the passes that take them out, so
   that each pass finds its own: an end left out, zeros, pluses, spaces, returns. */
#include "slipped.h"
#include <string.h>

static int is_digit(uint8_t byte) { return byte >= '0' && byte <= '9'; }

static int parts(uint8_t byte) { return byte == ' ' || byte == '\n'; }

/* Before the byte at `at`, or at the text's end: whether this byte may be put there. */
typedef int fits(const text *t, size_t at);

static int opens_field(const text *t, size_t at) { return at == 0 || parts(t->byte[at - 1]); }

static int before_digit(const text *t, size_t at) { return at < t->length && is_digit(t->byte[at]); }

static int fits_zero(const text *t, size_t at)
{
    int behind_minus = at > 0 && t->byte[at - 1] == '-' && opens_field(t, at - 1);
    return before_digit(t, at) && (opens_field(t, at) || behind_minus);
}

static int fits_plus(const text *t, size_t at) { return before_digit(t, at) && opens_field(t, at); }

static int fits_space(const text *t, size_t at)
{
    return at == t->length || t->byte[at] == '\n' || (at > 0 && t->byte[at - 1] == ' ');
}

static int fits_return(const text *t, size_t at) { return at <= t->length; }

/* Up to `most` times the byte, in one place after another; where `often` is set, in every place there is. */
static void put(dice *d, text *t, uint8_t byte, fits *may, int often, int64_t most)
{
    for (size_t at = 0; at <= t->length; at++) {
        int64_t times = may(t, at) && (often || pick(d, 0, 15) == 0) ? pick(d, 1, most) : 0;
        for (; times > 0 && t->length < TEXT_ROOM; times--, at++) {
            memmove(t->byte + at + 1, t->byte + at, t->length - at);
            t->byte[at] = byte;
            t->length++;
        }
    }
}

void put_slips_in(dice *d, text *t)
{
    static const struct { uint8_t byte; fits *may; int64_t most; } slip[] = {
        {'0', fits_zero, 9}, {'+', fits_plus, 1}, {' ', fits_space, 4}, {'\r', fits_return, 2}};
    if (pick(d, 0, 2) == 0) t->length--;
    for (int i = 0; i < 4; i++)
        if (pick(d, 0, 2)) put(d, t, slip[i].byte, slip[i].may, pick(d, 0, 3) == 0, slip[i].most);
}
