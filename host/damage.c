/* Damages the text of a sheet by one slip: of a byte, a field, a line or the whole, or puts nonsense in its place. */
#include "sheets.h"
#include <string.h>

/* Puts n bytes in place of the `gone` bytes at `at`; leaves the text alone where it would grow too long. */
static void splice(text *t, size_t at, size_t gone, const void *bytes, size_t n)
{
    if (t->length - gone + n > TEXT_ROOM) return;
    memmove(t->byte + at + n, t->byte + at + gone, t->length - at - gone);
    memcpy(t->byte + at, bytes, n);
    t->length += n - gone;
}

static void splice_word(text *t, size_t at, size_t gone, const char *word) { splice(t, at, gone, word, strlen(word)); }

static int ends(uint8_t byte, int lines) { return byte == '\n' || (!lines && byte == ' '); }

/* Some line of the text without its LF, or some field: its start, and its length in `n`. */
static size_t some(dice *d, const text *t, int lines, size_t *n)
{
    size_t start = t->length ? (size_t)pick(d, 0, (int64_t)t->length - 1) : 0;
    while (start > 0 && !ends(t->byte[start - 1], lines)) start--;
    for (*n = 0; start + *n < t->length && !ends(t->byte[start + *n], lines);) ++*n;
    return start;
}

static uint8_t slip_byte(dice *d)
{
    static const char often[] = " \n\r\t+-0123456789ABCDEFGHIPVWa.,";
    return pick(d, 0, 4) ? (uint8_t)often[pick(d, 0, (int64_t)sizeof often - 1)] : (uint8_t)roll(d);
}

static void damage_byte(dice *d, text *t)
{
    size_t at = (size_t)pick(d, 0, (int64_t)t->length - 1);
    uint8_t byte = slip_byte(d);
    switch (pick(d, 0, 3)) {
    case 0: t->byte[at] ^= (uint8_t)(1u << pick(d, 0, 7)); break;
    case 1: t->byte[at] = byte; break;
    case 2: splice(t, at, 1, "", 0); break;
    default: splice(t, at, 0, &byte, 1); break;
    }
}

/* Another field in a field's place: limits and one past them, counts that are off, marks and letters that are near. */
static void damage_field(dice *d, text *t)
{
    static const char *const word[] = {
        "0", "1", "2", "3", "4", "5", "6", "7", "8", "9", "16", "17", "24", "25", "45", "49", "50", "89", "90", "91",
        "99", "100", "101", "135", "180", "225", "239", "240", "241", "299", "300", "301", "600", "601", "900", "901",
        "999", "1000", "1001", "1500", "1501", "29999", "30000", "30001", "100000", "100001", "9999999", "10000000",
        "12345678", "99999999", "4294967297", "18446744073709551617", "-1", "-45", "-90", "-100", "-101", "-100000",
        "-100001", "-9999999", "-10000000", "-0", "00", "01", "-01", "045", "+0", "+1", "+90", "-", "--", "", "A", "B",
        "D", "E", "F", "G", "H", "I", "P", "V", "W", "a", "0x1", "1.5", "1e3", "1,5", "AA", "-A"};
    size_t n, at = some(d, t, 0, &n);
    splice_word(t, at, n, word[pick(d, 0, (int64_t)(sizeof word / sizeof *word) - 1)]);
}

/* Another number in a count line. */
static void damage_count(dice *d, text *t)
{
    static const char *const word[] = {
        "0", "1", "2", "3", "4", "5", "8", "9", "16", "17", "24", "25", "239", "240", "241", "-1", "100", "9999999",
        "10000000"};
    for (int tries = 0; tries < 40; tries++) {
        size_t n, at = some(d, t, 1, &n);
        if (n < 3 || t->byte[at + 1] != ' ' || !memchr("VBWIPF", t->byte[at], 6)) continue;
        splice_word(t, at + 2, n - 2, word[pick(d, 0, 18)]);
        return;
    }
}

/* Section V taken off, put before, or not as it should be. */
static void damage_year(dice *d, text *t)
{
    static const char *const opening[] = {
        "", "2\n", "V 1\n", "V 1\n1\n", "V 1\n5\n", "V 1\n-2\n", "V 1\n02\n", "V 1\n03\n", "V 1\n2 \n", "V 1\n\n",
        "V 1\n9999999\n", "V 1\n10000000\n", "V 0\n", "V 2\n2\n", "V 2\n2\n2\n", "V 1 2\n", "V\n2\n", "VX 1\n2\n",
        "v 1\n2\n", "V 1\n2\nV 1\n2\n", "V 1\n2\nP 1\n0 1\n", "V 1\n2\n", "V 1\n2\n", "V 1\n3\n", "V 1\n3\n",
        "V 1\n4\n", "V 1\n4\n"};
    size_t gone = t->length > 6 && t->byte[0] == 'V' && pick(d, 0, 7) ? 6 : 0;
    splice_word(t, 0, gone, opening[pick(d, 0, 26)]);
}

static void damage_spelling(dice *d, text *t)
{
    static const char *const before[] = {"0", "00", "+", "-", " ", "\t", "\r", "1", "000000"};
    static const char *const after[] = {" ", "\r", "\t", "0", ".0", " 0", "\n", "\v", "00000000", "-"};
    size_t n, at = some(d, t, 0, &n);
    if (pick(d, 0, 1)) splice_word(t, at, 0, before[pick(d, 0, 8)]);
    else splice_word(t, at + n, 0, after[pick(d, 0, 9)]);
}

static void damage_line(dice *d, text *t)
{
    size_t n, m, at = some(d, t, 1, &n), to = some(d, t, 1, &m);
    size_t whole = at + n < t->length ? n + 1 : n;
    uint8_t line[2048];
    if (whole > sizeof line) return;
    memcpy(line, t->byte + at, whole);
    switch (pick(d, 0, 3)) {
    case 0: splice(t, at, whole, "", 0); break;
    case 1: splice(t, to, 0, line, whole); break;
    case 2: splice(t, at, n, "", 0); break;
    default: splice(t, to, m, line, n); break;
    }
}

static void damage_end(dice *d, text *t)
{
    static const char *const tail[] = {
        "\n", " ", "\r\n", "A - 0 0 0\n", "A - 0 0 0 0\n", "B 1\n", "F 1\nA - 0 0 0\n", "x", "\x1a", "0"};
    switch (pick(d, 0, 3)) {
    case 0: t->length--; break;
    case 1: t->length = (size_t)pick(d, 0, (int64_t)t->length - 1); break;
    case 2: splice_word(t, t->length, 0, tail[pick(d, 0, 9)]); break;
    default: splice(t, t->length, 0, "", 1); break;
    }
}

/* Every line ended the other way, or a long run of one byte somewhere, or the sheet many times over. */
static void damage_whole(dice *d, text *t)
{
    static uint8_t run[TEXT_ROOM];
    size_t n = (size_t)pick(d, 1, TEXT_ROOM - 4096) >> pick(d, 0, 15), at = (size_t)pick(d, 0, (int64_t)t->length);
    switch (pick(d, 0, 2)) {
    case 0:
        for (size_t i = t->length; i-- > 0;)
            if (t->byte[i] == '\n') splice_word(t, i, 0, "\r");
        break;
    case 1:
        memset(run, slip_byte(d), n);
        splice(t, pick(d, 0, 1) ? at : t->length, 0, run, n);
        break;
    default:
        memcpy(run, t->byte, t->length);
        for (size_t times = 0, length = t->length; times < 40; times++) splice(t, t->length, 0, run, length);
    }
}

static void nonsense(dice *d, text *t)
{
    int letters = (int)pick(d, 0, 1);
    t->length = (size_t)pick(d, 0, 2000) >> pick(d, 0, 10);
    for (size_t i = 0; i < t->length; i++) t->byte[i] = letters ? slip_byte(d) : (uint8_t)roll(d);
}

void damage(dice *d, text *t)
{
    if (t->length == 0) return;
    switch (pick(d, 0, 17)) {
    case 0: case 1: case 2: damage_byte(d, t); break;
    case 3: case 4: case 5: case 6: case 7: damage_field(d, t); break;
    case 8: case 9: damage_spelling(d, t); break;
    case 10: case 11: damage_line(d, t); break;
    case 12: case 13: damage_end(d, t); break;
    case 14: damage_whole(d, t); break;
    case 15: damage_count(d, t); break;
    case 16: damage_year(d, t); break;
    default: nonsense(d, t); break;
    }
}
