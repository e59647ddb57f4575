/* Recognises the slips of a field and of a whole file: a decimal comma, a unit, a letter O for zero, signs that only
   look like a minus or a space. It judges nothing: the library has refused the field before it is looked at here. */
#include "slip.h"
#include <stdio.h>
#include <string.h>

typedef struct { const uint8_t *byte; size_t n; } bytes;

/* ---- What bytes are ---- */

static int is_digit(uint8_t byte) { return byte >= '0' && byte <= '9'; }

static int is_small(uint8_t byte) { return byte >= 'a' && byte <= 'z'; }

static int is_capital(uint8_t byte) { return byte >= 'A' && byte <= 'Z'; }

static int has(bytes f, const char *some)
{
    for (size_t i = 0; i < f.n; i++)
        if (f.byte[i] && strchr(some, f.byte[i])) return 1;
    return 0;
}

static size_t count_of(bytes f, int (*is)(uint8_t))
{
    size_t count = 0;
    for (size_t i = 0; i < f.n; i++) count += is(f.byte[i]) != 0;
    return count;
}

/* How many digits stand at the start, after a minus if there is one. */
static size_t minus_of(bytes f) { return f.n > 0 && f.byte[0] == '-'; }

static size_t leading_digits(bytes f)
{
    size_t i = minus_of(f);
    while (i < f.n && is_digit(f.byte[i])) i++;
    return i - minus_of(f);
}

static int all_digits(bytes f) { return leading_digits(f) > 0 && minus_of(f) + leading_digits(f) == f.n; }

/* Whether one of these runs of bytes stands in the field: at which place, and how long it is. */
static const char *find(bytes f, const char *const *run, size_t *at)
{
    for (; *run; run++) {
        size_t n = strlen(*run);
        for (*at = 0; *at + n <= f.n; ++*at)
            if (!memcmp(f.byte + *at, *run, n)) return *run;
    }
    return NULL;
}

/* The signs of UTF-8, and of one byte, that only look like a minus or a space. */
static const char *const dashes[] = {
    "\xe2\x88\x92", "\xe2\x80\x90", "\xe2\x80\x91", "\xe2\x80\x92", "\xe2\x80\x93", "\xe2\x80\x94", "\xef\xbc\x8d",
    "\x96", "\x97", NULL};
static const char *const spaces[] = {
    "\xc2\xa0", "\xe2\x80\xaf", "\xe2\x80\x82", "\xe2\x80\x83", "\xe2\x80\x87", "\xe2\x80\x89", "\xe2\x80\x8a",
    "\xe2\x80\x8b", "\xe3\x80\x80", "\xa0", NULL};

/* Whether a sign of these stands among plain ones. */
static int has_sign(bytes f, const char *const *signs)
{
    size_t at;
    const char *sign = find(f, signs, &at);
    for (size_t i = 0; sign && i < f.n; i++)
        if ((i < at || i >= at + strlen(sign)) && (f.byte[i] < ' ' || f.byte[i] > '~')) return 0;
    return sign != NULL;
}

static int has_dash(bytes f) { return has_sign(f, dashes); }

static int has_space(bytes f) { return has_sign(f, spaces); }

/* ---- Slips of a number ---- */

static int is_empty(bytes f) { return f.n == 0; }

static int has_return(bytes f) { return has(f, "\r"); }

static int has_tab(bytes f) { return has(f, "\t"); }

static int has_zero_byte(bytes f) { return f.n > 0 && memchr(f.byte, 0, f.n) != NULL; }

static int has_plus(bytes f) { return f.n > 1 && f.byte[0] == '+' && is_digit(f.byte[1]); }

static int is_minus_zero(bytes f) { return f.n == 2 && !memcmp(f.byte, "-0", 2); }

static int has_leading_zero(bytes f) { return all_digits(f) && f.n > 1 && f.byte[minus_of(f)] == '0'; }

static int is_long(bytes f) { return all_digits(f); }

/* Digits, one comma or point, and digits. */
static int has_fraction(bytes f, char sign)
{
    size_t at = minus_of(f) + leading_digits(f);
    if (at >= f.n || f.byte[at] != sign || at + 1 == f.n) return 0;
    bytes rest = {f.byte + at + 1, f.n - at - 1};
    return leading_digits(rest) == rest.n;
}

static int has_comma(bytes f) { return has_fraction(f, ','); }

static int has_point(bytes f) { return has_fraction(f, '.'); }

static int is_comma_list(bytes f) { return has(f, ",") && count_of(f, is_digit) > 0; }

static int is_list(bytes f) { return has(f, ",;|") && count_of(f, is_digit) > 0; }

/* Where a number ends that may have a comma or a point. */
static size_t end_of_number(bytes f)
{
    size_t at = minus_of(f);
    while (at < f.n && (is_digit(f.byte[at]) || f.byte[at] == '.' || f.byte[at] == ',')) at++;
    return at;
}

static int is_power(bytes f)
{
    size_t at = end_of_number(f);
    if (leading_digits(f) == 0 || at + 1 >= f.n || !is_digit(f.byte[f.n - 1])) return 0;
    return f.byte[at] == 'e' || f.byte[at] == 'E';
}

/* Digits, and behind them a point, a colon or the like. */
static int has_stop(bytes f)
{
    return leading_digits(f) > 0 && minus_of(f) + leading_digits(f) + 1 == f.n && strchr(".:;!)", f.byte[f.n - 1]);
}

static int has_thousands(bytes f)
{
    size_t at = minus_of(f) + leading_digits(f);
    if (leading_digits(f) == 0 || at + 3 >= f.n || !is_digit(f.byte[at + 1])) return 0;
    return f.byte[at] == '\'' || f.byte[at] == '_';
}

/* A letter O among digits, or alone; small l and capital I for a 1. */
static int is_lookalike(uint8_t byte) { return byte == 'O' || byte == 'o' || byte == 'l' || byte == 'I'; }

static int has_lookalike(bytes f)
{
    size_t looks = count_of(f, is_lookalike), digits = count_of(f, is_digit);
    return looks > 0 && looks + digits + minus_of(f) == f.n && (digits > 0 || f.byte[f.n - 1] == 'O');
}

static int opens_unit(uint8_t byte) { return is_small(byte) || is_capital(byte) || byte == '%' || byte >= 0x80; }

static int has_unit(bytes f)
{
    size_t at = end_of_number(f);
    if (leading_digits(f) == 0 || at == f.n || !opens_unit(f.byte[at])) return 0;
    for (size_t i = at; i < f.n; i++)
        if (!opens_unit(f.byte[i]) && !is_digit(f.byte[i]) && f.byte[i] != '/' && f.byte[i] != '^') return 0;
    return 1;
}

static int has_name(bytes f) { return has(f, "=:") && f.n > 1; }

static int has_quote(bytes f) { return has(f, "\"'`"); }

static int is_remark(bytes f) { return f.n > 0 && (f.byte[0] == '#' || f.byte[0] == '/' || f.byte[0] == '('); }

static int has_fold(bytes f) { return f.n > 1 && f.byte[0] == '-' && has((bytes){f.byte + 1, f.n - 1}, "-"); }

static int is_dash(bytes f) { return f.n == 1 && f.byte[0] == '-'; }

static int is_word(bytes f) { return f.n > 0 && count_of(f, is_small) + count_of(f, is_capital) == f.n; }

static int is_one_letter(bytes f) { return f.n == 1 && is_word(f); }

static int is_other(bytes f) { return f.n + 1 > 0; }

/* The first that fits is told. */
static const struct { int (*is)(bytes); const char *what, *advice; } number_slips[] = {
    {is_empty, "nothing", ""},
    {has_zero_byte, "a byte that is zero", "Save the file as plain text."},
    {has_return, "a carriage return", "Save the file with LF line ends."},
    {has_tab, "a tab", "Fields are parted by one space."},
    {has_dash, "a sign that only looks like a minus", "Type it with the minus key."},
    {has_space, "a space that is not the plain one", "Type it with the space bar."},
    {has_plus, "a plus sign", "Numbers have none."},
    {is_minus_zero, "a zero with a minus", "Zero is written 0."},
    {has_leading_zero, "a leading zero", "Numbers have none."},
    {is_long, "too many digits", "A number has at most 7."},
    {has_comma, "a decimal comma", "Numbers are whole."},
    {has_point, "a decimal point", "Numbers are whole."},
    {has_stop, "a sign behind the number", "Leave it out."},
    {is_comma_list, "a list with commas", "Fields are parted by one space and nothing else."},
    {is_list, "a list with other signs than spaces", "Fields are parted by one space and nothing else."},
    {is_power, "a power of ten", "Write the number out."},
    {has_lookalike, "a letter that looks like a digit", "O is not 0, and l is not 1."},
    {has_unit, "a unit behind the number", "Leave it out."},
    {has_name, "a name before the number", "Write the number alone."},
    {has_thousands, "a mark between thousands", "Leave it out."},
    {has_quote, "a quotation mark", "Leave it out."},
    {is_remark, "a remark", "A sheet has none."},
    {has_fold, "two minus signs", ""},
    {is_dash, "a minus alone", "It stands directly before its number."},
    {is_one_letter, "a letter", ""},
    {is_word, "a word", ""},
    {is_other, "no number", ""},
};

/* ---- What was meant ---- */

/* The digits as they would be without the slip; nothing where that would be a guess. */
static void mean(bytes f, slip *s)
{
    size_t n = 0, at = 0;
    const char *dash = find(f, dashes, &at);
    int looks = has_lookalike(f);
    if (has_comma(f) || has_point(f) || is_power(f) || is_word(f) || has_fold(f)) return;
    if (is_list(f) && !has_stop(f)) return;
    for (size_t i = 0; i < f.n && n < 9; i++) {
        uint8_t byte = f.byte[i];
        int minus = byte == '-' && n == 0;
        if (dash && i == at && n == 0) minus = 1;
        if (minus) s->meant[n++] = '-';
        else if (is_digit(byte)) s->meant[n++] = (char)byte;
        else if (looks) s->meant[n++] = byte == 'O' || byte == 'o' ? '0' : '1';
    }
    s->meant[n] = 0;
    size_t sign = s->meant[0] == '-';
    while (s->meant[sign] == '0' && s->meant[sign + 1]) memmove(s->meant + sign, s->meant + sign + 1, n - sign);
    if (!strcmp(s->meant, "-0")) strcpy(s->meant, "0");
    if (!strcmp(s->meant, "-") || strlen(s->meant) - sign > 7) s->meant[0] = 0;
}

slip slip_of_number(const uint8_t *field, size_t n)
{
    bytes f = {field, n};
    slip s = {.meant = ""};
    size_t i = 0;
    while (!number_slips[i].is(f)) i++;
    s.what = number_slips[i].what;
    s.advice = number_slips[i].advice;
    mean(f, &s);
    return s;
}

/* ---- Slips of a letter ---- */

static int is_glued(bytes f) { return f.n > 1 && is_capital(f.byte[0]) && is_digit(f.byte[1]); }

static int has_colon(bytes f) { return f.n > 1 && is_capital(f.byte[0]) && has(f, ":=.)"); }

static int is_small_letter(bytes f) { return f.n == 1 && is_small(f.byte[0]); }

static const struct { int (*is)(bytes); const char *what, *advice; } letter_slips[] = {
    {is_empty, "nothing", ""},
    {has_zero_byte, "a byte that is zero", "Save the file as plain text."},
    {has_return, "a carriage return", "Save the file with LF line ends."},
    {has_tab, "a tab", "Fields are parted by one space."},
    {has_space, "a space that is not the plain one", "Type it with the space bar."},
    {is_comma_list, "a list with commas", "Fields are parted by one space and nothing else."},
    {is_list, "a list with other signs than spaces", "Fields are parted by one space and nothing else."},
    {has_colon, "a letter with a sign behind it", "The letter stands alone, before one space."},
    {is_glued, "a letter and a number in one", "One space goes between them."},
    {has_quote, "a quotation mark", "Leave it out."},
    {is_remark, "a remark", "A sheet has none."},
    {all_digits, "a number", ""},
    {is_small_letter, "a small letter", "Letters are capital."},
    {is_one_letter, "another letter", ""},
    {is_word, "a word", ""},
    {is_other, "no letter", ""},
};

slip slip_of_letter(const uint8_t *field, size_t n, char letter)
{
    bytes f = {field, n};
    slip s = {.meant = ""};
    size_t i = 0;
    while (!letter_slips[i].is(f)) i++;
    s.what = letter_slips[i].what;
    s.advice = letter_slips[i].advice;
    if (letter && n > 0 && (field[0] == letter || field[0] == letter - 'A' + 'a'))
        snprintf(s.meant, sizeof s.meant, "%c", letter);
    if (!letter && is_small_letter(f)) snprintf(s.meant, sizeof s.meant, "%c", field[0] - 'a' + 'A');
    return s;
}

/* ---- The file ---- */

static size_t count_byte(bytes f, uint8_t byte)
{
    size_t count = 0;
    for (size_t i = 0; i < f.n; i++) count += f.byte[i] == byte;
    return count;
}

/* Every line, or all but one, ends in a return before its LF. */
static int returns_everywhere(bytes f)
{
    size_t lines = count_byte(f, '\n'), returns = 0;
    for (size_t i = 1; i < f.n; i++) returns += f.byte[i] == '\n' && f.byte[i - 1] == '\r';
    return returns > 1 && returns + 1 >= lines;
}

int slip_of_file(const uint8_t *sheet, size_t n)
{
    bytes f = {sheet, n};
    if (n >= 2 && (!memcmp(sheet, "\xff\xfe", 2) || !memcmp(sheet, "\xfe\xff", 2))) return WHOLE_UTF16;
    if (n >= 8 && 3 * count_byte(f, 0) > n && 3 * count_byte(f, 0) < 2 * n) return WHOLE_UTF16;
    if (n >= 3 && !memcmp(sheet, "\xef\xbb\xbf", 3)) return WHOLE_MARK;
    if (returns_everywhere(f)) return WHOLE_RETURNS;
    if (count_byte(f, '\r') > 1 && count_byte(f, '\n') == 0) return WHOLE_CR;
    return WHOLE_RIGHT;
}
