/* Shows texts that may hold any bytes: on a terminal, in a page, and as a field of a table. */
#include "signs.h"
#include <stdint.h>
#include <stdio.h>
#include <string.h>

/* How many bytes the sign at this place has; 0 where it is no sign of UTF-8, or a control one. */
static size_t sign_at(const uint8_t *s)
{
    static const struct { uint8_t least, most; uint32_t first; } lead[] = {
        {0xc2, 0xdf, 0xa0}, {0xe0, 0xef, 0x800}, {0xf0, 0xf4, 0x10000}};
    if (s[0] < 0x80) return s[0] >= ' ' && s[0] < 0x7f;
    for (size_t k = 0; k < 3; k++) {
        if (s[0] < lead[k].least || s[0] > lead[k].most) continue;
        uint32_t code = s[0] & (0x1fu >> k);
        for (size_t i = 1; i <= k + 1; i++) {
            if ((s[i] & 0xc0) != 0x80) return 0;
            code = code << 6 | (s[i] & 0x3fu);
        }
        return code >= lead[k].first && code <= 0x10ffff && (code < 0xd800 || code > 0xdfff) ? k + 2 : 0;
    }
    return 0;
}

size_t width_of_signs(const char *text)
{
    const uint8_t *s = (const uint8_t *)text;
    size_t width = 0;
    for (size_t n; *s; s += n ? n : 1) {
        n = sign_at(s);
        width += n ? 1 : 4;
    }
    return width;
}

size_t print_signs(const char *text)
{
    const uint8_t *s = (const uint8_t *)text;
    for (size_t n; *s; s += n ? n : 1) {
        n = sign_at(s);
        if (n) fwrite(s, 1, n, stdout);
        else printf("<%02x>", *s);
    }
    return width_of_signs(text);
}

/* How a sign is written where a page would take it for its own. Line ends stay. */
static const char *escaped(uint8_t byte)
{
    switch (byte) {
    case '<': return "&lt;";
    case '>': return "&gt;";
    case '&': return "&amp;";
    case '"': return "&quot;";
    case '\'': return "&#39;";
    case '\n': return "\n";
    default: return NULL;
    }
}

void print_html(const char *text)
{
    const uint8_t *s = (const uint8_t *)text;
    for (size_t n; *s; s += n ? n : 1) {
        n = sign_at(s);
        if (escaped(*s)) fputs(escaped(*s), stdout);
        else if (n) fwrite(s, 1, n, stdout);
        else printf("&lt;%02x&gt;", *s);
    }
}

void print_csv(const char *text)
{
    if (!strpbrk(text, "\",\r\n")) {
        fputs(text, stdout);
        return;
    }
    putchar('"');
    for (; *text; text++) {
        if (*text == '"') putchar('"');
        putchar(*text);
    }
    putchar('"');
}
