/* The marking of inkprint in C. It is what a C programmer would write: one loop over the characters, which looks ahead where it has to,
   once to measure and once to write. It needs no header but stdint.h, so that a compiler without a C library can compile it. */
#include "twins.h"

typedef uint64_t size;

enum { MOST = 1073741824, BROKEN = 0x110000 };

/* ---- Characters */

struct character {
    uint32_t code, size;
};

static int goes_on(const uint8_t *text, size length, size at)
{
    return at < length && (text[at] & 0xc0) == 0x80;
}

/* The character at a place; a byte that begins none is one of its own. */
static struct character next(const uint8_t *text, size length, size at)
{
    struct character c = {text[at], 1};
    uint32_t code;

    if (c.code < 0x80)
        return c;
    if (c.code >= 0xc2 && c.code <= 0xdf && goes_on(text, length, at + 1)) {
        c.code = (c.code & 0x1f) << 6 | (text[at + 1] & 0x3f);
        c.size = 2;
        return c;
    }
    if (c.code >= 0xe0 && c.code <= 0xef && goes_on(text, length, at + 1) && goes_on(text, length, at + 2)) {
        code = (c.code & 0xf) << 12 | (text[at + 1] & 0x3f) << 6 | (text[at + 2] & 0x3f);
        if (code >= 0x800 && (code < 0xd800 || code > 0xdfff)) {
            c.code = code;
            c.size = 3;
            return c;
        }
    }
    if (c.code >= 0xf0 && c.code <= 0xf4 && goes_on(text, length, at + 1) && goes_on(text, length, at + 2) && goes_on(text, length, at + 3)) {
        code = (c.code & 7) << 18 | (text[at + 1] & 0x3f) << 12 | (text[at + 2] & 0x3f) << 6 | (text[at + 3] & 0x3f);
        if (code >= 0x10000 && code <= 0x10ffff) {
            c.code = code;
            c.size = 4;
            return c;
        }
    }
    c.code = BROKEN;
    return c;
}

enum kind { SMALL, CAPITAL, PLAIN, LITERAL, GAP, NOTHING, FEED, PAGE_END, LONG_DASH, DOTS, OPENS, CLOSES, UNMARKED };

struct glyph {
    enum kind kind;
    uint8_t sign, accented;
};

/* The letters of U+00C0 to U+017F without their accents, and a dot for what is none. */
static const char latin[] = "AAAAAA.CEEEEIIII.NOOOOO.OUUUUY..aaaaaa.ceeeeiiii.nooooo.ouuuuy.y"
                            "AaAaAaCcCcCcCcDdDdEeEeEeEeEeGgGgGgGgHhHhIiIiIiIiIi..JjKk.LlLlLl."
                            ".LlNnNnNn...OoOoOo..RrRrRrSsSsSsSsTtTtTtUuUuUuUuUuUuWwYyYZzZzZz.";

static struct glyph glyph(uint32_t c)
{
    struct glyph g = {UNMARKED, 0, 0};

    if (c >= 'a' && c <= 'z') {
        g.kind = SMALL;
        g.sign = c - 32;
    } else if (c >= 'A' && c <= 'Z') {
        g.kind = CAPITAL;
        g.sign = c;
    } else if (c == ' ' || c == '\t' || c == 0xa0 || (c >= 0x2000 && c <= 0x200a) || c == 0x202f) {
        g.kind = GAP;
    } else if (c > ' ' && c <= '~') {
        g.kind = PLAIN;
        g.sign = c;
        switch (c) {
        case '$': case '%': case '+': case '<': case '=': case '>': case '_':
            g.kind = LITERAL;
            break;
        case '|':
            g.kind = LITERAL;
            g.sign = 'I';
            break;
        case '[':
            g.sign = '<';
            break;
        case ']':
            g.sign = '>';
            break;
        }
    } else if (c >= 0xc0 && c <= 0x17f) {
        g.sign = latin[c - 0xc0];
        g.accented = 1;
        if (g.sign >= 'a') {
            g.kind = SMALL;
            g.sign -= 32;
        } else if (g.sign != '.') {
            g.kind = CAPITAL;
        }
    } else {
        switch (c) {
        case '\n':
            g.kind = FEED;
            break;
        case '\f':
            g.kind = PAGE_END;
            break;
        case '\r': case 0xad: case 0xfeff:
            g.kind = NOTHING;
            break;
        case 0x2010: case 0x2011: case 0x2012: case 0x2013: case 0x2212:
            g.kind = PLAIN;
            g.sign = '-';
            break;
        case 0x2014: case 0x2015:
            g.kind = LONG_DASH;
            break;
        case 0x2026:
            g.kind = DOTS;
            break;
        case 0x201c: case 0x201d:
            g.kind = PLAIN;
            g.sign = '"';
            break;
        case 0x2018:
            g.kind = OPENS;
            break;
        case 0x2019:
            g.kind = CLOSES;
            break;
        }
    }
    return g;
}

/* ---- Looking ahead */

static int is_letter(struct glyph g)
{
    return g.kind == SMALL || g.kind == CAPITAL;
}

static int is_apostrophe(struct glyph g)
{
    return g.kind == CLOSES || (g.kind == PLAIN && g.sign == '\'');
}

static struct glyph glyph_at(const uint8_t *text, size length, size at)
{
    struct glyph none = {UNMARKED, 0, 0};

    return at < length ? glyph(next(text, length, at).code) : none;
}

/* Whether the word whose first letter, a capital, stands before `at` has another, and capitals alone. */
static int all_capitals(const uint8_t *text, size length, size at)
{
    struct character c;
    struct glyph g;
    int more = 0;

    for (; at < length; at += c.size) {
        c = next(text, length, at);
        g = glyph(c.code);
        if (g.kind == SMALL)
            return 0;
        if (g.kind == CAPITAL)
            more = 1;
        else if (!is_apostrophe(g) || glyph_at(text, length, at + c.size).kind != CAPITAL)
            break;
    }
    return more;
}

static int is_blank(const uint8_t *text, size length, size at)
{
    struct character c;
    struct glyph g;

    for (; at < length; at += c.size) {
        c = next(text, length, at);
        g = glyph(c.code);
        if (g.kind == FEED)
            return 1;
        if (g.kind != GAP && g.kind != NOTHING)
            return 0;
    }
    return 0;
}

/* ---- The loop */

enum line { START, BLANK, SOMETHING };
enum word { NO_WORD, CAPITALS, OTHER };

/* The bytes of the marked text, which are written where `out` isn't null; or where a character has no mark. */
static inline int walk(const uint8_t *text, size length, uint8_t *out, size *answer)
{
    enum line line = START;
    enum word word = NO_WORD, was;
    int single = 0;
    size at = 0, to = 0, after;
    struct character c;
    struct glyph g;

#define PUT(byte) (out ? (void)(out[to] = (byte)) : (void)0, to++)
    for (; at < length; at = after) {
        c = next(text, length, at);
        g = glyph(c.code);
        after = at + c.size;
        was = word;
        word = NO_WORD;
        switch (g.kind) {
        case SMALL:
        case CAPITAL:
            word = was;
            if (was == NO_WORD)
                word = g.kind == CAPITAL && all_capitals(text, length, after) ? CAPITALS : OTHER;
            if (g.kind == CAPITAL && word == OTHER) {
                PUT('=');
            } else if (word == CAPITALS && was == NO_WORD) {
                PUT('=');
                PUT('=');
            }
            if (g.accented)
                PUT('%');
            PUT(g.sign);
            line = SOMETHING;
            break;
        case CLOSES:
            line = SOMETHING;
            if (single && !is_letter(glyph_at(text, length, after))) {
                PUT('$');
                PUT('\'');
                PUT('R');
                single = 0;
                break;
            }
            PUT('\'');
            if (glyph_at(text, length, after).kind == CAPITAL)
                word = was;
            break;
        case PLAIN:
            PUT(g.sign);
            if (g.sign == '\'' && glyph_at(text, length, after).kind == CAPITAL)
                word = was;
            line = SOMETHING;
            break;
        case LITERAL:
            PUT('$');
            PUT(':');
            PUT(g.sign);
            line = SOMETHING;
            break;
        case GAP:
            if (line == BLANK || (line == START && is_blank(text, length, after))) {
                line = BLANK;
                break;
            }
            PUT(' ');
            line = SOMETHING;
            break;
        case NOTHING:
            break;
        case FEED:
            if (line == SOMETHING) {
                PUT('\n');
            } else {
                PUT('$');
                PUT('P');
                single = 0;
            }
            line = START;
            break;
        case PAGE_END:
            PUT('$');
            PUT('N');
            line = SOMETHING;
            break;
        case LONG_DASH:
            PUT('-');
            PUT('-');
            line = SOMETHING;
            break;
        case DOTS:
            PUT('.');
            PUT('.');
            PUT('.');
            line = SOMETHING;
            break;
        case OPENS:
            PUT('$');
            PUT('\'');
            single = 1;
            line = SOMETHING;
            break;
        case UNMARKED:
            *answer = at;
            return 0;
        }
    }
#undef PUT
    *answer = to;
    return 1;
}

static void store(uint64_t answer[FILE_VALUES], size number, size place, size written)
{
    answer[NUMBER] = number;
    answer[PLACE] = place;
    answer[WRITTEN] = written;
}

void TWIN_MARK(const uint8_t *text, uint64_t length, uint8_t *out, uint64_t room, uint64_t answer[FILE_VALUES])
{
    size value;

    if (length > MOST) {
        store(answer, 6, MOST, 0);
        return;
    }
    if (!walk(text, length, 0, &value)) {
        store(answer, 21, value, 0);
        return;
    }
    if (room < value) {
        store(answer, 8, value, 0);
        return;
    }
    walk(text, length, out, &value);
    store(answer, 0, 0, value);
}
