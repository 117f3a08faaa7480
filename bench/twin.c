/* The proved call's algorithm in C, in the order of the crates: table, translation, pages, layout. It is what a C
   programmer would write: pointers to records, plain loops, no test whether an index lies within the image, no clearing of buffers that
   are written before they are read. It needs no header but stdint.h, so that a compiler without a C library can compile it. */
#include "twins.h"

typedef uint64_t size;

/* ---- table: where the sections lie (framing) */

enum { TRAILER = 14 };

struct section {
    uint16_t start, size, records;
};

struct sections {
    struct section alphabet, contractions, contexts, transitions, decisions;
    uint16_t classes, variables;
};

/* The trailer's last byte, and the bytes of a contraction record, in the old form and in the dated
   one. */
enum { OLD = 51, DATED = 52, ENTRY = 18, DATED_ENTRY = 22 };

static size number_at(const uint8_t *p)
{
    return p[0] + 256 * (size)p[1];
}

static int trailer_right(const uint8_t *trailer)
{
    return trailer[12] == 66 && (trailer[13] == OLD || trailer[13] == DATED) && 1 <= trailer[10] && trailer[10] <= 40 && trailer[11] <= 15;
}

static int distances_right(const size *d, size at)
{
    return d[0] == at && d[1] <= d[0] && d[2] <= d[1] && d[3] <= d[2] && d[4] <= d[3];
}

static struct section section_of(size at, size d, size e, size bytes)
{
    struct section s = {at - d, bytes, (d - e) / bytes};
    return s;
}

static int whole_records(const struct section *s, size bytes, size least, size most)
{
    return (size)s->size * s->records == bytes && least <= s->records && s->records <= most;
}

/* The sections of an image; no classes where its frame is wrong. */
static struct sections locate(const uint8_t *image, size length)
{
    struct sections none = {0}, s;
    size d[6], at;
    int k;

    if (length < TRAILER)
        return none;
    at = length - TRAILER;
    for (k = 0; k < 5; k++)
        d[k] = number_at(image + at + 2 * k);
    d[5] = 0;
    if (!trailer_right(image + at) || !distances_right(d, at))
        return none;
    s.classes = image[at + 10];
    s.variables = image[at + 11];
    s.alphabet = section_of(at, d[0], d[1], 3);
    s.contractions = section_of(at, d[1], d[2], image[at + 13] == DATED ? DATED_ENTRY : ENTRY);
    s.contexts = section_of(at, d[2], d[3], 4);
    s.transitions = section_of(at, d[3], d[4], s.classes);
    s.decisions = section_of(at, d[4], d[5], s.classes + s.variables);
    if (whole_records(&s.alphabet, d[0] - d[1], 1, 63) && whole_records(&s.contractions, d[1] - d[2], 0, 1199) &&
        whole_records(&s.contexts, d[2] - d[3], 0, 5) && whole_records(&s.transitions, d[3] - d[4], s.variables, s.variables) &&
        whole_records(&s.decisions, d[4], 0, 20))
        return s;
    return none;
}

/* ---- table: records, read where they lie (read) */

static size offset_of(const struct section *s, size k)
{
    return s->start + s->size * k;
}

static const uint8_t *record(const uint8_t *image, const struct section *s, size k)
{
    return image + offset_of(s, k);
}

/* ---- table: right records (records) */

static void letters_by_symbol(const uint8_t *image, const struct sections *s, uint16_t letters[256])
{
    size k, c;

    for (c = 0; c < 256; c++)
        letters[c] = 0;
    for (k = 0; k < s->alphabet.records; k++) {
        c = record(image, &s->alphabet, k)[0];
        if (letters[c] == 0)
            letters[c] = k + 1;
    }
}

static int symbol_right(uint8_t c)
{
    return 32 <= c && c <= 126 && c != 124;
}

static int class_right(size classes, uint8_t c)
{
    return 1 <= c && c <= classes;
}

static int letter_sign_right(uint8_t g)
{
    return g <= 64 || g == 99;
}

static int entry_sign_right(uint8_t g)
{
    return letter_sign_right(g) || (70 <= g && g <= 73);
}

static int sign_after_right(uint8_t before, uint8_t g)
{
    return before == 99 ? g == 99 : entry_sign_right(g);
}

static int condition_right(uint8_t b)
{
    return b == 'Y' || b == 'N' || b == '-';
}

enum kind { CLASS, TRANSITION, DECISION, CONDITION };

static int byte_right(enum kind kind, size classes, uint8_t b)
{
    switch (kind) {
    case CLASS:
        return class_right(classes, b);
    case TRANSITION:
        return b == 'R' || b == 'S' || b == 'T' || b == '-';
    case DECISION:
        return b == 'G' || b == 'F' || condition_right(b);
    default:
        return condition_right(b);
    }
}

/* The first byte that isn't of this kind, or -1. */
static int bytes_wrong(const uint8_t *bytes, size n, enum kind kind, size classes)
{
    size j;

    for (j = 0; j < n; j++)
        if (!byte_right(kind, classes, bytes[j]))
            return j;
    return -1;
}

static int string_wrong(const uint8_t *string, const uint16_t letters[256], size length)
{
    size i;

    for (i = 0; i < 10; i++)
        if (i < length ? letters[string[i]] == 0 : string[i] != 0)
            return i;
    return -1;
}

static int context_right(const struct sections *s, size length, uint8_t context)
{
    return context <= s->contexts.records && (context == 0 || length != 10);
}

static int signs_wrong(const uint8_t *signs)
{
    uint8_t before = 0;
    int i;

    for (i = 0; i < 4; i++) {
        if (!sign_after_right(before, signs[i]))
            return i;
        before = signs[i];
    }
    return -1;
}

/* The first wrong byte of a record of each kind, or -1. */
static int letter_wrong(const uint8_t *r, const struct sections *s, const uint16_t letters[256], size k)
{
    if (!symbol_right(r[0]) || letters[r[0]] != k + 1)
        return 0;
    if (!class_right(s->classes, r[1]))
        return 1;
    if (!letter_sign_right(r[2]))
        return 2;
    return -1;
}

static int entry_wrong(const uint8_t *r, const struct sections *s, const uint16_t letters[256])
{
    int i;

    if (r[0] < 1 || 10 < r[0])
        return 0;
    i = string_wrong(r + 1, letters, r[0]);
    if (i >= 0)
        return 1 + i;
    if (!context_right(s, r[0], r[11]))
        return 11;
    if (!class_right(s->classes, r[12]))
        return 12;
    if (r[13] < 1 || r[0] < r[13])
        return 13;
    i = signs_wrong(r + 14);
    if (i >= 0)
        return 14 + i;
    return s->contractions.size == DATED_ENTRY && number_at(r + 20) < number_at(r + 18) ? 18 : -1;
}

static int decision_wrong(const uint8_t *r, const struct sections *s)
{
    int j = bytes_wrong(r, s->classes, DECISION, 0);

    if (j >= 0)
        return j;
    j = bytes_wrong(r + s->classes, s->variables, CONDITION, 0);
    return j >= 0 ? s->classes + j : -1;
}

static const struct section *section_at(const struct sections *s, int i)
{
    switch (i) {
    case 0:
        return &s->alphabet;
    case 1:
        return &s->contractions;
    case 2:
        return &s->contexts;
    case 3:
        return &s->transitions;
    default:
        return &s->decisions;
    }
}

static int record_wrong(const uint8_t *r, const struct sections *s, const uint16_t letters[256], int i, size k)
{
    switch (i) {
    case 0:
        return letter_wrong(r, s, letters, k);
    case 1:
        return entry_wrong(r, s, letters);
    case 2:
        return bytes_wrong(r, 4, CLASS, s->classes);
    case 3:
        return bytes_wrong(r, s->classes, TRANSITION, 0);
    default:
        return decision_wrong(r, s);
    }
}

/* A wrong record: its section, its number there, and its first wrong byte, -1 where none is wrong. */
struct wrong {
    int section;
    size record;
    int byte;
};

/* The first wrong record of a section. */
static struct wrong wrong_in(const uint8_t *image, const struct sections *s, const uint16_t letters[256], int i)
{
    const struct section *section = section_at(s, i);
    struct wrong w = {i, 0, -1};

    for (; w.record < section->records; w.record++) {
        w.byte = record_wrong(record(image, section, w.record), s, letters, i, w.record);
        if (w.byte >= 0)
            return w;
    }
    return w;
}

/* The first wrong record in image order. */
static struct wrong first_wrong(const uint8_t *image, const struct sections *s, const uint16_t letters[256])
{
    struct wrong w;
    int i;

    for (i = 0; i < 5; i++) {
        w = wrong_in(image, s, letters, i);
        if (w.byte >= 0)
            return w;
    }
    return w;
}

/* ---- table: grouping (groups) */

static size agreement_of(const uint8_t *a, size m, const uint8_t *b, size n)
{
    size i;

    for (i = 0; i < m; i++)
        if (n <= i || a[i] != b[i])
            return i;
    return i;
}

/* In how many characters the strings of two records agree. */
static size agreement_with(const uint8_t *image, const struct sections *s, size q, const uint8_t *string, size length)
{
    const uint8_t *r = record(image, &s->contractions, q);

    return agreement_of(r + 1, r[0], string, length);
}

static int breaks_at(const uint8_t *image, const struct sections *s, size r)
{
    const uint8_t *own = record(image, &s->contractions, r);
    size q = r - 1, near = agreement_with(image, s, q, own + 1, own[0]), shared;

    if (near == own[0])
        return 0;
    while (0 < q) {
        q--;
        shared = agreement_with(image, s, q, own + 1, own[0]);
        if (near < shared)
            return 1;
        if (shared < near)
            return 0;
    }
    return 0;
}

/* The first record that breaks the grouping, or 0. */
static size first_break(const uint8_t *image, const struct sections *s)
{
    size r;

    for (r = 1; r < s->contractions.records; r++)
        if (breaks_at(image, s, r))
            return r;
    return 0;
}

/* ---- table: the verdict (judge) */

struct fault {
    size number, place;
};

static struct fault fault_at(size number, size place)
{
    struct fault f = {number, place};
    return f;
}

/* The number of a wrong record of a section. */
static size number_in(int i)
{
    switch (i) {
    case 0:
        return 2;
    case 1:
        return 11;
    case 2:
        return 12;
    case 3:
        return 13;
    default:
        return 14;
    }
}

static struct fault judged(const uint8_t *image, const struct sections *s)
{
    uint16_t letters[256];
    struct wrong w;
    size r;

    letters_by_symbol(image, s, letters);
    w = first_wrong(image, s, letters);
    if (w.byte >= 0)
        return fault_at(number_in(w.section), offset_of(section_at(s, w.section), w.record) + w.byte);
    if (letters[' '] == 0)
        return fault_at(3, 0);
    r = first_break(image, s);
    return r != 0 ? fault_at(4, offset_of(&s->contractions, r)) : fault_at(0, 0);
}

/* The verdict on an image, by its sections: number 0 where it is accepted. */
static struct fault verdict_on(const uint8_t *image, const struct sections *s)
{
    return s->classes == 0 ? fault_at(1, 0) : judged(image, s);
}

/* ---- translation: the alphabet (alphabet) */

/* The alphabet record of a symbol, or null. */
static const uint8_t *letter_of(const uint8_t *image, const struct sections *s, uint8_t c)
{
    const uint8_t *r = image + s->alphabet.start;
    size n = s->alphabet.records, step = s->alphabet.size, k;

    for (k = 0; k < n; k++, r += step)
        if (r[0] == c)
            return r;
    return 0;
}

static uint8_t class_of(const uint8_t *image, const struct sections *s, uint8_t c)
{
    const uint8_t *r = letter_of(image, s, c);

    return r ? r[1] : 0;
}

static uint8_t sign_of(const uint8_t *image, const struct sections *s, uint8_t c)
{
    const uint8_t *r = letter_of(image, s, c);

    return r ? r[2] : 99;
}

static uint8_t unfed(uint8_t c)
{
    return c == '\n' ? ' ' : c;
}

/* The place of the first character without an alphabet record, or -1. */
static int64_t first_unknown(const uint8_t *image, const struct sections *s, const uint8_t *text, size length)
{
    size i;

    for (i = 0; i < length; i++)
        if (text[i] != '|' && !letter_of(image, s, unfed(text[i])))
            return i;
    return -1;
}

/* ---- translation: collapsing (collapsing) */

static size collapse(const uint8_t *text, size length, uint8_t *out)
{
    size written = 0, i;
    int kept = 1;
    uint8_t c;

    for (i = 0; i < length; i++) {
        if (text[i] == '|')
            continue;
        c = unfed(text[i]);
        if (c == ' ') {
            if (kept == 0)
                continue;
            kept--;
        } else {
            kept = c == '.' ? 2 : 1;
        }
        out[written++] = c;
    }
    return written;
}

/* ---- translation: the state variables (variables) */

struct states {
    uint8_t yes[15];
};

/* The byte of a class in a record that begins with a byte for each class, a hyphen where it has none. */
static uint8_t byte_of_class(const uint8_t *r, size classes, uint8_t c)
{
    size j = c == 0 ? 0 : c - 1;

    return j < classes ? r[j] : '-';
}

static void move(const uint8_t *image, const struct sections *s, struct states *states, uint8_t c)
{
    size v;

    for (v = 0; v < s->transitions.records; v++)
        switch (byte_of_class(record(image, &s->transitions, v), s->classes, c)) {
        case 'R':
            states->yes[v] = 0;
            break;
        case 'S':
            states->yes[v] = 1;
            break;
        case 'T':
            states->yes[v] = !states->yes[v];
            break;
        }
}

/* ---- translation: decisions (deciding) */

static int conditions_hold(const uint8_t *conditions, size variables, const struct states *states)
{
    size v;

    for (v = 0; v < variables; v++)
        if ((conditions[v] == 'Y' && !states->yes[v]) || (conditions[v] == 'N' && states->yes[v]))
            return 0;
    return 1;
}

static int decide(const uint8_t *image, const struct sections *s, const struct states *states, uint8_t c)
{
    const uint8_t *r;
    size k;

    for (k = 0; k < s->decisions.records; k++) {
        r = record(image, &s->decisions, k);
        switch (byte_of_class(r, s->classes, c)) {
        case 'G':
            return 1;
        case 'F':
            return 0;
        case 'Y':
            if (conditions_hold(r + s->classes, s->variables, states))
                return 1;
            break;
        case 'N':
            if (conditions_hold(r + s->classes, s->variables, states))
                return 0;
            break;
        }
    }
    return 0;
}

/* ---- translation: the choice of entry (choosing) */

static int starts(const uint8_t *string, size n, const uint8_t *rest, size left)
{
    size i;

    if (left < n)
        return 0;
    for (i = 0; i < n; i++)
        if (string[i] != rest[i])
            return 0;
    return 1;
}

static int begins(const uint8_t *r, const uint8_t *rest, size left)
{
    return starts(r + 1, r[0], rest, left);
}

/* What translation is told besides the table and the text. */
struct setting {
    uint8_t following;
    uint16_t year;
};

static int in_force(const struct sections *s, struct setting set, const uint8_t *r)
{
    return s->contractions.size == ENTRY || (number_at(r + 18) <= set.year && set.year <= number_at(r + 20));
}

static int context_holds(const uint8_t *image, const struct sections *s, struct setting set, const uint8_t *r, const uint8_t *rest, size left)
{
    const uint8_t *classes;
    uint8_t c;
    int i;

    if (r[11] == 0)
        return 1;
    c = class_of(image, s, r[0] < left ? rest[r[0]] : set.following);
    classes = record(image, &s->contexts, r[11] - 1);
    for (i = 0; i < 4; i++)
        if (classes[i] == c)
            return 1;
    return 0;
}

static int admits(const uint8_t *image, const struct sections *s, struct setting set, const struct states *states, const uint8_t *r,
                  const uint8_t *rest, size left)
{
    return begins(r, rest, left) && in_force(s, set, r) && context_holds(image, s, set, r, rest, left) && decide(image, s, states, r[12]);
}

/* The first admissible entry, or null. */
static const uint8_t *search(const uint8_t *image, const struct sections *s, struct setting set, const struct states *states,
                             const uint8_t *rest, size left)
{
    const uint8_t *r = image + s->contractions.start;
    size n = s->contractions.records, step = s->contractions.size, k;
    uint8_t first = rest[0];

    for (k = 0; k < n; k++, r += step)
        if (r[1] == first && admits(image, s, set, states, r, rest, left))
            return r;
    return 0;
}

/* ---- translation: pieces (piecing) */

static size print(uint8_t sign, uint8_t *signs, size at)
{
    if (sign == 99)
        return at;
    signs[at] = sign == 64 ? 0 : sign;
    return at + 1;
}

struct counts {
    size pieces, signs;
};

static struct counts consume(const uint8_t *image, const struct sections *s, struct setting set, const uint8_t *text, size length,
                             uint8_t *signs)
{
    struct states states = {{0}};
    struct counts n = {0, 0};
    const uint8_t *r;
    size at = 0;
    uint8_t class;
    int i;

    while (at < length) {
        r = search(image, s, set, &states, text + at, length - at);
        if (r) {
            for (i = 0; i < 4; i++)
                n.signs = print(r[14 + i], signs, n.signs);
            class = r[12];
            at += r[13];
        } else {
            n.signs = print(sign_of(image, s, text[at]), signs, n.signs);
            class = class_of(image, s, text[at]);
            at++;
        }
        n.pieces++;
        move(image, s, &states, class);
    }
    return n;
}

/* ---- layout: the place and its moves (moving) */

struct place {
    size column, line, opening, written, lines, pages;
};

static void line_done(struct place *p, size page)
{
    p->column = 0;
    p->lines++;
    if (p->line + 1 == page) {
        p->line = 0;
        p->written += 2;
        p->pages++;
    } else {
        p->line++;
        p->written++;
    }
}

static void line_end(struct place *p, size page)
{
    if (0 < p->column)
        line_done(p, page);
}

static void cells(struct place *p, size blanks, size n)
{
    p->column += blanks + n;
    p->written += blanks + n;
    p->opening = 0;
}

static size opening_blanks(const struct place *p, size width, size n)
{
    return p->opening && 2 + n <= width ? 2 : 0;
}

static void word(struct place *p, size width, size page, size n)
{
    if (p->column == 0) {
        cells(p, opening_blanks(p, width, n), n);
    } else if (p->column + 1 + n <= width) {
        cells(p, 1, n);
    } else {
        line_done(p, page);
        cells(p, opening_blanks(p, width, n), n);
    }
}

static void empty_line(struct place *p, size page)
{
    line_end(p, page);
    if (0 < p->line)
        line_done(p, page);
}

static void paragraph(struct place *p, size page)
{
    line_end(p, page);
    p->opening = 1;
}

static void page_end(struct place *p, size page)
{
    line_end(p, page);
    if (0 < p->line) {
        p->column = 0;
        p->line = 0;
        p->written++;
        p->pages++;
    }
}

/* ---- layout: the pass of the place alone (measuring) */

static int is_format(uint8_t g)
{
    return 70 <= g && g <= 73;
}

static void flush(struct place *p, size width, size page, size n)
{
    if (0 < n)
        word(p, width, page, n);
}

static void format(struct place *p, size page, uint8_t g)
{
    switch (g) {
    case 70:
        line_end(p, page);
        break;
    case 71:
        empty_line(p, page);
        break;
    case 72:
        paragraph(p, page);
        break;
    case 73:
        page_end(p, page);
        break;
    }
}

/* The cells of a word wait until there is one more than the width: only that one says that the
   word is cut. Then all but the last of those that wait are placed, with the hyphen, and the last
   and the new one wait. */
static struct place measure(const uint8_t *signs, size length, size width, size page)
{
    struct place p = {0};
    size n = 0, i;

    for (i = 0; i < length; i++) {
        if (signs[i] == 0) {
            flush(&p, width, page, n);
            n = 0;
        } else if (is_format(signs[i])) {
            flush(&p, width, page, n);
            format(&p, page, signs[i]);
            n = 0;
        } else if (n < width) {
            n++;
        } else {
            word(&p, width, page, width);
            n = 2;
        }
    }
    flush(&p, width, page, n);
    page_end(&p, page);
    return p;
}

/* ---- layout: the pass that writes (writing) */

enum { HYPHEN = 36 };

static void put_cells(uint8_t *out, struct place *p, size blanks, const uint8_t *run, size n)
{
    uint8_t *to = out + p->written;
    size j;

    for (j = 0; j < blanks; j++)
        to[j] = 0;
    to += blanks;
    for (j = 0; j < n; j++)
        to[j] = run[j];
    cells(p, blanks, n);
}

static void put_line(uint8_t *out, struct place *p, size page)
{
    out[p->written] = 64;
    if (p->line + 1 == page)
        out[p->written + 1] = 65;
    line_done(p, page);
}

static void put_line_end(uint8_t *out, struct place *p, size page)
{
    if (0 < p->column)
        put_line(out, p, page);
}

static void put_empty_line(uint8_t *out, struct place *p, size page)
{
    put_line_end(out, p, page);
    if (0 < p->line)
        put_line(out, p, page);
}

static void put_paragraph(uint8_t *out, struct place *p, size page)
{
    put_line_end(out, p, page);
    p->opening = 1;
}

static void put_page_end(uint8_t *out, struct place *p, size page)
{
    put_line_end(out, p, page);
    if (0 < p->line) {
        out[p->written] = 65;
        page_end(p, page);
    }
}

static void put_word(uint8_t *out, struct place *p, const uint8_t *run, size n, size width, size page)
{
    if (p->column == 0) {
        put_cells(out, p, opening_blanks(p, width, n), run, n);
    } else if (p->column + 1 + n <= width) {
        put_cells(out, p, 1, run, n);
    } else {
        put_line(out, p, page);
        put_cells(out, p, opening_blanks(p, width, n), run, n);
    }
}

static void put_flush(uint8_t *out, struct place *p, const uint8_t *run, size n, size width, size page)
{
    if (0 < n)
        put_word(out, p, run, n, width, page);
}

static void put_format(uint8_t *out, struct place *p, size page, uint8_t g)
{
    switch (g) {
    case 70:
        put_line_end(out, p, page);
        break;
    case 71:
        put_empty_line(out, p, page);
        break;
    case 72:
        put_paragraph(out, p, page);
        break;
    case 73:
        put_page_end(out, p, page);
        break;
    }
}

/* The word in `run` has as many cells as the width, and here comes one more. */
static void put_part(uint8_t *out, struct place *p, uint8_t *run, uint8_t g, size width, size page)
{
    uint8_t held = run[width - 1];

    run[width - 1] = HYPHEN;
    put_word(out, p, run, width, width, page);
    run[0] = held;
    run[1] = g;
}

static void write(const uint8_t *signs, size length, size width, size page, uint8_t *out)
{
    uint8_t run[60];
    struct place p = {0};
    size n = 0, i;

    for (i = 0; i < length; i++) {
        if (signs[i] == 0) {
            put_flush(out, &p, run, n, width, page);
            n = 0;
        } else if (is_format(signs[i])) {
            put_flush(out, &p, run, n, width, page);
            put_format(out, &p, page, signs[i]);
            n = 0;
        } else if (n < width) {
            run[n++] = signs[i];
        } else {
            put_part(out, &p, run, signs[i], width, page);
            n = 2;
        }
    }
    put_flush(out, &p, run, n, width, page);
    put_page_end(out, &p, page);
}

/* ---- layout: the whole call (embossing, filling, answering) */

static void store(uint64_t answer[VALUES], size number, size place)
{
    int i;

    for (i = 0; i < VALUES; i++)
        answer[i] = 0;
    answer[NUMBER] = number;
    answer[PLACE] = place;
}

static void fill(const uint8_t *signs, struct counts n, size width, size page, uint8_t *out, size room, uint64_t answer[VALUES])
{
    struct place end = measure(signs, n.signs, width, page);

    if (room < end.written) {
        store(answer, 8, end.written);
        return;
    }
    write(signs, n.signs, width, page, out);
    store(answer, 0, 0);
    answer[WRITTEN] = end.written;
    answer[PIECES] = n.pieces;
    answer[LINES] = end.lines;
    answer[PAGES] = end.pages;
}

void TWIN(const uint8_t *image, uint64_t image_length, const uint8_t *text, uint64_t text_length, uint8_t following, uint16_t year,
          uint64_t width, uint64_t page, uint8_t *out, uint64_t room, uint64_t answer[VALUES])
{
    uint8_t signs[65536], collapsed[16384];
    struct setting set = {following, year};
    struct sections s = locate(image, image_length);
    struct fault fault = verdict_on(image, &s);
    int64_t unknown;
    size n;

    if (fault.number != 0) {
        store(answer, fault.number, fault.place);
        return;
    }
    if (width < 8 || 60 < width || page < 2 || 40 < page) {
        store(answer, 5, 0);
        return;
    }
    if (16384 < text_length) {
        store(answer, 6, 16384);
        return;
    }
    n = collapse(text, text_length, collapsed);
    unknown = first_unknown(image, &s, text, text_length);
    if (unknown >= 0) {
        store(answer, 7, unknown);
        return;
    }
    if (!letter_of(image, &s, following)) {
        store(answer, 15, 0);
        return;
    }
    fill(signs, consume(image, &s, set, collapsed, n, signs), width, page, out, room, answer);
}
