/* Measures the proved call beside the same algorithm in C (rounds.h).

   usage: driver TIMES IMAGE TEXT LAYOUT DOCUMENT...
   It reads the table IMAGE, makes an English text of the documents, writes it to TEXT and what it is embossed as to LAYOUT, and prints
   what it and the placements before it measured. */
#define _POSIX_C_SOURCE 200809L
#include "twins.h"
#include <stdio.h>

extern emboss_call twin_cc_o2, twin_cc_o3, twin_kit;

static const struct {
    const char *name;
    emboss_call *call;
} calls[] = {
    {"proved", tlopahuexi_emboss},
    {"C, cc -O2", twin_cc_o2},
    {"C, cc -O3", twin_cc_o3},
#ifdef HAVE_KIT
    {"C, the kit's clang -O3", twin_kit},
#endif
};

enum {
    CALLS = sizeof calls / sizeof calls[0],
    STORED = VALUES,
    MOST_IMAGE = 28301,
    MOST_TEXT = 16384,
    ROOM = 160000,
    FOLLOWING = ' ',
    YEAR = 1970,
    FIRST_YEAR = 1932,
    LAST_YEAR = 2015,
    TEXT_BYTES = 262144,
    ROUNDS = 40,
    ENTRY = 18,
    DATED_ENTRY = 22,
    DATED = 52,
    MOST_ENTRIES = 1199,
};

struct input {
    const uint8_t *image;
    uint64_t image_length;
    const uint8_t *text;
    uint64_t text_length;
    uint8_t following;
    uint16_t year;
    uint64_t width, page, room;
};

static const char *name_of(int c)
{
    return calls[c].name;
}

static void call(int c, const struct input *in, uint8_t *lent, uint64_t *stored)
{
    calls[c].call(in->image, in->image_length, in->text, in->text_length, in->following, in->year, in->width, in->page, lent, in->room,
                  stored);
}

static void tell(const struct input *in)
{
    fprintf(stderr, "a text of %llu bytes, followed by %u, year %u, W %llu, P %llu, room %llu\n", (unsigned long long)in->text_length,
            in->following, in->year, (unsigned long long)in->width, (unsigned long long)in->page, (unsigned long long)in->room);
}

#include "rounds.h"

/* ---- The table: where its sections lie, by the trailer */

static uint8_t image[MOST_IMAGE + 1];
static uint64_t image_length;

static uint64_t distance(const uint8_t *bytes, uint64_t length, int k)
{
    const uint8_t *p = bytes + length - 14 + 2 * k;

    return p[0] + 256u * p[1];
}

static uint64_t start(const uint8_t *bytes, uint64_t length, int k)
{
    return length - 14 - distance(bytes, length, k);
}

static int in_alphabet(int c)
{
    uint64_t i;

    for (i = 0; i < start(image, image_length, 1); i += 3)
        if (image[i] == c)
            return 1;
    return 0;
}

/* ---- The text: the documents in capitals, an empty line as the sign of a paragraph, and a blank for what the table doesn't have */

static uint8_t text[TEXT_BYTES];
static uint64_t text_length;

static void put(int c)
{
    if (text_length < TEXT_BYTES)
        text[text_length++] = c;
}

static void add_document(const uint8_t *bytes, uint64_t n)
{
    uint64_t i;
    int c;

    for (i = 0; i < n; i++) {
        c = bytes[i];
        if (c >= 'a' && c <= 'z')
            c -= 32;
        if (c == '\n' && i > 0 && bytes[i - 1] == '\n') {
            put('$');
            put('P');
        } else if (c == '\n' || c == '|' || (c != '$' && in_alphabet(c))) {
            put(c);
        } else {
            put(' ');
        }
    }
}

static void make_text(char **names, int documents)
{
    static uint8_t bytes[1 << 20];
    uint64_t had;
    int i;

    do {
        had = text_length;
        for (i = 0; i < documents; i++)
            add_document(bytes, read_bytes(names[i], bytes, sizeof bytes));
    } while (text_length < TEXT_BYTES && text_length > had);
    if (text_length < TEXT_BYTES)
        fail("the documents are empty");
}

/* Where a section of at most `most` bytes that begins at `at` ends: after a blank or a line feed, if it has one. */
static uint64_t section_end(uint64_t at, uint64_t most)
{
    uint64_t end = at + most;

    if (end >= text_length)
        return text_length;
    while (end > at && text[end - 1] != ' ' && text[end - 1] != '\n')
        end--;
    return end > at ? end : at + most;
}

static struct input input(const uint8_t *table, uint64_t length, const uint8_t *lent, uint64_t n)
{
    struct input in = {table, length, lent, n, FOLLOWING, YEAR, WIDTH, PAGE, ROOM};
    return in;
}

/* ---- Tables of any size: entries whose strings stand in the text, in the order backwards by the alphabet, which is grouped */

static uint8_t drawn[MOST_ENTRIES][ENTRY];

static int is_new(int n, const uint8_t *entry)
{
    int k;

    for (k = 0; k < n; k++)
        if (memcmp(drawn[k], entry, 11) == 0)
            return 0;
    return 1;
}

/* Draws the entries: two to ten letters, a right context in one of four, classes 6 to 8, one to three signs. */
static void draw_entries(void)
{
    uint8_t entry[ENTRY];
    const uint8_t *from;
    int n = 0, length, i;

    while (n < MOST_ENTRIES) {
        length = 2 + random_below(9);
        from = text + random_below(text_length - 10);
        memset(entry, 0, 14);
        memset(entry + 14, 99, 4);
        entry[0] = length;
        for (i = 0; i < length && from[i] >= 'A' && from[i] <= 'Z'; i++)
            entry[1 + i] = from[i];
        if (i < length || !is_new(n, entry))
            continue;
        entry[11] = length < 10 && random_below(4) == 0 ? 1 + random_below(2) : 0;
        entry[12] = 6 + random_below(3);
        entry[13] = length;
        for (i = random_below(3); i >= 0; i--)
            entry[14 + i] = 1 + random_below(63);
        memcpy(drawn[n++], entry, ENTRY);
    }
}

static int backwards(const void *a, const void *b)
{
    return memcmp((const uint8_t *)b + 1, (const uint8_t *)a + 1, 10);
}

/* The image with the first n drawn entries in the place of its own. */
static uint64_t make_table(int n, uint8_t *made)
{
    uint64_t before = start(image, image_length, 1), after = start(image, image_length, 2), bytes = ENTRY * (uint64_t)n, length, d;
    int k;

    memcpy(made, image, before);
    memcpy(made + before, drawn, bytes);
    qsort(made + before, n, ENTRY, backwards);
    memcpy(made + before + bytes, image + after, image_length - after);
    length = before + bytes + image_length - after;
    for (k = 0; k < 2; k++) {
        d = distance(image, image_length, k) - (after - before) + bytes;
        made[length - 14 + 2 * k] = d % 256;
        made[length - 14 + 2 * k + 1] = d / 256;
    }
    return length;
}

/* ---- Tables in the dated form */

static void put_two_bytes(uint8_t *p, unsigned number)
{
    p[0] = number % 256;
    p[1] = number / 256;
}

/* The years of entry k: for the times the same, which hold YEAR; to compare, always, that year
   alone, from the next on, up to the one before. */
static void put_years(uint8_t *p, int k, int varied)
{
    static const unsigned first[] = {0, YEAR, YEAR + 1, 0}, last[] = {65535, YEAR, 65535, YEAR - 1};

    put_two_bytes(p, varied ? first[k % 4] : FIRST_YEAR);
    put_two_bytes(p + 2, varied ? last[k % 4] : LAST_YEAR);
}

/* The dated form of an image in the old form. */
static uint64_t make_dated(const uint8_t *old, uint64_t old_length, int varied, uint8_t *made)
{
    uint64_t before = start(old, old_length, 1), after = start(old, old_length, 2), at = before, i, length;
    int k = 0;

    memcpy(made, old, before);
    for (i = before; i < after; i += ENTRY, at += DATED_ENTRY) {
        memcpy(made + at, old + i, ENTRY);
        put_years(made + at + ENTRY, k++, varied);
    }
    memcpy(made + at, old + after, old_length - after);
    length = at + old_length - after;
    for (k = 0; k < 2; k++)
        put_two_bytes(made + length - 14 + 2 * k, distance(old, old_length, k) + (at - after));
    made[length - 1] = DATED;
    return length;
}

/* ---- The twin is a twin: each refusal, at every byte of a table of either form and at the limits,
   each symbol that can follow, years at the edges of entries' years */

/* A table with each of its bytes changed, cut short at each of them, and with neighbouring entries
   exchanged. */
static void compare_tables(const struct input *sound)
{
    static uint8_t damaged[MOST_IMAGE + 1];
    const uint8_t *whole = sound->image;
    uint64_t length = sound->image_length, i, j;
    uint64_t entry = whole[length - 1] == DATED ? DATED_ENTRY : ENTRY;
    struct input in = *sound;

    lend();
    in.text_length = 200;
    in.image = damaged;
    memcpy(damaged, whole, length);
    for (i = 0; i < length; i++) {
        for (j = 1; j < 256; j = 3 * j + 1) {
            damaged[i] = whole[i] ^ j;
            check(&in);
        }
        damaged[i] = whole[i];
        in.image_length = i;
        check(&in);
        in.image_length = length;
    }
    for (i = start(whole, length, 1); i + 2 * entry <= start(whole, length, 2); i += entry) {
        memcpy(damaged + i, whole + i + entry, entry);
        memcpy(damaged + i + entry, whole + i, entry);
        check(&in);
        memcpy(damaged + i, whole + i, 2 * entry);
    }
}

static void compare_years(const struct input *old)
{
    static const uint16_t years[] = {0, 1, YEAR - 1, YEAR, YEAR + 1, 65534, 65535};
    static uint8_t made[MOST_IMAGE + 1];
    struct input in = *old;
    unsigned i;

    in.image = made;
    in.image_length = make_dated(old->image, old->image_length, 1, made);
    compare_tables(&in);
    for (i = 0; i < sizeof years / sizeof years[0]; i++) {
        in.year = years[i];
        lend();
        check(&in);
    }
}

static void compare_refusals(const struct input *sound)
{
    static const uint64_t widths[] = {0, 7, 8, 9, 60, 61, UINT64_MAX}, pages[] = {0, 1, 2, 3, 40, 41, UINT64_MAX};
    static uint8_t lent[MOST_TEXT + 1];
    uint64_t needed, i, j;
    struct input in = *sound;

    compare_tables(sound);
    compare_years(sound);
    in.text_length = 2000;
    for (i = 0; i < sizeof widths / sizeof widths[0]; i++)
        for (j = 0; j < sizeof pages / sizeof pages[0]; j++) {
            in.width = widths[i];
            in.page = pages[j];
            lend();
            check(&in);
        }
    in = *sound;
    memset(lent, 'A', sizeof lent);
    in.text = lent;
    for (i = MOST_TEXT - 1; i <= MOST_TEXT + 1; i++) {
        in.text_length = i;
        check(&in);
    }
    memcpy(lent, text, MOST_TEXT);
    for (i = 0; i < 256; i++) {
        lent[i * 8] = i;
        in.text_length = i * 8 + 1;
        check(&in);
        lent[i * 8] = text[i * 8];
    }
    /* What follows a text that ends one character further on each time, by turns with room, without, and with a character that is in
       no alphabet. */
    in = *sound;
    in.text = lent;
    for (i = 0; i < 256; i++) {
        in.following = i;
        lend();
        for (j = 0; j < 24; j++) {
            in.text_length = 200 + j;
            in.room = j % 3 == 1 ? 3 : ROOM;
            lent[100] = j % 3 == 2 ? 1 : text[100];
            check(&in);
        }
    }
    in = *sound;
    check(&in);
    needed = answer[PROVED][WRITTEN];
    for (i = needed - 2; i <= needed + 1; i++) {
        in.room = i;
        lend();
        check(&in);
    }
}

/* ---- What is printed */

static void whole_text(const struct input *sections, int count, const char *layout)
{
    struct times *t;
    uint64_t bytes = 0, pieces = 0, lines = 0, pages = 0;
    FILE *f = fopen(layout, "wb");
    int c, i;

    for (i = 0; i < count; i++) {
        check(&sections[i]);
        if (answer[PROVED][NUMBER] != 0)
            fail("section %d of the text is refused with number %llu", i, (unsigned long long)answer[PROVED][NUMBER]);
        if (!f || fwrite(out[PROVED], 1, answer[PROVED][WRITTEN], f) != answer[PROVED][WRITTEN])
            fail("%s can't be written", layout);
        bytes += sections[i].text_length;
        pieces += answer[PROVED][PIECES];
        lines += answer[PROVED][LINES];
        pages += answer[PROVED][PAGES];
    }
    if (!f || fclose(f) != 0)
        fail("%s can't be written", layout);
    t = measure(sections, count, ROUNDS);
    printf("The whole text: %llu characters in %d sections, %llu pieces, %llu lines, %llu pages (W %d, P %d)\n\n", (unsigned long long)bytes,
           count, (unsigned long long)pieces, (unsigned long long)lines, (unsigned long long)pages, WIDTH, PAGE);
    printf("  %-24s %10s %16s %14s %10s %14s\n", "call", "ns/char", "worst placement", "characters/s", "pages/s", "proved / this");
    for (c = 0; c < CALLS; c++)
        printf("  %-24s %10.1f %16.1f %14.0f %10.0f %14.2f\n", calls[c].name, t->best[c] / bytes, t->worst[c] / bytes,
               bytes / t->best[c] * 1e9, pages / t->best[c] * 1e9, t->best[PROVED] / t->best[c]);
    printf("\n");
}

static void growing_text(void)
{
    uint64_t n;

    printf("As the text grows, by the English table; C is the fastest of them\n\n");
    printf("  %10s %12s %14s %10s %8s\n", "characters", "proved, us", "proved ns/char", "C ns/char", "ratio");
    for (n = 1024; n <= MOST_TEXT; n *= 2) {
        struct input in = input(image, image_length, text, n);
        struct times *t = measure(&in, 1, 5 * ROUNDS);

        printf("  %10llu %12.1f %14.1f %10.1f %8.2f\n", (unsigned long long)n, t->best[PROVED] / 1e3, t->best[PROVED] / n, fastest(t) / n,
               t->best[PROVED] / fastest(t));
    }
    printf("\n");
}

static void growing_table(void)
{
    static const int sizes[] = {10, 50, 200, 600, MOST_ENTRIES};
    static uint8_t made[MOST_IMAGE + 1];
    uint64_t n = section_end(0, MOST_TEXT), i;

    printf("As the table grows, drawn tables and a text of %llu characters\n\n", (unsigned long long)n);
    printf("  %10s %8s %14s %15s %10s %8s\n", "entries", "pieces", "proved ns/char", "proved ns/piece", "C ns/char", "ratio");
    for (i = 0; i < sizeof sizes / sizeof sizes[0]; i++) {
        uint64_t length = make_table(sizes[i], made);
        struct input in = input(made, length, text, n);
        struct times *t = measure(&in, 1, 3 * ROUNDS);

        if (answer[PROVED][NUMBER] != 0)
            fail("the drawn table of %d entries is refused with number %llu", sizes[i], (unsigned long long)answer[PROVED][NUMBER]);
        printf("  %10d %8llu %14.1f %15.1f %10.1f %8.2f\n", sizes[i], (unsigned long long)answer[PROVED][PIECES], t->best[PROVED] / n,
               t->best[PROVED] / answer[PROVED][PIECES], fastest(t) / n, t->best[PROVED] / fastest(t));
    }
    printf("\n");
}

/* The inputs again by the same table in the dated form, whose entries are all in force: the bytes
   are to be the same. Then the check alone of both forms, by W 7. */
static void form_beside_form(const char *name, const struct input *old, int count)
{
    static struct input dated[TEXT_BYTES / 1024];
    static uint8_t made[MOST_IMAGE + 1], printed[ROOM];
    uint64_t bytes = 0, length = make_dated(old[0].image, old[0].image_length, 0, made), values[VALUES];
    struct times *t[4];
    struct input check_old = old[0], check_dated;
    int i;

    for (i = 0; i < count; i++) {
        dated[i] = old[i];
        dated[i].image = made;
        dated[i].image_length = length;
        bytes += old[i].text_length;
        lend();
        check(&old[i]);
        memcpy(printed, out[PROVED], ROOM);
        memcpy(values, answer[PROVED], sizeof values);
        lend();
        check(&dated[i]);
        if (values[NUMBER] != 0 || memcmp(values, answer[PROVED], sizeof values) != 0 || memcmp(printed, out[PROVED], ROOM) != 0)
            fail("section %d of the text isn't printed alike by both forms of the table '%s'", i, name);
    }
    check_old.width = 7;
    check_dated = check_old;
    check_dated.image = made;
    check_dated.image_length = length;
    t[0] = measure(old, count, ROUNDS);
    t[1] = measure(dated, count, ROUNDS);
    t[2] = measure(&check_old, 1, 3 * ROUNDS);
    t[3] = measure(&check_dated, 1, 3 * ROUNDS);
    for (i = 0; i < 2; i++)
        printf("  %-10s %-6s %14.1f %10.2f %10.1f %10.2f %15.1f %10.2f\n", name, i ? "dated" : "old", t[i]->best[PROVED] / bytes,
               t[i]->best[PROVED] / t[0]->best[PROVED], fastest(t[i]) / bytes, fastest(t[i]) / fastest(t[0]), t[2 + i]->best[PROVED] / 1e3,
               t[2 + i]->best[PROVED] / t[2]->best[PROVED]);
}

static void both_forms(const struct input *sections, int count)
{
    static uint8_t made[MOST_IMAGE + 1];
    struct input largest = input(made, make_table(MOST_ENTRIES, made), text, section_end(0, MOST_TEXT));

    printf("Both forms of a table, each beside the old one: all entries of the dated form are from %d to %d, the year asked is %d\n\n",
           FIRST_YEAR, LAST_YEAR, YEAR);
    printf("  %-10s %-6s %14s %10s %10s %10s %15s %10s\n", "table", "form", "proved ns/char", "to old", "C ns/char", "to old",
           "check alone, us", "to old");
    form_beside_form("English", sections, count);
    form_beside_form("1,199", &largest, 1);
    printf("\n");
}

/* W 7 is out of its limits, so that such a call judges the table and does nothing else. */
static void share_of_check(const char *name, const uint8_t *table, uint64_t length)
{
    static const uint64_t lengths[] = {0, 0, 1024, MOST_TEXT};
    struct times *t[4];
    double check_alone;
    int i;

    for (i = 0; i < 4; i++) {
        struct input in = input(table, length, text, lengths[i]);

        if (i == 0)
            in.width = 7;
        t[i] = measure(&in, 1, 3 * ROUNDS);
    }
    check_alone = t[0]->best[PROVED];
    printf("  %-10s %11.1f %10.1f %10.1f %10.1f %9.1f%% %9.1f%% %10.1f %8.2f\n", name, check_alone / 1e3, t[1]->best[PROVED] / 1e3,
           t[2]->best[PROVED] / 1e3, t[3]->best[PROVED] / 1e3, 100 * check_alone / t[2]->best[PROVED], 100 * check_alone / t[3]->best[PROVED],
           fastest(t[0]) / 1e3, check_alone / fastest(t[0]));
}

static void shares(void)
{
    static uint8_t made[MOST_IMAGE + 1];

    printf("The share of the table's check: microseconds of the proved call, and the check alone in C\n\n");
    printf("  %-10s %11s %10s %10s %10s %10s %10s %10s %8s\n", "table", "check alone", "no text", "1,024", "16,384", "of 1,024", "of 16,384",
           "C's check", "ratio");
    share_of_check("English", image, image_length);
    share_of_check("1,199", made, make_table(MOST_ENTRIES, made));
    printf("\n");
}

int main(int words, char **word)
{
    static struct input sections[TEXT_BYTES / 1024];
    uint64_t at, end;
    int count = 0;
    FILE *f;

    if (words < 6)
        fail("usage: driver TIMES IMAGE TEXT LAYOUT DOCUMENT...");
    read_times(word[1]);
    image_length = read_bytes(word[2], image, sizeof image);
    if (image_length < 14)
        fail("%s is no table", word[2]);
    make_text(word + 5, words - 5);
    f = fopen(word[3], "wb");
    if (!f || fwrite(text, 1, text_length, f) != text_length || fclose(f) != 0)
        fail("%s can't be written", word[3]);
    for (at = 0; at < text_length; at = end) {
        end = section_end(at, MOST_TEXT);
        sections[count++] = input(image, image_length, text + at, end - at);
    }
    draw_entries();
    compare_refusals(&sections[0]);
    whole_text(sections, count, word[4]);
    growing_text();
    growing_table();
    shares();
    both_forms(sections, count);
    printf("Compared in each placement: %ld inputs, six values and every output byte, no difference\n", compared);
    write_times(word[1]);
    return 0;
}
