/* Measures the proved calls that write and read embosser files beside the same in C (rounds.h).

   usage: files TIMES LAYOUT
   It reads LAYOUT, which is the layout of a text on the sheet of rounds.h, and prints what it and the placements before it measured. */
#define _POSIX_C_SOURCE 200809L
#include "twins.h"
#include <stdio.h>

extern file_call write_cc_o2, write_cc_o3, write_kit, read_cc_o2, read_cc_o3, read_kit;

enum { WRITING, READING, WAYS };

static const struct {
    const char *name;
    file_call *call[WAYS];
} calls[] = {
    {"proved", {tlopahuexi_write_file, tlopahuexi_read_file}},
    {"C, cc -O2", {write_cc_o2, read_cc_o2}},
    {"C, cc -O3", {write_cc_o3, read_cc_o3}},
#ifdef HAVE_KIT
    {"C, the kit's clang -O3", {write_kit, read_kit}},
#endif
};

enum {
    CALLS = sizeof calls / sizeof calls[0],
    STORED = FILE_VALUES,
    ROOM = 1 << 19,
    ROUNDS = 200,
    LEAST_BYTES = 150000,
    DRAWN = 400,
    DRAWS = 50000,
};

struct input {
    int way;
    const uint8_t *bytes;
    uint64_t length, width, page, room;
};

static const char *name_of(int c)
{
    return calls[c].name;
}

static void call(int c, const struct input *in, uint8_t *lent, uint64_t *stored)
{
    calls[c].call[in->way](in->bytes, in->length, in->width, in->page, lent, in->room, stored);
}

static void tell(const struct input *in)
{
    fprintf(stderr, "%s, %llu bytes, W %llu, P %llu, room %llu\n", in->way == WRITING ? "writing" : "reading",
            (unsigned long long)in->length, (unsigned long long)in->width, (unsigned long long)in->page, (unsigned long long)in->room);
}

#include "rounds.h"

/* ---- The layout and its file */

static uint8_t layout[ROOM], file[ROOM];
static uint64_t length, pages;

static struct input input(int way, uint64_t n)
{
    struct input in = {way, way == WRITING ? layout : file, n, WIDTH, PAGE, ROOM};
    return in;
}

/* The bytes of the first pages. */
static uint64_t bytes_of_pages(uint64_t n)
{
    uint64_t i;

    for (i = 0; i < length && n > 0; i++)
        n -= layout[i] == 65;
    return i;
}

static void make_file(const char *name)
{
    struct input in;
    uint64_t i;

    length = read_bytes(name, layout, ROOM);
    for (i = 0; i < length; i++)
        pages += layout[i] == 65;
    in = input(WRITING, length);
    lend();
    check(&in);
    if (answer[PROVED][NUMBER] != 0 || length < LEAST_BYTES || length == ROOM)
        fail("%s is no layout of %d to %d bytes", name, LEAST_BYTES, ROOM - 1);
    memcpy(file, out[PROVED], length);
    in = input(READING, length);
    lend();
    check(&in);
    if (answer[PROVED][NUMBER] != 0 || memcmp(out[PROVED], layout, length) != 0)
        fail("the file of %s isn't read as it", name);
}

/* ---- The twin is a twin: wrong bytes, bytes that stop short, sizes and rooms */

/* Each byte from `from` on changed, and the bytes cut short at it. */
static void compare_wrong(const struct input *good, uint64_t from)
{
    static uint8_t wrong[ROOM];
    struct input in = *good;
    uint64_t i, j;

    memcpy(wrong, good->bytes, good->length);
    in.bytes = wrong;
    lend();
    for (i = from; i < good->length; i++) {
        for (j = 1; j < 256; j = 3 * j + 1) {
            wrong[i] = good->bytes[i] ^ j;
            check(&in);
        }
        wrong[i] = good->bytes[i];
        in.length = i;
        check(&in);
        in.length = good->length;
    }
}

static void compare_sizes(const struct input *good)
{
    static const uint64_t widths[] = {0, 7, 8, 37, 38, 39, 60, 61, UINT64_MAX}, heights[] = {0, 1, 2, 24, 25, 26, 40, 41, UINT64_MAX};
    struct input in = *good;
    unsigned i, j;

    for (i = 0; i < sizeof widths / sizeof widths[0]; i++)
        for (j = 0; j < sizeof heights / sizeof heights[0]; j++) {
            in.width = widths[i];
            in.page = heights[j];
            lend();
            check(&in);
        }
    in = *good;
    for (in.room = good->length - 2; in.room <= good->length + 1; in.room++) {
        lend();
        check(&in);
    }
    in.length = 0;
    in.room = 0;
    check(&in);
}

/* The characters of the output bytes, as the proved call writes them. */
static void characters_of(uint8_t characters[66])
{
    uint8_t all[67];
    struct input in = {WRITING, all, sizeof all, WIDTH, PAGE, ROOM};
    int i;

    for (i = 0; i < 64; i++)
        all[i + (i >= 32)] = i;
    all[32] = all[65] = 64;
    all[66] = 65;
    check(&in);
    if (answer[PROVED][NUMBER] != 0)
        fail("a layout of all cells is refused with number %llu", (unsigned long long)answer[PROVED][NUMBER]);
    for (i = 0; i < 67; i++)
        characters[all[i]] = out[PROVED][i];
}

static int seldom(void)
{
    return random_below(64) == 0;
}

/* Pages on a sheet, most of them right: seldom a page has no line or one too many, a line has a cell too many or ends in a blank. */
static uint64_t draw_pages(uint8_t *drawn, uint64_t most, uint64_t width, uint64_t page)
{
    uint64_t n = 0, bytes = random_below(most), lines, cells;

    while (n + (page + 1) * (width + 2) + 1 < bytes) {
        for (lines = seldom() ? 0 : 1 + random_below(page + seldom()); lines > 0; lines--) {
            for (cells = random_below(width + 1 + seldom()); cells > 0; cells--)
                drawn[n++] = random_below(3) == 0 && (cells > 1 || seldom()) ? 0 : 1 + random_below(63);
            drawn[n++] = 64;
        }
        drawn[n++] = 65;
    }
    return n;
}

static long drawn_good;

/* Drawn pages both ways, on narrow sheets: as they are, cut short, and with a byte changed. */
static void compare_drawn(void)
{
    static uint8_t drawn[DRAWN], characters[66];
    struct input in = {WRITING, drawn, 0, 0, 0, DRAWN};
    uint64_t i;
    int k;

    characters_of(characters);
    lend();
    for (k = 0; k < DRAWS; k++) {
        in.width = 8 + random_below(3);
        in.page = 2 + random_below(2);
        in.length = draw_pages(drawn, DRAWN, in.width, in.page);
        if (random_below(4) == 0)
            in.length = random_below(in.length + 1);
        in.way = k % WAYS;
        if (in.way == READING)
            for (i = 0; i < in.length; i++)
                drawn[i] = characters[drawn[i]];
        if (in.length > 0 && random_below(4) == 0)
            drawn[random_below(in.length)] = random_below(256);
        check(&in);
        drawn_good += answer[PROVED][NUMBER] == 0;
    }
}

static void compare_all(void)
{
    struct input small, whole;
    int way;

    for (way = 0; way < WAYS; way++) {
        whole = input(way, length);
        watched = ROOM;
        compare_wrong(&whole, length - 5);
        compare_sizes(&whole);
        small = whole;
        small.length = bytes_of_pages(2);
        watched = small.length + 64;
        small.room = small.length;
        compare_wrong(&small, 0);
        compare_sizes(&small);
    }
    watched = DRAWN;
    compare_drawn();
    watched = ROOM;
}

/* ---- What is printed */

static void whole_layout(void)
{
    static const char *const words[] = {"Writing the file", "Reading it back"};
    struct times *t;
    int c, way;

    for (way = 0; way < WAYS; way++) {
        struct input in = input(way, length);

        t = measure(&in, 1, ROUNDS);
        printf("%s: %llu bytes, %llu pages (W %d, P %d)\n\n", words[way], (unsigned long long)length, (unsigned long long)pages, WIDTH, PAGE);
        printf("  %-24s %10s %16s %14s %14s\n", "call", "ns/byte", "worst placement", "megabytes/s", "proved / this");
        for (c = 0; c < CALLS; c++)
            printf("  %-24s %10.3f %16.3f %14.0f %14.2f\n", calls[c].name, t->best[c] / length, t->worst[c] / length, length / t->best[c] * 1e3,
                   t->best[PROVED] / t->best[c]);
        printf("\n  The proved call takes %.2f times the fastest C.\n\n", t->best[PROVED] / fastest(t));
    }
}

static void growing(void)
{
    static const int sizes[] = {1, 4, 16, 64};
    unsigned i;
    int way;

    printf("As the pages grow in number; C is the fastest of them\n\n");
    printf("  %-8s %6s %10s %14s %14s %10s %8s\n", "way", "pages", "bytes", "proved, us", "proved ns/byte", "C ns/byte", "ratio");
    for (way = 0; way < WAYS; way++)
        for (i = 0; i < sizeof sizes / sizeof sizes[0]; i++) {
            uint64_t n = bytes_of_pages(sizes[i]);
            struct input in = input(way, n);
            struct times *t = measure(&in, 1, 5 * ROUNDS);

            printf("  %-8s %6d %10llu %14.2f %14.3f %10.3f %8.2f\n", way == WRITING ? "writing" : "reading", sizes[i], (unsigned long long)n,
                   t->best[PROVED] / 1e3, t->best[PROVED] / n, fastest(t) / n, t->best[PROVED] / fastest(t));
        }
    printf("\n");
}

int main(int words, char **word)
{
    if (words != 3)
        fail("usage: files TIMES LAYOUT");
    read_times(word[1]);
    make_file(word[2]);
    compare_all();
    whole_layout();
    growing();
    printf("Compared in each placement: %ld inputs, of which %ld of %d drawn ones were good; three values and every output byte, no difference\n",
           compared, drawn_good, DRAWS);
    write_times(word[1]);
    return 0;
}
