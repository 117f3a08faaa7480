/* Measures the proved call that marks inkprint beside the same in C (rounds.h).

   usage: ink TIMES FILE ...
   It reads the files, joins them, and again from the first until there are bytes enough, and prints what it and the placements before it
   measured. */
#define _POSIX_C_SOURCE 200809L
#include "twins.h"
#include <stdio.h>

extern mark_call mark_cc_o2, mark_cc_o3, mark_kit;

static const struct {
    const char *name;
    mark_call *call;
} calls[] = {
    {"proved", tlopahuexi_mark},
    {"C, cc -O2", mark_cc_o2},
    {"C, cc -O3", mark_cc_o3},
#ifdef HAVE_KIT
    {"C, the kit's clang -O3", mark_kit},
#endif
};

enum {
    CALLS = sizeof calls / sizeof calls[0],
    STORED = FILE_VALUES,
    ROOM = 1 << 20,
    ROUNDS = 100,
    LEAST_BYTES = 200000,
    MOST_BYTES = 400000,
    DRAWN = 200,
    DRAWS = 50000,
    NO_MARK = 21,
};

struct input {
    const uint8_t *bytes;
    uint64_t length, room;
};

static const char *name_of(int c)
{
    return calls[c].name;
}

static void call(int c, const struct input *in, uint8_t *lent, uint64_t *stored)
{
    calls[c].call(in->bytes, in->length, lent, in->room, stored);
}

static void tell(const struct input *in)
{
    fprintf(stderr, "marking, %llu bytes, room %llu\n", (unsigned long long)in->length, (unsigned long long)in->room);
}

#include "rounds.h"

/* ---- The text */

static uint8_t text[MOST_BYTES];
static uint64_t length, marked, replaced;

static struct input input(uint64_t n)
{
    struct input in = {text, n, ROOM};
    return in;
}

/* A character that has no mark gives way to question marks. */
static void replace(uint64_t at)
{
    do
        text[at++] = '?';
    while (at < length && (text[at] & 0xc0) == 0x80);
    replaced++;
}

static void make_text(int files, char **file)
{
    struct input in;
    int i;

    for (i = 0; length < LEAST_BYTES; i++)
        length += read_bytes(file[i % files], text + length, MOST_BYTES - length);
    if (length == MOST_BYTES)
        fail("the files have %d bytes or more", MOST_BYTES);
    do {
        in = input(length);
        run(PROVED, &in);
        if (answer[PROVED][NUMBER] == NO_MARK)
            replace(answer[PROVED][PLACE]);
    } while (answer[PROVED][NUMBER] == NO_MARK);
    lend();
    check(&in);
    if (answer[PROVED][NUMBER] != 0)
        fail("the text is refused with number %llu", (unsigned long long)answer[PROVED][NUMBER]);
    marked = answer[PROVED][WRITTEN];
}

/* ---- The twin is a twin: wrong bytes, texts that stop short, rooms, drawn texts */

/* Each byte of the last `n` changed, and the text cut short at it. */
static void compare_wrong(uint64_t n)
{
    static uint8_t wrong[MOST_BYTES];
    struct input in = input(n);
    uint64_t i, j;

    memcpy(wrong, text, n);
    in.bytes = wrong;
    lend();
    for (i = 0; i < n; i++) {
        for (j = 1; j < 256; j = 3 * j + 1) {
            wrong[i] = text[i] ^ j;
            check(&in);
        }
        wrong[i] = text[i];
        in.length = i;
        check(&in);
        in.length = n;
    }
}

static void compare_rooms(void)
{
    struct input in = input(length);

    for (in.room = marked - 2; in.room <= marked + 1; in.room++) {
        lend();
        check(&in);
    }
    in.length = 0;
    in.room = 0;
    check(&in);
}

static long drawn_good;

/* Characters that are drawn: letters of both cases, quotes, dashes, accents, gaps, lines' ends, signs, and what has no mark. */
static uint64_t draw(uint8_t *drawn)
{
    static const char *const words[] = {
        "a", "b", "A", "B", "C", "é", "É", "Ž", "ı", "'", "’", "’", "‘", "“", "”", "–", "—", "…", " ", " ", "\t", "\xc2\xa0", "\n", "\n", "\r\n",
        "\f", "\xc2\xad", "\xef\xbb\xbf", "$", "%", "=", "|", "<", "[", "]", ".", ",", "7", "THE", "NASA", "Mc", "O’B", "I'M",
    };
    static const char *const wrong[] = {
        "\x01", "\x7f", "£", "ß", "Œ", "\xe2\x80\x9a", "€", "😀", "\xc0\xa7", "\xe0\x80\xa7", "\xed\xa0\x80", "\xf4\x90\x80\x80", "\xe2\x80", "\xff",
    };
    uint64_t n = 0, most = random_below(DRAWN - 8);
    const char *word;

    while (n < most) {
        word = random_below(300) == 0 ? wrong[random_below(sizeof wrong / sizeof wrong[0])] : words[random_below(sizeof words / sizeof words[0])];
        while (*word)
            drawn[n++] = *word++;
    }
    return n;
}

static void compare_drawn(void)
{
    static uint8_t drawn[DRAWN];
    struct input in = {drawn, 0, 0};
    int k;

    lend();
    for (k = 0; k < DRAWS; k++) {
        in.length = draw(drawn);
        if (random_below(8) == 0)
            in.length = random_below(in.length + 1);
        if (in.length > 0 && random_below(8) == 0)
            drawn[random_below(in.length)] = random_below(256);
        in.room = random_below(8) == 0 ? random_below(2 * in.length + 1) : watched;
        check(&in);
        drawn_good += answer[PROVED][NUMBER] == 0;
    }
}

static void compare_all(void)
{
    compare_rooms();
    watched = 8000;
    compare_wrong(2000);
    watched = 4 * DRAWN;
    compare_drawn();
    watched = ROOM;
}

/* ---- What is printed */

static void whole_text(void)
{
    struct input in = input(length);
    struct times *t = measure(&in, 1, ROUNDS);
    int c;

    printf("Marking inkprint: %llu bytes, marked %llu (in place of %llu characters that have no mark a question mark)\n\n", (unsigned long long)length,
           (unsigned long long)marked, (unsigned long long)replaced);
    printf("  %-24s %10s %16s %14s %14s\n", "call", "ns/byte", "worst placement", "megabytes/s", "proved / this");
    for (c = 0; c < CALLS; c++)
        printf("  %-24s %10.3f %16.3f %14.0f %14.2f\n", calls[c].name, t->best[c] / length, t->worst[c] / length, length / t->best[c] * 1e3,
               t->best[PROVED] / t->best[c]);
    printf("\n  The proved call takes %.2f times the fastest C.\n\n", t->best[PROVED] / fastest(t));
}

static void growing(void)
{
    static const int sizes[] = {1000, 10000, 100000};
    unsigned i;

    printf("As the text grows; C is the fastest of them\n\n");
    printf("  %10s %14s %14s %10s %8s\n", "bytes", "proved, us", "proved ns/byte", "C ns/byte", "ratio");
    for (i = 0; i < sizeof sizes / sizeof sizes[0]; i++) {
        uint64_t n = sizes[i];
        struct input in;
        struct times *t;

        while ((text[n] & 0xc0) == 0x80)
            n++;
        in = input(n);
        t = measure(&in, 1, 5 * ROUNDS);
        printf("  %10llu %14.2f %14.3f %10.3f %8.2f\n", (unsigned long long)n, t->best[PROVED] / 1e3, t->best[PROVED] / n, fastest(t) / n,
               t->best[PROVED] / fastest(t));
    }
    printf("\n");
}

int main(int words, char **word)
{
    if (words < 3)
        fail("usage: ink TIMES FILE ...");
    read_times(word[1]);
    make_text(words - 2, word + 2);
    compare_all();
    whole_text();
    growing();
    printf("Compared in each placement: %ld texts, of which %ld of %d drawn ones were good; three values and every output byte, no difference\n",
           compared, drawn_good, DRAWS);
    write_times(word[1]);
    return 0;
}
