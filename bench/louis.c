/* Measures liblouis on the text that the driver wrote: its translation into contracted American braille, characters a second.

   usage: louis TEXT
   The text is given to it in small letters, without bars, and with a blank for a line feed and for the sign of a paragraph. */
#define _POSIX_C_SOURCE 200809L
#include <ctype.h>
#include <liblouis/liblouis.h>
#include <stdio.h>
#include <stdlib.h>
#include <string.h>
#include <time.h>

static const char table[] = "en-us-g2.ctb";

enum { MOST = 1 << 20, ROUNDS = 25 };

static widechar text[MOST], cells[4 * 16384];
static int length;

static void fail(const char *words)
{
    fprintf(stderr, "bench: liblouis: %s\n", words);
    exit(1);
}

static double now(void)
{
    struct timespec t;

    clock_gettime(CLOCK_MONOTONIC, &t);
    return t.tv_sec * 1e9 + t.tv_nsec;
}

static void read_text(const char *name)
{
    FILE *f = fopen(name, "rb");
    int c;

    if (!f)
        fail("the text can't be read");
    while ((c = getc(f)) != EOF && length < MOST) {
        if (c == '|')
            continue;
        if (c == '$' && (c = getc(f)) == 'P')
            c = ' ';
        text[length++] = c == '\n' ? ' ' : tolower(c);
    }
    fclose(f);
}

/* Where a part of at most `most` characters that begins at `at` ends: after a blank, if it has one. */
static int part_end(int at, int most)
{
    int end = at + most;

    if (end >= length)
        return length;
    while (end > at && text[end - 1] != ' ')
        end--;
    return end > at ? end : at + most;
}

/* Translates the whole text in parts of at most `most` characters, and answers the nanoseconds and the cells. */
static double translate(int most, long *written)
{
    double took = 0, began;
    int at, end, taken, wrote;

    *written = 0;
    for (at = 0; at < length; at = end) {
        end = part_end(at, most);
        taken = end - at;
        wrote = 4 * taken; /* no more: it clears what it is lent */
        began = now();
        if (!lou_translateString(table, text + at, &taken, cells, &wrote, NULL, NULL, 0))
            fail("it refuses the text or its table en-us-g2.ctb");
        took += now() - began;
        if (taken != end - at)
            fail("it did not take a whole part of the text");
        *written += wrote;
    }
    return took;
}

int main(int words, char **word)
{
    static const int parts[] = {16384, 128};
    unsigned i;

    if (words != 2)
        fail("usage: louis TEXT");
    read_text(word[1]);
    printf("liblouis %s, table %s, %d characters\n\n", lou_version(), table, length);
    printf("  %18s %10s %14s %10s\n", "in parts of up to", "ns/char", "characters/s", "cells");
    for (i = 0; i < sizeof parts / sizeof parts[0]; i++) {
        double best = 1e300, took;
        long written;
        int r;

        translate(parts[i], &written); /* the first call reads its table */
        for (r = 0; r < ROUNDS; r++) {
            took = translate(parts[i], &written);
            if (took < best)
                best = took;
        }
        printf("  %18d %10.1f %14.0f %10ld\n", parts[i], best / length, length / best * 1e9, written);
    }
    printf("\n");
    lou_free();
    return 0;
}
