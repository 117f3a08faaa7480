/* Measures the proved calls over readable tables beside the check of the table, in one run: of each image the check, the text that
   is shown, the image made of it again, and the two together over the check. Each is run in turn, and of each the best round counts.

   usage: tables NAME IMAGE [NAME IMAGE ..] */
#define _POSIX_C_SOURCE 200809L
#include "../include/tlopahuexi.h"
#include <stdio.h>
#include <string.h>
#include <time.h>

enum { ROOM = 163840, ROUNDS = 400 };

static uint8_t image[ROOM], text[ROOM], again[ROOM];
static uint64_t answer[5];

static double now(void)
{
    struct timespec t;

    clock_gettime(CLOCK_MONOTONIC, &t);
    return (double)t.tv_sec * 1e6 + (double)t.tv_nsec / 1e3;
}

static void best(double *least, double from)
{
    double took = now() - from;

    if (took < *least)
        *least = took;
}

static int measure(const char *name, const char *file)
{
    FILE *from = fopen(file, "rb");
    double check = 1e9, show = 1e9, make = 1e9, start;
    uint64_t length, shown = 0, made = 0;
    int i;

    if (!from)
        return 3;
    length = fread(image, 1, sizeof image, from);
    if (ferror(from) || fclose(from) != 0)
        return 3;
    for (i = 0; i < ROUNDS; i++) {
        start = now();
        tlopahuexi_check(image, length, answer);
        best(&check, start);
        if (answer[TLOPAHUEXI_NUMBER] != 0)
            return 1;
        start = now();
        tlopahuexi_show(image, length, text, sizeof text, answer);
        best(&show, start);
        shown = answer[TLOPAHUEXI_WRITTEN];
        if (answer[TLOPAHUEXI_NUMBER] != 0)
            return 1;
        start = now();
        tlopahuexi_make(text, shown, again, sizeof again, answer);
        best(&make, start);
        made = answer[TLOPAHUEXI_WRITTEN];
        if (answer[TLOPAHUEXI_NUMBER] != 0 || made != length || memcmp(image, again, length) != 0)
            return 1;
    }
    printf("  %-10s %9llu %9llu %10.1f %10.1f %10.1f %9.1f\n", name, (unsigned long long)length, (unsigned long long)shown, check, show, make,
           (show + make) / check);
    return 0;
}

int main(int words, char **word)
{
    int i, status;

    printf("Readable tables: bytes of the image and of its text, microseconds of the check, to show and to make again, and both over the check\n\n");
    printf("  %-10s %9s %9s %10s %10s %10s %9s\n", "table", "image", "text", "check", "show", "make", "ratio");
    for (i = 1; i + 1 < words; i += 2) {
        status = measure(word[i], word[i + 1]);
        if (status != 0) {
            fprintf(stderr, "bench/tables: %s: %s\n", word[i + 1], status == 3 ? "it can't be read" : "another answer or image than it should be");
            return status;
        }
    }
    return 0;
}
