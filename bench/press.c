/* Measures the program press beside the call alone, on the same text (bench/press).

   usage: press PROGRAM IMAGE TEXT EMPTY ROUNDS
   A round runs `PROGRAM emboss IMAGE TEXT`, then the same of EMPTY, its output to /dev/null, and
   then makes the call on the text; of each the best round counts. Prints the three, and the first
   less the second beside the third. */
#define _POSIX_C_SOURCE 200809L
#include "../include/tlopahuexi.h"
#include <fcntl.h>
#include <spawn.h>
#include <stdio.h>
#include <stdlib.h>
#include <sys/wait.h>
#include <time.h>

enum { MOST_IMAGE = 28301, MOST_TEXT = 16384, ROOM = 163840, WIDTH = 40, PAGE = 25, YEAR = 65535 };

extern char **environ;

static uint8_t image[MOST_IMAGE], text[MOST_TEXT], out[ROOM];

static void fail(const char *what)
{
    fprintf(stderr, "bench/press: %s\n", what);
    exit(1);
}

static double now(void)
{
    struct timespec t;

    clock_gettime(CLOCK_MONOTONIC, &t);
    return t.tv_sec * 1e6 + t.tv_nsec / 1e3;
}

static uint64_t read_bytes(const char *name, uint8_t *bytes, size_t room)
{
    FILE *f = fopen(name, "rb");
    size_t n;

    if (f == NULL)
        fail("a file can't be opened");
    n = fread(bytes, 1, room, f);
    if (ferror(f) || getc(f) != EOF)
        fail("a file can't be read, or is too long");
    fclose(f);
    return n;
}

/* One run of the program: its microseconds. */
static double run(char *program, char *table, char *name)
{
    char *words[] = {program, "emboss", table, name, NULL};
    posix_spawn_file_actions_t actions;
    double began;
    pid_t pid;
    int status;

    posix_spawn_file_actions_init(&actions);
    posix_spawn_file_actions_addopen(&actions, 0, "/dev/null", O_RDONLY, 0);
    posix_spawn_file_actions_addopen(&actions, 1, "/dev/null", O_WRONLY, 0);
    began = now();
    if (posix_spawn(&pid, program, &actions, NULL, words, environ) != 0)
        fail("the program can't be run");
    if (waitpid(pid, &status, 0) != pid || status != 0)
        fail("the program ends with a status that is not 0");
    began = now() - began;
    posix_spawn_file_actions_destroy(&actions);
    return began;
}

/* One call: its microseconds. */
static double call(uint64_t image_length, uint64_t text_length)
{
    uint64_t answer[6];
    double began = now();

    tlopahuexi_emboss(image, image_length, text, text_length, ' ', YEAR, WIDTH, PAGE, out, ROOM,
                      answer);
    began = now() - began;
    if (answer[TLOPAHUEXI_NUMBER] != 0)
        fail("the call refuses");
    return began;
}

static void keep(double *best, double time)
{
    if (*best == 0 || time < *best)
        *best = time;
}

int main(int count, char **words)
{
    double whole = 0, empty = 0, alone = 0;
    uint64_t image_length, text_length;
    int round, rounds;

    if (count != 6)
        fail("usage: press PROGRAM IMAGE TEXT EMPTY ROUNDS");
    image_length = read_bytes(words[2], image, sizeof image);
    text_length = read_bytes(words[3], text, sizeof text);
    rounds = atoi(words[5]);
    for (round = 0; round < rounds; round++) {
        keep(&whole, run(words[1], words[2], words[3]));
        keep(&empty, run(words[1], words[2], words[4]));
        keep(&alone, call(image_length, text_length));
    }
    printf("press emboss, a text of %llu characters, best of %d runs\n",
           (unsigned long long)text_length, rounds);
    printf("  the program, us                        %8.1f\n", whole);
    printf("  the program on an empty text, us       %8.1f\n", empty);
    printf("  the call alone, us                     %8.1f\n", alone);
    printf("  the program less the empty text / call %8.2f\n", (whole - empty) / alone);
    return 0;
}
