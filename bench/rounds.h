/* What the drivers share: every input goes to all calls, in rounds in which they take turns, so that a disturbance meets each of them;
   of each call and input the best round counts. Answers and output bytes are compared on every input, and a difference ends the run.

   Where in memory the linker puts a short loop can change its time by three to four tenths. So a driver is linked several times, each time with
   the code moved on by some bytes; of each call the best of these placements counts, which the file TIMES hands from one to the next.

   A driver defines before it includes this: CALLS, of which the first is the proved one; ROOM, the most bytes that are lent; STORED, how
   many values a call stores; struct input; name_of, the name of a call; call, which makes one; tell, which prints an input. */
#include <stdarg.h>
#include <stdio.h>
#include <stdlib.h>
#include <string.h>
#include <time.h>

enum { PROVED = 0, MOST_MEASURED = 32, WIDTH = 38, PAGE = 25 };

static void fail(const char *words, ...)
{
    va_list list;

    va_start(list, words);
    fprintf(stderr, "bench: ");
    vfprintf(stderr, words, list);
    fprintf(stderr, "\n");
    va_end(list);
    exit(1);
}

static double now(void)
{
    struct timespec t;

    clock_gettime(CLOCK_MONOTONIC, &t);
    return t.tv_sec * 1e9 + t.tv_nsec;
}

static uint64_t read_bytes(const char *name, uint8_t *bytes, uint64_t most)
{
    FILE *f = fopen(name, "rb");
    uint64_t n;

    if (!f)
        fail("%s can't be read", name);
    n = fread(bytes, 1, most, f);
    fclose(f);
    return n;
}

static uint32_t seed = 1;

static uint32_t random_below(uint32_t n)
{
    seed = seed * 1664525 + 1013904223;
    return (seed >> 8) % n;
}

/* ---- One input, and its answers compared */

static uint8_t out[CALLS][ROOM];
static uint64_t answer[CALLS][STORED];
static uint64_t watched = ROOM; /* so many bytes of the outputs are filled before and compared afterwards */
static long compared;

/* Runs one call and answers its nanoseconds. */
static double run(int c, const struct input *in)
{
    double began = now();

    call(c, in, out[c], answer[c]);
    return now() - began;
}

/* Compares the answers, and the outputs' first bytes. */
static void compare(const struct input *in, uint64_t bytes)
{
    int c, i;

    for (c = 1; c < CALLS; c++) {
        for (i = 0; i < STORED; i++)
            if (answer[c][i] != answer[PROVED][i]) {
                tell(in);
                fail("a difference: value %d of the answer is %llu, and of '%s' %llu", i, (unsigned long long)answer[PROVED][i], name_of(c),
                     (unsigned long long)answer[c][i]);
            }
        if (memcmp(out[c], out[PROVED], bytes) != 0) {
            tell(in);
            fail("a difference: the output of '%s'", name_of(c));
        }
    }
    compared++;
}

/* Fills the outputs with bytes that tell their place, so that a byte which must not change is seen to be as it was. */
static void lend(void)
{
    uint64_t i;
    int c;

    for (c = 0; c < CALLS; c++)
        for (i = 0; i < watched; i++)
            out[c][i] = 7 * i + 13;
}

static void check(const struct input *in)
{
    int c;

    for (c = 0; c < CALLS; c++)
        run(c, in);
    compare(in, watched);
}

/* ---- Measuring */

/* Nanoseconds of all inputs together, of each its best round: in the best placement so far, and in the worst. */
struct times {
    double best[CALLS], worst[CALLS];
};

static struct {
    int placements;
    struct times of[MOST_MEASURED];
} times;

static int measured;

static void read_times(const char *name)
{
    FILE *f = fopen(name, "rb");

    if (!f)
        return;
    if (fread(&times, sizeof times, 1, f) != 1)
        fail("%s is no file of times", name);
    fclose(f);
}

static void write_times(const char *name)
{
    FILE *f = fopen(name, "wb");

    times.placements++;
    if (!f || fwrite(&times, sizeof times, 1, f) != 1 || fclose(f) != 0)
        fail("%s can't be written", name);
}

static struct times *measure(const struct input *in, int inputs, int rounds)
{
    struct times *t = &times.of[measured++];
    double *best = malloc(sizeof *best * inputs * CALLS), sum, took;
    int i, c, r, turn;

    for (i = 0; i < inputs * CALLS; i++)
        best[i] = 1e300;
    for (r = 0; r < rounds; r++)
        for (i = 0; i < inputs; i++) {
            for (turn = 0; turn < CALLS; turn++) {
                c = (turn + r + i) % CALLS;
                took = run(c, &in[i]);
                if (took < best[i * CALLS + c])
                    best[i * CALLS + c] = took;
            }
            compare(&in[i], answer[PROVED][WRITTEN]);
        }
    for (i = 0; i < inputs; i++) {
        lend();
        check(&in[i]);
    }
    for (c = 0; c < CALLS; c++) {
        for (sum = 0, i = 0; i < inputs; i++)
            sum += best[i * CALLS + c];
        if (times.placements == 0 || sum < t->best[c])
            t->best[c] = sum;
        if (times.placements == 0 || sum > t->worst[c])
            t->worst[c] = sum;
    }
    free(best);
    return t;
}

/* The best time of a call in C. */
static double fastest(const struct times *t)
{
    double least = t->best[1];
    int c;

    for (c = 2; c < CALLS; c++)
        if (t->best[c] < least)
            least = t->best[c];
    return least;
}
