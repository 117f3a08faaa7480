/* Embosser files in C: the file of a layout, and the layout of a file. It is what a C programmer would write: one loop that judges, by
   where it stands on the page, and one that writes. It needs no header but stdint.h, so that a compiler without a C library can compile
   it. */
#include "twins.h"

typedef uint64_t size;

enum { LINE_END = 64, PAGE_END = 65, NONE = 66 };

/* The characters of the cells, of the line's end and of the page's. */
static const uint8_t chart[NONE + 1] = " A1B'K2L@CIF/MSP\"E3H9O6R^DJG>NTQ,*5<-U8V.%[$+X!&;:4\\0Z7(_?W]#Y)=\n\f";

/* ---- Judging */

/* The cells of the line, whether the last of them is blank, and the lines that have ended on the page. */
struct spot {
    size column, line;
    int blank;
};

/* One output byte further; 0 where no good file or layout could go on so. */
static inline int step(struct spot *s, uint8_t byte, size width, size page)
{
    if (byte < LINE_END) {
        if (s->line == page || s->column + (byte == 0 ? 2 : 1) > width)
            return 0;
        s->column++;
        s->blank = byte == 0;
        return 1;
    }
    if (byte == LINE_END) {
        if (s->line == page || s->blank)
            return 0;
        s->column = 0;
        s->line++;
        return 1;
    }
    if (byte == PAGE_END) {
        if (s->column != 0 || s->line == 0)
            return 0;
        s->line = 0;
        return 1;
    }
    return 0;
}

static int between_pages(const struct spot *s)
{
    return s->column == 0 && s->line == 0;
}

static void store(uint64_t answer[FILE_VALUES], size number, size place, size written)
{
    answer[NUMBER] = number;
    answer[PLACE] = place;
    answer[WRITTEN] = written;
}

static int sizes_right(size width, size page)
{
    return 8 <= width && width <= 60 && 2 <= page && page <= 40;
}

/* ---- The two calls */

void TWIN_WRITE(const uint8_t *layout, uint64_t length, uint64_t width, uint64_t page, uint8_t *out, uint64_t room,
                uint64_t answer[FILE_VALUES])
{
    struct spot s = {0};
    size i;

    if (!sizes_right(width, page)) {
        store(answer, 5, 0, 0);
        return;
    }
    for (i = 0; i < length; i++)
        if (!step(&s, layout[i], width, page))
            break;
    if (i < length || !between_pages(&s)) {
        store(answer, 16, i, 0);
        return;
    }
    if (room < length) {
        store(answer, 8, length, 0);
        return;
    }
    for (i = 0; i < length; i++)
        out[i] = chart[layout[i]];
    store(answer, 0, 0, length);
}

void TWIN_READ(const uint8_t *file, uint64_t length, uint64_t width, uint64_t page, uint8_t *out, uint64_t room,
               uint64_t answer[FILE_VALUES])
{
    uint8_t bytes[256];
    struct spot s = {0};
    size i;

    if (!sizes_right(width, page)) {
        store(answer, 5, 0, 0);
        return;
    }
    for (i = 0; i < 256; i++)
        bytes[i] = NONE;
    for (i = 0; i < NONE; i++)
        bytes[chart[i]] = i;
    for (i = 0; i < length; i++)
        if (!step(&s, bytes[file[i]], width, page))
            break;
    if (i < length || !between_pages(&s)) {
        store(answer, 16, i, 0);
        return;
    }
    if (room < length) {
        store(answer, 8, length, 0);
        return;
    }
    for (i = 0; i < length; i++)
        out[i] = bytes[file[i]];
    store(answer, 0, 0, length);
}
