/* emboss TABLE TEXT FILE [W P]: embosses a text by a table image, and writes the embosser file of
   it. W and P, the cells of a line and the lines of a page, are 40 and 25 where they aren't given.

   The status is 0 where the file is written; 1 where a call is refused, with the refusal's number
   and place on standard error, and no file is opened; 2 where the words are wrong; 3 where a file
   can't be read or written. tests/example builds it and runs it. After
   'bin/build archive tlopahuexi'

       cc -Iinclude examples/emboss.c target/staticlib/libtlopahuexi.a -o emboss

   builds it on x86-64. */
#include <errno.h>
#include <stdio.h>
#include <stdlib.h>
#include <string.h>
#include <tlopahuexi.h>

/* No right image and no right text has more bytes: of a longer one the byte more is enough for the
   call to refuse it. A layout that needs more room is refused with the bytes that it needs. */
enum { MOST_IMAGE = 28301, MOST_TEXT = 16384, ROOM = 1 << 18, BLANK = ' ', YEAR = 65535 };

static uint8_t image[MOST_IMAGE + 1], text[MOST_TEXT + 1], layout[ROOM], file[ROOM];

static void fail(const char *path)
{
    fprintf(stderr, "emboss: %s: %s\n", path, strerror(errno));
    exit(3);
}

static uint64_t contents(const char *path, uint8_t *to, size_t most)
{
    FILE *from = fopen(path, "rb");
    size_t bytes;

    if (!from)
        fail(path);
    bytes = fread(to, 1, most, from);
    if (ferror(from))
        fail(path);
    fclose(from);
    return bytes;
}

/* The bytes that a call wrote, where it is done. */
static uint64_t written(const char *call, const uint64_t *answer)
{
    if (answer[TLOPAHUEXI_NUMBER] != TLOPAHUEXI_DONE) {
        fprintf(stderr, "emboss: %s is refused: number %llu, place %llu\n", call, (unsigned long long)answer[TLOPAHUEXI_NUMBER],
                (unsigned long long)answer[TLOPAHUEXI_PLACE]);
        exit(1);
    }
    return answer[TLOPAHUEXI_WRITTEN];
}

int main(int words, char **word)
{
    uint64_t image_length, text_length, width = 40, length = 25, bytes, answer[6];
    FILE *to;

    if (words != 4 && words != 6) {
        fprintf(stderr, "usage: emboss TABLE TEXT FILE [W P]\n");
        return 2;
    }
    if (words == 6) {
        width = strtoul(word[4], NULL, 10); /* what is no number is 0, and no right size */
        length = strtoul(word[5], NULL, 10);
    }
    image_length = contents(word[1], image, sizeof image);
    text_length = contents(word[2], text, sizeof text);

    tlopahuexi_emboss(image, image_length, text, text_length, BLANK, YEAR, width, length, layout, sizeof layout, answer);
    bytes = written("the text", answer);
    tlopahuexi_write_file(layout, bytes, width, length, file, sizeof file, answer);
    bytes = written("the layout", answer);

    to = fopen(word[3], "wb");
    if (!to)
        fail(word[3]);
    if (fwrite(file, 1, bytes, to) != bytes)
        fail(word[3]);
    if (fclose(to) != 0)
        fail(word[3]);
    return 0;
}
