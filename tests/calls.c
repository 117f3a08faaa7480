/* calls IMAGE: makes each call that include/tlopahuexi.h declares with the paper's table, and
   prints what it stores, a line for each. tests/example compares it. */
#include <stdio.h>
#include <string.h>
#include <tlopahuexi.h>

enum { ROOM = 1024, WIDTH = 8, LENGTH = 2, YEAR = 65535 };

static uint8_t image[ROOM], dated[ROOM], undated[ROOM], layout[ROOM], file[ROOM], back[ROOM];
static uint64_t answer[6];

static void print(const char *call, int values)
{
    int i;

    printf("%s", call);
    for (i = 0; i < values; i++)
        printf(" %llu", (unsigned long long)answer[i]);
    printf("\n");
}

int main(int words, char **word)
{
    FILE *from = words == 2 ? fopen(word[1], "rb") : NULL;
    uint64_t length, n, k;

    if (!from)
        return 2;
    length = fread(image, 1, sizeof image, from);
    if (ferror(from) || fclose(from) != 0)
        return 3;

    tlopahuexi_check(image, length, answer);
    print("check", 2);
    tlopahuexi_check(image, length - 1, answer);
    print("check, cut", 2);
    tlopahuexi_stamp(image, length, answer);
    print("stamp", 4);
    tlopahuexi_stamp(image, 0, answer);
    print("stamp, empty", 4);
    tlopahuexi_date(image, length, dated, sizeof dated, answer);
    print("date", 3);
    n = answer[TLOPAHUEXI_WRITTEN];
    tlopahuexi_date(image, length, undated, n - 1, answer);
    print("date, one byte short", 3);
    tlopahuexi_date(dated, n, undated, sizeof undated, answer);
    print("date, dated", 3);
    tlopahuexi_undate(image, length, undated, sizeof undated, answer);
    print("undate, undated", 3);
    tlopahuexi_undate(dated, n, undated, sizeof undated, answer);
    print("undate", 3);
    printf("%s\n", memcmp(image, undated, length) == 0 ? "as it was" : "another image");

    tlopahuexi_show(dated, n, file, sizeof file, answer);
    print("show", 5);
    k = answer[TLOPAHUEXI_WRITTEN];
    tlopahuexi_show(dated, n, file, k - 1, answer);
    print("show, one byte short", 5);
    tlopahuexi_make(file, k, back, sizeof back, answer);
    print("make", 5);
    printf("%s\n", memcmp(dated, back, n) == 0 ? "as it was" : "another image");
    tlopahuexi_make(file, k - 5, back, sizeof back, answer);
    print("make, cut", 5);
    tlopahuexi_mark((const uint8_t *)"The caf\303\251", 9, file, sizeof file, answer);
    print("mark", 3);
    printf("%.*s\n", (int)answer[TLOPAHUEXI_WRITTEN], (const char *)file);
    tlopahuexi_mark((const uint8_t *)"The \007", 5, file, sizeof file, answer);
    print("mark, unknown", 3);

    tlopahuexi_emboss(dated, n, (const uint8_t *)"COME", 4, ' ', YEAR, WIDTH, LENGTH, layout, sizeof layout, answer);
    print("emboss", 6);
    k = answer[TLOPAHUEXI_WRITTEN];
    tlopahuexi_emboss(image, length, (const uint8_t *)"COME", 4, '?', YEAR, WIDTH, LENGTH, layout, sizeof layout, answer);
    print("emboss, unknown after it", 6);
    tlopahuexi_write_file(layout, k, WIDTH, LENGTH, file, sizeof file, answer);
    print("write_file", 3);
    tlopahuexi_read_file(file, k, WIDTH, LENGTH, back, sizeof back, answer);
    print("read_file", 3);
    printf("%s\n", memcmp(layout, back, k) == 0 ? "as it was" : "another layout");
    tlopahuexi_read_file(file, k - 1, WIDTH, LENGTH, back, sizeof back, answer);
    print("read_file, cut", 3);
    return 0;
}
