/* count IMAGE TEXT TIMES: calls F so many times, and prints the number, the place and the bytes written of the last answer.
   bench/count has its instructions counted. The declarations are written out, so that it can be compiled for x86-64 where no
   headers for that are. */
typedef unsigned char byte;
typedef unsigned short two_bytes;
typedef unsigned long size;

extern int printf(const char *form, ...);
extern int atoi(const char *text);
extern void *fopen(const char *path, const char *mode);
extern size fread(void *to, size each, size count, void *file);
extern int fclose(void *file);

extern void F(const byte *image, size image_length, const byte *text, size text_length, byte following, two_bytes year, size width,
              size length, byte *out, size out_length, unsigned long answer[6]);

static byte image[65536], text[65536], out[65536];
static unsigned long answer[6];

static size contents(const char *path, byte *to)
{
    void *file = fopen(path, "rb");
    size read;
    if (!file)
        return 0;
    read = fread(to, 1, 65536, file);
    fclose(file);
    return read;
}

int main(int words, char **word)
{
    size image_length, text_length;
    int times;
    if (words != 4)
        return 2;
    image_length = contents(word[1], image);
    text_length = contents(word[2], text);
    for (times = atoi(word[3]); times > 0; times--)
        F(image, image_length, text, text_length, 32, 1970, 40, 25, out, sizeof out, answer);
    printf("%lu %lu %lu\n", answer[0], answer[1], answer[2]);
    return 0;
}
