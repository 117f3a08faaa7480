/* How much stack a call needs: it runs in a thread whose stack is filled with a pattern before, and the deepest byte that
   changed is the depth. What the thread itself needs is measured with a call of an empty function and taken off. The
   declarations are written out, so that it can be compiled for x86-64 where no headers for that are. */
typedef unsigned char byte;
typedef unsigned short two_bytes;
typedef unsigned long size;

extern int printf(const char *form, ...);
extern void *fopen(const char *path, const char *mode);
extern size fread(void *to, size each, size count, void *file);
extern int fclose(void *file);
extern int pthread_attr_init(void *attr);
extern int pthread_attr_setstack(void *attr, void *at, size bytes);
extern int pthread_create(void *thread, const void *attr, void *(*run)(void *), void *given);
extern int pthread_join(unsigned long thread, void **answer);

extern void tlopahuexi_emboss(const byte *image, size image_length, const byte *text, size text_length, byte following, two_bytes year,
                              size width, size length, byte *out, size out_length, unsigned long answer[6]);
extern void tlopahuexi_write_file(const byte *layout, size layout_length, size width, size length, byte *out, size out_length,
                                  unsigned long answer[3]);
extern void tlopahuexi_read_file(const byte *file, size file_length, size width, size length, byte *out, size out_length,
                                 unsigned long answer[3]);
extern void tlopahuexi_check(const byte *image, size image_length, unsigned long answer[2]);
extern void tlopahuexi_stamp(const byte *image, size image_length, unsigned long answer[4]);
extern void tlopahuexi_date(const byte *image, size image_length, byte *out, size out_length, unsigned long answer[3]);
extern void tlopahuexi_undate(const byte *image, size image_length, byte *out, size out_length, unsigned long answer[3]);

enum { STACK = 1 << 20, MOST = 65536 };

static byte stack[STACK] __attribute__((aligned(4096)));
static byte image[MOST], text[MOST], out[MOST], file[MOST];
static size image_length, text_length, layout_length;
static unsigned long answer[6];

static void *nothing(void *given)
{
    return given;
}

static void *call(void *given)
{
    tlopahuexi_emboss(image, image_length, text, text_length, ' ', 1970, 60, 40, out, sizeof out, answer);
    return given;
}

static void *write_file(void *given)
{
    tlopahuexi_write_file(out, layout_length, 60, 40, file, sizeof file, answer);
    return given;
}

static void *read_file(void *given)
{
    tlopahuexi_read_file(file, layout_length, 60, 40, out, sizeof out, answer);
    return given;
}

static void *check(void *given)
{
    tlopahuexi_check(image, image_length, answer);
    return given;
}

static void *stamp(void *given)
{
    tlopahuexi_stamp(image, image_length, answer);
    return given;
}

static void *date(void *given)
{
    tlopahuexi_date(image, image_length, out, sizeof out, answer);
    return given;
}

static void *undate(void *given)
{
    tlopahuexi_undate(out, answer[2], file, sizeof file, answer);
    return given;
}

/* The bytes of the stack that a thread changed. */
static size depth(void *(*run)(void *))
{
    unsigned long attr[16], thread;
    size i;
    for (i = 0; i < STACK; i++)
        stack[i] = 0xA5;
    pthread_attr_init(attr);
    if (pthread_attr_setstack(attr, stack, STACK) != 0 || pthread_create(&thread, attr, run, 0) != 0)
        return 0;
    pthread_join(thread, 0);
    for (i = 0; i < STACK && stack[i] == 0xA5; i++)
        ;
    return STACK - i;
}

static size contents(const char *path, byte *to)
{
    void *file = fopen(path, "rb");
    size read;
    if (!file)
        return 0;
    read = fread(to, 1, MOST, file);
    fclose(file);
    return read;
}

static size empty;

/* Prints the depth of a call; 0 where it can't be told. */
static int print_depth(void *(*run)(void *), const char *given, size bytes)
{
    size deep = depth(run);
    if (empty == 0 || deep == 0)
        return 0;
    printf("%8lu bytes of stack: %lu bytes of %s, answer %lu at %lu\n", deep - empty, bytes, given, answer[0], answer[1]);
    return 1;
}

/* stack IMAGE TEXT..: the depth of each call about the image, of embossing each text, and of writing and reading the file of its
   layout. */
int main(int words, char **word)
{
    int i;
    if (words < 3 || (image_length = contents(word[1], image)) == 0)
        return 2;
    empty = depth(nothing);
    if (!print_depth(check, "image, check", image_length) || !print_depth(stamp, "image, stamp", image_length) ||
        !print_depth(date, "image, date", image_length) || !print_depth(undate, "dated image, undate", answer[2]))
        return 1;
    for (i = 2; i < words; i++) {
        text_length = contents(word[i], text);
        if (!print_depth(call, "text", text_length))
            return 1;
        layout_length = answer[2];
        if (!print_depth(write_file, "layout", layout_length) || !print_depth(read_file, "file", layout_length))
            return 1;
    }
    return 0;
}
