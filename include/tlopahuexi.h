/* The calls of the press for C and C++. 'bin/build archive tlopahuexi' proves them and writes the
   archive that defines them, target/staticlib/libtlopahuexi.a, which a program links. It is for
   x86-64 alone, so lengths have 64 bits. examples/emboss.c shows a program.

   What holds of every call:
   - Any image, text, file, layout, symbol, year, size and room gets its answer: nothing has to be
     checked beforehand.
   - No address is null, not even that of bytes whose length is 0. From each address on, as many
     bytes are lent as the length after it says, and answer has as many numbers as its declaration
     says.
   - Bytes at out and answer are lent as nothing else in the same call: they overlap neither each
     other nor the bytes that are only read. Those may overlap each other.
   - answer is stored always. Its first number is 0 where the call is done, and otherwise that of
     the refusal; its second is the refusal's place. The others are 0 in a refused call.
   - A refused call changes no byte of out, and a done one none beyond the bytes written.
   - A call keeps nothing, and takes nothing but its arguments: threads may call at the same time,
     if each lends an out and an answer of its own.
   - The stack that a call needs is said with it, as bench/stack measures it. A program's first call
     needs some 3,200 bytes more, which the loader takes to find the C library's functions. */
#ifndef TLOPAHUEXI_H
#define TLOPAHUEXI_H

#include <stdint.h>

#ifdef __cplusplus
extern "C" {
#endif

/* The numbers of an answer, by their places in it. The first three are what the calls about files
   and forms store; the stamp has its two numbers after the place. */
enum tlopahuexi_value {
    TLOPAHUEXI_NUMBER = 0,  /* 0, or the refusal */
    TLOPAHUEXI_PLACE = 1,   /* its place, 0 where it has none */
    TLOPAHUEXI_WRITTEN = 2, /* the bytes written */
    TLOPAHUEXI_PIECES = 3,  /* the pieces of the text */
    TLOPAHUEXI_LINES = 4,   /* the lines written */
    TLOPAHUEXI_PAGES = 5,   /* the pages written */
    TLOPAHUEXI_FIRST = 2,   /* the first number of a stamp */
    TLOPAHUEXI_SECOND = 3,  /* the second */
    TLOPAHUEXI_LINE = 3,    /* the line of a place in a readable table, from 1, where it isn't of the form */
    TLOPAHUEXI_COLUMN = 4   /* its column, from 1 */
};

/* The refusals, in the order in which they are tried, and the place of each. README.md says what to
   do about them. */
enum tlopahuexi_refusal {
    TLOPAHUEXI_DONE = 0,
    TLOPAHUEXI_FRAME = 1,         /* the image's trailer or the lengths of its sections; 0 */
    TLOPAHUEXI_ALPHABET = 2,      /* an alphabet record; the offset of its first wrong byte */
    TLOPAHUEXI_CONTRACTION = 11,  /* a contraction record; the same */
    TLOPAHUEXI_CONTEXT = 12,      /* a right context; the same */
    TLOPAHUEXI_TRANSITION = 13,   /* a transition; the same */
    TLOPAHUEXI_DECISION = 14,     /* a decision; the same */
    TLOPAHUEXI_NO_BLANK = 3,      /* the alphabet has no blank; 0 */
    TLOPAHUEXI_GROUPING = 4,      /* the contractions aren't grouped; the offset of the record */
    TLOPAHUEXI_SIZE = 5,          /* W isn't 8 to 60, or P isn't 2 to 40; 0 */
    TLOPAHUEXI_LONG_TEXT = 6,     /* the text has more than 16,384 bytes; 16,384 */
    TLOPAHUEXI_UNKNOWN = 7,       /* a character that the table doesn't have; its offset */
    TLOPAHUEXI_FOLLOWING = 15,    /* the table doesn't have the symbol that follows; 0 */
    TLOPAHUEXI_FILE = 16,         /* a wrong file or layout; the offset where it goes wrong */
    TLOPAHUEXI_DATED = 17,        /* an entry that isn't always in force; the record's offset */
    TLOPAHUEXI_ROOM = 8           /* out is too short; the bytes needed */
};

/* Embosses a text by a table.
   image      a table image, of either form
   text       at most 16,384 bytes, in the table's characters
   following  the symbol that comes after the text, which is only looked at: the first character of
              the next section, or a blank where none comes
   year       that of the code to print by: entries of a dated table outside their years are passed
              over, a table without years prints alike in every year
   width      W, the cells of a line, 8 to 60
   length     P, the lines of a page, 2 to 40
   out        gets the layout: a byte 0 to 63 for each cell, 64 after each line, 65 after each page
   answer     number, place, bytes written, pieces, lines, pages
   Refusals: 1 to 7 with 11 to 14, 15, 8. It needs 84,000 bytes of stack, whatever it is asked: a
   thread that calls it wants 96 KiB at least. */
void tlopahuexi_emboss(const uint8_t *image, uint64_t image_length, const uint8_t *text, uint64_t text_length, uint8_t following,
                       uint16_t year, uint64_t width, uint64_t length, uint8_t *out, uint64_t out_length, uint64_t answer[6]);

/* Writes the embosser file of a layout.
   layout         as tlopahuexi_emboss writes it; it is judged first, by W and P
   width, length  W and P
   out            gets the file, a character for each byte of the layout
   answer         number, place, bytes written
   Refusals: 5, 16, 8. It needs 600 bytes of stack. */
void tlopahuexi_write_file(const uint8_t *layout, uint64_t layout_length, uint64_t width, uint64_t length, uint8_t *out,
                           uint64_t out_length, uint64_t answer[3]);

/* Reads an embosser file as the layout that it was written from; otherwise as
   tlopahuexi_write_file. */
void tlopahuexi_read_file(const uint8_t *file, uint64_t file_length, uint64_t width, uint64_t length, uint8_t *out,
                          uint64_t out_length, uint64_t answer[3]);

/* Checks a table image, of either form.
   answer  number and place: 0 and 0 where the image is accepted
   Refusals: 1 to 4 with 11 to 14. It needs 1,700 bytes of stack. */
void tlopahuexi_check(const uint8_t *image, uint64_t image_length, uint64_t answer[2]);

/* Stamps a table image, of either form.
   answer  number, place, and the two numbers of the stamp, each of 32 bits
   Refusals: as tlopahuexi_check. It needs 1,700 bytes of stack. */
void tlopahuexi_stamp(const uint8_t *image, uint64_t image_length, uint64_t answer[4]);

/* Moves a table without years to the form with years, each entry always in force.
   out     gets the image in the other form: four bytes more for each entry
   answer  number, place, bytes written
   Refusals: 1, also to a table with years, 2, 11 to 14, 3, 4, 8. It needs 1,800 bytes of stack. */
void tlopahuexi_date(const uint8_t *image, uint64_t image_length, uint8_t *out, uint64_t out_length, uint64_t answer[3]);

/* Moves a table with years, each entry always in force, to the form without; otherwise as
   tlopahuexi_date. Refusals: 1, also to a table without years, 2, 11 to 14, 3, 4, 17, 8. */
void tlopahuexi_undate(const uint8_t *image, uint64_t image_length, uint8_t *out, uint64_t out_length, uint64_t answer[3]);

/* Writes an accepted table image, of either form, as a readable table (docs/TABLES.md).
   out     gets the text; 163,840 bytes are enough for any table
   answer  number, place, bytes written, 0, 0
   Refusals: as tlopahuexi_check, then 8. */
void tlopahuexi_show(const uint8_t *image, uint64_t image_length, uint8_t *out, uint64_t out_length, uint64_t answer[5]);

/* Makes the table image of a readable table. The image may be one that tlopahuexi_check refuses, but
   never with 1.
   out     gets the image; 28,301 bytes are enough for any
   answer  number, place, bytes written, and of 22 the line and the column of the place
   Refusals: 22, then 8. */
void tlopahuexi_make(const uint8_t *text, uint64_t text_length, uint8_t *out, uint64_t out_length, uint64_t answer[5]);

/* Marks inkprint, UTF-8, as the tables want a text (docs/ENGLISH.md).
   out     gets the marked text; three times the length of the text are enough
   answer  number, place, bytes written
   Refusals: 6 for more than 1,073,741,824 bytes, 21 at a character that has no mark or a byte that is
   no UTF-8, then 8. */
void tlopahuexi_mark(const uint8_t *text, uint64_t text_length, uint8_t *out, uint64_t out_length, uint64_t answer[3]);

#ifdef __cplusplus
}
#endif

#endif
