/* The proved calls (include/tlopahuexi.h) with their types and shorter names, and their twins in C,
   which take the same arguments and answer the same. */
#ifndef TWINS_H
#define TWINS_H

#include "../include/tlopahuexi.h"

/* What a call stores in answer, in this order. A call about a file, or about inkprint, stores the first three. */
enum { NUMBER, PLACE, WRITTEN, PIECES, LINES, PAGES, VALUES, FILE_VALUES = PIECES };

typedef __typeof__(tlopahuexi_emboss) emboss_call;
typedef __typeof__(tlopahuexi_write_file) file_call;
typedef __typeof__(tlopahuexi_mark) mark_call;

/* The twins; a driver may hold each several times, compiled in another way and under another name. */
#ifndef TWIN
#define TWIN twin_emboss
#endif
extern emboss_call TWIN;

#ifndef TWIN_WRITE
#define TWIN_WRITE twin_write_file
#define TWIN_READ twin_read_file
#endif
extern file_call TWIN_WRITE, TWIN_READ;

#ifndef TWIN_MARK
#define TWIN_MARK twin_mark
#endif
extern mark_call TWIN_MARK;

#endif
