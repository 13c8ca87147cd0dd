/* What the files of the driver share. */
#ifndef DRIVER_H
#define DRIVER_H

#include "hingedrift.h"

/* Not 0, which the functions themselves write. */
enum { BEFORE = 0xa5 };

/* A result stands at the start of its 8 bytes, so that a write past it shows. */
union result {
    uint8_t byte;
    uint16_t word;
    uint32_t last;
    uint64_t change;
    int64_t value;
    size_t used;
};

/* The most results that a reader of replies has. */
enum { READ = 8 };

/*
 * A call of a reader. It comes with its function, as in `row` of readers.c, for its number, and with k as its first result; it goes back with
 * what the function returned and with its results, which were all a5.
 */
struct row {
    uint64_t number;
    union result results[READ];
};

/* Says what the trouble is, and ends the driver. */
void end(const char *trouble);

/* Makes so many calls of readers on one frame. */
uint8_t read_rows(const uint8_t *frame, size_t frame_len, struct row *rows, size_t many);

#endif
