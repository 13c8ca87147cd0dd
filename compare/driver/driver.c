/*
 * Makes the calls of include/hingedrift.h that come over a pipe, and sends back what came of them. The archive is for x86-64, and what it is
 * compared with is for whatever machine that runs on: a pipe joins them where they cannot be linked. The other end is compare/ours.
 *
 * Every number on the pipe has 8 bytes, the lowest first, as it lies in the memory of an x86-64.
 *
 * A call: fifteen numbers (its function, as in `answer` below; 6 arguments; the lengths of 4 buffers, and how many bytes of each are told), then
 * these bytes of the buffers, one behind the other: all that follow in a buffer are as the last that is told, so that a table's blank slots cost
 * nothing. What a function does not have is 0.
 *
 * Function 0 is no call: it ends a batch. The answers are kept until then, so that the other end can write a whole batch before it reads.
 *
 * An answer: six numbers (what the function returned; 5 results), then each buffer as it is afterwards: how many bytes are told, and these between
 * two walls of 16 bytes. The wall behind has up to 7 more, so that all buffers start at multiples of 8, as lists of numbers must. Results and
 * walls were all a5, but for the result that goes in, too: the last id of a report turn.
 */
#include <stdio.h>
#include <stdlib.h>
#include <string.h>

#include "driver.h"

enum { ARGUMENTS = 6, RESULTS = 5, BUFFERS = 4 };

enum { WALL = 16 };

/* The most bytes that a batch's answers may have, and that a call may be lent. */
enum { MOST = 1 << 24 };

struct call {
    uint64_t function, arguments[ARGUMENTS], lengths[BUFFERS], told[BUFFERS];
};

struct answer {
    uint64_t number;
    union result results[RESULTS];
};

/* The answers of this batch, and what its last call was lent. */
static uint8_t *answers, *memory;
static size_t answered, taken;

void end(const char *trouble)
{
    fprintf(stderr, "driver: %s\n", trouble);
    exit(1);
}

/* Puts the bytes behind the answers. */
static void put(const void *bytes, size_t length)
{
    if (length > MOST - answered)
        end("a batch is too long");
    memcpy(answers + answered, bytes, length);
    answered += length;
}

/* The bytes of a wall behind a buffer. */
static size_t behind(uint64_t length)
{
    return (length + 7) / 8 * 8 - length + WALL;
}

/* A buffer between its walls, of which so many bytes come next. */
static uint8_t *lent(uint64_t length, uint64_t told)
{
    uint8_t *buffer = memory + taken + WALL;

    if (length > MOST || told > length || (told == 0 && length != 0) || WALL + length + behind(length) > MOST - taken)
        end("no such buffer");
    taken += WALL + length + behind(length);
    memset(buffer - WALL, BEFORE, WALL);
    if (fread(buffer, 1, told, stdin) != told)
        end("a call is cut");
    if (told != 0)
        memset(buffer + told, buffer[told - 1], length - told);
    memset(buffer + length, BEFORE, behind(length));
    return buffer;
}

/* How many bytes tell the buffer: all that follow are as the last of them. */
static uint64_t told(const uint8_t *buffer, uint64_t length)
{
    enum { STRIDE = 256 };

    while (length > STRIDE && memcmp(buffer + length - 1 - STRIDE, buffer + length - STRIDE, STRIDE) == 0)
        length -= STRIDE;
    while (length > 1 && buffer[length - 2] == buffer[length - 1])
        length--;
    return length;
}

/* What became of a buffer and its walls. */
static void show(const uint8_t *buffer, uint64_t length)
{
    uint64_t some = told(buffer, length);

    put(&some, sizeof some);
    put(buffer - WALL, WALL + some);
    put(buffer + length, behind(length));
}

/* Makes the call. Lists of 16-bit numbers have lengths in bytes on the pipe. */
static uint8_t answer(uint64_t function, const uint64_t *a, uint8_t *const *b, const uint64_t *len, union result *r)
{
    const uint16_t cluster = (uint16_t)a[0], attribute = (uint16_t)a[1];
    void *list;

    switch (function) {
    case 1:
        return hd_table_new(b[0], len[0]);
    case 2:
        return hd_configure(b[0], len[0], cluster, attribute, (uint16_t)a[2], (uint16_t)a[3], a[4], (uint8_t)a[5], &r[0].byte);
    case 3:
        return hd_clear(b[0], len[0], cluster, attribute);
    case 4:
        return hd_configuration(b[0], len[0], cluster, attribute, &r[0].byte, &r[1].word, &r[2].word, &r[3].change, &r[4].byte);
    case 5:
        return hd_ask(b[0], len[0], cluster, attribute, (uint32_t)a[2], (int64_t)a[3], &r[0].byte);
    case 6:
        return hd_mark(b[0], len[0], cluster, attribute, (uint32_t)a[2], (int64_t)a[3]);
    case 7:
        return hd_number(b[0], len[0], (uint16_t)a[0], &r[0].value);
    case 8:
        return hd_handle_request(b[0], len[0], b[1], len[1], cluster, (uint8_t)a[1], b[2], len[2], b[3], len[3], &r[0].used);
    case 9:
        list = b[0];
        return hd_unsupported_cluster(list, len[0] / 2, cluster, (uint8_t)a[1], b[1], len[1], b[2], len[2], &r[0].used);
    case 10:
        list = b[1];
        return hd_report(b[0], len[0], (uint8_t)a[0], list, len[1] / 2, b[2], len[2], &r[0].used);
    case 11:
        list = b[1];
        return read_rows(b[0], len[0], list, len[1] / sizeof(struct row));
    case 12:
        return hd_save(b[0], len[0], b[1], len[1], &r[0].used);
    case 13:
        return hd_restore(b[0], len[0], b[1], len[1]);
    case 14:
        r[1].last = (uint32_t)a[2];
        return hd_report_turn(b[0], len[0], b[1], len[1], (uint8_t)a[0], (uint32_t)a[1], &r[1].last, b[2], len[2], &r[0].used);
    default:
        end("there is no such function");
        return 0;
    }
}

int main(void)
{
    struct call call;
    struct answer to;
    uint8_t *buffers[BUFFERS];
    unsigned i;

    answers = malloc(MOST);
    memory = malloc(MOST);
    if (answers == NULL || memory == NULL || setvbuf(stdin, NULL, _IOFBF, 1 << 16) != 0)
        end("there is no memory");
    while (fread(&call, sizeof call, 1, stdin) == 1) {
        if (call.function != 0) {
            taken = 0;
            for (i = 0; i < BUFFERS; i++)
                buffers[i] = lent(call.lengths[i], call.told[i]);
            memset(&to, BEFORE, sizeof to);
            to.number = answer(call.function, call.arguments, buffers, call.lengths, to.results);
            put(&to, sizeof to);
            for (i = 0; i < BUFFERS; i++)
                show(buffers[i], call.lengths[i]);
        } else {
            if (fwrite(answers, 1, answered, stdout) != answered || fflush(stdout) != 0)
                end("the answers cannot be written");
            answered = 0;
        }
    }
    return 0;
}
