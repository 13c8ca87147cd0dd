/* The rows of calls that `speed --frames` prints, read for C: src/text.rs has their form. What is not understood ends the program with 2. */
#ifndef ROWS_H
#define ROWS_H

#include <errno.h>
#include <stdint.h>
#include <stdio.h>
#include <stdlib.h>
#include <string.h>

#include "hingedrift.h"

/* The most that is read: bytes of a line, of a store and of a frame, of a reply buffer; attributes to report; calls of a row. */
enum { LINE = 1 << 15, BYTES = 1 << 12, ROOM = 1 << 12, IDS = 64, CALLS = 128 };

enum kind { REQUEST, REPORT, ASK, MARK, KINDS };

/* What a call does not have is not set. A request has `length` bytes, a report `length` attributes. */
struct call {
    enum kind kind;
    uint16_t cluster, attribute;
    uint32_t now;
    int64_t value;
    uint8_t sequence;
    size_t room, length;
    uint8_t frame[BYTES];
    uint16_t ids[IDS];
};

struct row {
    uint8_t store[BYTES], table[HD_TABLE_BYTES];
    size_t store_len, many;
    struct call calls[CALLS];
};

static void end(const char *trouble, const char *what)
{
    fprintf(stderr, "rows: %s: %s\n", trouble, what);
    exit(2);
}

static int64_t number(const char *word, int64_t least, int64_t most)
{
    char *behind;
    long long read;

    errno = 0;
    read = strtoll(word, &behind, 10);
    if (*behind != '\0' || errno != 0 || read < least || read > most)
        end("not such a number", word);
    return read;
}

/* The line's next word, or null. */
static char *next(void)
{
    return strtok(NULL, " \n");
}

static char *word(void)
{
    char *found = next();

    if (found == NULL)
        end("not understood", "a line ends too early");
    return found;
}

static uint16_t short_number(void)
{
    return (uint16_t)number(word(), 0, UINT16_MAX);
}

static uint8_t digit(char c)
{
    return (uint8_t)(c <= '9' ? c - '0' : c - 'a' + 10);
}

/* The bytes of the next word, which is hex; how many there are. */
static size_t bytes(uint8_t *into, size_t most)
{
    const char *hex = word();
    size_t length = strlen(hex), i;

    if (length % 2 != 0 || length / 2 > most || strspn(hex, "0123456789abcdef") != length)
        end("not such bytes", hex);
    for (i = 0; i < length / 2; i++)
        into[i] = (uint8_t)(digit(hex[2 * i]) << 4 | digit(hex[2 * i + 1]));
    return length / 2;
}

static void read_request(struct call *call)
{
    call->cluster = short_number();
    call->room = (size_t)number(word(), 0, ROOM);
    call->length = bytes(call->frame, BYTES);
}

static void read_report(struct call *call)
{
    char *id;

    call->sequence = (uint8_t)number(word(), 0, UINT8_MAX);
    call->room = (size_t)number(word(), 0, ROOM);
    for (call->length = 0; (id = next()) != NULL; call->length++) {
        if (call->length == IDS)
            end("not understood", "a report of too many attributes");
        call->ids[call->length] = (uint16_t)number(id, 0, UINT16_MAX);
    }
}

/* An ask or a mark. */
static void read_ask(struct call *call)
{
    call->cluster = short_number();
    call->attribute = short_number();
    call->now = (uint32_t)number(word(), 0, UINT32_MAX);
    call->value = number(word(), INT64_MIN, INT64_MAX);
}

static const struct {
    const char *word;
    void (*read)(struct call *call);
} kinds[KINDS] = { { "request", read_request }, { "report", read_report }, { "ask", read_ask }, { "mark", read_ask } };

/* The store and the table of a row's line, behind its name; it has no calls yet. */
static void read_row(struct row *row)
{
    row->many = 0;
    row->store_len = bytes(row->store, BYTES);
    if (bytes(row->table, HD_TABLE_BYTES) != HD_TABLE_BYTES)
        end("not understood", "a table of too few bytes");
}

/* A call's line, of which `first` is the first word. */
static struct call *read_call(struct row *row, const char *first)
{
    int kind = 0;

    while (kind < KINDS && strcmp(first, kinds[kind].word) != 0)
        kind++;
    if (kind == KINDS || row == NULL || row->many == CALLS)
        end("not understood", first);
    row->calls[row->many].kind = (enum kind)kind;
    kinds[kind].read(&row->calls[row->many]);
    return &row->calls[row->many++];
}

/* Gives every line's first word to `take`, which reads the others. */
static void each_line(void (*take)(const char *first))
{
    static char line[LINE];
    const char *first;

    while (fgets(line, sizeof line, stdin) != NULL) {
        if (strchr(line, '\n') == NULL || (first = strtok(line, " \n")) == NULL)
            end("not understood", "a line that is empty, too long or cut");
        take(first);
        if (next() != NULL)
            end("not understood", "a line that is too long");
    }
    if (ferror(stdin))
        end("not read", "standard input");
}

#endif
