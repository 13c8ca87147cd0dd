/*
 * The stack that a call of each function of hingedrift.h takes, the most over the rows on standard input (rows.h):
 *
 *     speed --frames | stack
 *
 * Arguments and return address count; what else a call of an empty function takes is subtracted. Every function is called on every row: the server's
 * with its requests, the readers with what was asked and what was said, the table's with the attributes of its store and with its asks. A table is saved
 * and restored as it stands in a row, and first one of 16 entries and a full one. A report turn is taken over a row's store and table as they stand, and
 * with the store's attributes configured and all due.
 *
 * Prints a line a function: its name, bytes, and the row and frame. Exits with 1 where one was never called, never said HD_OK or took no stack.
 */
#define _XOPEN_SOURCE 700
#include "painted.h"
#include "rows.h"

/* The entries of a full table: each has a row and a body in the saved form. */
enum { ENTRIES = (HD_SAVED_BYTES - 1) / (6 + 13) };

/* What the calls below are given: a row, one of its calls, a copy of its table, a frame to serve or to read, a record's number; */
static struct row row;
static const struct call *call;
static uint8_t table[HD_TABLE_BYTES];
static const uint8_t *frame;
static size_t frame_len, k;
/* a saved form's bytes and how many of them are lent; */
static uint8_t saved[HD_SAVED_BYTES];
static size_t saved_len;
/* their results; */
static uint8_t reply[ROOM], b1, b2, b3, b4;
static size_t used, records, place, length;
static uint16_t w1, w2, w3;
static int64_t value;
static uint64_t change;
static uint32_t last;
/* and what they return. */
static volatile uint8_t said;

#define STORE row.store, row.store_len
#define KEY table, sizeof table, call->cluster, call->attribute
#define FRAME frame, frame_len
#define REPLY reply, call->room, &used

/* Every function and its arguments. */
#define FUNCTIONS(F) \
    F(hd_table_new, table, sizeof table) \
    F(hd_configure, KEY, 10, 60, 50, HD_SIGNED, &b1) \
    F(hd_clear, KEY) \
    F(hd_configuration, KEY, &b1, &w1, &w2, &change, &b2) \
    F(hd_ask, KEY, call->now, call->value, &b1) \
    F(hd_mark, KEY, call->now, call->value) \
    F(hd_save, table, sizeof table, saved, saved_len, &used) \
    F(hd_restore, table, sizeof table, saved, saved_len) \
    F(hd_number, STORE, call->attribute, &value) \
    F(hd_handle_request, STORE, row.table, sizeof row.table, call->cluster, 1, FRAME, REPLY) \
    F(hd_unsupported_cluster, &w1, 0, call->cluster, 1, FRAME, REPLY) \
    F(hd_report, STORE, call->sequence, call->ids, call->length, REPLY) \
    F(hd_report_turn, STORE, table, sizeof table, call->sequence, call->now, &last, REPLY) \
    F(hd_read_check, FRAME, &records) \
    F(hd_read_record, FRAME, k, &b1, &w1, &b2, &b3, &place, &length, &b4, &value) \
    F(hd_write_check, FRAME, &records) \
    F(hd_write_record, FRAME, k, &b1, &b2, &w1) \
    F(hd_configure_check, FRAME, &records) \
    F(hd_configure_record, FRAME, k, &b1, &b2, &b3, &w1) \
    F(hd_configuration_check, FRAME, &records) \
    F(hd_configuration_record, FRAME, k, &b1, &b2, &b3, &w1, &b4, &w2, &w3, &change) \
    F(hd_discover_check, FRAME, &b1, &records) \
    F(hd_discover_record, FRAME, k, &b1, &w1, &b2) \
    F(hd_default_response, FRAME, &b1, &b2) \
    F(hd_report_check, FRAME, &records) \
    F(hd_report_record, FRAME, k, &b1, &w1, &b2, &place, &length, &b3, &value)

#define CALL(function, ...) static void call_##function(void) { said = function(__VA_ARGS__); }
FUNCTIONS(CALL)

/* A call that takes its return address and nothing else. Through a pointer that may change, so that the compiler does not leave it out. */
static uint8_t nothing(void)
{
    return HD_OK;
}

static uint8_t (*volatile empty)(void) = nothing;

static void call_empty(void)
{
    said = empty();
}

/* Of each function: how many calls said HD_OK, the most stack, and on what. */
#define ENTRY(function, ...) { #function, call_##function, 0, 0, "" },
static struct function {
    const char *name;
    void (*run)(void);
    unsigned long done;
    size_t most;
    char on[160];
} functions[] = { FUNCTIONS(ENTRY) };

enum { MANY = sizeof functions / sizeof *functions };

/* What is no part of a call. */
static size_t base;
/* The row's name, and what of it is called for. */
static char name[64], what[64];

static void measure(void (*run)(void))
{
    struct function *function = functions;
    size_t bytes;

    while (function->run != run)
        function++;
    bytes = stack_of(run) - base;
    function->done += said == HD_OK;
    if (bytes > function->most) {
        function->most = bytes;
        snprintf(function->on, sizeof function->on, "%s %s", name, what);
    }
}

/* Names the frame by its first bytes. */
static void lend(const uint8_t *bytes, size_t n)
{
    size_t i;

    frame = bytes;
    frame_len = n;
    for (i = 0; i < n && 2 * i + 4 < sizeof what; i++)
        sprintf(what + 2 * i, "%02x", bytes[i]);
    strcpy(what + 2 * i, i < n ? ".." : "");
}

/* Every reader, with every record and one more. */
static void read_back(const uint8_t *bytes, size_t n)
{
    static void (*const readers[][2])(void) = {
        { call_hd_read_check, call_hd_read_record },
        { call_hd_write_check, call_hd_write_record },
        { call_hd_configure_check, call_hd_configure_record },
        { call_hd_configuration_check, call_hd_configuration_record },
        { call_hd_discover_check, call_hd_discover_record },
        { call_hd_report_check, call_hd_report_record },
    };
    size_t i;

    lend(bytes, n);
    measure(call_hd_default_response);
    for (i = 0; i < sizeof readers / sizeof *readers; i++) {
        measure(readers[i][0]);
        for (k = 0; k <= records; k++)
            measure(readers[i][1]);
    }
}

static void serve(void (*run)(void))
{
    lend(call->frame, call->length);
    measure(run);
    if (said == HD_OK)
        read_back(reply, used);
}

static void report(void)
{
    sprintf(what, "a report of %u attributes", (unsigned)call->length);
    measure(call_hd_report);
    if (said == HD_OK)
        read_back(reply, used);
}

/* Makes the form what it was before there were marks: a body has its first 12 bytes, and stands so much earlier. */
static void without_marks(void)
{
    const size_t n = saved[0], rows = 1 + 6 * n;
    size_t i;

    for (i = 0; i < n; i++) {
        const size_t at = rows + 12 * i;

        memmove(saved + at, saved + rows + 13 * i, 12);
        saved[1 + 6 * i + 4] = (uint8_t)at;
        saved[1 + 6 * i + 5] = (uint8_t)(at >> 8);
    }
    saved_len = rows + 12 * n;
}

/* A save and a restore, each first refused: there is no buffer, and the form's first byte alone is lent. Then the same form without marks. */
static void save_and_restore(void)
{
    saved_len = 0;
    measure(call_hd_save);
    saved_len = sizeof saved;
    measure(call_hd_save);
    if (said != HD_OK)
        return;
    saved_len = 1;
    measure(call_hd_restore);
    saved_len = used;
    measure(call_hd_restore);
    without_marks();
    measure(call_hd_restore);
    if (said != HD_OK) {
        fprintf(stderr, "stack: a form without marks was not read\n");
        exit(1);
    }
}

/* The same with a table of so many entries. */
static void filled(unsigned many)
{
    uint16_t i;

    strcpy(name, "a table");
    sprintf(what, "of %u entries", many);
    hd_table_new(table, sizeof table);
    for (i = 0; i < many; i++) {
        hd_configure(table, sizeof table, 0x0402, i, 10, 300, 50, HD_SIGNED, &b1);
        hd_mark(table, sizeof table, 0x0402, i, 100000, -5);
    }
    save_and_restore();
}

/* The functions of the table with the call's attribute, as it stands in the table and, behind the clear, as a new one. */
static void keep(void)
{
    static void (*const calls[])(void) = {
        call_hd_configuration, call_hd_ask, call_hd_mark, call_hd_clear, call_hd_configure, call_hd_configuration, call_hd_ask, call_hd_mark,
        call_hd_configure, call_hd_clear, call_hd_table_new,
    };
    size_t i;

    sprintf(what, "attribute %04x", call->attribute);
    memcpy(table, row.table, sizeof table);
    for (i = 0; i < sizeof calls / sizeof *calls; i++)
        measure(calls[i]);
    memcpy(table, row.table, sizeof table);
    save_and_restore();
}

/* A report turn over the row's store and table, and over a table of the `n` attributes of the store, as many as it holds. */
static void turn(size_t n)
{
    size_t i;

    sprintf(what, "a turn over %u attributes", (unsigned)n);
    last = HD_NO_ID;
    memcpy(table, row.table, sizeof table);
    measure(call_hd_report_turn);
    hd_table_new(table, sizeof table);
    for (i = 0; i < n; i++)
        hd_configure(table, sizeof table, call->cluster, (uint16_t)(row.store[4 + 8 * i] + 256u * row.store[5 + 8 * i]), 10, 60, 50, HD_SIGNED, &b1);
    measure(call_hd_report_turn);
    if (said == HD_OK)
        read_back(reply, used);
}

/* Each attribute of the row's store: its number, a report of it alone, and the table; then a report turn over all. */
static void attributes(void)
{
    static struct call made;
    size_t n = row.store_len < 4 ? 0 : row.store[2] + 256u * row.store[3], i;

    call = &made;
    made.room = ROOM;
    made.length = 1;
    for (i = 0; i < n && 4 + 8 * (i + 1) <= row.store_len; i++) {
        const uint8_t *entry = row.store + 4 + 8 * i;

        made.cluster = (uint16_t)(row.store[0] + 256u * row.store[1]);
        made.attribute = made.ids[0] = (uint16_t)(entry[0] + 256u * entry[1]);
        keep();
        measure(call_hd_number);
        report();
    }
    turn(i);
}

/* A row's line, or the line of a call. */
static void take(const char *first)
{
    if (strcmp(first, "row") == 0) {
        snprintf(name, sizeof name, "%s", word());
        read_row(&row);
        attributes();
        return;
    }
    call = read_call(&row, first);
    row.many = 0;
    if (call->kind == REPORT) {
        report();
    } else if (call->kind != REQUEST) {
        keep();
    } else {
        serve(call_hd_handle_request);
        serve(call_hd_unsupported_cluster);
        read_back(call->frame, call->length);
    }
}

int main(void)
{
    const struct function *function;
    int status = 0;

    base = stack_of(call_empty) - sizeof(void *);
    filled(16);
    filled(ENTRIES);
    each_line(take);
    for (function = functions; function < functions + MANY; function++) {
        printf("%s %lu %s\n", function->name, (unsigned long)function->most, function->on);
        if (function->most == 0 || function->done == 0) {
            fprintf(stderr, "stack: %s: not measured\n", function->name);
            status = 1;
        }
    }
    return status;
}
