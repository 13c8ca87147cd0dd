/* Time and stack of a request with the table lent as bytes and by value: compare/speed/forms makes the three functions and runs this. */
#include <stdint.h>
#include <stdio.h>

#include "painted.h"
#include "timed.h"

uint8_t forms_lent(uint8_t *store, size_t store_len, uint8_t *table, size_t table_len, uint16_t cluster, const uint8_t *request, size_t request_len, uint8_t *reply, size_t reply_len);
uint8_t forms_value(uint8_t *store, size_t store_len, uint8_t *table, size_t table_len, uint16_t cluster, const uint8_t *request, size_t request_len, uint8_t *reply, size_t reply_len);
uint8_t forms_copy(uint8_t *table, size_t table_len);

/* Document 01's store T, and a table of 16 entries: attribute 5 is the last. */
static uint8_t store[] = {
    0x21, 0xfc, 4, 0, 0, 0, 0x23, 2, 36, 0, 4, 0, 1, 0, 0x20, 1, 40, 0, 1, 0, 5, 0, 0x29, 3, 41, 0, 2, 0, 7, 0, 0x42, 1, 43, 0, 5, 0,
    0, 0, 0, 0x80, 7, 0x38, 0xff, 2, 'T', 'V', 0, 0
};
static uint8_t table[3841];
static uint8_t reply[64];

struct row {
    const char *name;
    size_t len;
    uint8_t frame[16];
};

static const struct row rows[] = {
    { "read 1", 5, { 0x00, 1, 0x00, 0, 0 } },
    { "configure 1", 13, { 0x00, 1, 0x06, 0, 5, 0, 0x29, 10, 0, 60, 0, 50, 0 } },
    { "read configuration 1", 6, { 0x00, 1, 0x08, 0, 5, 0 } },
};

/* How often each is made in a row. */
enum { CALLS = 20000 };

enum form { LENT, VALUE, COPY };
static const char *const names[] = { "lent", "by value", "bytes to value and back" };
static enum form form;
static const struct row *row;
static volatile uint8_t said;

static void call(void)
{
    switch (form) {
    case LENT:
        said = forms_lent(store, sizeof store, table, sizeof table, 0xfc21, row->frame, row->len, reply, sizeof reply);
        break;
    case VALUE:
        said = forms_value(store, sizeof store, table, sizeof table, 0xfc21, row->frame, row->len, reply, sizeof reply);
        break;
    default:
        said = forms_copy(table, sizeof table);
    }
}

/* What starting on that stack takes without a call. */
static void nothing(void)
{
}

int main(void)
{
    size_t base = stack_of(nothing), i;

    table[0] = 16;
    for (i = 0; i < 16; i++) {
        uint8_t *slot = table + 1 + 30 * i;
        slot[0] = 0x21;
        slot[1] = 0xfc;
        slot[2] = i == 15 ? 5 : (uint8_t)(100 + i);
        slot[4] = 10;
        slot[6] = 60;
        slot[8] = 50;
    }
    printf("%-22s %-24s %8s %8s\n", "request", "table", "ns", "stack");
    for (row = rows; row < rows + sizeof rows / sizeof rows[0]; row++)
        for (form = LENT; form < COPY; form++) {
            size_t stack = stack_of(call) - base;
            if (said != 0)
                return 1;
            printf("%-22s %-24s %8.1f %8zu\n", row->name, names[form], nanoseconds(call, CALLS), stack);
        }
    form = COPY;
    i = stack_of(call) - base;
    printf("%-22s %-24s %8.1f %8zu\n", "", names[COPY], nanoseconds(call, CALLS), i);
    return 0;
}
