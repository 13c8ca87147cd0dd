/*
 * How a driver uses the reporting table: configure an attribute, ask before each report whether it is due, mark each report that was sent, and
 * save what is configured, so that it is there again after a power cut. Every answer is checked; examples/run compares what is printed with table.expected.
 */
#include <inttypes.h>
#include <stdio.h>
#include <stdlib.h>
#include <string.h>

#include "hingedrift.h"

/* The attribute that is reported. Its asks below are document 01's bench frame 11. */
enum { CLUSTER = 0xfc21, ATTRIBUTE = 0x0005 };

/* The table lives as long as the driver does. */
static uint8_t table[HD_TABLE_BYTES];

/* Ends the program when an answer is not the expected one. */
static void expect(int right, const char *what)
{
    if (!right) {
        printf("surprise: %s\n", what);
        exit(1);
    }
}

/* Asks at a time with a value, and prints the answer. */
static void ask(uint32_t now, int64_t value, int expected)
{
    uint8_t due;

    expect(hd_ask(table, sizeof table, CLUSTER, ATTRIBUTE, now, value, &due) == HD_OK, "an ask was refused");
    printf("ask at %" PRIu32 " with %" PRId64 ": %s\n", now, value, due ? "report" : "not yet");
    expect(due == expected, "the ask has another answer");
}

int main(void)
{
    uint8_t saved[HD_SAVED_BYTES], accepted, found, mark;
    uint16_t minimum, maximum;
    uint64_t change;
    size_t used;

    expect(hd_table_new(table, sizeof table) == HD_OK, "no new table");
    printf("new table: %u of 128 configured\n", table[0]);

    /* At least 10 seconds apart, at most 60, and in between when the value has moved by 50 or more; the value is an Int, and so has a sign. */
    expect(hd_configure(table, sizeof table, CLUSTER, ATTRIBUTE, 10, 60, 50, HD_SIGNED, &accepted) == HD_OK, "configure was refused");
    expect(accepted == 1, "there was no room");
    printf("configured: %u of 128\n", table[0]);

    expect(hd_configuration(table, sizeof table, CLUSTER, ATTRIBUTE, &found, &minimum, &maximum, &change, &mark) == HD_OK, "configuration was refused");
    expect(found == 1 && minimum == 10 && maximum == 60 && change == 50 && mark == HD_SIGNED, "another configuration");
    printf("configuration: %u to %u seconds, change %" PRIu64 ", %s\n", minimum, maximum, change, mark == HD_SIGNED ? "signed" : "unsigned");

    /* The first ask is a yes. A report that was sent is marked, with its time and value. */
    ask(100, -200, 1);
    expect(hd_mark(table, sizeof table, CLUSTER, ATTRIBUTE, 100, -200) == HD_OK, "mark was refused");
    printf("marked at 100 with -200\n");

    ask(109, 0, 0);     /* under the minimum, however far the value moved */
    ask(110, -151, 0);  /* moved by 49 */
    ask(110, -150, 1);  /* moved by 50 */
    ask(159, -200, 0);  /* not moved */
    ask(160, -200, 1);  /* the maximum */
    ask(90, 0, 0);      /* the clock went back: no time has passed */

    /* What goes to flash tells what is configured, and no last report. RAM holds anything after a power cut; here a count that no table has. */
    expect(hd_save(table, sizeof table, saved, sizeof saved, &used) == HD_OK, "save was refused");
    printf("saved: %u bytes\n", (unsigned)used);
    memset(table, 0xa5, sizeof table);
    expect(hd_restore(table, sizeof table, saved, used) == HD_OK, "restore was refused");
    printf("restored: %u of 128 configured\n", table[0]);
    ask(3, -200, 1);    /* configured, and not reported yet */
    expect(hd_mark(table, sizeof table, CLUSTER, ATTRIBUTE, 3, -200) == HD_OK, "mark was refused");
    ask(12, 0, 0);      /* the minimum is 10 again */

    expect(hd_clear(table, sizeof table, CLUSTER, ATTRIBUTE) == HD_OK, "clear was refused");
    printf("cleared: %u of 128 configured\n", table[0]);
    ask(1000, 0, 0);
    return 0;
}
