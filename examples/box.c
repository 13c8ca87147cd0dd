/*
 * An in-room box, small: a store with five attributes, requests on standard input and replies on standard output, and reports when they are
 * due. It needs no heap: the store, the table and the buffers are arrays of a fixed size.
 *
 * One line of input is one thing that happens:
 *   HEX             a request comes in; its reply is written in hex, a refusal as its number
 *   tick N          N seconds pass
 *   set ID VALUE    the hardware changes a value: ID in four hex digits, VALUE decimal
 *   save            what is configured goes to flash: it is written as 'saved HEX'
 *   restore HEX     the power fails, and flash has these bytes when it comes back; a refusal is written as its number
 *   # ..            nothing, and so an empty line
 * After each of the first five, all that is due is written as one 'report HEX'. With --read each reply and report is read back as the head-end
 * does it, and the text stands behind it.
 *
 * A line that is none of these is named on standard error, changes nothing, and makes the exit status 1.
 */
#include <errno.h>
#include <inttypes.h>
#include <stdio.h>
#include <stdlib.h>
#include <string.h>

#include "headend.h"
#include "hex.h"
#include "hingedrift.h"

enum { CLUSTER = 0xfc21 };

/* The longest frame, in and out, and the longest line: 'restore' with the longest saved form as digits. */
enum { FRAME_BYTES = 80, RESTORE_CHARS = sizeof "restore " - 1, LINE_CHARS = RESTORE_CHARS + 2 * HD_SAVED_BYTES };

/* Where in the store the values stand, behind the head and five entries. */
enum {
    COUNTER_AT = 4 + 5 * 8,
    LEVEL_AT = COUNTER_AT + 4,
    TEMPERATURE_AT = LEVEL_AT + 1,
    NAME_AT = TEMPERATURE_AT + 2,
    NAME_ROOM = 17,
    METER_AT = NAME_AT + NAME_ROOM,
    STORE_BYTES = METER_AT + 8
};

/* An entry's access. */
enum { READ_ONLY = 0, WRITABLE = 1, REPORTABLE = 2 };

/* A two-byte number, its low byte first as everywhere in the store. */
#define TWO(n) (n) & 0xff, (n) >> 8

/* The store: a head, an entry for each attribute in the order of their ids, then their values in the same order without gaps. */
static uint8_t store[STORE_BYTES] = {
    TWO(CLUSTER),            /* the cluster */
    TWO(5),                  /* how many attributes */

    TWO(COUNTER),            /* the rollback counter: id */
    0x23,                    /*   type: Uint32 */
    READ_ONLY | REPORTABLE,  /*   access */
    TWO(COUNTER_AT),         /*   where its value stands */
    TWO(4),                  /*   the value's room */

    TWO(LEVEL),              /* the lamp's level: id */
    0x20,                    /*   type: Uint8 */
    WRITABLE | REPORTABLE,   /*   access */
    TWO(LEVEL_AT),           /*   where its value stands */
    TWO(1),                  /*   the value's room */

    TWO(TEMPERATURE),        /* the temperature: id */
    0x29,                    /*   type: Int16 */
    READ_ONLY | REPORTABLE,  /*   access */
    TWO(TEMPERATURE_AT),     /*   where its value stands */
    TWO(2),                  /*   the value's room */

    TWO(NAME),               /* the room's name: id */
    CHARACTER_STRING,        /*   type */
    WRITABLE,                /*   access */
    TWO(NAME_AT),            /*   where its value stands */
    TWO(NAME_ROOM),          /*   the value's room: a length and 16 characters */

    TWO(METER),              /* the sub-meter: id */
    UINT64,                  /*   type */
    READ_ONLY | REPORTABLE,  /*   access */
    TWO(METER_AT),           /*   where its value stands */
    TWO(8),                  /*   the value's room */

    0x00, 0x00, 0x00, 0x80,  /* the counter: 2147483648, its top bit set */
    7,                       /* the level */
    0x38, 0xff,              /* the temperature in hundredths: -200 */
    3, '2', '1', '2',        /* the name: its length, its characters; the rest of its room is zero, and so is the sub-meter */
};

/* What the hardware changes by itself: where it stands, how wide it is, and what fits. */
static const struct wire {
    uint16_t id;
    size_t at, width;
    int64_t least;
    uint64_t most;
} wires[] = {
    { COUNTER, COUNTER_AT, 4, 0, UINT32_MAX },
    { LEVEL, LEVEL_AT, 1, 0, UINT8_MAX },
    { TEMPERATURE, TEMPERATURE_AT, 2, INT16_MIN, INT16_MAX },
    { METER, METER_AT, 8, 0, UINT64_MAX },
};

static uint8_t table[HD_TABLE_BYTES];
static uint32_t now;
static uint8_t sequence;
/* The last attribute that was reported: a turn starts above it, so that none waits for ever behind others. */
static uint32_t last = HD_NO_ID;
static int reads_back;

/* Ends the program: a number that these buffers cannot get. */
static void stop(const char *call, uint8_t number)
{
    fprintf(stderr, "box: %s: %u\n", call, number);
    exit(2);
}

/* A frame that leaves the box, and with --read what the head-end makes of it. */
static void send_frame(const uint8_t *frame, size_t n)
{
    uint8_t number;

    hex_print(frame, n);
    if (reads_back) {
        printf("  ");
        number = print_frame(frame, n);
        if (number != HD_OK)
            stop("the head-end cannot read the frame", number);
    }
    putchar('\n');
}

static void serve(const uint8_t *request, size_t n)
{
    uint8_t reply[FRAME_BYTES], number;
    size_t used;

    number = hd_handle_request(store, sizeof store, table, sizeof table, CLUSTER, 1, request, n, reply, sizeof reply, &used);
    if (number == HD_NOT_A_STORE || number == HD_NOT_A_TABLE)
        stop("the box's own bytes are refused", number);
    if (number == HD_OK)
        send_frame(reply, used);
    else
        printf("%u\n", number);
}

/*
 * Reports all that is due of what the head-end configured, in one frame. The turn marks what it wrote, so that the next one measures from there. Any four
 * of the box's values fit; where some did not, they would come first in the next turn.
 */
static void report_turn(void)
{
    uint8_t frame[FRAME_BYTES], number;
    size_t used;

    number = hd_report_turn(store, sizeof store, table, sizeof table, sequence, now, &last, frame, sizeof frame, &used);
    if (number == HD_NOTHING_TO_SEND)
        return;
    if (number != HD_OK)
        stop("hd_report_turn", number);
    sequence++;
    printf("report ");
    send_frame(frame, used);
}

/* A decimal number with nothing behind it, as its 64 bits; `least` is not above 0. strtoull would pass over blanks and a sign in front. */
static int decimal(const char *text, int64_t least, uint64_t most, uint64_t *bits)
{
    const int minus = text[0] == '-';
    const char *first = text + minus;
    char *end;
    unsigned long long size;

    if (first[0] < '0' || first[0] > '9')
        return 0;
    errno = 0;
    size = strtoull(first, &end, 10);
    if (errno != 0 || *end != '\0' || size > (minus ? 0 - (uint64_t)least : most))
        return 0;
    *bits = minus ? 0 - (uint64_t)size : size;
    return 1;
}

/* 'tick N'. The clock ends with its 32 bits: it does not turn back to 0, since no time passes for the table then. */
static int tick(const char *text)
{
    uint64_t seconds;

    if (!decimal(text, 0, UINT32_MAX - now, &seconds))
        return 0;
    now += (uint32_t)seconds;
    return 1;
}

/* 'set ID VALUE', from behind the first blank. */
static int set(const char *text)
{
    uint8_t id[2];
    uint64_t value;
    size_t i, k;

    if (strlen(text) < 6 || text[4] != ' ' || !hex_read(text, 4, id, sizeof id))
        return 0;
    for (i = 0; i < sizeof wires / sizeof wires[0]; i++) {
        if (wires[i].id != 256 * id[0] + id[1])
            continue;
        if (!decimal(text + 5, wires[i].least, wires[i].most, &value))
            return 0;
        for (k = 0; k < wires[i].width; k++)
            store[wires[i].at + k] = (uint8_t)(value >> (8 * k));
        return 1;
    }
    return 0;
}

/* 'save'. Only requests and saved forms configure this table, and neither sets intervals that are not saved: it has a form, and the buffer holds any. */
static void save(void)
{
    uint8_t saved[HD_SAVED_BYTES], number;
    size_t used;

    if ((number = hd_save(table, sizeof table, saved, sizeof saved, &used)) != HD_OK)
        stop("hd_save", number);
    printf("saved ");
    hex_print(saved, used);
    putchar('\n');
}

/*
 * 'restore HEX', from behind the blank. After a power cut RAM holds anything. So the table is overwritten first with what is no table, a count above
 * 128: whatever is reported then comes from the form alone, and turns start anew. Values and clock stay as they are; a form has neither.
 */
static int restore(const char *text, size_t digits)
{
    uint8_t saved[HD_SAVED_BYTES], number;

    if (digits == 0 || !hex_read(text, digits, saved, sizeof saved))
        return 0;
    memset(table, 0xa5, sizeof table);
    last = HD_NO_ID;
    number = hd_restore(table, sizeof table, saved, digits / 2);
    if (number != HD_OK)
        printf("%u\n", number);
    return 1;
}

/* One line, of `n` characters, a 0 behind them. 0 where it is none. */
static int happens(const char *line, size_t n)
{
    uint8_t request[FRAME_BYTES];

    if (n == 0 || line[0] == '#')
        return 1;
    if (strlen(line) != n)
        return 0; /* a 0 inside would hide what is behind it */
    if (strncmp(line, "tick ", 5) == 0) {
        if (!tick(line + 5))
            return 0;
    } else if (strncmp(line, "set ", 4) == 0) {
        if (!set(line + 4))
            return 0;
    } else if (strcmp(line, "save") == 0) {
        save();
    } else if (strncmp(line, "restore ", RESTORE_CHARS) == 0) {
        if (!restore(line + RESTORE_CHARS, n - RESTORE_CHARS))
            return 0;
    } else if (hex_read(line, n, request, sizeof request)) {
        serve(request, n / 2);
    } else {
        return 0;
    }
    report_turn();
    return 1;
}

/* What next_line found: a line, one that is longer than the buffer, or none. */
enum found { LINE, LONG_LINE, NO_LINE };

/*
 * The next line, without its end. A line that does not fit is read to its end all the same: its rest is no line of its own, and its start is
 * not the line that was sent.
 */
static enum found next_line(char line[LINE_CHARS + 1], size_t *n)
{
    enum found found = LINE;
    int c = getchar();

    *n = 0;
    if (c == EOF)
        return NO_LINE;
    for (; c != '\n' && c != EOF; c = getchar()) {
        if (*n < LINE_CHARS)
            line[(*n)++] = (char)c;
        else
            found = LONG_LINE;
    }
    line[*n] = '\0';
    return found;
}

int main(int argc, char **argv)
{
    char line[LINE_CHARS + 1];
    size_t n;
    enum found found;
    unsigned long count = 0;
    int status = 0;

    reads_back = argc == 2 && strcmp(argv[1], "--read") == 0;
    if (argc > 1 && !reads_back) {
        fprintf(stderr, "usage: box [--read]\n");
        return 2;
    }
    if (hd_table_new(table, sizeof table) != HD_OK)
        stop("no new table", HD_NOT_A_TABLE);
    while ((found = next_line(line, &n)) != NO_LINE) {
        count++;
        if (found == LONG_LINE || !happens(line, n)) {
            fprintf(stderr, "line %lu: %s\n", count, found == LONG_LINE ? "too long" : "no request, tick, set, save or restore");
            status = 1;
        }
    }
    if (ferror(stdin) || fflush(stdout) != 0 || ferror(stdout)) {
        fprintf(stderr, "box: input or output failed\n");
        status = 1;
    }
    return status;
}
