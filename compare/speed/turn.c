/*
 * A report turn over a store of 64 attributes and a full table, and beside it a loop of 64 asks alone, and the single calls that do what the turn
 * does. A row is one of these ways in one case, how many are due. compare/speed/run makes and runs this:
 *
 *     turn                looks at what the ways leave in each case, and prints the rows' names
 *     turn time ROW N     prints the nanoseconds of a row, made N times in a block
 *     turn calls ROW N    makes a row N times, and prints nothing
 *
 * Exits with 1 where one way leaves other than another, and with 2 where nothing could be run.
 */
#include <stdint.h>
#include <stdio.h>
#include <stdlib.h>
#include <string.h>

#include "hingedrift.h"
#include "timed.h"

/* The store's cluster, and one that has half of the table's 128 entries. */
enum { CLUSTER = 0xfc21, OTHER = 0x0402, MANY = 64 };

/* An entry that is due is so for the time alone, in every call again: each comes MAXIMUM seconds after the one before. */
enum { MINIMUM = 10, MAXIMUM = 60 };

/* Unsigned of 1, 2, 4 and 8 bytes, in turn. */
static const uint8_t types[4] = { 0x20, 0x21, 0x23, 0x27 }, widths[4] = { 1, 2, 4, 8 };

static uint8_t store[4 + MANY * 8 + MANY / 4 * 15];
static int64_t numbers[MANY];
static uint8_t table[HD_TABLE_BYTES];
static uint8_t frame[3 + MANY * 3 + MANY / 4 * 15];
static size_t used;
static uint32_t now;
/* How many the asks found due. */
static size_t found;

static void end(int code, const char *why)
{
    fprintf(stderr, "turn: %s\n", why);
    exit(code);
}

/* A call that is refused, but for want of a report, ends the program. */
static void done(uint8_t number)
{
    if (number != HD_OK && number != HD_NOTHING_TO_SEND)
        end(2, "refused");
}

static void put(uint8_t *at, size_t number)
{
    at[0] = (uint8_t)number;
    at[1] = (uint8_t)(number >> 8);
}

static void make_store(void)
{
    size_t at = 4 + MANY * 8, i;

    put(store, CLUSTER);
    put(store + 2, MANY);
    for (i = 0; i < MANY; i++) {
        uint8_t *entry = store + 4 + 8 * i;

        put(entry, i);
        entry[2] = types[i % 4];
        entry[3] = 2;
        put(entry + 4, at);
        put(entry + 6, widths[i % 4]);
        memset(store + at, (int)i + 1, widths[i % 4]);
        at += widths[i % 4];
    }
    for (i = 0; i < MANY; i++)
        done(hd_number(store, sizeof store, (uint16_t)i, &numbers[i]));
}

static uint8_t configured(uint16_t cluster, size_t id, uint16_t maximum)
{
    uint8_t accepted;

    done(hd_configure(table, sizeof table, cluster, (uint16_t)id, MINIMUM, maximum, 1, HD_UNSIGNED, &accepted));
    return accepted;
}

/* A full table, of both clusters in turn, all reported just now. Every `due`th attribute is due for the time, the others never; none for 0. */
static void make_table(size_t due)
{
    size_t i;

    done(hd_table_new(table, sizeof table));
    now = 1000;
    for (i = 0; i < MANY; i++) {
        if (!configured(CLUSTER, i, due != 0 && i % due == 0 ? MAXIMUM : 0) || !configured(OTHER, i, MAXIMUM))
            end(2, "the table is too small");
        done(hd_mark(table, sizeof table, CLUSTER, (uint16_t)i, now, numbers[i]));
        done(hd_mark(table, sizeof table, OTHER, (uint16_t)i, now, numbers[i]));
    }
    if (configured(OTHER, MANY, MAXIMUM))
        end(2, "the table is not full");
}

static void turn(void)
{
    uint32_t last = HD_NO_ID;

    now += MAXIMUM;
    done(hd_report_turn(store, sizeof store, table, sizeof table, 0, now, &last, frame, sizeof frame, &used));
}

/* The numbers are at hand. */
static void asks(void)
{
    uint16_t id;
    uint8_t due;

    now += MAXIMUM;
    found = 0;
    for (id = 0; id < MANY; id++) {
        done(hd_ask(table, sizeof table, CLUSTER, id, now, numbers[id], &due));
        found += due;
    }
}

static void single_calls(void)
{
    uint16_t ids[MANY], id;
    int64_t values[MANY];
    size_t many = 0, i;
    uint8_t due;

    now += MAXIMUM;
    for (id = 0; id < MANY; id++) {
        done(hd_number(store, sizeof store, id, &values[many]));
        done(hd_ask(table, sizeof table, CLUSTER, id, now, values[many], &due));
        ids[many] = id;
        many += due;
    }
    if (many == 0)
        return;
    done(hd_report(store, sizeof store, 0, ids, many, frame, sizeof frame, &used));
    for (i = 0; i < many; i++)
        done(hd_mark(table, sizeof table, CLUSTER, ids[i], now, values[i]));
}

static const struct due {
    const char *name;
    size_t every, many;
} cases[] = { { "all due", 1, MANY }, { "every eighth due", 8, MANY / 8 }, { "none due", 0, 0 } };

static const struct way {
    const char *name;
    void (*call)(void);
} ways[] = { { "a turn", turn }, { "64 asks alone", asks }, { "single calls", single_calls } };

enum { CASES = sizeof cases / sizeof cases[0], WAYS = sizeof ways / sizeof ways[0], ROWS = CASES * WAYS };

/* Its two cells in the page. */
static const char *name(size_t row)
{
    static char text[64];

    sprintf(text, "%s | %s", cases[row / WAYS].name, ways[row % WAYS].name);
    return text;
}

/* The frame that a way leaves, zeros behind it, and the table, of two calls. */
struct left {
    size_t used[2];
    uint8_t frame[2][sizeof frame], table[2][sizeof table];
};

static void leave(const struct due *due, void (*call)(void), struct left *left)
{
    size_t i;

    make_table(due->every);
    for (i = 0; i < 2; i++) {
        used = 0;
        memset(frame, 0, sizeof frame);
        call();
        left->used[i] = used;
        memcpy(left->frame[i], frame, sizeof frame);
        memcpy(left->table[i], table, sizeof table);
    }
}

/* The asks find as many due as the case says; the turn and the single calls leave the same, at the first call and when they are made again. */
static void look(const struct due *due)
{
    static struct left one, other;

    leave(due, asks, &one);
    if (found != due->many)
        end(1, "the asks find another number due");
    leave(due, turn, &one);
    leave(due, single_calls, &other);
    if (memcmp(&one, &other, sizeof one) != 0)
        end(1, "a turn leaves other than the single calls");
    if ((one.used[1] != 0) != (due->many != 0))
        end(1, "a frame where nothing is due, or none");
}

int main(int argc, char **argv)
{
    const int timed = argc == 4 && strcmp(argv[1], "time") == 0;
    int many = timed || (argc == 4 && strcmp(argv[1], "calls") == 0) ? atoi(argv[3]) : 0;
    size_t i;

    make_store();
    if (argc == 1) {
        for (i = 0; i < CASES; i++)
            look(&cases[i]);
        for (i = 0; i < ROWS; i++)
            puts(name(i));
        return 0;
    }
    if (many <= 0)
        end(2, "usage: turn [time|calls ROW N]");
    for (i = 0; strcmp(name(i), argv[2]) != 0;)
        if (++i == ROWS)
            end(2, "no such row");
    make_table(cases[i / WAYS].every);
    if (timed)
        printf("%.0f\n", nanoseconds(ways[i % WAYS].call, many));
    else
        for (; many > 0; many--)
            ways[i % WAYS].call();
    return 0;
}
