/*
 * Document 01's bench frames, 7 as request 2 of document 02 has it, from C: what each request says back, byte for byte, with the reply
 * buffer behind it, and the store afterwards. A test: it prints each check that fails and how many there were, and ends non-zero when one
 * failed.
 */
#include <stdio.h>
#include <string.h>

#include "check.h"
#include "hingedrift.h"

enum { CLUSTER = 0xfc21, LEVEL = 40, MOST = 64 };

/* Store T: a counter with its top bit set, a level, a temperature, a name. */
static const char T[] = "21fc0400" "0000230224000400" "0100200128000100" "0500290329000200" "070042012b000500" "00000080" "07" "38ff" "0254560000";

static unsigned digit(char c)
{
    return c <= '9' ? (unsigned)(c - '0') : (unsigned)(c - 'a') + 10u;
}

/* The bytes that the digits stand for. */
static size_t bytes(const char *digits, uint8_t *out)
{
    size_t n = strlen(digits) / 2, i;

    for (i = 0; i < n; i++)
        out[i] = (uint8_t)(16u * digit(digits[2 * i]) + digit(digits[2 * i + 1]));
    return n;
}

/* A request over store T and an empty table: number and reply as said, zeros behind it, and the level afterwards. */
static void serves(const char *which, const char *request, size_t room, uint8_t number, const char *reply, uint8_t level)
{
    uint8_t store[MOST], after[MOST], table[HD_TABLE_BYTES], frame[MOST], said[MOST], expected[MOST];
    size_t store_len = bytes(T, store), n = bytes(request, frame), used = 77;

    memcpy(after, store, store_len);
    after[LEVEL] = level;
    memset(said, 0xaa, sizeof said);
    memset(expected, 0, sizeof expected);
    check(hd_table_new(table, sizeof table) == HD_OK, which, "a table");
    check(hd_handle_request(store, store_len, table, sizeof table, CLUSTER, 1, frame, n, said, room, &used) == number, which, "the number");
    check(used == bytes(reply, expected), which, "the length");
    check(memcmp(said, expected, room) == 0, which, "the reply and the zeros behind it");
    check(said[room] == 0xaa, which, "nothing behind the buffer");
    check(memcmp(store, after, store_len) == 0, which, "the store");
}

static void commands(void)
{
    serves("frame 1", "002a0000000900", 14, 0, "182a010000002300000080090086", 7);
    serves("frame 2", "002a0000000900", 13, 0, "182a010000002300000080", 7);
    serves("frame 3", "002a0000000900", 10, 0, "182a01000089090086", 7);
    serves("frame 4, room 3", "002a0000000900", 3, 0, "182a01", 7);
    serves("frame 4, room 2", "002a0000000900", 2, HD_TOO_LONG, "", 7);
    serves("frame 5", "002b0201002009", 60, 0, "182b0400", 9);
    serves("frame 6", "002b0200002301000000", 60, 0, "182b04880000", 7);
    serves("frame 7", "002b0301002009070042054142434445", 60, 0, "182b04870700", 7);
    serves("frame 7, room 5", "002b0301002009070042054142434445", 5, HD_TOO_LONG, "", 7);
    serves("frame 8", "002b0301002009", 3, HD_TOO_LONG, "", 9);
    serves("undivided, too long and absent", "002b0307004205414243444509002000", 60, 0, "182b04870700860900", 7);
    serves("undivided, too long and absent, room 9", "002b0307004205414243444509002000", 9, 0, "182b04870700860900", 7);
    serves("undivided, too long and absent, room 8", "002b0307004205414243444509002000", 8, HD_TOO_LONG, "", 7);
    serves("undivided, too long and cut", "002b0307004205414243444501", 6, HD_RECORD_CUT, "", 7);
    serves("undivided, too long and cut, room 5", "002b0307004205414243444501", 5, HD_TOO_LONG, "", 7);
    serves("a scene: the last level counts", "002b03010020090700420254560100200a", 4, 0, "182b0400", 10);
    serves("a scene with a name too long", "002b03010020090700420541424344450100200a", 60, 0, "182b04870700", 7);
    serves("frame 9", "002c0c010002", 60, 0, "182c0d00010020050029", 7);
    serves("frame 9, maximum 3", "002c0c010003", 60, 0, "182c0d01010020050029070042", 7);
    serves("frame 10", "002c0c080000", 60, 0, "182c0d01", 7);
    serves("a command that is not served", "002e0a", 60, 0, "182e0b0a81", 7);
    serves("a Default Response", "00000b", 60, HD_NOTHING_TO_SEND, "", 7);
    serves("a Default Response to one, room 4", "18000b0b81", 4, HD_NOTHING_TO_SEND, "", 7);
    serves("a cluster command of its number", "01000b", 60, 0, "18000b0b81", 7);
}

/* Frame 11: configured by a request, then asked. */
static void reporting(void)
{
    static const struct { uint32_t now; int64_t value; uint8_t due; } asks[] = {
        { 109, 0, 0 }, { 110, -151, 0 }, { 110, -150, 1 }, { 159, -200, 0 }, { 160, -200, 1 }, { 90, 0, 0 },
    };
    uint8_t store[MOST], table[HD_TABLE_BYTES], frame[MOST], reply[MOST], expected[MOST], due;
    size_t store_len = bytes(T, store), n = bytes("002d06000500290a003c003200", frame), used, i;

    check(hd_table_new(table, sizeof table) == HD_OK, "frame 11", "a table");
    check(hd_handle_request(store, store_len, table, sizeof table, CLUSTER, 1, frame, n, reply, MOST, &used) == HD_OK, "frame 11", "the number");
    check(used == bytes("182d0700", expected) && memcmp(reply, expected, used) == 0, "frame 11", "the reply");
    check(hd_mark(table, sizeof table, CLUSTER, 5, 100, -200) == HD_OK, "frame 11", "the mark");
    for (i = 0; i < sizeof asks / sizeof asks[0]; i++) {
        due = 77;
        check(hd_ask(table, sizeof table, CLUSTER, 5, asks[i].now, asks[i].value, &due) == HD_OK, "frame 11", "an ask");
        check(due == asks[i].due, "frame 11", "whether it is due");
    }
}

/* A request sets the mark of the attribute's type, and does not tell it: a counter of 64 bits, configured with change 2, goes from 0 to its top. */
static void by_type(void)
{
    static const struct { const char *store, *request; uint8_t mark, due; } types[] = {
        { "21fc01000a0027020c0008000000000000000000", "002d06000a002700003c000200000000000000", HD_UNSIGNED, 1 },
        { "21fc01000a002f020c0008000000000000000000", "002d06000a002f00003c000200000000000000", HD_SIGNED, 0 },
    };
    uint8_t store[MOST], table[HD_TABLE_BYTES], frame[MOST], reply[MOST], expected[MOST], found, mark, due;
    uint16_t minimum, maximum;
    uint64_t change;
    size_t store_len, n, used, i;

    for (i = 0; i < 2; i++) {
        store_len = bytes(types[i].store, store);
        n = bytes(types[i].request, frame);
        check(hd_table_new(table, sizeof table) == HD_OK, "by type", "a table");
        check(hd_handle_request(store, store_len, table, sizeof table, CLUSTER, 1, frame, n, reply, MOST, &used) == HD_OK, "by type", "the number");
        check(used == bytes("182d0700", expected) && memcmp(reply, expected, used) == 0, "by type", "the reply");
        check(hd_configuration(table, sizeof table, CLUSTER, 10, &found, &minimum, &maximum, &change, &mark) == HD_OK && found == 1, "by type", "configured");
        check(minimum == 0 && maximum == 60 && change == 2 && mark == types[i].mark, "by type", "the mark");
        check(hd_mark(table, sizeof table, CLUSTER, 10, 100, 0) == HD_OK, "by type", "a report of 0");
        check(hd_ask(table, sizeof table, CLUSTER, 10, 100, -1, &due) == HD_OK && due == types[i].due, "by type", "whether all ones are due");
        n = bytes("002e08000a00", frame);
        check(hd_handle_request(store, store_len, table, sizeof table, CLUSTER, 1, frame, n, reply, MOST, &used) == HD_OK, "by type", "read back");
        check(used == 3 + 9 + 8 && reply[used - 8] == 2 && reply[used - 1] == 0, "by type", "without the mark");
    }
}

/* Frame 12, and numbers that there are none of. */
static void numbers(void)
{
    uint8_t store[MOST];
    size_t store_len = bytes(T, store);
    int64_t value = 77;

    check(hd_number(store, store_len, 0, &value) == HD_OK && value == INT64_C(2147483648), "frame 12", "the counter is not negative");
    check(hd_number(store, store_len, 5, &value) == HD_OK && value == -200, "frame 12", "the temperature is");
    check(hd_number(store, store_len, 7, &value) == HD_NO_NUMBER && value == 0, "a number", "a string has none");
    check(hd_number(store, store_len, 9, &value) == HD_NO_NUMBER && value == 0, "a number", "an absent attribute has none");
    check(hd_number(store, store_len - 1, 0, &value) == HD_NOT_A_STORE && value == 0, "a number", "a cut store has none");
}

/* The damages of T, with a table or without: 7 comes before 8. */
static void damages(void)
{
    uint8_t store[MOST + 2], table[HD_TABLE_BYTES], frame[MOST], reply[MOST];
    size_t store_len = bytes(T, store), n = bytes("002a000000", frame), used, kind;

    for (kind = 0; kind < 6; kind++) {
        uint8_t number = kind < 3 || kind == 5 ? HD_NOT_A_STORE : HD_NOT_A_TABLE;
        size_t len = kind == 1 ? store_len + 1 : store_len;

        bytes(T, store);
        hd_table_new(table, sizeof table);
        store[store_len] = 1;
        if (kind == 0)
            store[12] = 0;
        if (kind == 2)
            store[2] = 65;
        if (kind >= 3)
            table[0] = 129;
        if (kind == 5)
            store[12] = 0;
        memset(reply, 0xaa, sizeof reply);
        used = 77;
        check(hd_handle_request(store, len, table, sizeof table, kind == 4 ? 1 : CLUSTER, 1, frame, n, reply, MOST, &used) == number, "a damage", "the number");
        check(used == 0 && reply[0] == 0 && reply[MOST - 1] == 0, "a damage", "no reply");
    }
}

/* The responder and the report frame. */
static void others(void)
{
    static const uint16_t served[] = { 0x0000, CLUSTER }, ids[] = { 5, 0, 5 }, readable[] = { 1 };
    uint8_t store[MOST], frame[MOST], reply[MOST], expected[MOST];
    size_t store_len = bytes(T, store), n = bytes("032f00", frame), used;

    check(hd_unsupported_cluster(served, 2, CLUSTER, 1, frame, n, reply, MOST, &used) == HD_NOTHING_TO_SEND && used == 0, "the responder", "a served cluster");
    check(hd_unsupported_cluster(served, 1, CLUSTER, 1, frame, n, reply, MOST, &used) == HD_OK, "the responder", "a reserved frame type is answered");
    check(used == bytes("182f0b00c3", expected) && memcmp(reply, expected, used) == 0, "the responder", "the reply");
    check(hd_unsupported_cluster(served, 1, CLUSTER, 0, frame, n, reply, MOST, &used) == HD_NOTHING_TO_SEND, "the responder", "no unicast");
    check(hd_unsupported_cluster(served, 0, CLUSTER, 1, frame, n, reply, 4, &used) == HD_TOO_LONG, "the responder", "one byte short");
    check(hd_unsupported_cluster(served, 0, CLUSTER, 1, frame, 2, reply, MOST, &used) == HD_HEADER_SHORT, "the responder", "a short header");
    n = bytes("002f0b", frame);
    check(hd_unsupported_cluster(served, 1, CLUSTER, 1, frame, n, reply, MOST, &used) == HD_NOTHING_TO_SEND && used == 0, "the responder", "a Default Response");

    check(hd_report(store, store_len, 0x30, ids, 3, frame, MOST, &used) == HD_OK, "a report", "the number");
    check(used == bytes("18300a" "05002938ff" "00002300000080" "05002938ff", expected) && memcmp(frame, expected, used) == 0, "a report", "the frame");
    check(hd_report(store, store_len, 0x30, ids, 3, frame, used - 1, &used) == HD_TOO_LONG && used == 0, "a report", "one byte short");
    check(hd_report(store, store_len, 0x30, ids, 0, frame, MOST, &used) == HD_EMPTY_REPORT, "a report", "an empty list");
    check(hd_report(store, store_len, 0x30, ids, 0, frame, 2, &used) == HD_TOO_LONG, "a report", "the header before the empty list");
    check(hd_report(store, store_len, 0x30, readable, 1, frame, MOST, &used) == HD_NOT_REPORTABLE, "a report", "not reportable");
}

/* Length 0, with pointers one past the end of an array: each is a refusal that the header names, or an empty list. */
static void nothing_lent(void)
{
    uint16_t ids[1] = { 0 };
    uint8_t store[MOST], table[HD_TABLE_BYTES], frame[MOST], reply[MOST], *end = reply + MOST;
    size_t store_len = bytes(T, store), n = bytes("002a000000", frame), used = 77;
    int64_t value = 77;

    check(hd_table_new(table, sizeof table) == HD_OK && hd_table_new(end, 0) == HD_NOT_A_TABLE, "length 0", "a table");
    check(hd_handle_request(end, 0, table, sizeof table, CLUSTER, 1, frame, n, reply, MOST, &used) == HD_NOT_A_STORE, "length 0", "the store");
    check(hd_handle_request(store, store_len, end, 0, CLUSTER, 1, frame, n, reply, MOST, &used) == HD_NOT_A_TABLE, "length 0", "the table");
    check(hd_handle_request(store, store_len, table, sizeof table, CLUSTER, 1, end, 0, reply, MOST, &used) == HD_HEADER_SHORT, "length 0", "the request");
    check(hd_handle_request(store, store_len, table, sizeof table, CLUSTER, 1, frame, n, end, 0, &used) == HD_TOO_LONG, "length 0", "the reply");
    check(hd_unsupported_cluster(ids + 1, 0, CLUSTER, 1, frame, n, reply, MOST, &used) == HD_OK && used == 5, "length 0", "the served clusters");
    check(hd_report(store, store_len, 0, ids + 1, 0, reply, MOST, &used) == HD_EMPTY_REPORT && used == 0, "length 0", "the report's attributes");
    check(hd_number(end, 0, 0, &value) == HD_NOT_A_STORE && value == 0, "length 0", "a number's store");
    check(hd_read_check(end, 0, &used) == HD_HEADER_SHORT && used == 0, "length 0", "a reply to read");
}

int main(void)
{
    commands();
    reporting();
    by_type();
    numbers();
    damages();
    others();
    nothing_lent();
    printf("frames: %u checks, %u failed\n", checks, failures);
    return failures != 0;
}
