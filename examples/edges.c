/*
 * The table's edges, from C: bytes that are no table, a full table, the hole that a clear leaves, values as far apart as they can be, with a sign and
 * without, marks that are none, and the saved form in buffers of every length, cut or changed, and as it was before there were marks. Then report turns:
 * in frames of every length, from every last attribute, and refused. A test: it prints each check that fails and how many there were, and ends non-zero when one failed.
 */
#include <stdio.h>
#include <string.h>

#include "check.h"
#include "hingedrift.h"

/* docs/TABLE.md: the count, then slots; the places of a slot's mark, flag, time and value. */
enum { SLOT = 30, MARK = 16, FLAG = 17, TIME = 18, VALUE = 22, ROOM = (HD_TABLE_BYTES - 1) / SLOT };

/* The entries that there was room for before; a box of then reads no longer form. */
enum { FORMER_ROOM = 16 };

/* More bytes than a table has, so that a write past the length shows. */
enum { LENT = HD_TABLE_BYTES + 47 };

/* The same for a saved form; its length with one entry, and where its first body's minimum, maximum and mark stand then. */
enum { SAVED_LENT = HD_SAVED_BYTES + 47, SAVED_ONE = 1 + 19, MINIMUM = 1 + 6, MAXIMUM = MINIMUM + 2, SAVED_MARK = MAXIMUM + 2 + 8 };

/* The bytes of a body with its mark, and without, as it was saved before there were marks. */
enum { BODY = 13, OLD_BODY = 12 };

static uint8_t *slot(uint8_t *table, unsigned i)
{
    return table + 1 + SLOT * i;
}

/* The attribute in a slot; its cluster is 0402 throughout. */
static unsigned attribute_in(uint8_t *table, unsigned i)
{
    const uint8_t *s = slot(table, i);
    return s[0] == 0x02 && s[1] == 0x04 ? s[2] + 256u * s[3] : 0xffffffffu;
}

/* The mark that `fill` gives an attribute: the odd ones compare without a sign. */
static uint8_t mark_of(unsigned attribute)
{
    return attribute % 2 == 1 ? HD_UNSIGNED : HD_SIGNED;
}

/* A new table with the attributes 1 to n, each reported at its own number. */
static void fill(uint8_t *table, unsigned n)
{
    uint8_t accepted;
    unsigned i;

    check(hd_table_new(table, HD_TABLE_BYTES) == HD_OK, "new table", "its number");
    for (i = 1; i <= n; i++) {
        accepted = 77;
        check(hd_configure(table, HD_TABLE_BYTES, 0x0402, (uint16_t)i, 10, 300, 50, mark_of(i), &accepted) == HD_OK, "configure", "its number");
        check(accepted == 1, "configure", "there is room");
        check(hd_mark(table, HD_TABLE_BYTES, 0x0402, (uint16_t)i, i, i) == HD_OK, "mark", "its number");
    }
    check(table[0] == n, "fill", "the count");
}

/* Whether there are `n` zeros and then, to the end of what was lent, what stood there before. */
static int zeros_then_before(const uint8_t *lent, size_t n, size_t all)
{
    size_t i;

    for (i = 0; i < all; i++)
        if (lent[i] != (i < n ? 0 : 0xa5))
            return 0;
    return 1;
}

/* A save that is refused by `number`: the whole buffer and the length are 0, nothing is written past it, and the table stays. */
static void not_saved(const uint8_t *lent, size_t len, size_t room, uint8_t number, const char *which)
{
    uint8_t before[LENT], saved[SAVED_LENT];
    size_t used = 7777;

    memcpy(before, lent, LENT);
    memset(saved, 0xa5, sizeof saved);
    check(hd_save(lent, len, saved, room, &used) == number, "save is refused", which);
    check(used == 0, "save writes 0", which);
    check(zeros_then_before(saved, room, sizeof saved), "save leaves zeros, and only there", which);
    check(memcmp(before, lent, LENT) == 0, "save leaves the table", which);
}

/* A store for turns, of the cluster 0402: a Uint8 1, a string 2 in a room of 5, a Uint8 3 that is not reportable, and a Uint32 ffff. */
static const uint8_t turn_store[] = {
    0x02, 0x04, 4, 0,
    0x01, 0x00, 0x20, 3, 36, 0, 1, 0,
    0x02, 0x00, 0x42, 2, 37, 0, 5, 0,
    0x03, 0x00, 0x20, 1, 42, 0, 1, 0,
    0xff, 0xff, 0x23, 2, 43, 0, 4, 0,
    7,
    2, 'T', 'V', 0, 0,
    3,
    0x00, 0x00, 0x00, 0x80,
};

/* Its records, and how long each is; the number of each that a turn marks. */
static const struct {
    uint16_t id;
    size_t len;
    uint8_t bytes[8];
    int64_t number;
} turn_records[3] = {
    { 1, 4, { 0x01, 0x00, 0x20, 7 }, 7 },
    { 2, 6, { 0x02, 0x00, 0x42, 2, 'T', 'V' }, 0 },
    { 0xffff, 7, { 0xff, 0xff, 0x23, 0x00, 0x00, 0x00, 0x80 }, 0x80000000 },
};

/* The time of these turns, their sequence number, and a buffer with more than all records, so that a write past it shows. */
enum { TURN_NOW = 1000, TURN_SEQUENCE = 0x2a, TURN_LENT = 3 + 4 + 6 + 7 + 20 };

/* A turn over these bytes that is refused by `number`: zeros in the whole buffer and the length, and all else is as it was. */
static void not_turned(const uint8_t *store, size_t store_len, uint8_t *lent, size_t len, size_t room, uint8_t number, const char *which)
{
    static const uint32_t lasts[] = { 0, 1, 0xffff, HD_NO_ID, HD_NO_ID + 1, UINT32_MAX };
    uint8_t before[LENT], frame[TURN_LENT];
    size_t used;
    unsigned i;

    memcpy(before, lent, LENT);
    for (i = 0; i < sizeof lasts / sizeof lasts[0]; i++) {
        uint32_t last = lasts[i];

        used = 7777;
        memset(frame, 0xa5, sizeof frame);
        check(hd_report_turn(store, store_len, lent, len, TURN_SEQUENCE, TURN_NOW, &last, frame, room, &used) == number, "a turn is refused", which);
        check(used == 0 && last == lasts[i], "it gives back what was handed in", which);
        check(zeros_then_before(frame, room, sizeof frame), "a refused turn leaves zeros, and only there", which);
        check(memcmp(before, lent, LENT) == 0, "a refused turn leaves the table", which);
    }
}

/* Every function says 8 to these bytes, writes zeros to its results, and leaves the bytes. */
static void refused(uint8_t *lent, size_t len, const char *which)
{
    uint8_t before[LENT], accepted = 77, found = 77, due = 77, mark = 77;
    uint16_t minimum = 7777, maximum = 7777;
    uint64_t change = 7777;

    memcpy(before, lent, LENT);
    check(hd_configure(lent, len, 0x0402, 1, 10, 300, 50, HD_SIGNED, &accepted) == HD_NOT_A_TABLE, "configure gives 8", which);
    check(accepted == 0, "configure writes 0", which);
    accepted = 77;
    check(hd_configure(lent, len, 0x0402, 1, 10, 300, 50, 2, &accepted) == HD_NOT_A_TABLE, "configure gives 8 before 13", which);
    check(accepted == 0, "configure writes 0", which);
    check(hd_clear(lent, len, 0x0402, 1) == HD_NOT_A_TABLE, "clear gives 8", which);
    check(hd_configuration(lent, len, 0x0402, 1, &found, &minimum, &maximum, &change, &mark) == HD_NOT_A_TABLE, "configuration gives 8", which);
    check(found == 0 && minimum == 0 && maximum == 0 && change == 0 && mark == 0, "configuration writes 0", which);
    check(hd_ask(lent, len, 0x0402, 1, 1000, 0, &due) == HD_NOT_A_TABLE, "ask gives 8", which);
    check(due == 0, "ask writes 0", which);
    check(hd_mark(lent, len, 0x0402, 1, 1000, 0) == HD_NOT_A_TABLE, "mark gives 8", which);
    not_saved(lent, len, HD_SAVED_BYTES, HD_NOT_A_TABLE, which);
    not_saved(lent, len, 0, HD_NOT_A_TABLE, which);
    not_turned(turn_store, sizeof turn_store, lent, len, TURN_LENT, HD_NOT_A_TABLE, which);
    not_turned(turn_store, sizeof turn_store, lent, len, 0, HD_NOT_A_TABLE, which);
    check(memcmp(before, lent, LENT) == 0, "the bytes stay", which);
}

/* A table of two entries, the second never reported, with one byte changed. */
static void damaged(size_t at, uint8_t byte, const char *which)
{
    uint8_t lent[LENT], accepted;

    memset(lent, 0xa5, sizeof lent);
    fill(lent, 2);
    check(hd_configure(lent, HD_TABLE_BYTES, 0x0402, 2, 10, 300, 50, HD_SIGNED, &accepted) == HD_OK && accepted == 1, "configure again", which);
    lent[at] = byte;
    refused(lent, HD_TABLE_BYTES, which);
}

static void no_tables(void)
{
    static const size_t lengths[] = { 0, HD_TABLE_BYTES - 1, HD_TABLE_BYTES + 1, 1 + SLOT * FORMER_ROOM };
    static const char *const names[] = { "length 0", "one byte short", "one byte more", "room for sixteen" };
    uint8_t lent[LENT], before[LENT];
    unsigned i;

    for (i = 0; i < sizeof lengths / sizeof *lengths; i++) {
        memset(lent, 0, sizeof lent);
        fill(lent, 1);
        refused(lent, lengths[i], names[i]);
        memset(lent, 0xa5, sizeof lent);
        memcpy(before, lent, sizeof lent);
        check(hd_table_new(lent, lengths[i]) == HD_NOT_A_TABLE, "new gives 8", names[i]);
        check(memcmp(before, lent, sizeof lent) == 0, "new leaves the bytes", names[i]);
    }
    damaged(0, ROOM + 1, "count 129");
    damaged(0, 255, "count 255");
    damaged(0, 1, "a slot past the count");
    damaged(1 + MARK, 2, "mark 2");
    damaged(1 + SLOT + MARK, 255, "mark 255");
    damaged(1 + FLAG, 2, "flag 2");
    damaged(1 + FLAG, 0, "a time and a value under flag 0");
    damaged(1 + SLOT + TIME, 1, "a time under flag 0");
    damaged(1 + SLOT + VALUE + 7, 1, "a value under flag 0");
    damaged(1 + 2 * SLOT, 1, "a stray byte right behind the used slots");
    damaged(1 + FORMER_ROOM * SLOT - 1, 1, "a stray byte at the end of the sixteenth slot");
    damaged(1 + FORMER_ROOM * SLOT, 1, "a stray byte right behind the sixteenth slot");
    damaged(HD_TABLE_BYTES - 1, 1, "a stray byte at the end");
}

/* Any bytes of the right length become an empty table, and none beside them changes. */
static void new_table(void)
{
    uint8_t lent[LENT], expected[LENT];

    memset(lent, 0xa5, sizeof lent);
    memset(expected, 0xa5, sizeof expected);
    memset(expected, 0, HD_TABLE_BYTES);
    check(hd_table_new(lent, HD_TABLE_BYTES) == HD_OK, "new table", "its number");
    check(memcmp(expected, lent, sizeof lent) == 0, "new table", "zeros, and only there");
}

/* 128 are accepted; one more is not, and changes nothing; one of them can still be configured again, and a cleared one makes room. */
static void full(void)
{
    uint8_t table[HD_TABLE_BYTES], before[HD_TABLE_BYTES], accepted = 77, due = 77;
    unsigned i;

    check(ROOM == 128, "full", "there is room for 128");
    fill(table, ROOM);
    memcpy(before, table, sizeof table);
    check(hd_configure(table, sizeof table, 0x0402, ROOM + 1, 10, 300, 50, HD_SIGNED, &accepted) == HD_OK, "one more", "its number");
    check(accepted == 0, "one more", "it is not accepted");
    check(memcmp(before, table, sizeof table) == 0, "one more", "the bytes stay");
    check(hd_ask(table, sizeof table, 0x0402, ROOM + 1, 1000, 0, &due) == HD_OK && due == 0, "one more", "it has no report");
    for (i = 0; i < ROOM; i++)
        check(attribute_in(table, i) == i + 1, "full", "in the order of their configuration");
    check(hd_configure(table, sizeof table, 0x0402, ROOM, 1, 2, 3, HD_UNSIGNED, &accepted) == HD_OK && accepted == 1, "configured again", "accepted");
    check(table[0] == ROOM && attribute_in(table, ROOM - 1) == ROOM, "configured again", "in its place");
    check(slot(table, ROOM - 1)[MARK] == HD_UNSIGNED, "configured again", "with another mark");
    check(slot(table, ROOM - 1)[FLAG] == 0 && slot(table, ROOM - 1)[TIME] == 0, "configured again", "the last report is forgotten");
    check(hd_clear(table, sizeof table, 0x0402, 17) == HD_OK && table[0] == ROOM - 1, "cleared", "the count");
    check(attribute_in(table, 16) == ROOM, "cleared", "the last in the hole");
    check(hd_configure(table, sizeof table, 0x0402, ROOM + 1, 10, 300, 50, HD_SIGNED, &accepted) == HD_OK && accepted == 1, "cleared", "there is room for one");
    check(table[0] == ROOM && attribute_in(table, ROOM - 1) == ROOM + 1, "cleared", "it stands last");
    check(hd_configure(table, sizeof table, 0x0402, 17, 10, 300, 50, HD_SIGNED, &accepted) == HD_OK && accepted == 0, "cleared", "and for no other");
}

/* Where sixteen stand the next ones are accepted, and the sixteen stay as they were. */
static void past_sixteen(void)
{
    uint8_t table[HD_TABLE_BYTES], before[HD_TABLE_BYTES], accepted = 77, due = 77;

    fill(table, FORMER_ROOM);
    memcpy(before, table, sizeof table);
    check(hd_configure(table, sizeof table, 0x0402, 17, 10, 300, 50, HD_SIGNED, &accepted) == HD_OK && accepted == 1, "the seventeenth", "accepted");
    check(table[0] == 17 && attribute_in(table, 16) == 17, "the seventeenth", "behind the others");
    check(memcmp(before + 1, table + 1, SLOT * FORMER_ROOM) == 0, "the seventeenth", "the others stay");
    check(hd_ask(table, sizeof table, 0x0402, 17, 1000, 0, &due) == HD_OK && due == 1, "the seventeenth", "it has a report");
    check(hd_clear(table, sizeof table, 0x0402, 17) == HD_OK && memcmp(before, table, sizeof table) == 0, "the seventeenth", "cleared again");
}

/* A clear moves the last entry, with its report, into the hole, and leaves zeros where it stood. */
static void hole(void)
{
    uint8_t table[HD_TABLE_BYTES], before[HD_TABLE_BYTES], zeros[SLOT] = { 0 };

    fill(table, 4);
    memcpy(before, table, sizeof table);
    check(hd_clear(table, sizeof table, 0x0402, 2) == HD_OK, "clear", "its number");
    check(table[0] == 3, "clear", "the count");
    check(attribute_in(table, 0) == 1 && attribute_in(table, 1) == 4 && attribute_in(table, 2) == 3, "clear", "the order is 1, 4, 3");
    check(memcmp(slot(table, 1), slot(before, 3), SLOT) == 0, "clear", "the moved entry is whole");
    check(slot(table, 1)[FLAG] == 1 && slot(table, 1)[TIME] == 4 && slot(table, 1)[VALUE] == 4, "clear", "with its report");
    check(memcmp(slot(table, 3), zeros, SLOT) == 0, "clear", "zeros where it stood");

    memcpy(before, table, sizeof table);
    check(hd_clear(table, sizeof table, 0x0402, 2) == HD_OK, "clear again", "its number");
    check(hd_mark(table, sizeof table, 0x0402, 2, 1, 1) == HD_OK, "mark without an entry", "its number");
    check(memcmp(before, table, sizeof table) == 0, "clear again", "the bytes stay");
    check(hd_clear(table, sizeof table, 0x0402, 3) == HD_OK && table[0] == 2, "clear the last", "the count");
    check(attribute_in(table, 0) == 1 && attribute_in(table, 1) == 4, "clear the last", "the others stay");
}

/* The two ends of the values are 2^64-1 apart, and one less is under a change of that size. */
static void far_apart(void)
{
    static const int64_t ends[2] = { INT64_MAX, INT64_MIN };
    static const int64_t nearer[2] = { INT64_MAX - 1, INT64_MIN + 1 };
    uint8_t table[HD_TABLE_BYTES], accepted = 77, due = 77, mark = 77;
    uint16_t minimum, maximum;
    uint64_t change;
    unsigned i;

    fill(table, 0);
    check(hd_configure(table, sizeof table, 0xffff, 0xffff, 0, 0, UINT64_MAX, HD_SIGNED, &accepted) == HD_OK && accepted == 1, "far apart", "configured");
    check(hd_configuration(table, sizeof table, 0xffff, 0xffff, &accepted, &minimum, &maximum, &change, &mark) == HD_OK, "far apart", "its number");
    check(accepted == 1 && minimum == 0 && maximum == 0 && change == UINT64_MAX && mark == HD_SIGNED, "far apart", "the configuration");
    for (i = 0; i < 2; i++) {
        check(hd_mark(table, sizeof table, 0xffff, 0xffff, UINT32_MAX, ends[i]) == HD_OK, "far apart", "marked");
        check(hd_ask(table, sizeof table, 0xffff, 0xffff, UINT32_MAX, ends[1 - i], &due) == HD_OK && due == 1, "far apart", "2^64-1 is the change");
        check(hd_ask(table, sizeof table, 0xffff, 0xffff, UINT32_MAX, nearer[1 - i], &due) == HD_OK && due == 0, "far apart", "2^64-2 is under it");
        check(hd_ask(table, sizeof table, 0xffff, 0xffff, UINT32_MAX, ends[i], &due) == HD_OK && due == 0, "far apart", "not moved");
    }
}

/* What an ask says to a value, with this mark and change, where `last` was reported: 1, 0, or 77 where something is refused. */
static unsigned says(uint8_t mark, uint64_t change, int64_t last, int64_t value)
{
    uint8_t table[HD_TABLE_BYTES], accepted, due = 77;

    fill(table, 0);
    if (hd_configure(table, sizeof table, 0x0402, 1, 0, 60, change, mark, &accepted) != HD_OK || accepted != 1)
        return 77;
    if (hd_mark(table, sizeof table, 0x0402, 1, 100, last) != HD_OK || hd_ask(table, sizeof table, 0x0402, 1, 100, value, &due) != HD_OK)
        return 77;
    return due;
}

/* From 0 to the top, ffffffffffffffff or -1, is a move of 1 with a sign and of 2^64-1 without; over the middle it is the other way round. */
static void by_mark(void)
{
    static const int64_t same[][2] = { { 0, 1 }, { 0, INT64_MAX }, { 7, 9 }, { -1, INT64_MIN }, { -9, -7 }, { -1, -1 } };
    unsigned i;

    check(says(HD_SIGNED, 2, 0, -1) == 0, "by mark", "from 0 to the top, signed");
    check(says(HD_UNSIGNED, 2, 0, -1) == 1, "by mark", "from 0 to the top, unsigned");
    check(says(HD_SIGNED, 2, -1, 0) == 0, "by mark", "from the top to 0, signed");
    check(says(HD_UNSIGNED, 2, -1, 0) == 1, "by mark", "from the top to 0, unsigned");
    check(says(HD_UNSIGNED, UINT64_MAX, 0, -1) == 1, "by mark", "2^64-1 is the change");
    check(says(HD_UNSIGNED, UINT64_MAX, 0, -2) == 0, "by mark", "2^64-2 is under it");
    check(says(HD_SIGNED, 2, INT64_MAX, INT64_MIN) == 1, "by mark", "over the middle, signed");
    check(says(HD_UNSIGNED, 2, INT64_MAX, INT64_MIN) == 0, "by mark", "over the middle, unsigned");
    check(says(HD_UNSIGNED, 1, INT64_MAX, INT64_MIN) == 1, "by mark", "over the middle, unsigned, by 1");
    check(says(HD_UNSIGNED, 0, 0, -1) == 1 && says(HD_UNSIGNED, 0, -1, -1) == 0, "by mark", "change 0");
    for (i = 0; i < sizeof same / sizeof same[0]; i++)
        check(says(HD_SIGNED, 2, same[i][0], same[i][1]) == says(HD_UNSIGNED, 2, same[i][0], same[i][1]), "by mark", "on one side both say the same");
}

/* The two marks are kept and told; any other gets 13, also for a key that stands already and where there is no room, and changes nothing. */
static void marks(void)
{
    static const uint8_t none[] = { 2, 3, 127, 128, 255 };
    static const uint16_t keys[] = { 3, ROOM, ROOM + 1 };
    uint8_t lent[LENT], before[LENT], accepted, found, mark;
    uint16_t minimum, maximum;
    uint64_t change;
    unsigned i, k;

    memset(lent, 0xa5, sizeof lent);
    fill(lent, ROOM);
    memcpy(before, lent, sizeof lent);
    for (i = 1; i <= ROOM; i++) {
        mark = 77;
        check(slot(lent, i - 1)[MARK] == mark_of(i), "marks", "in the slot");
        check(hd_configuration(lent, HD_TABLE_BYTES, 0x0402, (uint16_t)i, &found, &minimum, &maximum, &change, &mark) == HD_OK, "marks", "its number");
        check(found == 1 && mark == mark_of(i), "marks", "as configured");
    }
    check(hd_configuration(lent, HD_TABLE_BYTES, 0x0402, ROOM + 1, &found, &minimum, &maximum, &change, &mark) == HD_OK, "marks", "its number");
    check(found == 0 && minimum == 0 && maximum == 0 && change == 0 && mark == 0, "marks", "five zeros where nothing is configured");
    for (i = 0; i < sizeof none; i++)
        for (k = 0; k < 3; k++) {
            accepted = 77;
            check(hd_configure(lent, HD_TABLE_BYTES, 0x0402, keys[k], 1, 2, 3, none[i], &accepted) == HD_NOT_A_MARK, "marks", "13");
            check(accepted == 0, "marks", "13 writes 0");
            check(memcmp(before, lent, sizeof lent) == 0, "marks", "13 leaves the table");
        }
}

/* Whether a buffer of so many bytes is tried for a form: each where the form is short, and around the lengths that matter where it is long. */
static int tried(size_t room, size_t form)
{
    const size_t former = 1 + 19 * FORMER_ROOM;

    if (form <= former)
        return room <= former + 47 || room >= HD_SAVED_BYTES;
    return room < 48 || (room + 3 > form && room < form + 4) || room % 97 == 0 || room >= HD_SAVED_BYTES;
}

/* A table of n entries is saved in its form's length and in any longer buffer, zeros behind it, and in no shorter one. */
static void saved_in(unsigned n, const char *which)
{
    uint8_t lent[LENT], before[LENT], saved[SAVED_LENT], first[SAVED_LENT];
    const size_t form = 1 + 19 * (size_t)n;
    size_t room, used;

    memset(lent, 0xa5, sizeof lent);
    fill(lent, n);
    memcpy(before, lent, sizeof lent);
    for (room = 0; room < form; room++)
        if (tried(room, form))
            not_saved(lent, HD_TABLE_BYTES, room, HD_TOO_LONG, which);
    for (room = form; room <= sizeof saved; room++) {
        if (!tried(room, form))
            continue;
        used = 7777;
        memset(saved, 0xa5, sizeof saved);
        check(hd_save(lent, HD_TABLE_BYTES, saved, room, &used) == HD_OK && used == form, "save", which);
        if (room == form)
            memcpy(first, saved, form);
        check(memcmp(first, saved, form) == 0, "the same form in every buffer", which);
        check(zeros_then_before(saved + form, room - form, sizeof saved - form), "zeros behind the form, and only there", which);
        check(memcmp(before, lent, sizeof lent) == 0, "save leaves the table", which);
    }
}

/* Such intervals can be configured by this call alone, by no request. */
static void not_written(uint16_t minimum, uint16_t maximum, const char *which)
{
    uint8_t lent[LENT], accepted;

    memset(lent, 0xa5, sizeof lent);
    fill(lent, 2);
    check(hd_configure(lent, HD_TABLE_BYTES, 0x0402, 3, minimum, maximum, 50, HD_SIGNED, &accepted) == HD_OK && accepted == 1, "configure", which);
    not_saved(lent, HD_TABLE_BYTES, HD_SAVED_BYTES, HD_NOT_A_SAVED_FORM, which);
    not_saved(lent, HD_TABLE_BYTES, 0, HD_NOT_A_SAVED_FORM, which);
}

static void saves(void)
{
    uint8_t lent[LENT];

    saved_in(0, "no entry");
    saved_in(1, "one entry");
    saved_in(2, "two entries");
    saved_in(FORMER_ROOM, "sixteen entries");
    saved_in(FORMER_ROOM + 1, "seventeen entries");
    saved_in(ROOM, "128 entries");
    not_written(0, 0xffff, "maximum ffff");
    not_written(0xffff, 0, "maximum 0 with minimum ffff");
    not_written(11, 10, "maximum below minimum");
    not_written(0xffff, 0xfffe, "maximum fffe below minimum ffff");
    memset(lent, 0xa5, sizeof lent);
    fill(lent, ROOM);
    memcpy(slot(lent, ROOM - 1), slot(lent, 0), 4);
    not_saved(lent, HD_TABLE_BYTES, HD_SAVED_BYTES, HD_NOT_A_SAVED_FORM, "a key twice");
}

/* Restores these bytes over a full table: 13, and the table is empty. */
static void not_restored(const uint8_t *saved, size_t len, const char *which)
{
    uint8_t lent[LENT];

    memset(lent, 0xa5, sizeof lent);
    fill(lent, ROOM);
    check(hd_restore(lent, HD_TABLE_BYTES, saved, len) == HD_NOT_A_SAVED_FORM, "restore gives 13", which);
    check(zeros_then_before(lent, HD_TABLE_BYTES, sizeof lent), "restore leaves an empty table, and only there", which);
}

/*
 * A form of n entries is restored at its own length, whatever the table's bytes were, and at no other; a restored entry has no last report. But of one
 * entry what is left without the last byte is a form of before there were marks: its body stands where it stood then.
 */
static void restored_from(unsigned n, const char *which)
{
    uint8_t table[HD_TABLE_BYTES], expected[LENT], lent[LENT], saved[SAVED_LENT];
    size_t used, len;
    unsigned i;

    fill(table, n);
    memset(saved, 0, sizeof saved);
    check(hd_save(table, sizeof table, saved, HD_SAVED_BYTES, &used) == HD_OK, "save", which);
    for (len = 0; len <= sizeof saved; len++)
        if (tried(len, used) && len != used && !(n == 1 && len + 1 == used))
            not_restored(saved, len, which);
    memset(expected, 0xa5, sizeof expected);
    memcpy(expected, table, sizeof table);
    for (i = 0; i < n; i++)
        memset(slot(expected, i) + FLAG, 0, SLOT - FLAG);
    memset(lent, 0xa5, sizeof lent);
    check(hd_restore(lent, HD_TABLE_BYTES, saved, used) == HD_OK, "restore over any bytes", which);
    check(memcmp(expected, lent, sizeof lent) == 0, "the table without its last reports, and only there", which);
    memcpy(lent, table, sizeof table);
    check(hd_restore(lent, HD_TABLE_BYTES, saved, used) == HD_OK, "restore over the table", which);
    check(memcmp(expected, lent, sizeof lent) == 0, "the last reports are forgotten", which);
}

/* The form of n entries of `fill` as it was before there were marks. Gives its length. */
static size_t old_form(unsigned n, uint8_t saved[SAVED_LENT])
{
    uint8_t table[HD_TABLE_BYTES], form[SAVED_LENT];
    const size_t bodies = 1 + 6 * (size_t)n;
    size_t used, i, at;

    fill(table, n);
    check(hd_save(table, sizeof table, form, HD_SAVED_BYTES, &used) == HD_OK, "save", "for an old form");
    memset(saved, 0, SAVED_LENT);
    memcpy(saved, form, bodies);
    for (i = 0; i < n; i++) {
        at = bodies + OLD_BODY * i;
        saved[1 + 6 * i + 4] = (uint8_t)at;
        saved[1 + 6 * i + 5] = (uint8_t)(at >> 8);
        memcpy(saved + at, form + bodies + BODY * i, OLD_BODY);
    }
    return bodies + OLD_BODY * n;
}

/* It is restored with every mark 0, and saved again as the new form; at another length it is none, but that one entry and a mark are a new form. */
static void restored_from_old(unsigned n, const char *which)
{
    uint8_t table[HD_TABLE_BYTES], expected[LENT], lent[LENT], saved[SAVED_LENT], again[SAVED_LENT], once[SAVED_LENT];
    const size_t form = old_form(n, saved);
    size_t used = 7777, len;
    unsigned i;

    for (len = 0; len <= sizeof saved; len++)
        if (tried(len, form) && len != form && !(n == 1 && len == form + 1))
            not_restored(saved, len, which);
    fill(table, n);
    memset(expected, 0xa5, sizeof expected);
    memcpy(expected, table, sizeof table);
    for (i = 0; i < n; i++)
        memset(slot(expected, i) + MARK, 0, SLOT - MARK);
    memset(lent, 0xa5, sizeof lent);
    check(hd_restore(lent, HD_TABLE_BYTES, saved, form) == HD_OK, "restore without marks", which);
    check(memcmp(expected, lent, sizeof lent) == 0, "every mark is 0", which);
    check(hd_save(lent, HD_TABLE_BYTES, again, HD_SAVED_BYTES, &used) == HD_OK && used == form + n, "saved again with marks", which);
    for (i = 0; i < n; i++)
        check(again[1 + 6 * (size_t)n + BODY * i + OLD_BODY] == HD_SIGNED, "saved again with mark 0", which);
    check(hd_restore(lent, HD_TABLE_BYTES, again, used) == HD_OK && memcmp(expected, lent, sizeof lent) == 0, "and restored again", which);
    check(hd_save(lent, HD_TABLE_BYTES, once, HD_SAVED_BYTES, &used) == HD_OK && memcmp(once, again, HD_SAVED_BYTES) == 0, "the same bytes", which);
}

/* A form of one entry, 10 to 300 seconds. */
static void save_one(uint8_t saved[SAVED_ONE])
{
    uint8_t table[HD_TABLE_BYTES];
    size_t used;

    fill(table, 1);
    check(hd_save(table, sizeof table, saved, SAVED_ONE, &used) == HD_OK && used == SAVED_ONE, "save", "one entry");
}

/* Its byte at `at` is changed. */
static void changed(size_t at, uint8_t byte, const char *which)
{
    uint8_t saved[SAVED_ONE];

    save_one(saved);
    saved[at] = byte;
    not_restored(saved, sizeof saved, which);
}

/* Its intervals are others. */
static void with_intervals(uint16_t minimum, uint16_t maximum, const char *which)
{
    uint8_t saved[SAVED_ONE];

    save_one(saved);
    saved[MINIMUM] = (uint8_t)minimum;
    saved[MINIMUM + 1] = (uint8_t)(minimum >> 8);
    saved[MAXIMUM] = (uint8_t)maximum;
    saved[MAXIMUM + 1] = (uint8_t)(maximum >> 8);
    not_restored(saved, sizeof saved, which);
}

/* A form in all but that it has one entry more than there is room for. */
static void too_many(void)
{
    uint8_t saved[1 + 19 * (ROOM + 1)];
    size_t i;

    memset(saved, 0, sizeof saved);
    saved[0] = ROOM + 1;
    for (i = 0; i <= ROOM; i++) {
        uint8_t *row = saved + 1 + 6 * i;
        const size_t at = 1 + 6 * (ROOM + 1) + BODY * i;

        row[0] = 0x02;
        row[1] = 0x04;
        row[2] = (uint8_t)i;
        row[4] = (uint8_t)at;
        row[5] = (uint8_t)(at >> 8);
        saved[at + 2] = 60;
    }
    not_restored(saved, sizeof saved, "count 129");
}

static void restores(void)
{
    static const size_t lengths[] = { 0, HD_TABLE_BYTES - 1, HD_TABLE_BYTES + 1 };
    uint8_t lent[LENT], table[HD_TABLE_BYTES], saved[HD_SAVED_BYTES];
    size_t used;
    unsigned i;

    restored_from(0, "no entry");
    restored_from(1, "one entry");
    restored_from(2, "two entries");
    restored_from(FORMER_ROOM, "sixteen entries");
    restored_from(FORMER_ROOM + 1, "seventeen entries");
    restored_from(ROOM, "128 entries");
    changed(0, 0, "count 0, bytes behind");
    changed(0, 2, "count 2, bytes missing");
    changed(0, 255, "count 255");
    changed(5, 6, "offset one less");
    changed(5, 8, "offset one more");
    changed(6, 1, "offset 256 more");
    changed(SAVED_MARK, 2, "mark 2");
    changed(SAVED_MARK, 255, "mark 255");
    restored_from_old(1, "one entry without marks");
    restored_from_old(2, "two entries without marks");
    restored_from_old(FORMER_ROOM, "sixteen entries without marks");
    restored_from_old(ROOM, "128 entries without marks");
    too_many();
    with_intervals(0, 0xffff, "maximum ffff");
    with_intervals(0xffff, 0, "maximum 0 with minimum ffff");
    with_intervals(11, 10, "maximum below minimum");
    with_intervals(0xffff, 0xfffe, "maximum fffe below minimum ffff");

    fill(table, 2);
    check(hd_save(table, sizeof table, saved, sizeof saved, &used) == HD_OK, "save", "two entries");
    memcpy(saved + 7, saved + 1, 4);
    not_restored(saved, used, "a key twice");

    /* Another table length says 8, whatever is to be restored, and leaves the bytes. */
    for (i = 0; i < 3; i++) {
        memset(lent, 0xa5, sizeof lent);
        check(hd_restore(lent, lengths[i], saved, used) == HD_NOT_A_TABLE, "restore gives 8", "no form");
        saved[0] = 0;
        check(hd_restore(lent, lengths[i], saved, 1) == HD_NOT_A_TABLE, "restore gives 8", "a form");
        check(zeros_then_before(lent, 0, sizeof lent), "restore leaves the bytes", "another length");
    }
}

/* A table of five entries: the store's three, the one that is not reportable, and one that the store does not have. None has reported. */
static void all_due(uint8_t lent[LENT])
{
    static const uint16_t ids[] = { 0xffff, 9, 2, 3, 1 };
    uint8_t accepted;
    unsigned i;

    memset(lent, 0xa5, LENT);
    fill(lent, 0);
    for (i = 0; i < sizeof ids / sizeof ids[0]; i++)
        check(hd_configure(lent, HD_TABLE_BYTES, 0x0402, ids[i], 0, 60, 1, HD_UNSIGNED, &accepted) == HD_OK && accepted == 1, "all due", "configured");
}

/* A turn writes these records, in this order, and marks them alone; it gives back the last, and zeros stand behind the frame. */
static void turned(uint32_t from, size_t room, const unsigned *records, unsigned n, const char *which)
{
    uint8_t lent[LENT], marked[LENT], frame[TURN_LENT], expected[TURN_LENT] = { 0x18, TURN_SEQUENCE, HD_REPORT };
    uint32_t last = from;
    size_t used = 7777, end = 3;
    unsigned i;

    all_due(lent);
    memcpy(marked, lent, sizeof lent);
    for (i = 0; i < n; i++) {
        const unsigned k = records[i];

        memcpy(expected + end, turn_records[k].bytes, turn_records[k].len);
        end += turn_records[k].len;
        check(hd_mark(marked, HD_TABLE_BYTES, 0x0402, turn_records[k].id, TURN_NOW, turn_records[k].number) == HD_OK, "mark", which);
    }
    memset(frame, 0xa5, sizeof frame);
    check(hd_report_turn(turn_store, sizeof turn_store, lent, HD_TABLE_BYTES, TURN_SEQUENCE, TURN_NOW, &last, frame, room, &used) == HD_OK, "turn", which);
    check(used == end && memcmp(frame, expected, end) == 0, "the turn's frame", which);
    check(zeros_then_before(frame + end, room - end, sizeof frame - end), "zeros behind the frame, and only there", which);
    check(last == turn_records[records[n - 1]].id, "the last that was written is given back", which);
    check(memcmp(marked, lent, sizeof lent) == 0, "what was written is marked, and nothing else", which);
}

/* Frames of every length: no header, no record, one, two, and all three. */
static void turns_by_room(void)
{
    static const unsigned all[] = { 0, 1, 2 };
    uint8_t lent[LENT];
    size_t room;

    all_due(lent);
    for (room = 0; room < 3 + 4; room++)
        not_turned(turn_store, sizeof turn_store, lent, HD_TABLE_BYTES, room, HD_TOO_LONG, "room for no record");
    for (; room < 3 + 4 + 6; room++)
        turned(HD_NO_ID, room, all, 1, "room for one record");
    for (; room < 3 + 4 + 6 + 7; room++)
        turned(HD_NO_ID, room, all, 2, "room for two records");
    for (; room <= TURN_LENT; room++)
        turned(HD_NO_ID, room, all, 3, "room for all records");
}

/* From above the last attribute and round; no attribute is every number above ffff, and the last one itself comes last. */
static void turns_by_last(void)
{
    static const struct {
        uint32_t last;
        unsigned records[3];
    } starts[] = {
        { HD_NO_ID, { 0, 1, 2 } }, { HD_NO_ID + 1, { 0, 1, 2 } }, { UINT32_MAX, { 0, 1, 2 } }, { 0xffff, { 0, 1, 2 } },  { 0, { 0, 1, 2 } },
        { 1, { 1, 2, 0 } },        { 2, { 2, 0, 1 } },            { 3, { 2, 0, 1 } },          { 0xfffe, { 2, 0, 1 } },
    };
    unsigned i, n;

    for (i = 0; i < sizeof starts / sizeof starts[0]; i++)
        turned(starts[i].last, TURN_LENT, starts[i].records, 3, "from every last attribute");
    for (n = 1; n < 3; n++)
        turned(1, n == 1 ? 3 + 6 : 3 + 6 + 7, starts[5].records, n, "from 1, not all fit");
    /* the string does not fit, and what comes behind it is not tried */
    turned(3, 3 + 7 + 4 + 5, starts[7].records, 2, "the first that does not fit ends it");
}

/* 7 before 8, 8 before 5 for the header, that before 6, 6 before 5 for the first record. */
static void turns_refused(void)
{
    uint8_t lent[LENT], other[sizeof turn_store];
    uint32_t last = HD_NO_ID;
    uint8_t frame[TURN_LENT];
    size_t used;

    all_due(lent);
    memcpy(other, turn_store, sizeof other);
    not_turned(turn_store, sizeof turn_store - 1, lent, HD_TABLE_BYTES, TURN_LENT, HD_NOT_A_STORE, "a store that is cut");
    not_turned(turn_store, sizeof turn_store - 1, lent, HD_TABLE_BYTES - 1, 0, HD_NOT_A_STORE, "7 before 8");
    not_turned(turn_store, sizeof turn_store, lent, HD_TABLE_BYTES - 1, 0, HD_NOT_A_TABLE, "8 before 5");
    not_turned(turn_store, sizeof turn_store, lent, HD_TABLE_BYTES + 1, TURN_LENT, HD_NOT_A_TABLE, "a table that is too long");
    check(hd_report_turn(turn_store, sizeof turn_store, lent, HD_TABLE_BYTES, 0, TURN_NOW, &last, frame, sizeof frame, &used) == HD_OK, "turn", "all");
    not_turned(turn_store, sizeof turn_store, lent, HD_TABLE_BYTES, 2, HD_TOO_LONG, "5 for the header before 6");
    not_turned(turn_store, sizeof turn_store, lent, HD_TABLE_BYTES, 3, HD_NOTHING_TO_SEND, "6 before 5 for the first record");
    not_turned(turn_store, sizeof turn_store, lent, HD_TABLE_BYTES, TURN_LENT, HD_NOTHING_TO_SEND, "nothing is due");
    other[38] = 'P'; /* another name: it has no number, so it has not moved */
    not_turned(other, sizeof other, lent, HD_TABLE_BYTES, TURN_LENT, HD_NOTHING_TO_SEND, "another string is not due");
    other[0] = 0x03; /* the store of another cluster */
    not_turned(other, sizeof other, lent, HD_TABLE_BYTES, TURN_LENT, HD_NOTHING_TO_SEND, "no entry of the cluster");
}

/* Where a key stands twice, the first entry says what is due, and is marked. */
static void turns_of_a_key_twice(void)
{
    uint8_t lent[LENT], frame[TURN_LENT];
    uint32_t last = HD_NO_ID;
    size_t used = 7777;

    memset(lent, 0xa5, sizeof lent);
    fill(lent, 2);
    memcpy(slot(lent, 1), slot(lent, 0), 4);
    memset(slot(lent, 0) + FLAG, 0, SLOT - FLAG);
    check(hd_report_turn(turn_store, sizeof turn_store, lent, HD_TABLE_BYTES, 0, TURN_NOW, &last, frame, sizeof frame, &used) == HD_OK, "a key twice", "due");
    check(used == 3 + 4 && last == 1, "a key twice", "written once");
    check(slot(lent, 0)[FLAG] == 1 && slot(lent, 0)[VALUE] == 7 && slot(lent, 1)[VALUE] == 2, "a key twice", "the first is marked");
    not_turned(turn_store, sizeof turn_store, lent, HD_TABLE_BYTES, TURN_LENT, HD_NOTHING_TO_SEND, "the second does not count");
}

int main(void)
{
    no_tables();
    new_table();
    full();
    past_sixteen();
    hole();
    far_apart();
    by_mark();
    marks();
    saves();
    restores();
    turns_by_room();
    turns_by_last();
    turns_refused();
    turns_of_a_key_twice();
    printf("edges: %u checks, %u failed\n", checks, failures);
    return failures != 0;
}
