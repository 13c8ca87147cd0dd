/*
 * Makes calls of one row on the proved archive, in turn, round and round, as `speed --calls ROW new N` does. It is for machines where the
 * archive cannot be linked into that program, so that an emulator can count its instructions:
 *
 *     speed --frames | count ROW N
 *
 * All rows are read before the first call, and nothing is printed, so that a call costs little more than what the archive does. Where the
 * text is not understood, or has no such row, no call is made: it says so and exits with 2.
 */
#include "rows.h"

/* The row that is asked for, and one that takes in turn all the others. */
static struct row chosen, other;
static const char *wanted;
static uint8_t reply[ROOM];

static void make_request(const struct call *call)
{
    size_t used;

    hd_handle_request(chosen.store, chosen.store_len, chosen.table, HD_TABLE_BYTES, call->cluster, 1, call->frame, call->length, reply,
                      call->room, &used);
}

static void make_report(const struct call *call)
{
    size_t used;

    hd_report(chosen.store, chosen.store_len, call->sequence, call->ids, call->length, reply, call->room, &used);
}

static void make_ask(const struct call *call)
{
    uint8_t due;

    hd_ask(chosen.table, HD_TABLE_BYTES, call->cluster, call->attribute, call->now, call->value, &due);
}

static void make_mark(const struct call *call)
{
    hd_mark(chosen.table, HD_TABLE_BYTES, call->cluster, call->attribute, call->now, call->value);
}

static void (*const make[KINDS])(const struct call *call) = { make_request, make_report, make_ask, make_mark };

/* A row's line, or the line of a call of the row that came last. */
static void take(const char *first)
{
    static struct row *row;

    if (strcmp(first, "row") != 0) {
        read_call(row, first);
        return;
    }
    row = strcmp(word(), wanted) == 0 ? &chosen : &other;
    if (row == &chosen && chosen.store_len != 0)
        end("a row comes twice", wanted);
    read_row(row);
}

int main(int argc, char **argv)
{
    int64_t left;
    size_t at = 0;

    if (argc != 3)
        end("usage", "speed --frames | count ROW N");
    wanted = argv[1];
    left = number(argv[2], 1, INT64_MAX);
    each_line(take);
    if (chosen.many == 0)
        end("no calls of such a row", wanted);
    for (; left > 0; left--) {
        make[chosen.calls[at].kind](&chosen.calls[at]);
        at = at + 1 == chosen.many ? 0 : at + 1;
    }
    return 0;
}
