/*
 * The head-end's side of examples/box.c: what a reply or a report says, as text. Each reply has a check, which looks at the whole frame and
 * counts its records, and a function for record k; so the loops below need no offsets, and no record is printed of a frame that is damaged.
 */
#ifndef HEADEND_H
#define HEADEND_H

#include <inttypes.h>
#include <stdio.h>

#include "hingedrift.h"

/* The box's attributes, by the numbers that both sides know. */
enum { COUNTER = 0x0000, LEVEL = 0x0001, TEMPERATURE = 0x0005, NAME = 0x0007, METER = 0x000a };

enum { UINT64 = 0x27, CHARACTER_STRING = 0x42, INVALID_STRING = 0xff };

static void print_attribute(uint16_t id)
{
    switch (id) {
    case COUNTER:     printf("counter"); break;
    case LEVEL:       printf("level"); break;
    case TEMPERATURE: printf("temperature"); break;
    case NAME:        printf("name"); break;
    case METER:       printf("sub-meter"); break;
    default:          printf("%04x", id); break;
    }
}

static void print_status(uint8_t status)
{
    switch (status) {
    case HD_STATUS_SUCCESS:                printf("SUCCESS"); break;
    case HD_STATUS_UNSUP_COMMAND:          printf("UNSUP_COMMAND"); break;
    case HD_STATUS_UNSUPPORTED_ATTRIBUTE:  printf("UNSUPPORTED_ATTRIBUTE"); break;
    case HD_STATUS_INVALID_VALUE:          printf("INVALID_VALUE"); break;
    case HD_STATUS_READ_ONLY:              printf("READ_ONLY"); break;
    case HD_STATUS_INSUFFICIENT_SPACE:     printf("INSUFFICIENT_SPACE"); break;
    case HD_STATUS_NOT_FOUND:              printf("NOT_FOUND"); break;
    case HD_STATUS_UNREPORTABLE_ATTRIBUTE: printf("UNREPORTABLE_ATTRIBUTE"); break;
    case HD_STATUS_INVALID_DATA_TYPE:      printf("INVALID_DATA_TYPE"); break;
    case HD_STATUS_UNSUPPORTED_CLUSTER:    printf("UNSUPPORTED_CLUSTER"); break;
    default:                               printf("status %02x", status); break;
    }
}

/* An attribute that was refused, in any reply that lists failures. */
static void print_failure(uint16_t id, uint8_t status)
{
    print_attribute(id);
    printf(": ");
    print_status(status);
}

/* A string's first byte is its length. Characters that would disturb a line are dots. */
static void print_string(const uint8_t *value, size_t len)
{
    size_t i;

    if (value[0] == INVALID_STRING) {
        printf("invalid");
        return;
    }
    putchar('"');
    for (i = 1; i < len; i++)
        putchar(value[i] >= 0x20 && value[i] < 0x7f && value[i] != '"' ? value[i] : '.');
    putchar('"');
}

/* A value in hundredths. The sign is printed apart, since the whole part of -0.05 has none; the size is unsigned, since -INT64_MIN is no int64_t. */
static void print_hundredths(int64_t number)
{
    uint64_t size = number < 0 ? 0 - (uint64_t)number : (uint64_t)number;

    printf("%s%" PRIu64 ".%02" PRIu64, number < 0 ? "-" : "", size / 100, size % 100);
}

/*
 * An attribute and its value. The sign is the reader's affair: a counter with its top bit set is no negative number here. But for eight bytes: these
 * come as they are, and for a Uint64 they are taken without a sign here.
 */
static void print_value(uint16_t id, uint8_t type, const uint8_t *value, size_t len, uint8_t numbered, int64_t number)
{
    print_attribute(id);
    putchar(' ');
    if (numbered && id == TEMPERATURE)
        print_hundredths(number);
    else if (numbered && type == UINT64)
        printf("%" PRIu64, (uint64_t)number);
    else if (numbered)
        printf("%" PRId64, number);
    else if (type == CHARACTER_STRING && len > 0)
        print_string(value, len);
    else
        printf("of type %02x, %u bytes", type, (unsigned)len);
}

/* What stands between two records. */
static void print_comma(size_t k)
{
    if (k > 0)
        printf(", ");
}

static uint8_t print_read(const uint8_t *frame, size_t n)
{
    uint8_t found, status, type, numbered, answer;
    uint16_t id;
    size_t records, k, value, len;
    int64_t number;

    answer = hd_read_check(frame, n, &records);
    for (k = 0; k < records; k++) {
        answer = hd_read_record(frame, n, k, &found, &id, &status, &type, &value, &len, &numbered, &number);
        print_comma(k);
        if (status == HD_STATUS_SUCCESS)
            print_value(id, type, frame + value, len, numbered, number);
        else
            print_failure(id, status);
    }
    return answer;
}

static uint8_t print_write(const uint8_t *frame, size_t n)
{
    uint8_t found, status, answer;
    uint16_t id;
    size_t failures, k;

    answer = hd_write_check(frame, n, &failures);
    if (answer == HD_OK && failures == 0)
        printf("written");
    for (k = 0; k < failures; k++) {
        answer = hd_write_record(frame, n, k, &found, &status, &id);
        print_comma(k);
        print_failure(id, status);
    }
    return answer;
}

static uint8_t print_configure(const uint8_t *frame, size_t n)
{
    uint8_t found, status, direction, answer;
    uint16_t id;
    size_t failures, k;

    answer = hd_configure_check(frame, n, &failures);
    if (answer == HD_OK && failures == 0)
        printf("configured");
    for (k = 0; k < failures; k++) {
        answer = hd_configure_record(frame, n, k, &found, &status, &direction, &id);
        print_comma(k);
        print_failure(id, status);
    }
    return answer;
}

static uint8_t print_configuration(const uint8_t *frame, size_t n)
{
    uint8_t found, status, direction, type, answer;
    uint16_t id, minimum, maximum;
    uint64_t change;
    size_t records, k;

    answer = hd_configuration_check(frame, n, &records);
    for (k = 0; k < records; k++) {
        answer = hd_configuration_record(frame, n, k, &found, &status, &direction, &id, &type, &minimum, &maximum, &change);
        print_comma(k);
        if (status == HD_STATUS_SUCCESS) {
            print_attribute(id);
            printf(" every %u to %u seconds by %" PRIu64, minimum, maximum, change);
        } else {
            print_failure(id, status);
        }
    }
    return answer;
}

static uint8_t print_discover(const uint8_t *frame, size_t n)
{
    uint8_t complete, found, type, answer;
    uint16_t id;
    size_t records, k;

    answer = hd_discover_check(frame, n, &complete, &records);
    for (k = 0; k < records; k++) {
        answer = hd_discover_record(frame, n, k, &found, &id, &type);
        print_comma(k);
        print_attribute(id);
        printf(" of type %02x", type);
    }
    if (answer == HD_OK)
        printf("%s%s", records > 0 ? "; " : "", complete ? "complete" : "there are more");
    return answer;
}

static uint8_t print_default(const uint8_t *frame, size_t n)
{
    uint8_t command, status, answer;

    answer = hd_default_response(frame, n, &command, &status);
    if (answer == HD_OK) {
        printf("command %02x: ", command);
        print_status(status);
    }
    return answer;
}

static uint8_t print_report(const uint8_t *frame, size_t n)
{
    uint8_t found, type, numbered, answer;
    uint16_t id;
    size_t records, k, value, len;
    int64_t number;

    answer = hd_report_check(frame, n, &records);
    for (k = 0; k < records; k++) {
        answer = hd_report_record(frame, n, k, &found, &id, &type, &value, &len, &numbered, &number);
        print_comma(k);
        print_value(id, type, frame + value, len, numbered, number);
    }
    return answer;
}

/*
 * A frame from the box, as text. A box's frames have no manufacturer code, so the command is the third byte; a reader looks at the header
 * itself, so that a wrong guess here ends in HD_NOT_SUCH_A_REPLY and not in a wrong text. Returns the reader's number.
 */
static uint8_t print_frame(const uint8_t *frame, size_t n)
{
    if (n < 3)
        return HD_HEADER_SHORT;
    switch (frame[2]) {
    case HD_READ_REPLY:               return print_read(frame, n);
    case HD_WRITE_REPLY:              return print_write(frame, n);
    case HD_CONFIGURE_REPLY:          return print_configure(frame, n);
    case HD_READ_CONFIGURATION_REPLY: return print_configuration(frame, n);
    case HD_DISCOVER_REPLY:           return print_discover(frame, n);
    case HD_DEFAULT_RESPONSE:         return print_default(frame, n);
    case HD_REPORT:                   return print_report(frame, n);
    default:                          return HD_NOT_SUCH_A_REPLY;
    }
}

#endif
