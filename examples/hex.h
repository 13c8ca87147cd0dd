/* Bytes written as hex digits, two a byte, and read back. */
#ifndef HEX_H
#define HEX_H

#include <stddef.h>
#include <stdint.h>
#include <stdio.h>

/* What a digit stands for, or -1. */
static int hex_digit(char c)
{
    if (c >= '0' && c <= '9')
        return c - '0';
    if (c >= 'a' && c <= 'f')
        return c - 'a' + 10;
    if (c >= 'A' && c <= 'F')
        return c - 'A' + 10;
    return -1;
}

/* The bytes of `digits` characters of text, to `out`, which has room for `room`. 1 where all of them are bytes and fit. */
static int hex_read(const char *text, size_t digits, uint8_t *out, size_t room)
{
    size_t i;

    if (digits % 2 != 0 || digits / 2 > room)
        return 0;
    for (i = 0; i < digits / 2; i++) {
        int high = hex_digit(text[2 * i]), low = hex_digit(text[2 * i + 1]);

        if (high < 0 || low < 0)
            return 0;
        out[i] = (uint8_t)(16 * high + low);
    }
    return 1;
}

static void hex_print(const uint8_t *bytes, size_t n)
{
    size_t i;

    for (i = 0; i < n; i++)
        printf("%02x", bytes[i]);
}

#endif
