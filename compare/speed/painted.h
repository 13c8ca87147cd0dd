/* The stack that a function takes: it runs on one of its own, which was painted, and what is no longer so was used. */
#ifndef PAINTED_H
#define PAINTED_H

#include <stdint.h>
#include <stdio.h>
#include <stdlib.h>
#include <string.h>
#include <ucontext.h>

static uint64_t painted[1 << 13];

/* The place of the first word that is no longer painted. */
static size_t lowest(void)
{
    static const uint8_t paint[8] = { 0xa5, 0xa5, 0xa5, 0xa5, 0xa5, 0xa5, 0xa5, 0xa5 };
    size_t i = 0;

    while (i < sizeof painted / sizeof *painted && memcmp(&painted[i], paint, sizeof paint) == 0)
        i++;
    return i;
}

/* In bytes, with what it takes to start there. */
static size_t stack_of(void (*run)(void))
{
    static ucontext_t here, there;
    size_t low;

    memset(painted, 0xa5, sizeof painted);
    if (getcontext(&there) == 0) {
        there.uc_stack.ss_sp = painted;
        there.uc_stack.ss_size = sizeof painted;
        there.uc_link = &here;
        makecontext(&there, run, 0);
        swapcontext(&here, &there);
    }
    low = lowest() * sizeof *painted;
    if (low == 0 || low == sizeof painted) {
        fprintf(stderr, "painted: %s\n", low == 0 ? "the stack is too small" : "nothing ran on the stack");
        exit(2);
    }
    return sizeof painted - low;
}

#endif
