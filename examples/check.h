/* What the tests count: checks, and those that failed. */
#ifndef CHECK_H
#define CHECK_H

#include <stdio.h>

static unsigned checks, failures;

static void check(int right, const char *what, const char *which)
{
    checks++;
    if (!right) {
        failures++;
        printf("wrong: %s: %s\n", what, which);
    }
}

#endif
