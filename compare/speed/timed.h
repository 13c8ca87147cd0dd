/* The time that a function takes. */
#ifndef TIMED_H
#define TIMED_H

#include <time.h>

/* Nanoseconds of a call, in the quickest of 41 blocks of so many. */
static double nanoseconds(void (*call)(void), int calls)
{
    enum { BLOCKS = 41 };
    double best = 0, t;
    struct timespec a, b;
    int i, k;

    for (k = 0; k < BLOCKS; k++) {
        clock_gettime(CLOCK_MONOTONIC, &a);
        for (i = 0; i < calls; i++)
            call();
        clock_gettime(CLOCK_MONOTONIC, &b);
        t = ((b.tv_sec - a.tv_sec) * 1e9 + (b.tv_nsec - a.tv_nsec)) / calls;
        if (k == 0 || t < best)
            best = t;
    }
    return best;
}

#endif
