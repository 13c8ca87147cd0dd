/*
 * A program with faults, on demand: by it examples/run sees that a tool finds them. 'none' has no fault, 'bounds' reads behind an array,
 * 'heap' behind what was allocated.
 */
#include <stdio.h>
#include <stdlib.h>
#include <string.h>

int main(int argc, char **argv)
{
    volatile int array[4] = { 0 };
    volatile char *heap = malloc(4);
    volatile size_t behind = 4;
    int read = 0;

    if (argc != 2 || heap == NULL)
        return 2;
    if (strcmp(argv[1], "bounds") == 0)
        read = array[behind];
    if (strcmp(argv[1], "heap") == 0)
        read = heap[behind];
    free((void *)heap);
    printf("%d\n", read); /* valgrind passes over a read that nothing needs */
    return 0;
}
