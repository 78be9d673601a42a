/* What the measuring programs share: the clock in nanoseconds, and rows read from standard input, each with the number of its words in front. */
#include <stdint.h>
#include <stdio.h>
#include <stdlib.h>
#include <time.h>

static inline double now(void)
{
    struct timespec t;
    clock_gettime(CLOCK_MONOTONIC, &t);
    return t.tv_sec * 1e9 + t.tv_nsec;
}

static inline uint32_t *words(size_t *n)
{
    if (scanf("%zu", n) != 1)
        exit(1);
    uint32_t *w = malloc((*n + 1) * sizeof *w);
    for (size_t i = 0; i < *n; i++)
        if (scanf("%u", &w[i]) != 1)
            exit(1);
    return w;
}
