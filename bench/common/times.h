/* Times in nanoseconds. */
#ifndef TIMES_H
#define TIMES_H

#include <stdint.h>
#include <stdlib.h>
#include <time.h>

static inline int64_t nanoseconds(void)
{
    struct timespec now;
    clock_gettime(CLOCK_MONOTONIC, &now);
    return now.tv_sec * 1000000000LL + now.tv_nsec;
}

static inline int compare_times(const void *a, const void *b)
{
    int64_t left = *(const int64_t *)a, right = *(const int64_t *)b;
    return (left > right) - (left < right);
}

/* Sorts the times. */
static inline int64_t median(int64_t *times, unsigned count)
{
    qsort(times, count, sizeof *times, compare_times);
    return times[count / 2];
}

#endif
