/* The processor time of this process, so that other processes do not count, and the better of two times. */
#ifndef CLOCK_H
#define CLOCK_H
#include <time.h>

static inline double now(void)
{
    struct timespec t;
    clock_gettime(CLOCK_PROCESS_CPUTIME_ID, &t);
    return (double)t.tv_sec + 1e-9 * (double)t.tv_nsec;
}

static inline double better(double a, double b)
{
    return a < b ? a : b;
}

#endif
