/* The clock of the measurements. */

#define _POSIX_C_SOURCE 199309L

#include <time.h>

#include "plain.h"

uint64_t plain_cpu_nanoseconds(void)
{
    struct timespec t;
    clock_gettime(CLOCK_THREAD_CPUTIME_ID, &t);
    return (uint64_t)t.tv_sec * 1000000000 + (uint64_t)t.tv_nsec;
}
