/* A clock that stands still, to be loaded before the C library: no device of a server ticks by it, so that a count of instructions has
   nothing of what devices hand out, and comes out the same each time. */

#include <time.h>

int clock_gettime(clockid_t clock, struct timespec *shown)
{
    (void)clock;
    shown->tv_sec = 1000;
    shown->tv_nsec = 0;
    return 0;
}
