/* A clock for the gateway's test, linked in place of the system's (--wrap=clock_gettime): each call gives the next of the times that
   CLOCK_MILLISECONDS lists. */
#define _POSIX_C_SOURCE 200809L
#include <stdlib.h>
#include <time.h>

int __wrap_clock_gettime(clockid_t clock, struct timespec *now);

int __wrap_clock_gettime(clockid_t clock, struct timespec *now) {
    static char *at;
    char *end;
    if (at == NULL)
        at = getenv("CLOCK_MILLISECONDS");
    const long milliseconds = at == NULL ? 0 : strtol(at, &end, 10);
    if (clock != CLOCK_MONOTONIC || at == NULL || end == at)
        abort();
    at = end;
    now->tv_sec = milliseconds / 1000;
    now->tv_nsec = milliseconds % 1000 * 1000000;
    return 0;
}
