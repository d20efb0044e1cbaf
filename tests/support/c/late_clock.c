/* The clock of a program that is linked with `-Wl,--wrap=clock_gettime`: that which goes on evenly begins two seconds before its
 * milliseconds are more than 31 bits say, which is 24.8 days after a start. */
#define _POSIX_C_SOURCE 200809L
#include <time.h>

int __real_clock_gettime(clockid_t clock, struct timespec *now);
int __wrap_clock_gettime(clockid_t clock, struct timespec *now);

int __wrap_clock_gettime(clockid_t clock, struct timespec *now) {
    static time_t begun;
    int failed = __real_clock_gettime(clock, now);
    if (failed || clock != CLOCK_MONOTONIC) return failed;
    if (begun == 0) begun = now->tv_sec;
    now->tv_sec = now->tv_sec - begun + 2147481;
    return 0;
}
