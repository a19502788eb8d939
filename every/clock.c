/* Clocks. A schedule has no time, so they are refused, or stand still if the program says so. Then only the thread whose wait ended by
 * its time reads that time next, once. */
#include "explorer.h"
#include <sys/time.h>

struct timespec ccan_private_clock(const char *call, struct timespec stands_at, uintptr_t site);

/* In September 2001, so that a program which looks whether a clock was set finds that it was. */
static const struct timespec stands_at = { .tv_sec = 1000000000 };

#define NOW(call) ccan_private_clock(call, stands_at, (uintptr_t)__builtin_return_address(0))

int clock_gettime(clockid_t clock, struct timespec *time)
{
    const struct timespec now = NOW("clock_gettime");
    (void)clock;
    give(time, &now, sizeof now);
    return 0;
}

int clock_getres(clockid_t clock, struct timespec *resolution)
{
    const struct timespec least = { .tv_nsec = 1 };
    (void)clock;
    if (resolution)
        give(resolution, &least, sizeof least);
    return 0;
}

int timespec_get(struct timespec *time, int base)
{
    const struct timespec now = NOW("timespec_get");
    give(time, &now, sizeof now);
    return base;
}

int gettimeofday(struct timeval *time, void *zone)
{
    const struct timespec now = NOW("gettimeofday");
    const struct timeval rounded = { now.tv_sec, now.tv_nsec / 1000 };
    (void)zone;
    give(time, &rounded, sizeof rounded);
    return 0;
}

time_t time(time_t *place)
{
    const time_t now = NOW("time").tv_sec;
    if (place)
        give(place, &now, sizeof now);
    return now;
}

clock_t clock(void) { return (clock_t)(NOW("clock").tv_sec - stands_at.tv_sec) * CLOCKS_PER_SEC; }

/* The clocks of C++, which are in its library: std::chrono's steady_clock::now and system_clock::now, in nanoseconds. */
int64_t _ZNSt6chrono3_V212steady_clock3nowEv(void);
int64_t _ZNSt6chrono3_V212system_clock3nowEv(void);

static int64_t nanoseconds(struct timespec of) { return (int64_t)of.tv_sec * 1000000000 + of.tv_nsec; }

int64_t _ZNSt6chrono3_V212steady_clock3nowEv(void) { return nanoseconds(NOW("steady_clock::now")); }
int64_t _ZNSt6chrono3_V212system_clock3nowEv(void) { return nanoseconds(NOW("system_clock::now")); }
