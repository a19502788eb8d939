/* What the objects of the library that stand apart call of the others. */
#include "explorer.h"

void ccan_private_touch(const void *at, size_t size, bool writes, bool is_atomic, uintptr_t pc)
{
    touch(at, size, writes, is_atomic, pc);
}

void ccan_private_refuse(const char *call, const char *why)
{
    if (E && E->running)
        stop(2, "the program calls %s: %s", call, why);
}

void ccan_private_give(void *to, const void *from, size_t size) { give(to, from, size); }

static bool is_later(const struct timespec *one, const struct timespec *other)
{
    return one->tv_sec > other->tv_sec || (one->tv_sec == other->tv_sec && one->tv_nsec > other->tv_nsec);
}

/* What a clock shows the calling thread, if clocks stand still: the time that was up, if its last wait has ended by that, and else
 * this. */
struct timespec ccan_private_clock(const char *call, struct timespec stands_at, uintptr_t site)
{
    struct timespec woke = ME->woke;
    if (!E->clocks_stand)
        stop(2, "the program calls %s: a schedule has no time; ccan_choose says whether it is up, and ccan_stop_clocks has each clock stand still",
            call);
    if (!E->clock_site)
        E->clock_site = site;
    ME->woke = (struct timespec){ 0 };
    return is_later(&woke, &stands_at) ? woke : stands_at;
}
