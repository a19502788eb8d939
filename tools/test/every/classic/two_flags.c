/* A poll of two flags, the first of which is set for good while it looks at the second: it has to look once more. They are set only
 * once its first turn is over. */
#include <ccan_every.h>
#include <sched.h>
#include <stdatomic.h>
#include <stdio.h>

static atomic_int first, second, polls;

static void poll(void)
{
    while (!first && !second) {
        polls = 1;
        sched_yield();
    }
    printf("seen\n");
}

static void set(void)
{
    while (!polls)
        sched_yield();
    second = 1;
    second = 0;
    first = 1;
}

int main(void)
{
    ccan_thread("poll", poll);
    ccan_thread("set", set);
    ccan_quiet();
    return 0;
}
