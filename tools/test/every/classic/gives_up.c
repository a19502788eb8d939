/* A poll that gives up after three turns, beside a thread that sets what it waits for or, by choice, doesn't. */
#include <ccan_every.h>
#include <sched.h>
#include <stdatomic.h>
#include <stdio.h>

static atomic_int is_set;

static void poll(void)
{
    for (int turn = 0; turn < 3; turn++) {
        if (is_set) {
            printf("seen\n");
            return;
        }
        sched_yield();
    }
    printf("given up\n");
}

static void set(void)
{
    if (ccan_choose(2))
        is_set = 1;
}

int main(void)
{
    ccan_thread("poll", poll);
    ccan_thread("set", set);
    ccan_quiet();
    return 0;
}
