/* Two threads that count a word up until it is high enough: each turn changes something, and leaves the thread as it was. */
#include <ccan_every.h>
#include <sched.h>
#include <stdatomic.h>
#include <stdio.h>

static atomic_int number;

static void count(void)
{
    while (atomic_fetch_add(&number, 1) < 4)
        sched_yield();
}

int main(void)
{
    ccan_thread("one", count);
    ccan_thread("other", count);
    ccan_quiet();
    printf("%d\n", number);
    return 0;
}
