/* Three threads that add to one word thirty times each: more schedules than a number of 64 bits holds, in few states. */
#include <ccan_every.h>
#include <stdatomic.h>
#include <stdio.h>

enum { TIMES = 30 };
static atomic_int sum;

static void add(void)
{
    for (int turn = 0; turn < TIMES; turn++)
        atomic_fetch_add(&sum, 1);
}

int main(void)
{
    ccan_thread("one", add);
    ccan_thread("two", add);
    ccan_thread("three", add);
    ccan_quiet();
    printf("%d\n", atomic_load(&sum));
    return 0;
}
