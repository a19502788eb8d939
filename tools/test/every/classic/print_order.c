/* Two threads that print, and leave nothing else behind: the order of what they print is an outcome of its own. */
#include <ccan_every.h>
#include <stdatomic.h>
#include <stdio.h>

static atomic_int count;

static void one(void)
{
    printf("one\n");
    count++;
}

static void two(void)
{
    count++;
    printf("two\n");
}

int main(void)
{
    ccan_thread("one", one);
    ccan_thread("two", two);
    ccan_quiet();
    return 0;
}
