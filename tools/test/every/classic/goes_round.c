/* A thread that sets a word and clears it for ever, without a wait: a schedule may go round as often as it likes before main has
 * looked twice. So the number of schedules is told as a lower bound. */
#include <ccan_every.h>
#include <stdatomic.h>
#include <stdio.h>

static atomic_int word;

static void toggle(void)
{
    for (;;) {
        atomic_store(&word, 1);
        atomic_store(&word, 0);
    }
}

int main(void)
{
    ccan_thread("toggle", toggle);
    int first = atomic_load(&word);
    printf("%d %d\n", first, atomic_load(&word));
    return 0;
}
