/* A loop that looks at two words each turn, while another thread sets the first and clears it again. Whether that came in the
 * middle of a turn or before it is seen by no state of memory, but settles whether one more turn is made in vain. So the number of
 * schedules has to be that of the plain search all the same. */
#include <ccan_every.h>
#include <stdatomic.h>
#include <stdio.h>

static atomic_int flag, word;

static void poll(void)
{
    for (;;) {
        (void)atomic_load(&word);
        if (atomic_load(&flag))
            return;
        ccan_wait();
    }
}

static void work(void)
{
    atomic_store(&word, 1);
    atomic_store(&word, 0);
    atomic_store(&flag, 1);
}

int main(void)
{
    ccan_thread("poll", poll);
    ccan_thread("work", work);
    ccan_quiet();
    printf("done\n");
    return 0;
}
