/* What is waited for comes, in time or not: that alone differs, and the clock shows it afterwards. */
#include <ccan_every.h>
#include <errno.h>
#include <semaphore.h>
#include <stdio.h>
#include <time.h>

static sem_t came;

static void post(void) { sem_post(&came); }

int main(void)
{
    struct timespec end, now;
    ccan_stop_clocks();
    sem_init(&came, 0, 0);
    clock_gettime(CLOCK_REALTIME, &end);
    end.tv_sec++;
    ccan_thread("poster", post);
    (void)!sem_timedwait(&came, &end);
    ccan_quiet();
    (void)!sem_trywait(&came);
    errno = 0;
    ccan_quiet();
    clock_gettime(CLOCK_REALTIME, &now);
    printf("%s\n", now.tv_sec < end.tv_sec ? "in time" : "late");
    return 0;
}
