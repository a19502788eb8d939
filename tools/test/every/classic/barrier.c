/* Each of two threads says what it has, both meet, and then each sees what the other has. One of them is told that it came last. The
 * sum is added under a spin lock. */
#include <ccan_every.h>
#include <pthread.h>
#include <stdio.h>

static pthread_barrier_t meeting;
static pthread_spinlock_t adding;
static int has[2], sum, last;

static void *meet(void *place)
{
    int me = (int)((int *)place - has);
    *(int *)place = me + 1;
    int was_last = pthread_barrier_wait(&meeting) == PTHREAD_BARRIER_SERIAL_THREAD;
    pthread_spin_lock(&adding);
    sum += has[1 - me];
    last += was_last;
    pthread_spin_unlock(&adding);
    return NULL;
}

int main(void)
{
    pthread_t threads[2];
    pthread_barrier_init(&meeting, NULL, 2);
    pthread_spin_init(&adding, PTHREAD_PROCESS_PRIVATE);
    for (int i = 0; i < 2; i++)
        pthread_create(&threads[i], NULL, meet, &has[i]);
    for (int i = 0; i < 2; i++)
        pthread_join(threads[i], NULL);
    printf("%d, %d last\n", sum, last);
    return 0;
}
