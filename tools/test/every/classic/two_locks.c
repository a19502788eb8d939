/* Two threads that take two mutexes in opposite orders: each may wait for the other for ever. */
#include <ccan_every.h>
#include <pthread.h>
#include <stdio.h>

static pthread_mutex_t first = PTHREAD_MUTEX_INITIALIZER, second = PTHREAD_MUTEX_INITIALIZER;

static void take(pthread_mutex_t *one, pthread_mutex_t *other)
{
    pthread_mutex_lock(one);
    pthread_mutex_lock(other);
    pthread_mutex_unlock(other);
    pthread_mutex_unlock(one);
}

static void forwards(void) { take(&first, &second); }
static void backwards(void) { take(&second, &first); }

int main(void)
{
    ccan_thread("forwards", forwards);
    ccan_thread("backwards", backwards);
    ccan_quiet();
    pthread_mutex_lock(&first);
    printf("done\n");
    return 0;
}
