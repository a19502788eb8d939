/* A thread that looks at a flag, and then waits for a signal without looking again under the mutex: the signal may come between.
 * With -DCURED it looks under the mutex. */
#include <ccan_every.h>
#include <pthread.h>
#include <stdatomic.h>
#include <stdio.h>

static pthread_mutex_t mutex = PTHREAD_MUTEX_INITIALIZER;
static pthread_cond_t changed = PTHREAD_COND_INITIALIZER;
static atomic_int is_set;

static void wait_for_it(void)
{
#ifdef CURED
    pthread_mutex_lock(&mutex);
    while (!is_set)
        pthread_cond_wait(&changed, &mutex);
#else
    int was = is_set;
    pthread_mutex_lock(&mutex);
    if (!was)
        pthread_cond_wait(&changed, &mutex);
#endif
    pthread_mutex_unlock(&mutex);
    printf("seen\n");
}

static void set_it(void)
{
    pthread_mutex_lock(&mutex);
    is_set = 1;
    pthread_cond_signal(&changed);
    pthread_mutex_unlock(&mutex);
}

static void *waiter(void *unused) { return wait_for_it(), unused; }
static void *setter(void *unused) { return set_it(), unused; }

int main(void)
{
    pthread_t one, other;
    pthread_create(&one, NULL, waiter, NULL);
    pthread_create(&other, NULL, setter, NULL);
    pthread_join(one, NULL);
    pthread_join(other, NULL);
    return 0;
}
