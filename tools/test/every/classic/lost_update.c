/* Two threads that count without a lock, and a race of theirs; with -DATOMIC none, but the lost update stays; with -DADD it is
 * gone. */
#include <pthread.h>
#include <stdatomic.h>
#include <stdio.h>

#ifdef ADD
#define ATOMIC
#endif
#ifdef ATOMIC
static atomic_int counter;
#else
static int counter;
#endif

static void *count(void *unused)
{
#ifdef ADD
    atomic_fetch_add(&counter, 1);
#else
    int was = counter;
    counter = was + 1;
#endif
    return unused;
}

int main(void)
{
    pthread_t threads[2];
    for (int i = 0; i < 2; i++)
        pthread_create(&threads[i], NULL, count, NULL);
    for (int i = 0; i < 2; i++)
        pthread_join(threads[i], NULL);
    printf("%d\n", counter);
    return 0;
}
