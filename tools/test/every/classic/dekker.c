/* Each of two threads stores its own word and then reads the other's: in every schedule one of them reads a 1. */
#include <pthread.h>
#include <stdatomic.h>
#include <stdio.h>

static atomic_int words[2];
static int seen[2];

static void *store_and_read(void *number)
{
    int me = (int)(long)number;
    atomic_store(&words[me], 1);
    seen[me] = atomic_load(&words[1 - me]);
    return NULL;
}

int main(void)
{
    pthread_t threads[2];
    for (long i = 0; i < 2; i++)
        pthread_create(&threads[i], NULL, store_and_read, (void *)i);
    for (int i = 0; i < 2; i++)
        pthread_join(threads[i], NULL);
    printf("%d %d\n", seen[0], seen[1]);
    return 0;
}
