/* Two readers may have a read-write lock at once, and a writer has it alone: nobody sees the two halves differ. With -DUNLOCKED the
 * readers leave it out. */
#include <ccan_every.h>
#include <pthread.h>
#include <stdio.h>

static pthread_rwlock_t lock = PTHREAD_RWLOCK_INITIALIZER;
static volatile int first, second;

static void *read_both(void *unused)
{
#ifndef UNLOCKED
    pthread_rwlock_rdlock(&lock);
#endif
    int one = first, other = second;
#ifndef UNLOCKED
    pthread_rwlock_unlock(&lock);
#endif
    ccan_require(one == other, "a reader saw %d and %d", one, other);
    return unused;
}

static void *write_both(void *unused)
{
    pthread_rwlock_wrlock(&lock);
    first = 1;
    second = 1;
    pthread_rwlock_unlock(&lock);
    return unused;
}

int main(void)
{
    pthread_t threads[3];
    pthread_create(&threads[0], NULL, read_both, NULL);
    pthread_create(&threads[1], NULL, read_both, NULL);
    pthread_create(&threads[2], NULL, write_both, NULL);
    for (int i = 0; i < 3; i++)
        pthread_join(threads[i], NULL);
    printf("%d %d\n", first, second);
    return 0;
}
