/* Each thread counts in a thread-local variable, and has a value under a key, which is released at its end: neither finds the other's. */
#include <pthread.h>
#include <stdatomic.h>
#include <stdint.h>
#include <stdio.h>
#include <stdlib.h>

static _Thread_local int own = 10;
static pthread_key_t key;
static atomic_int released;

static void release(void *value)
{
    released += *(int *)value;
    free(value);
}

static void *count(void *times)
{
    int *value = malloc(sizeof *value);
    *value = *(int *)times;
    pthread_setspecific(key, value);
    for (int i = 0; i < *(int *)pthread_getspecific(key); i++) {
        own++;
        released += 0; /* the other may go on here */
    }
    return (void *)(intptr_t)own;
}

int main(void)
{
    static int once = 1, twice = 2;
    pthread_t one, other;
    void *by_one, *by_other;
    pthread_key_create(&key, release);
    pthread_create(&one, NULL, count, &once);
    pthread_create(&other, NULL, count, &twice);
    pthread_join(one, &by_one);
    pthread_join(other, &by_other);
    printf("%d and %d, of main %d; %d released\n", (int)(intptr_t)by_one, (int)(intptr_t)by_other, own, released);
    return 0;
}
