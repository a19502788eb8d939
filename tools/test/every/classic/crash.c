/* A pointer that one thread clears while another uses it. */
#include <pthread.h>
#include <stdio.h>

static int number = 7, *_Atomic pointer = &number;

static void *use(void *unused)
{
    if (pointer)
        printf("%d\n", *pointer);
    return unused;
}

static void *clear(void *unused)
{
    pointer = NULL;
    return unused;
}

int main(void)
{
    pthread_t one, other;
    pthread_create(&one, NULL, use, NULL);
    pthread_create(&other, NULL, clear, NULL);
    pthread_join(one, NULL);
    pthread_join(other, NULL);
    return 0;
}
