/* Two threads each take a block of memory, count by it, and free it. On each way a thread begins with what no other way has left. */
#include <pthread.h>
#include <stdatomic.h>
#include <stdio.h>
#include <stdlib.h>

static atomic_int sum;

static void *add(void *number)
{
    int *own = malloc(sizeof *own);
    *own = *(int *)number;
    for (int i = 0; i < *own; i++)
        sum += 10;
    sum += *own;
    free(own);
    return NULL;
}

int main(void)
{
    static int one = 1, two = 2;
    pthread_t first, second;
    pthread_create(&first, NULL, add, &one);
    pthread_create(&second, NULL, add, &two);
    pthread_join(first, NULL);
    pthread_join(second, NULL);
    printf("%d\n", sum);
    return 0;
}
