/* A producer and a consumer with a ring of one place, two semaphores, and memory of malloc. */
#include <pthread.h>
#include <semaphore.h>
#include <stdio.h>
#include <stdlib.h>
#include <string.h>

enum { ITEMS = 3 };
static char *place;
static sem_t is_free, is_full;

static void *produce(void *unused)
{
    for (int i = 0; i < ITEMS; i++) {
        sem_wait(&is_free);
        place = malloc(16);
        memset(place, 'a' + i, 15);
        place[15] = '\0';
        sem_post(&is_full);
    }
    return unused;
}

static void *consume(void *unused)
{
    for (int i = 0; i < ITEMS; i++) {
        sem_wait(&is_full);
        printf("%s\n", place);
        free(place);
        sem_post(&is_free);
    }
    return unused;
}

int main(void)
{
    pthread_t one, other;
    sem_init(&is_free, 0, 1);
    sem_init(&is_full, 0, 0);
    pthread_create(&one, NULL, produce, NULL);
    pthread_create(&other, NULL, consume, NULL);
    pthread_join(one, NULL);
    pthread_join(other, NULL);
    return 0;
}
