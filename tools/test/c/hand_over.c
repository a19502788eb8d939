/* Two hosts in threads of their own that hand an object over to each other by a mutex: the one writes it, tells and unlocks; the
 * other locks, heeds and reads it. It has to find what was written last. Usage: hand_over TIMES */
#define _POSIX_C_SOURCE 200809L
#include <ccan.h>
#include <pthread.h>
#include <stdio.h>
#include <stdlib.h>

#define EXPECT(holds) \
    ((holds) ? (void)0 : (fprintf(stderr, "hand_over.c:%d: expected %s\n", __LINE__, #holds), exit(1)))

enum { OBJECT = 5 };

static ccan_chip chip;

/* What the two threads share: whose turn it is, what was written last, and the note that goes with it. */
static pthread_mutex_t mutex = PTHREAD_MUTEX_INITIALIZER;
static pthread_cond_t turned = PTHREAD_COND_INITIALIZER;
static int turn;
static uint16_t written;
static ccan_note note = CCAN_NOTE_EMPTY;
static unsigned long times;

struct host {
    ccan_host *handle;
    int number;
};

static void write_object(ccan_host *host, uint16_t data)
{
    EXPECT(ccan_set(host, CCAN_CMASK, 0x0083) == CCAN_DONE && ccan_set(host, CCAN_DATAA1, data) == CCAN_DONE);
    EXPECT(ccan_request(host, OBJECT) == CCAN_DONE);
}

static uint16_t read_object(ccan_host *host)
{
    uint16_t data = 0;
    EXPECT(ccan_set(host, CCAN_CMASK, 0x0003) == CCAN_DONE && ccan_request(host, OBJECT) == CCAN_DONE);
    EXPECT(ccan_get(host, CCAN_DATAA1, &data) == CCAN_DONE);
    return data;
}

static void *take_turns(void *argument)
{
    const struct host *host = argument;
    for (unsigned long i = 0; i < times; i++) {
        pthread_mutex_lock(&mutex);
        while (turn != host->number)
            pthread_cond_wait(&turned, &mutex);
        EXPECT(ccan_heed(host->handle, &note) == CCAN_DONE);
        EXPECT(read_object(host->handle) == written);
        write_object(host->handle, ++written);
        EXPECT(ccan_tell(host->handle, &note) == CCAN_DONE);
        turn = !turn;
        pthread_cond_signal(&turned);
        pthread_mutex_unlock(&mutex);
    }
    return NULL;
}

int main(int count, char **arguments)
{
    pthread_t threads[2];
    static ccan_final last;
    struct host hosts[] = { { &chip.if1, 0 }, { &chip.if2, 1 } };
    times = count == 2 ? strtoul(arguments[1], NULL, 10) : 0;
    EXPECT(times > 0 && ccan_open(&chip, 1, 0, 100) == CCAN_DONE);
    write_object(&chip.if1, 0);
    EXPECT(ccan_tell(&chip.if1, &note) == CCAN_DONE);
    for (int i = 0; i < 2; i++)
        EXPECT(pthread_create(&threads[i], NULL, take_turns, &hosts[i]) == 0);
    for (int i = 0; i < 2; i++)
        EXPECT(pthread_join(threads[i], NULL) == 0);
    EXPECT(ccan_forget(&note) == CCAN_DONE && ccan_end(&chip, &last) == CCAN_DONE);
    EXPECT((last.records[OBJECT - 1].bytes[0] | last.records[OBJECT - 1].bytes[1] << 8) == written);
    printf("%lu hand-overs from one host to the other: each found what was written last\n", 2 * times);
    return 0;
}
