/* The checked library where the promises are kept: it reports nothing, and each call answers as that of the proved library.
 * Usage: checked_kept threads CALLS    three threads with so many calls each, on a handle each
 *        checked_kept passing CALLS    two threads that pass a handle to and fro under a mutex
 *        checked_kept chips            chips that are closed, let go, forked, and open at once by thousands
 *        checked_kept time             prints nanoseconds a call
 * For a sanitizer, which has to report these:
 *        checked_kept unordered        two threads call on a handle one after the other, and nothing orders them
 *        checked_kept shared           two threads have one output
 *        checked_kept short            an output that is shorter than it has to be */
#define _GNU_SOURCE
#include <ccan.h>
#include <pthread.h>
#include <stdatomic.h>
#include <stdio.h>
#include <stdlib.h>
#include <string.h>
#include <sys/wait.h>
#include <time.h>
#include <unistd.h>

#define EXPECT(holds) \
    do { if (!(holds)) { printf("line %d: not so: %s\n", __LINE__, #holds); exit(1); } } while (0)

static ccan_chip chip = CCAN_CHIP_CLOSED;
static ccan_final last;
static uint64_t calls;

static void start(pthread_t *thread, void *(*work)(void *), void *argument)
{
    EXPECT(pthread_create(thread, NULL, work, argument) == 0);
}

/* ---- three threads */

static void *host_works(void *argument)
{
    ccan_host *host = argument;
    uint16_t value, object = host == &chip.if1 ? 1 : 2;
    EXPECT(ccan_set(host, CCAN_CMASK, 0x0082) == CCAN_DONE);
    for (uint64_t call = 0; call < calls; call += 4) {
        uint32_t code;
        EXPECT(ccan_set(host, CCAN_DATAA1, (uint16_t)call) == CCAN_DONE);
        do
            code = ccan_request(host, object);
        while (code == CCAN_BUSY);
        EXPECT(code == CCAN_DONE);
        EXPECT(ccan_get(host, CCAN_DATAA1, &value) == CCAN_DONE && value == (uint16_t)call);
        EXPECT(ccan_read16(host, CCAN_OFFSET_CONTROL, &value) == CCAN_DONE);
    }
    return NULL;
}

static void *bus_works(void *argument)
{
    ccan_bus *bus = argument;
    const ccan_offer offer = { 0x123, 1, 0, 0, 2, { 0xbb, 0xbb } };
    for (uint64_t call = 0; call < calls; call += 2) {
        ccan_outcome outcome;
        uint16_t status;
        uint32_t code = ccan_round(bus, &offer, 1, CCAN_QUIET, &outcome);
        EXPECT(code == CCAN_DONE || code == CCAN_BUSY);
        EXPECT(ccan_status(bus, &status) == CCAN_DONE);
    }
    return NULL;
}

static void try_threads(void)
{
    pthread_t threads[3];
    EXPECT(ccan_open(&chip, 1, 1, 1000) == CCAN_DONE);
    start(&threads[0], host_works, &chip.if1);
    start(&threads[1], host_works, &chip.if2);
    start(&threads[2], bus_works, &chip.bus);
    for (int i = 0; i < 3; i++)
        pthread_join(threads[i], NULL);
    EXPECT(ccan_is_open(&chip) && ccan_meet(&chip) == CCAN_DONE);
    EXPECT(ccan_end(&chip, &last) == CCAN_DONE && ccan_end(&chip, &last) == CCAN_CLOSED && !ccan_is_open(&chip));
    printf("three threads, %llu calls each: no report\n", (unsigned long long)calls);
}

/* ---- a handle that goes from thread to thread */

static pthread_mutex_t mutex = PTHREAD_MUTEX_INITIALIZER;

static void *passes(void *nothing)
{
    static uint16_t value;
    for (uint64_t call = 0; call < calls; call += 2) {
        pthread_mutex_lock(&mutex);
        EXPECT(ccan_set(&chip.if2, CCAN_DATAA1, 7) == CCAN_DONE);
        EXPECT(ccan_get(&chip.if2, CCAN_DATAA1, &value) == CCAN_DONE);
        if (call % 64 == 0)
            EXPECT(ccan_meet(&chip) == CCAN_DONE && ccan_end(&chip, &last) == CCAN_DONE
                && ccan_open(&chip, 1, 0, 100) == CCAN_DONE);
        pthread_mutex_unlock(&mutex);
    }
    return nothing;
}

static void try_passing(void)
{
    pthread_t threads[2];
    EXPECT(ccan_open(&chip, 1, 0, 100) == CCAN_DONE);
    for (int i = 0; i < 2; i++)
        start(&threads[i], passes, NULL);
    for (int i = 0; i < 2; i++)
        pthread_join(threads[i], NULL);
    EXPECT(ccan_end(&chip, &last) == CCAN_DONE);
    printf("a handle that two threads pass to and fro, %llu calls each: no report\n", (unsigned long long)calls);
}

/* ---- chips */

static void *do_nothing(void *nothing) { return nothing; }

/* The child of a process that has one thread by now. */
static void try_a_fork(void)
{
    pthread_t thread;
    int status;
    start(&thread, do_nothing, NULL);
    pthread_join(thread, NULL);
    EXPECT(ccan_open(&chip, 1, 0, 100) == CCAN_DONE);
    pid_t child = fork();
    if (child == 0)
        _exit(ccan_set(&chip.if1, CCAN_CTRL, 0) == CCAN_DONE && ccan_end(&chip, &last) == CCAN_DONE ? 0 : 1);
    EXPECT(waitpid(child, &status, 0) == child && WIFEXITED(status) && WEXITSTATUS(status) == 0);
    EXPECT(ccan_end(&chip, &last) == CCAN_DONE);
}

static void try_closed_handles(void)
{
    const ccan_chip constant = CCAN_CHIP_CLOSED;
    uint16_t status;
    EXPECT(!ccan_is_open(&constant) && ccan_meet(&chip) == CCAN_CLOSED && ccan_end(&chip, &last) == CCAN_CLOSED);
    EXPECT(ccan_set(&chip.if2, CCAN_CTRL, 0) == CCAN_CLOSED && ccan_status(&chip.bus, &status) == CCAN_CLOSED);
    EXPECT(ccan_open(&chip, 1, 0, 0) == CCAN_TRIES_RANGE && !ccan_is_open(&chip));
}

/* Memory of a chip that was let go is a chip again, and so is memory that begins at its second handle. */
static void try_chips_let_go(void)
{
    static uint64_t memory[2 * sizeof(ccan_chip) / sizeof(uint64_t)];
    for (int times = 0; times < 100; times++) {
        ccan_chip *let_go = (ccan_chip *)(memory + times % 2 * (int)(offsetof(ccan_chip, if2) / sizeof memory[0]));
        ccan_chip_init(let_go);
        EXPECT(ccan_set(&let_go->if1, CCAN_CTRL, 0) == CCAN_CLOSED);
        EXPECT(ccan_open(let_go, 1, 0, 100) == CCAN_DONE && ccan_set(&let_go->if2, CCAN_CTRL, 0) == CCAN_DONE);
    }
}

enum { MANY = 4000 };

/* Many chips are open at once, between blocks of many sizes, so that their addresses are irregular. */
static void try_many_chips(void)
{
    static ccan_chip *chips[MANY];
    static void *blocks[MANY];
    for (size_t turn = 1; turn < 9; turn++) {
        for (size_t i = 0; i < MANY; i++) {
            chips[i] = malloc(sizeof *chips[i]);
            blocks[i] = malloc(i * turn * 7919 % 1009);
            EXPECT(chips[i] != NULL && blocks[i] != NULL);
            ccan_chip_init(chips[i]);
            EXPECT(ccan_open(chips[i], 1, 0, 1) == CCAN_DONE);
        }
        for (size_t i = 0; i < MANY; i++) {
            EXPECT(ccan_init(&chips[i]->bus) == CCAN_DONE && ccan_end(chips[i], &last) == CCAN_DONE);
            free(chips[i]);
            free(blocks[i]);
        }
    }
}

static void try_chips(void)
{
    for (int times = 0; times < 100; times++)
        try_a_fork();
    try_closed_handles();
    try_chips_let_go();
    try_many_chips();
    printf("chips that are closed, let go, forked, and four thousand at once: no report\n");
}

/* ---- time */

static double now(void)
{
    struct timespec time;
    clock_gettime(CLOCK_MONOTONIC, &time);
    return (double)time.tv_sec * 1e9 + (double)time.tv_nsec;
}

/* The least of some times, since other programs run beside this one. */
#define TIME(call)                                                       \
    do {                                                                 \
        double least = 1e18;                                             \
        for (int times = 0; times < 50; times++) {                       \
            double begun = now();                                        \
            for (int i = 0; i < 20000; i++)                              \
                EXPECT((call) == CCAN_DONE);                             \
            double took = (now() - begun) / 20000;                       \
            least = took < least ? took : least;                         \
        }                                                                \
        printf("%-44s %6.1f ns\n", #call, least);                        \
    } while (0)

static void print_times(void)
{
    uint16_t value;
    uint64_t word;
    EXPECT(ccan_open(&chip, 1, 0, 100) == CCAN_DONE && ccan_set(&chip.if1, CCAN_CMASK, 0x00f3) == CCAN_DONE);
    TIME(ccan_set(&chip.if1, CCAN_CTRL, 0));
    TIME(ccan_get(&chip.if1, CCAN_CTRL, &value));
    TIME(ccan_request(&chip.if1, 1));
    TIME(ccan_flags(&chip.if2, CCAN_NEWDAT, &word));
    TIME(ccan_status(&chip.bus, &value));
    TIME(ccan_meet(&chip));
    EXPECT(ccan_end(&chip, &last) == CCAN_DONE);
}

/* ---- for the sanitizers */

static atomic_bool passed;

static void *sets_first(void *nothing)
{
    EXPECT(ccan_set(&chip.if1, CCAN_CTRL, 0) == CCAN_DONE);
    atomic_store_explicit(&passed, true, memory_order_relaxed);
    return nothing;
}

static void call_unordered(void)
{
    pthread_t thread;
    EXPECT(ccan_open(&chip, 1, 0, 100) == CCAN_DONE);
    start(&thread, sets_first, NULL);
    while (!atomic_load_explicit(&passed, memory_order_relaxed))
        sched_yield();
    EXPECT(ccan_set(&chip.if1, CCAN_CTRL, 0) == CCAN_DONE);
    pthread_join(thread, NULL);
}

static void *reads_flags(void *host)
{
    static uint64_t output;
    for (int times = 0; times < 1000; times++)
        EXPECT(ccan_flags(host, CCAN_NEWDAT, &output) == CCAN_DONE);
    return NULL;
}

static void call_with_a_shared_output(void)
{
    pthread_t thread;
    EXPECT(ccan_open(&chip, 1, 0, 100) == CCAN_DONE);
    start(&thread, reads_flags, &chip.if1);
    reads_flags(&chip.if2);
    pthread_join(thread, NULL);
}

static void call_with_a_short_output(void)
{
    uint64_t *output = malloc(sizeof *output / 2);
    EXPECT(ccan_open(&chip, 1, 0, 100) == CCAN_DONE && ccan_flags(&chip.if1, CCAN_NEWDAT, output) == CCAN_DONE);
}

int main(int argc, char **argv)
{
    const char *what = argc > 1 ? argv[1] : "";
    calls = argc > 2 ? strtoull(argv[2], NULL, 10) : 1000000;
    if (strcmp(what, "threads") == 0)
        try_threads();
    else if (strcmp(what, "passing") == 0)
        try_passing();
    else if (strcmp(what, "chips") == 0)
        try_chips();
    else if (strcmp(what, "time") == 0)
        print_times();
    else if (strcmp(what, "unordered") == 0)
        call_unordered();
    else if (strcmp(what, "shared") == 0)
        call_with_a_shared_output();
    else if (strcmp(what, "short") == 0)
        call_with_a_short_output();
    else
        return 2;
    return 0;
}
