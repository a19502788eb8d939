/* One host sets NewDat of object 1, then of object 32, and clears them again in the other order, so many times. Beside it the
 * other host and the bus read NewDat of all objects, the host also as the word of two registers: no word may show object 32 without
 * object 1, which no moment had. The other host looks at the two objects one after the other, too; how often these two looks show
 * what no moment had goes by the schedule, and is printed. Usage: moment TURNS */
#include <ccan.h>
#include <pthread.h>
#include <stdatomic.h>
#include <stdio.h>
#include <stdlib.h>

static ccan_chip chip = CCAN_CHIP_CLOSED;
static uint64_t turns, host_words, bus_words, torn_by_host, torn_by_bus, torn_by_offset, torn_looks;
static atomic_int working = 1;
static atomic_ullong bad;

static void expect(int holds) { if (!holds) atomic_fetch_add(&bad, 1); }

static int is_torn(int first, int second) { return second && !first; }

static void write(uint16_t object, uint16_t control)
{
    uint32_t code;
    expect(ccan_set(&chip.if1, CCAN_CTRL, control) == CCAN_DONE);
    while ((code = ccan_request(&chip.if1, object)) == CCAN_BUSY)
        ;
    expect(code == CCAN_DONE);
}

static void *sets(void *unused)
{
    (void)unused;
    expect(ccan_set(&chip.if1, CCAN_CMASK, 0x0090) == CCAN_DONE);
    for (uint64_t turn = 0; turn < turns; turn++) {
        write(1, 0x8000);
        write(32, 0x8000);
        write(32, 0);
        write(1, 0);
    }
    atomic_store(&working, 0);
    return NULL;
}

static int shows_newdat(uint32_t object)
{
    ccan_record record;
    expect(ccan_peek(&chip.if2, object, &record) == CCAN_DONE);
    return record.control >> 15;
}

static void *reads(void *unused)
{
    (void)unused;
    while (atomic_load(&working)) {
        uint64_t word;
        expect(ccan_flags(&chip.if2, CCAN_NEWDAT, &word) == CCAN_DONE);
        torn_by_host += (uint64_t)is_torn(word & 1, word >> 31 & 1);
        host_words++;
        uint32_t both;
        expect(ccan_read32(&chip.if2, CCAN_OFFSET_NEW_DATA_1, &both) == CCAN_DONE);
        torn_by_offset += (uint64_t)is_torn(both & 1, both >> 31);
        int first = shows_newdat(1);
        torn_looks += (uint64_t)is_torn(first, shows_newdat(32));
    }
    return NULL;
}

static void *watches(void *unused)
{
    (void)unused;
    while (atomic_load(&working)) {
        uint64_t word;
        expect(ccan_bus_flags(&chip.bus, CCAN_NEWDAT, &word) == CCAN_DONE);
        torn_by_bus += (uint64_t)is_torn(word & 1, word >> 31 & 1);
        bus_words++;
    }
    return NULL;
}

int main(int argc, char **argv)
{
    static ccan_final last;
    void *(*const work[])(void *) = { sets, reads, watches };
    pthread_t threads[3];
    if (argc != 2)
        return 2;
    turns = strtoull(argv[1], NULL, 10);
    if (ccan_open(&chip, 1, 0, 3) != CCAN_DONE)
        return 2;
    for (int i = 0; i < 3; i++)
        if (pthread_create(&threads[i], NULL, work[i], NULL))
            return 3;
    for (int i = 0; i < 3; i++)
        pthread_join(threads[i], NULL);
    expect(ccan_end(&chip, &last) == CCAN_DONE);
    printf("%llu flag words of a host and %llu of the bus: %llu torn; of as many pairs of looks: %llu; %llu faults\n",
        (unsigned long long)host_words, (unsigned long long)bus_words, (unsigned long long)(torn_by_host + torn_by_bus + torn_by_offset),
        (unsigned long long)torn_looks, (unsigned long long)atomic_load(&bad));
    return torn_by_host != 0 || torn_by_bus != 0 || torn_by_offset != 0 || atomic_load(&bad) != 0 || host_words == 0;
}
