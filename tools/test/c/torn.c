/* Two hosts write one number into all fields of an object again and again and request its transmission, and the bus sends what
 * is requested, each in a thread of its own, on so many objects. Each record that a host looks at, and each frame that was on
 * the bus, must have one and the same number throughout: else a look was torn. Each host makes as many changes as the program
 * is told. Usage: torn OBJECTS CHANGES */
#include <ccan.h>
#include <pthread.h>
#include <stdatomic.h>
#include <stdio.h>
#include <stdlib.h>

static ccan_chip chip = CCAN_CHIP_CLOSED;
static uint64_t changes;
static uint16_t objects;
static atomic_int hosts_left = 2;

typedef struct { int port; uint64_t looks, busy, torn, bad; } worker;

static void expect(worker *w, int holds) { if (!holds) w->bad++; }

/* Whether all eight bytes are twice the same two, low byte first. */
static int is_whole(const uint8_t *bytes)
{
    for (int i = 2; i < 8; i++)
        if (bytes[i] != bytes[i % 2])
            return 0;
    return 1;
}

/* One look. A record has its number in the data, in Mask 1 and in Arbitration 1. */
static void look(worker *w, ccan_host *host, uint32_t object)
{
    ccan_record record;
    expect(w, ccan_peek(host, object, &record) == CCAN_DONE);
    uint16_t number = (uint16_t)(record.bytes[0] | record.bytes[1] << 8);
    w->looks++;
    w->torn += !is_whole(record.bytes) || (record.masks & 0xffff) != number || (record.arbitration & 0xffff) != number;
}

static void host_works(worker *w, ccan_host *host)
{
    const uint32_t all[] = { CCAN_MASK1, CCAN_ARB1, CCAN_DATAA1, CCAN_DATAA2, CCAN_DATAB1, CCAN_DATAB2 };
    expect(w, ccan_set(host, CCAN_CMASK, 0x00f3) == CCAN_DONE);
    expect(w, ccan_set(host, CCAN_ARB2, 0xa000) == CCAN_DONE); /* valid, sends */
    expect(w, ccan_set(host, CCAN_CTRL, 0x0188) == CCAN_DONE); /* TxRqst, EoB, eight bytes */
    for (uint64_t turn = 1; turn <= changes; turn++) {
        uint16_t number = (uint16_t)(turn * 2 + (uint64_t)w->port);
        uint32_t code;
        for (int i = 0; i < 6; i++)
            expect(w, ccan_set(host, all[i], number) == CCAN_DONE);
        while ((code = ccan_request(host, (uint16_t)(1 + turn % objects))) == CCAN_BUSY)
            w->busy++;
        expect(w, code == CCAN_DONE);
        look(w, host, (uint32_t)(1 + (turn + 1) % objects));
    }
    atomic_fetch_sub(&hosts_left, 1);
}

/* The bus sends object after object. */
static void bus_works(worker *w, ccan_bus *bus)
{
    ccan_offer none = { 0, 0, 0, 0, 0, { 0 } };
    while (atomic_load(&hosts_left) > 0) {
        ccan_outcome outcome;
        uint32_t code = ccan_round(bus, &none, 0, CCAN_QUIET, &outcome);
        expect(w, code == CCAN_DONE || code == CCAN_BUSY);
        w->busy += code == CCAN_BUSY;
        if (outcome.winner == 0) {
            w->looks++;
            w->torn += !is_whole(outcome.frame.bytes);
        }
    }
}

static void *work(void *argument)
{
    worker *w = argument;
    if (w->port == 0)
        host_works(w, &chip.if1);
    else if (w->port == 1)
        host_works(w, &chip.if2);
    else
        bus_works(w, &chip.bus);
    return NULL;
}

int main(int argc, char **argv)
{
    static ccan_final last;
    worker w[3] = { { 0, 0, 0, 0, 0 }, { 1, 0, 0, 0, 0 }, { 2, 0, 0, 0, 0 } };
    pthread_t threads[3];
    uint64_t looks = 0, busy = 0, torn = 0, bad = 0;
    if (argc != 3)
        return 2;
    objects = (uint16_t)atoi(argv[1]);
    changes = strtoull(argv[2], NULL, 10);
    if (objects < 1 || objects > 32 || ccan_open(&chip, 1, 1, 3) != CCAN_DONE)
        return 2;
    for (int i = 0; i < 3; i++)
        if (pthread_create(&threads[i], NULL, work, &w[i]))
            return 3;
    for (int i = 0; i < 3; i++)
        pthread_join(threads[i], NULL);
    bad += ccan_end(&chip, &last) != CCAN_DONE;
    for (int i = 0; i < 3; i++) {
        looks += w[i].looks;
        busy += w[i].busy;
        torn += w[i].torn;
        bad += w[i].bad;
    }
    printf("%d objects: %llu changes by two hosts beside a bus that sends, %llu records and frames looked at, %llu torn, "
        "%llu busy answers, %llu faults\n", objects, (unsigned long long)(2 * changes), (unsigned long long)looks,
        (unsigned long long)torn, (unsigned long long)busy, (unsigned long long)bad);
    return torn != 0 || bad != 0 || looks == 0;
}
