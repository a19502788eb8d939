/* Three threads, one for each port of a chip, with as many changes each as the program is told; several chips, one after
 * another. On objects of their own each port must find at the end what it wrote last; on one object one of the three ports'
 * last data must be there. Each port must have been answered done as often as it was told to make a change. That none is
 * lost or made twice in between is counted by the tests of the memories and of the threads.
 * Usage: stress own|one CHANGES CHIPS */
#include <ccan.h>
#include <pthread.h>
#include <stdio.h>
#include <stdlib.h>
#include <string.h>

static ccan_chip chip = CCAN_CHIP_CLOSED;
static int one_object;
static uint64_t changes, faults;

typedef struct { int port; uint64_t done, busy, bad; uint16_t last; } worker;

static void expect(worker *w, int holds) { if (!holds) w->bad++; }

/* A host writes two bytes again and again. A write of the data group finds any record. */
static void host_works(worker *w, ccan_host *host, uint16_t object)
{
    expect(w, ccan_set(host, CCAN_CMASK, 0x0082) == CCAN_DONE);
    for (uint64_t turn = 1; turn <= changes; turn++) {
        uint16_t shown, value = (uint16_t)(turn * 2 + (uint64_t)w->port);
        uint32_t code;
        expect(w, ccan_set(host, CCAN_DATAA1, value) == CCAN_DONE);
        while ((code = ccan_request(host, object)) == CCAN_BUSY)
            w->busy++;
        expect(w, code == CCAN_DONE);
        w->done += code == CCAN_DONE;
        w->last = value;
        expect(w, ccan_get(host, CCAN_DATAA1, &shown) == CCAN_DONE && shown == value);
    }
}

/* The bus stores frames. Where the store is given up, the next round offers the frame again. */
static void bus_works(worker *w, ccan_bus *bus, uint16_t object)
{
    ccan_offer offer = { 0x123, 1, 0, 0, 2, { 0xbb, 0xbb } };
    while (w->done < changes) {
        ccan_outcome outcome;
        uint32_t code = ccan_round(bus, &offer, 1, CCAN_QUIET, &outcome);
        if (code == CCAN_BUSY) {
            expect(w, outcome.kind == CCAN_ROUND_BUSY && outcome.object == object);
            w->busy++;
            continue;
        }
        expect(w, code == CCAN_DONE && outcome.kind == CCAN_RECEIVED && outcome.stored == object
            && outcome.stored_record.bytes[0] == 0xbb);
        w->done++;
        w->last = 0xbbbb;
    }
}

static void *work(void *argument)
{
    worker *w = argument;
    uint16_t own[] = { 1, 2, 3 };
    uint16_t object = one_object ? 3 : own[w->port];
    if (w->port == 0)
        host_works(w, &chip.if1, object);
    else if (w->port == 1)
        host_works(w, &chip.if2, object);
    else
        bus_works(w, &chip.bus, object);
    return NULL;
}

static uint16_t data(const ccan_final *last, int object)
{
    return (uint16_t)(last->records[object - 1].bytes[0] | last->records[object - 1].bytes[1] << 8);
}

/* Object 3 receives 0x123, as written by IF1. */
static void prepare(void)
{
    if (ccan_set(&chip.if1, CCAN_CMASK, 0x00f3) || ccan_set(&chip.if1, CCAN_ARB2, 0x848c)
        || ccan_set(&chip.if1, CCAN_CTRL, 0x0082) || ccan_request(&chip.if1, 3))
        faults++;
}

int main(int argc, char **argv)
{
    if (argc != 4)
        return 2;
    one_object = strcmp(argv[1], "one") == 0;
    changes = strtoull(argv[2], NULL, 10);
    int chips = atoi(argv[3]);
    uint64_t done = 0, busy = 0;
    static ccan_final last;
    for (int k = 0; k < chips; k++) {
        worker w[3] = { { 0, 0, 0, 0, 0 }, { 1, 0, 0, 0, 0 }, { 2, 0, 0, 0, 0 } };
        pthread_t threads[3];
        if (ccan_open(&chip, 1 + (uint32_t)(k % 2), 1, 1 + (uint32_t)(k % 3)) != CCAN_DONE)
            return 2;
        prepare();
        for (int i = 0; i < 3; i++)
            if (pthread_create(&threads[i], NULL, work, &w[i]))
                return 3;
        for (int i = 0; i < 3; i++)
            pthread_join(threads[i], NULL);
        if (ccan_end(&chip, &last) != CCAN_DONE || ccan_end(&chip, &last) != CCAN_CLOSED || last.objects != (k % 2 ? 64u : 32u))
            faults++;
        for (int i = 0; i < 3; i++) {
            done += w[i].done;
            busy += w[i].busy;
            faults += w[i].bad + (w[i].done != changes);
            if (!one_object && data(&last, i + 1) != w[i].last)
                faults++;
        }
        if (one_object && data(&last, 3) != w[0].last && data(&last, 3) != w[1].last && data(&last, 3) != w[2].last)
            faults++;
    }
    printf("%s: %llu changes by three threads, %llu busy answers, %llu faults\n", one_object ? "one object" : "own objects",
        (unsigned long long)done, (unsigned long long)busy, (unsigned long long)faults);
    return faults != 0;
}
