/* A driver over registers alone, in two threads, beside a bus in a third: the driver sends at IF2, its interrupt service has IF1.
 *
 * The driver starts the controller as on a board: bit timing while Init and CCE are 1, then the message objects, then Init 0. Node
 * 1 sends 1,000 frames with the identifier 0x123, the next one only when the last one was read, so that none is lost; meanwhile the
 * driver sends 1,000 frames with the identifier 0x100. Then the bus spoils a frame of the driver's until the controller is bus off.
 * The interrupt service sees that in Status and clears Init; after 128 groups of eleven recessive bits the controller is back, and
 * the frame goes out. No thread waits for a lock, and each loop ends: a wait that takes too long ends the program.
 *
 *   cc driver.c $(pkg-config --cflags --libs ccan) -pthread */
#include <ccan.h>
#include <pthread.h>
#include <sched.h>
#include <stdatomic.h>
#include <stdio.h>
#include <stdlib.h>

enum { FRAMES = 1000, RECEIVES = 5, SENDS = 2 };               /* object 5 receives 0x123, and object 2 sends 0x100 */
enum { INIT = 0x01, IE = 0x02, SIE = 0x04, EIE = 0x08, CCE = 0x40 }; /* in Control */
enum { BOFF = 0x80, STATUS_INTERRUPT = 0x8000, TURNS = 1000000000 };

static ccan_chip chip = CCAN_CHIP_CLOSED;
static atomic_int frames_read, frames_sent, times_off, spoiling, finished;

/* Ends the program where a call was refused. */
static void must(uint32_t code, const char *what)
{
    if (code != CCAN_DONE) {
        fprintf(stderr, "%s: %s\n", what, ccan_text(code));
        exit(1);
    }
}

/* Lets the others go on; a loop that has made too many turns ends the program. */
static void wait_a_turn(int *turns)
{
    if (++*turns > TURNS)
        must(CCAN_TURNS_RANGE, "a wait");
    sched_yield();
}

/* ---- accesses. Busy is tried again: another port changed the object or the controller meanwhile. */

static uint16_t read_register(ccan_host *host, uint32_t offset)
{
    uint16_t value;
    uint32_t code;
    int turns = 0;
    while ((code = ccan_read16(host, offset, &value)) == CCAN_BUSY)
        wait_a_turn(&turns);
    must(code, "a read");
    return value;
}

static void write_register(ccan_host *host, uint32_t offset, uint16_t value)
{
    uint32_t code;
    int turns = 0;
    while ((code = ccan_write16(host, offset, value)) == CCAN_BUSY)
        wait_a_turn(&turns);
    must(code, "a write");
}

/* ---- the driver, at IF2 */

/* A message object: its Arbitration 2 and its Message Control. */
static void configure(uint16_t object, uint16_t arbitration2, uint16_t control)
{
    ccan_host *host = &chip.if2;
    write_register(host, CCAN_OFFSET_IF2_COMMAND_MASK, 0x00f3); /* write all but the flags */
    write_register(host, CCAN_OFFSET_IF2_ARBITRATION_2, arbitration2);
    write_register(host, CCAN_OFFSET_IF2_MESSAGE_CONTROL, control);
    write_register(host, CCAN_OFFSET_IF2_COMMAND_REQUEST, object);
}

static void start(void)
{
    ccan_host *host = &chip.if2;
    write_register(host, CCAN_OFFSET_CONTROL, INIT | CCE);
    write_register(host, CCAN_OFFSET_BIT_TIMING, 0x1c00); /* 500 kbit/s at 8 MHz: prescaler 1, 13 + 2 quanta after Sync */
    write_register(host, CCAN_OFFSET_BRP_EXTENSION, 0);
    for (uint16_t object = 1; object <= 32; object++)
        configure(object, 0, 0); /* a part's records are undefined after a reset */
    configure(RECEIVES, 0x848c, 0x0482); /* valid, receives 0x123; RxIE, EoB, two bytes */
    configure(SENDS, 0xa400, 0x0882);    /* valid, sends 0x100; TxIE, EoB, two bytes */
    write_register(host, CCAN_OFFSET_CONTROL, IE | SIE | EIE);
}

/* Sends a frame, and waits until the interrupt service has seen that it was sent. */
static void send(int number)
{
    ccan_host *host = &chip.if2;
    int turns = 0;
    write_register(host, CCAN_OFFSET_IF2_COMMAND_MASK, 0x0087); /* write the data, and request the transmission */
    write_register(host, CCAN_OFFSET_IF2_DATA_A1, (uint16_t)number);
    write_register(host, CCAN_OFFSET_IF2_COMMAND_REQUEST, SENDS);
    while (atomic_load(&frames_sent) <= number)
        wait_a_turn(&turns);
}

static void *drive(void *unused)
{
    int turns = 0;
    (void)unused;
    for (int number = 0; number < FRAMES; number++)
        send(number);
    while (!atomic_load(&spoiling))
        wait_a_turn(&turns);
    send(FRAMES);
    atomic_store(&finished, 1);
    return NULL;
}

/* ---- the interrupt service, at IF1 */

/* A status interrupt: the read of Status clears it. Bus off has set Init, which is cleared for the way back. */
static void serve_status(ccan_host *host)
{
    if (read_register(host, CCAN_OFFSET_STATUS) & BOFF) {
        atomic_fetch_add(&times_off, 1);
        write_register(host, CCAN_OFFSET_CONTROL, IE | SIE | EIE);
    }
}

static void serve_object(ccan_host *host, uint16_t object, uint64_t *sum)
{
    write_register(host, CCAN_OFFSET_IF1_COMMAND_MASK, 0x007f); /* read all, and clear IntPnd and NewDat */
    write_register(host, CCAN_OFFSET_IF1_COMMAND_REQUEST, object);
    if (object == RECEIVES) {
        if (read_register(host, CCAN_OFFSET_IF1_MESSAGE_CONTROL) & 0x4000)
            fprintf(stderr, "a message was lost\n");
        *sum += read_register(host, CCAN_OFFSET_IF1_DATA_A1);
        atomic_fetch_add(&frames_read, 1);
    } else {
        atomic_fetch_add(&frames_sent, 1);
    }
}

/* Looks at the interrupt line, and serves what the Interrupt register tells, the status first. */
static void *serve(void *sum)
{
    ccan_host *host = &chip.if1;
    int turns = 0;
    while (!atomic_load(&finished)) {
        uint32_t pulled;
        must(ccan_line(host, &pulled), "ccan_line");
        uint16_t cause = pulled ? read_register(host, CCAN_OFFSET_INTERRUPT) : 0;
        if (cause == STATUS_INTERRUPT)
            serve_status(host);
        else if (cause)
            serve_object(host, cause, sum);
        else
            wait_a_turn(&turns);
    }
    return NULL;
}

/* ---- the bus */

struct told { int spoiled, groups; };

/* A round with at most one frame of node 1's. Where a step was given up, the loops below play another round. */
static ccan_outcome play(const ccan_offer *offer, size_t count, uint32_t fault, uint32_t *code)
{
    ccan_outcome outcome;
    *code = ccan_round(&chip.bus, offer, count, fault, &outcome);
    if (*code != CCAN_BUSY)
        must(*code, "ccan_round");
    return outcome;
}

/* Node 1 sends its next frame whenever the last one was read. */
static void exchange(void)
{
    int offered = 0, turns = 0;
    while (atomic_load(&frames_read) < FRAMES || atomic_load(&frames_sent) < FRAMES) {
        ccan_offer offer = { 0x123, 1, 0, 0, 2, { (uint8_t)offered, (uint8_t)(offered >> 8) } };
        uint32_t code;
        ccan_outcome outcome = play(&offer, offered == atomic_load(&frames_read) && offered < FRAMES, CCAN_QUIET, &code);
        if (outcome.kind == CCAN_RECEIVED && outcome.stored == RECEIVES)
            offered++;
        if (outcome.kind == CCAN_IDLE)
            wait_a_turn(&turns);
    }
}

/* Spoils the frames of the controller until it is off. */
static void spoil(struct told *told)
{
    static const ccan_offer none;
    ccan_counts counts;
    int turns = 0;
    do {
        uint32_t code;
        ccan_outcome outcome = play(&none, 0, CCAN_BIT1, &code);
        if (outcome.kind == CCAN_FAULT && code == CCAN_DONE)
            told->spoiled++;
        else
            wait_a_turn(&turns);
        must(ccan_counters(&chip.bus, 0, &counts), "ccan_counters");
    } while (counts.state != CCAN_OFF);
}

/* Lets groups of recessive bits pass, one by one, once the driver has cleared Init, until the controller is back. */
static void recover(struct told *told)
{
    uint32_t state = CCAN_OFF;
    uint16_t control = INIT;
    int turns = 0;
    for (; control & INIT; wait_a_turn(&turns))
        must(ccan_bus_read16(&chip.bus, CCAN_OFFSET_CONTROL, &control), "ccan_bus_read16");
    while (state == CCAN_OFF) {
        uint32_t code = ccan_recessive(&chip.bus, 1, &state);
        if (code == CCAN_BUSY) {
            wait_a_turn(&turns);
        } else {
            must(code, "ccan_recessive");
            told->groups++;
        }
    }
}

static void *rounds(void *at)
{
    static const ccan_offer none;
    struct told *told = at;
    int turns = 0;
    exchange();
    atomic_store(&spoiling, 1);
    spoil(told);
    recover(told);
    for (uint32_t code; !atomic_load(&finished); wait_a_turn(&turns))
        play(&none, 0, CCAN_QUIET, &code);
    return NULL;
}

static void show(const char *when)
{
    ccan_host *host = &chip.if2;
    printf("%s: control %04x, bit timing %04x, error counter %04x, status %04x\n", when, read_register(host, CCAN_OFFSET_CONTROL),
        read_register(host, CCAN_OFFSET_BIT_TIMING), read_register(host, CCAN_OFFSET_ERROR_COUNTER),
        read_register(host, CCAN_OFFSET_STATUS));
}

int main(void)
{
    static ccan_final last;
    pthread_t threads[3];
    uint64_t sum = 0;
    struct told told = { 0, 0 };
    must(ccan_open_reset(&chip, 1, 1, 1000, CCAN_LAYOUT_C_CAN), "ccan_open_reset");
    show("opened");
    start();
    show("started");
    pthread_create(&threads[0], NULL, drive, NULL);
    pthread_create(&threads[1], NULL, serve, &sum);
    pthread_create(&threads[2], NULL, rounds, &told);
    for (int i = 0; i < 3; i++)
        pthread_join(threads[i], NULL);
    must(ccan_meet(&chip), "ccan_meet");
    printf("received %d frames, whose numbers sum to %llu\n", atomic_load(&frames_read), (unsigned long long)sum);
    printf("sent %d frames\n", atomic_load(&frames_sent));
    printf("off %d time, after %d spoiled frames; back after %d groups\n", atomic_load(&times_off), told.spoiled, told.groups);
    show("at the end");
    must(ccan_end(&chip, &last), "ccan_end");
    printf("object %d ends as %08x %04x, object %d as %08x %04x\n", RECEIVES, last.records[RECEIVES - 1].arbitration,
        last.records[RECEIVES - 1].control, SENDS, last.records[SENDS - 1].arbitration, last.records[SENDS - 1].control);
    return 0;
}
