/* Three threads at the registers of one controller. IF1 writes Control again and again, with Init, SIE and EIE set and cleared; IF2
 * serves the status interrupts; the bus plays rounds. Two ways:
 *   each   the bus waits after each event until IF2 has served it: there are just as many status interrupts as events, so none was
 *          lost to a write of Control, and none came twice.
 *   free   nobody waits. The bus counts TEC and REC by the rules beside the rounds, bus off and the way back included, and finds
 *          them in the registers after each round; of IF1's writes each reads back, but for Init, which bus off sets.
 * In both an object is pending throughout, so Interrupt never reads 0. Each loop is bounded: a wait of too many turns is a fault. Usage: controller each|free ROUNDS TRIES */
#include <ccan.h>
#include <pthread.h>
#include <sched.h>
#include <stdatomic.h>
#include <stdio.h>
#include <stdlib.h>
#include <string.h>

enum { INIT = 0x01, IE = 0x02, SIE = 0x04, EIE = 0x08, STATUS_INTERRUPT = 0x8000, PENDING = 5, TURNS = 100000000 };

static ccan_chip chip = CCAN_CHIP_CLOSED;
static int each;
static uint64_t rounds, writes, served, events, lost, times_off, left_out;
static atomic_ullong served_so_far;
static atomic_int playing = 1;
static atomic_ullong faults;

static void expect(int holds, int line)
{
    if (!holds && atomic_fetch_add(&faults, 1) < 5)
        fprintf(stderr, "line %d: not so\n", line);
}
#define EXPECT(holds) expect((holds), __LINE__)

/* Whether a wait may go on. */
static int waits(uint64_t *turns)
{
    sched_yield();
    if (++*turns < TURNS)
        return 1;
    EXPECT(!"a wait took too many turns");
    return 0;
}

static void write_control(ccan_host *host, uint16_t value)
{
    uint32_t code;
    uint64_t turns = 0;
    while ((code = ccan_write16(host, CCAN_OFFSET_CONTROL, value)) == CCAN_BUSY && waits(&turns))
        continue;
    EXPECT(code == CCAN_DONE);
    writes++;
}

/* Requests the transmission of object 2, unless each try is lost to the bus. */
static void request(ccan_host *host)
{
    uint32_t code = ccan_request(host, 2);
    EXPECT(code == CCAN_DONE || code == CCAN_BUSY);
}

/* IF1: each write reads back, but that bus off sets Init. It ends with Init 0 and both interrupts enabled. */
static void *configures(void *unused)
{
    static const uint16_t words[] = { SIE, 0, EIE, SIE | EIE, INIT, SIE | INIT, IE | SIE, EIE | INIT };
    ccan_host *host = &chip.if1;
    (void)unused;
    for (uint64_t turn = 0; atomic_load(&playing); turn++) {
        uint16_t value = 0, word = words[turn * 7 / 3 % 8];
        write_control(host, word);
        EXPECT(ccan_read16(host, CCAN_OFFSET_CONTROL, &value) == CCAN_DONE);
        EXPECT(value == word || (!each && value == (word | INIT)));
        write_control(host, SIE);
        if (!each && turn % 4 == 0)
            request(host);
    }
    write_control(host, SIE | EIE);
    return NULL;
}

/* IF2: where a status interrupt is shown it reads Status, which takes it away. A second look then finds what came since. */
static void *serves(void *unused)
{
    ccan_host *host = &chip.if2;
    (void)unused;
    while (atomic_load(&playing)) {
        uint16_t value;
        uint32_t code = CCAN_DONE;
        EXPECT(ccan_read16(host, CCAN_OFFSET_INTERRUPT, &value) == CCAN_DONE);
        if (value != STATUS_INTERRUPT) {
            EXPECT(value == PENDING);
            sched_yield();
            continue;
        }
        uint64_t turns = 0;
        while ((code = ccan_read16(host, CCAN_OFFSET_STATUS, &value)) == CCAN_BUSY && waits(&turns))
            continue;
        EXPECT(code == CCAN_DONE);
        atomic_store(&served_so_far, ++served);
    }
    return NULL;
}

/* What TEC, REC and the state ought to be. */
static struct { uint32_t tec, rec; int off; } want;

static void count(const ccan_outcome *outcome, uint32_t rec_found)
{
    uint32_t kind = outcome->kind;
    events++;
    if (kind == CCAN_SENT || outcome->refused == CCAN_STEP_FINISH)
        want.tec -= want.tec > 0;
    else if (kind == CCAN_RECEIVED)
        want.rec = want.rec > 127 ? 119 : want.rec - (want.rec > 0);
    else if (kind == CCAN_FAULT && outcome->winner == 0)
        want.tec += 8;
    else if (kind == CCAN_FAULT && rec_found == want.rec + 1)
        want.rec++; /* or the controller took no part, which this round doesn't tell */
    else
        events--;
    if (want.tec >= 256 && !want.off) {
        want.off = 1;
        times_off++;
    }
}

/* One round: the counters are those that the rules make of it, unless its event was given up. */
static ccan_outcome play(const ccan_offer *offer, size_t count_of_offers, uint32_t fault)
{
    ccan_outcome outcome;
    ccan_counts counts;
    uint32_t code = ccan_round(&chip.bus, offer, count_of_offers, fault, &outcome);
    EXPECT(code == (outcome.refused == CCAN_STEP_NONE ? CCAN_DONE : CCAN_BUSY));
    EXPECT(ccan_counters(&chip.bus, 0, &counts) == CCAN_DONE);
    if (outcome.refused == CCAN_STEP_EVENT)
        lost++;
    else
        count(&outcome, counts.rec);
    left_out += outcome.kind == CCAN_PASSED;
    EXPECT(counts.tec == want.tec && counts.rec == want.rec && (counts.state == CCAN_OFF) == want.off);
    return outcome;
}

/* Where it is off: IF1 clears Init all the time, so groups of recessive bits bring it back. */
static void comes_back(void)
{
    uint32_t state = CCAN_OFF;
    uint64_t turns = 0;
    while (state == CCAN_OFF && waits(&turns)) {
        uint32_t code = ccan_recessive(&chip.bus, 16, &state);
        EXPECT(code == CCAN_DONE || code == CCAN_BUSY);
    }
    want.tec = want.rec = 0;
    want.off = 0;
}

static void *plays(void *unused)
{
    static const ccan_offer offer = { 0x123, 1, 0, 0, 2, { 1, 2 } };
    (void)unused;
    for (uint64_t round = 0; round < rounds && !atomic_load(&faults); round++) {
        uint64_t turns = 0, before = events;
        if (each)
            play(&offer, 1, CCAN_QUIET);
        else /* most frames are spoiled: the controller's own, and now and then one of node 1's, which wins */
            play(&offer, round % 16 < 3, round % 5 ? CCAN_BIT1 : CCAN_QUIET);
        while (each && events != before && atomic_load(&served_so_far) != events && waits(&turns))
            continue;
        if (want.off)
            comes_back();
    }
    atomic_store(&playing, 0);
    return NULL;
}

/* An object that isn't valid has IntPnd from here on. */
static void leave_pending(void)
{
    ccan_host *host = &chip.if1;
    EXPECT(ccan_set(host, CCAN_CMASK, 0x0090) == CCAN_DONE && ccan_set(host, CCAN_CTRL, 0x2000) == CCAN_DONE
        && ccan_request(host, PENDING) == CCAN_DONE);
}

/* Object 2 sends 0x200, which 0x123 wins against. From then on a transfer of IF1 requests it. */
static void prepare(void)
{
    ccan_host *host = &chip.if1;
    EXPECT(ccan_set(host, CCAN_CMASK, 0x00f3) == CCAN_DONE && ccan_set(host, CCAN_ARB2, 0xa800) == CCAN_DONE
        && ccan_set(host, CCAN_CTRL, 0x0181) == CCAN_DONE && ccan_request(host, 2) == CCAN_DONE);
    EXPECT(ccan_set(host, CCAN_CMASK, 0x0084) == CCAN_DONE);
}

int main(int argc, char **argv)
{
    static ccan_final last;
    void *(*const work[])(void *) = { configures, serves, plays };
    pthread_t threads[3];
    ccan_counts counts;
    uint16_t word, status;
    if (argc != 4)
        return 2;
    each = strcmp(argv[1], "each") == 0;
    rounds = strtoull(argv[2], NULL, 10);
    if (ccan_open_reset(&chip, 1, 3, (uint32_t)atoi(argv[3]), CCAN_LAYOUT_C_CAN) != CCAN_DONE)
        return 2;
    leave_pending();
    if (!each)
        prepare();
    for (int i = 0; i < 3; i++)
        if (pthread_create(&threads[i], NULL, work[i], NULL))
            return 3;
    for (int i = 0; i < 3; i++)
        pthread_join(threads[i], NULL);
    EXPECT(ccan_meet(&chip) == CCAN_DONE && ccan_counters(&chip.bus, 0, &counts) == CCAN_DONE);
    EXPECT(counts.tec == want.tec && counts.rec == want.rec);
    EXPECT(ccan_read16(&chip.if1, CCAN_OFFSET_ERROR_COUNTER, &word) == CCAN_DONE);
    EXPECT(word == ((want.rec >= 128) << 15 | (want.rec & 0x7f) << 8 | (want.tec < 255 ? want.tec : 255)));
    EXPECT(ccan_read16(&chip.if2, CCAN_OFFSET_INTERRUPT, &word) == CCAN_DONE);
    EXPECT(ccan_read16(&chip.if2, CCAN_OFFSET_STATUS, &status) == CCAN_DONE);
    if (each)
        EXPECT(served == events && word == PENDING && (status == (events ? 0x10 : 0)));
    EXPECT(ccan_end(&chip, &last) == CCAN_DONE);
    printf("%s: %llu rounds, %llu events made, %llu given up, %llu rounds without the controller, %llu times off; "
        "%llu status interrupts served, %llu writes of Control, %llu faults\n", argv[1], (unsigned long long)rounds,
        (unsigned long long)events, (unsigned long long)lost, (unsigned long long)left_out, (unsigned long long)times_off,
        (unsigned long long)served, (unsigned long long)writes, (unsigned long long)atomic_load(&faults));
    return atomic_load(&faults) != 0;
}
