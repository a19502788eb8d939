/* A program made of a number, SEED in the environment, of every kind of step: tools/test/check_every runs it under different
 * searches and compares what they find. SIZE is the most operations of a thread. With COUNTS=0 the loops that count their turns
 * don't. With EARLY main waits for no thread. */
#include <ccan_every.h>
#include <pthread.h>
#include <sched.h>
#include <semaphore.h>
#include <stdatomic.h>
#include <stdio.h>
#include <stdlib.h>
#include <string.h>
#include <unistd.h>

enum { THREADS = 3, MOST = 6, IF1 = 0, IF2 = 1, BUS = 2 };
enum kind {
    TRANSFER, MORE_TRANSFER, FLAGS, INTERRUPT, STATUS, CONTROL, LINE, READ_CONTROL, STORE, LOAD, ADD, LOCKED, CHOOSE, MASKED, POLL,
    POLL_BOTH, COUNTED_POLL, UNTIL, PLAIN, COPY, SIGNAL, AWAIT, POST, TAKE, DELAY, TWO_LOOKS, BLOCK, READ_OR_WRITE, TAKE_IN_TIME,
    COUNT_OWN, HOST_KINDS,
    ROUND, MORE_ROUNDS, LOAD_FRAME, INIT, BUS_KINDS
};
typedef struct { int kind, a, b, c; } operation;

static ccan_chip chip = CCAN_CHIP_CLOSED;
static operation operations[THREADS][MOST];
static int counts[THREADS], kinds, counts_turns, has_counted_poll;
static char text[THREADS + 1][400];
static atomic_int cells[2];
static int plain[2], sum;
static char copied[2][8];
static pthread_mutex_t mutex = PTHREAD_MUTEX_INITIALIZER;
static pthread_cond_t changed = PTHREAD_COND_INITIALIZER;
static int gate;
static sem_t tickets;
static pthread_rwlock_t lock = PTHREAD_RWLOCK_INITIALIZER;
static int locked;
static _Thread_local int own;
static unsigned long seed;
static unsigned host_kinds; /* so many kinds of operations of hosts, from the first on */

static unsigned dice(unsigned sides)
{
    seed = seed * 6364136223846793005ul + 1442695040888963407ul;
    return (unsigned)(seed >> 33) % sides;
}

static void must(uint32_t code) { ccan_require(code == CCAN_DONE, "%s", ccan_text(code)); }

/* What a thread has seen, which it keeps for itself until the end. */
#define SAW(...) snprintf(text[me] + strlen(text[me]), sizeof text[me] - strlen(text[me]), __VA_ARGS__)

static void transfer(int me, ccan_host *host, const operation *of)
{
    static const uint16_t masks[] = { 0x13, 0x1c, 0x0c, 0x08, 0x04, 0x92, 0x86, 0x84, 0xb3, 0x90 };
    static const uint16_t controls[] = { 0x0482, 0x8482, 0x2482, 0x0982, 0x0882, 0x0402 };
    static const uint16_t arbitrations[] = { 0x848c, 0xa48c, 0x048c };
    uint16_t value;
    must(ccan_set(host, CCAN_CMASK, masks[of->a % 10]));
    must(ccan_set(host, CCAN_CTRL, controls[of->b % 6]));
    must(ccan_set(host, CCAN_ARB2, arbitrations[of->b % 3]));
    must(ccan_set(host, CCAN_DATAA1, (uint16_t)(of->c + 16 * me)));
    must(ccan_request(host, (uint16_t)(1 + of->c % 3)));
    must(ccan_get(host, CCAN_CTRL, &value));
    SAW(" %x", value);
    must(ccan_get(host, CCAN_DATAA1, &value));
    SAW(".%x", value);
}

static void read_one(int me, ccan_host *host, uint32_t offset, char letter)
{
    uint16_t value;
    must(ccan_read16(host, offset, &value));
    SAW(" %c%x", letter, value);
}

static void poll_cell(int me, int cell, int counted)
{
    int turns = 0;
    while (atomic_load(&cells[cell]) == 0) {
        turns += counted;
        if (turns > 100000)
            ccan_fail("a poll gives up");
        sched_yield();
    }
    SAW(" w%d", atomic_load(&cells[cell]));
}

static void poll_both(int me)
{
    while (atomic_load(&cells[0]) == 0 && atomic_load(&cells[1]) == 0)
        sched_yield();
    SAW(" b%d", atomic_load(&cells[1]));
}

/* A loop that goes on by what it looked at, and keeps it in a variable of its own. */
static void two_looks(int me)
{
    int seen = 0;
    for (int turn = 0; turn < 3; turn++) {
        if (!seen && atomic_load(&cells[0]))
            seen = 1;
        else if (seen && atomic_load(&cells[1]))
            seen = 2;
        usleep(10);
    }
    SAW(" t%d", seen);
}

static void wait_at_gate(int me)
{
    pthread_mutex_lock(&mutex);
    while (!gate)
        pthread_cond_wait(&changed, &mutex);
    SAW(" g%d", gate);
    pthread_mutex_unlock(&mutex);
}

static void open_gate(int wakes_all)
{
    pthread_mutex_lock(&mutex);
    gate++;
    if (wakes_all)
        pthread_cond_broadcast(&changed);
    else
        pthread_cond_signal(&changed);
    pthread_mutex_unlock(&mutex);
}

/* A block of memory, which has what two steps found. */
static void use_block(int me, const operation *of)
{
    int *block = malloc((size_t)(8 + 16 * (of->a % 3)));
    block[0] = atomic_fetch_add(&cells[of->b & 1], 1);
    block[1] = atomic_load(&cells[of->c & 1]);
    SAW(" n%d.%d", block[0], block[1]);
    free(block);
}

static void read_or_write(int me, const operation *of)
{
    if (of->a & 1)
        pthread_rwlock_wrlock(&lock);
    else
        pthread_rwlock_rdlock(&lock);
    locked += of->a & 1;
    SAW(" v%d", locked);
    pthread_rwlock_unlock(&lock);
}

static void take_in_time(int me)
{
    static const struct timespec end = { .tv_sec = 1 };
    SAW(" e%d", sem_timedwait(&tickets, &end));
}

static void work_of_host(int me, ccan_host *host, const operation *of)
{
    static const uint16_t controls[] = { 2, 14, 0, 3, 6 };
    uint32_t found;
    uint64_t flags;
    switch (of->kind) {
    case TRANSFER: case MORE_TRANSFER: transfer(me, host, of); break;
    case FLAGS: must(ccan_flags(host, (uint32_t)of->a % 5, &flags)); SAW(" f%lx", (unsigned long)flags); break;
    case INTERRUPT: read_one(me, host, CCAN_OFFSET_INTERRUPT, 'i'); break;
    case STATUS: read_one(me, host, CCAN_OFFSET_STATUS, 's'); break;
    case CONTROL: must(ccan_write16(host, CCAN_OFFSET_CONTROL, controls[of->a % 5])); break;
    case LINE: must(ccan_line(host, &found)); SAW(" l%u", (unsigned)found); break;
    case READ_CONTROL: read_one(me, host, CCAN_OFFSET_CONTROL, 'c'); break;
    case STORE: atomic_store(&cells[of->a & 1], of->b); break;
    case LOAD: SAW(" m%d", atomic_load(&cells[of->a & 1])); break;
    case ADD: SAW(" +%d", atomic_fetch_add(&cells[of->a & 1], 1)); break;
    case LOCKED: pthread_mutex_lock(&mutex); sum = sum * 3 + of->a % 5; pthread_mutex_unlock(&mutex); break;
    case CHOOSE: SAW(" x%u", ccan_choose(2)); break;
    case MASKED: ccan_irq_off(); read_one(me, host, CCAN_OFFSET_INTERRUPT, 'I'); read_one(me, host, CCAN_OFFSET_CONTROL, 'C'); ccan_irq_on(); break;
    case POLL: poll_cell(me, of->a & 1, 0); break;
    case POLL_BOTH: poll_both(me); break;
    case COUNTED_POLL: poll_cell(me, of->a & 1, counts_turns); break;
    case UNTIL: must(ccan_until(host, 1 + (uint32_t)of->a % 3, (uint32_t)of->b % 5, 1 + (uint32_t)of->c % 3, &found)); SAW(" u%u", (unsigned)found); break;
    case PLAIN: plain[of->a & 1] = plain[of->b & 1] * 2 + 1; break;
    case COPY: memcpy(copied[of->a & 1], copied[of->b & 1], 8); copied[of->a & 1][0] = (char)of->c; break;
    case SIGNAL: open_gate(of->a & 1); break;
    case AWAIT: wait_at_gate(me); break;
    case POST: sem_post(&tickets); break;
    case TAKE: SAW(" k%d", sem_trywait(&tickets)); break;
    case DELAY: read_one(me, host, CCAN_OFFSET_CONTROL, 'd'); usleep(10); break;
    case TWO_LOOKS: two_looks(me); break;
    case BLOCK: use_block(me, of); break;
    case READ_OR_WRITE: read_or_write(me, of); break;
    case TAKE_IN_TIME: take_in_time(me); break;
    case COUNT_OWN: own += 1 + of->a % 3; SAW(" y%d", own); break;
    default: break;
    }
}

static void work_of_bus(int me, const operation *of)
{
    ccan_offer frame = { .id = of->a & 1 ? 0x123 : 0x124, .node = 1, .rtr = of->b % 5 == 0, .dlc = 2, .bytes = { (uint8_t)of->c } };
    ccan_outcome came;
    ccan_loaded loaded;
    switch (of->kind) {
    case ROUND: case MORE_ROUNDS:
        must(ccan_round(&chip.bus, &frame, of->a % 3 != 0, of->b % 4 == 1 ? CCAN_CRC : CCAN_QUIET, &came));
        SAW(" r%u.%u.%x.%x", (unsigned)came.kind, (unsigned)came.stored, came.stored_record.control, came.finished.control);
        break;
    case LOAD_FRAME: must(ccan_load(&chip.bus, &loaded)); SAW(" o%u.%u", (unsigned)loaded.kind, (unsigned)loaded.object); break;
    case INIT: must(ccan_init(&chip.bus)); break;
    default: break;
    }
}

static void work(int me)
{
    for (int i = 0; i < counts[me]; i++)
        if (me == BUS)
            work_of_bus(me, &operations[me][i]);
        else
            work_of_host(me, me == IF1 ? &chip.if1 : &chip.if2, &operations[me][i]);
}

static void *thread_of(void *number)
{
    int me = (int)(long)number;
    if (me == IF1 && (kinds & 4))
        ccan_on_cpu(1);
    if (has_counted_poll)
        atomic_fetch_add(&cells[0], 0), atomic_fetch_add(&cells[1], 0); /* so that both are words that threads share */
    work(me);
    return NULL;
}

static void on_interrupt(void)
{
    uint16_t value;
    int me = THREADS;
    ccan_host *host = kinds & 2 ? &chip.if2 : &chip.if1;
    must(ccan_read16(host, CCAN_OFFSET_INTERRUPT, &value));
    SAW(" %x", value);
    if (value == 0x8000) {
        read_one(me, host, CCAN_OFFSET_STATUS, ':');
    } else if (value) {
        must(ccan_set(host, CCAN_CMASK, 0x1c));
        must(ccan_request(host, value));
        must(ccan_get(host, CCAN_CTRL, &value));
        SAW(":%x", value);
    }
}

static void set_up(unsigned size)
{
    must(ccan_open(&chip, 1, 1, 1));
    for (uint16_t object = 1; object <= 3; object++) {
        must(ccan_set(&chip.if1, CCAN_CMASK, 0xf3));
        must(ccan_set(&chip.if1, CCAN_ARB2, dice(3) ? 0x848c : 0xa48c));
        must(ccan_set(&chip.if1, CCAN_CTRL, dice(2) ? 0x0c82 : 0x0d82));
        must(ccan_request(&chip.if1, object));
    }
    must(ccan_write16(&chip.if1, CCAN_OFFSET_CONTROL, dice(2) ? 2 : 6));
    for (int me = 0; me < THREADS; me++) {
        counts[me] = 1 + (int)dice(size);
        for (int i = 0; i < counts[me]; i++)
            operations[me][i] = (operation){ me == BUS ? ROUND + (int)dice(BUS_KINDS - ROUND) : (int)dice(host_kinds), (int)dice(64),
                (int)dice(64), (int)dice(64) };
        for (int i = 0; i < counts[me]; i++)
            has_counted_poll |= operations[me][i].kind == COUNTED_POLL;
    }
}

/* The end of main while the threads go on: it looks at what they have come to, and waits for nothing. */
static int end_early(void)
{
    uint64_t found[3];
    for (uint32_t flag = 0; flag < 3; flag++)
        must(ccan_flags(&chip.if1, flag, &found[flag]));
    printf("%x %x %x %d\n", (unsigned)found[0], (unsigned)found[1], (unsigned)found[2], atomic_load(&cells[0]));
    return 0;
}

int main(void)
{
    static ccan_final last;
    pthread_t threads[THREADS];
    seed = strtoul(getenv("SEED"), NULL, 10);
    host_kinds = seed % 4 == 3 ? HOST_KINDS : BLOCK; /* in one of four programs also those that have no part in the chip */
    seed = seed * 7919 + 1;
    kinds = (int)dice(8);
    counts_turns = atoi(getenv("COUNTS"));
    set_up((unsigned)atoi(getenv("SIZE")));
    sem_init(&tickets, 0, 0);
    if (kinds & 1)
        ccan_irq("interrupt", kinds & 4 ? 1 : 0, on_interrupt);
    for (long me = 0; me < THREADS; me++)
        pthread_create(&threads[me], NULL, thread_of, (void *)me);
    if (getenv("EARLY"))
        return end_early();
    for (int me = 0; me < THREADS; me++)
        pthread_join(threads[me], NULL);
    if (kinds & 1)
        ccan_quiet();
    must(ccan_end(&chip, &last));
    for (int me = 0; me <= THREADS; me++)
        printf("%s |", text[me]);
    for (int object = 0; object < 3; object++)
        printf(" %08x %04x %02x", (unsigned)last.records[object].arbitration, last.records[object].control, last.records[object].bytes[0]);
    printf(" %d %d %d %d %d %d %d\n", sum, plain[0], plain[1], copied[0][0], copied[1][0], cells[0], cells[1]);
    return 0;
}
