/* Times calls of the library from C: a wait that one look ends, a read that clears nothing, a write of a whole object, a flag
 * of 32 objects in one moment, and the same writes while the other host writes to an object of its own in a thread of its
 * own, and while the bus stores frames in a third; and registers by their offsets, beside the calls that they stand for, with
 * Status beside rounds. Prints nanoseconds a call, the median of the chips that it opens. With a word as look=1000 it makes so
 * many calls of that kind and prints nothing: of look, read, write, flags or line. */
#define _POSIX_C_SOURCE 200809L
#include <ccan.h>
#include <pthread.h>
#include <stdio.h>
#include <stdlib.h>
#include <string.h>
#include <time.h>

enum { CALLS = 4096, CHIPS = 101 };

static ccan_chip chip = CCAN_CHIP_CLOSED;
static ccan_final last;

static double now(void)
{
    struct timespec time;
    clock_gettime(CLOCK_MONOTONIC, &time);
    return (double)time.tv_sec * 1e9 + (double)time.tv_nsec;
}

static void must(uint32_t code)
{
    if (code != CCAN_DONE) {
        fprintf(stderr, "%s\n", ccan_text(code));
        exit(1);
    }
}

/* So many transfers of an object, and the nanoseconds of one. */
static double transfers(ccan_host *host, uint16_t object)
{
    double start = now();
    for (int i = 0; i < CALLS; i++)
        must(ccan_request(host, object));
    return (now() - start) / CALLS;
}

static double reads(void)
{
    must(ccan_set(&chip.if1, CCAN_CMASK, 0x0073));
    return transfers(&chip.if1, 1);
}

static double writes(void)
{
    must(ccan_set(&chip.if1, CCAN_CMASK, 0x00f3));
    return transfers(&chip.if1, 1);
}

/* IF2 makes all objects valid. */
static void make_valid(void)
{
    must(ccan_set(&chip.if2, CCAN_CMASK, 0x00f3));
    must(ccan_set(&chip.if2, CCAN_ARB2, 0x8000));
    for (uint16_t object = 1; object <= 32; object++)
        must(ccan_request(&chip.if2, object));
}

static double waits(void)
{
    uint32_t shown = 0, times = 0;
    make_valid();
    double start = now();
    for (int i = 0; i < CALLS; i++) {
        must(ccan_until(&chip.if1, 1, CCAN_MSGVAL, 1, &shown));
        times += shown;
    }
    double took = now() - start;
    must(times == CALLS ? CCAN_DONE : CCAN_FLAG_RANGE);
    return took / CALLS;
}

static double flags(void)
{
    uint64_t shown = 0;
    make_valid();
    double start = now();
    for (int i = 0; i < CALLS; i++)
        must(ccan_flags(&chip.if1, CCAN_MSGVAL, &shown));
    double took = now() - start;
    must(shown == 0xffffffff ? CCAN_DONE : CCAN_FLAG_RANGE);
    return took / CALLS;
}

static void *second_host(void *nothing)
{
    must(ccan_set(&chip.if2, CCAN_CMASK, 0x00f3));
    transfers(&chip.if2, 2);
    return nothing;
}

/* The bus stores frame after frame in object 3, as often as a host writes. */
static void *rounds(void *nothing)
{
    ccan_offer offer = { 0, 1, 0, 0, 8, { 0 } };
    ccan_outcome outcome;
    for (int i = 0; i < CALLS; i++)
        must(ccan_round(&chip.bus, &offer, 1, CCAN_QUIET, &outcome));
    return nothing;
}

static pthread_t begin(void *(*port)(void *))
{
    pthread_t thread;
    if (pthread_create(&thread, NULL, port, NULL) != 0) {
        fprintf(stderr, "no thread\n");
        exit(1);
    }
    return thread;
}

static double writes_beside_the_other(void)
{
    pthread_t second = begin(second_host);
    double took = writes();
    pthread_join(second, NULL);
    return took;
}

static double writes_beside_both(void)
{
    must(ccan_set(&chip.if1, CCAN_CMASK, 0x00f3));
    must(ccan_set(&chip.if1, CCAN_ARB2, 0x8000)); /* valid, receives identifier 0 */
    must(ccan_set(&chip.if1, CCAN_CTRL, 0x0080));
    must(ccan_request(&chip.if1, 3));
    must(ccan_set(&chip.if1, CCAN_ARB2, 0));
    pthread_t second = begin(second_host), third = begin(rounds);
    double start = now();
    for (int i = 1; i < CALLS; i++)
        must(ccan_request(&chip.if1, 1));
    double took = now() - start;
    pthread_join(second, NULL);
    pthread_join(third, NULL);
    return took / (CALLS - 1);
}

/* ---- registers by their offsets */

static double writes_by_offset(void)
{
    must(ccan_write16(&chip.if1, CCAN_OFFSET_IF1_COMMAND_MASK, 0x00f3));
    double start = now();
    for (int i = 0; i < CALLS; i++)
        must(ccan_write16(&chip.if1, CCAN_OFFSET_IF1_COMMAND_REQUEST, 1));
    return (now() - start) / CALLS;
}

/* Reads of a register of IF1's own, which each are little more than a load. */
static double gets(void)
{
    uint16_t shown;
    double start = now();
    for (int i = 0; i < CALLS; i++)
        must(ccan_get(&chip.if1, CCAN_DATAA1, &shown));
    return (now() - start) / CALLS;
}

static double sets(void)
{
    double start = now();
    for (int i = 0; i < CALLS; i++)
        must(ccan_set(&chip.if1, CCAN_DATAA1, (uint16_t)i));
    return (now() - start) / CALLS;
}

static double sets_by_offset(void)
{
    double start = now();
    for (int i = 0; i < CALLS; i++)
        must(ccan_write16(&chip.if1, CCAN_OFFSET_IF1_DATA_A1, (uint16_t)i));
    return (now() - start) / CALLS;
}

static double flags_by_offset(void)
{
    uint16_t shown = 0;
    make_valid();
    double start = now();
    for (int i = 0; i < CALLS; i++)
        must(ccan_read16(&chip.if1, CCAN_OFFSET_MESSAGE_VALID_1, &shown));
    double took = now() - start;
    must(shown == 0xffff ? CCAN_DONE : CCAN_FLAG_RANGE);
    return took / CALLS;
}

static double statuses(void)
{
    uint16_t shown;
    double start = now();
    for (int i = 0; i < CALLS; i++)
        must(ccan_status(&chip.bus, &shown));
    return (now() - start) / CALLS;
}

/* Reads of one register by IF1. */
static double reads_of(uint32_t offset)
{
    uint16_t shown;
    double start = now();
    for (int i = 0; i < CALLS; i++)
        must(ccan_read16(&chip.if1, offset, &shown));
    return (now() - start) / CALLS;
}

static double gets_by_offset(void) { return reads_of(CCAN_OFFSET_IF1_DATA_A1); }
static double controls_by_offset(void) { return reads_of(CCAN_OFFSET_CONTROL); }
static double statuses_by_offset(void) { return reads_of(CCAN_OFFSET_STATUS); }

static double statuses_beside_rounds(void)
{
    pthread_t bus = begin(rounds);
    double took = statuses_by_offset();
    pthread_join(bus, NULL);
    return took;
}

static double lines(void)
{
    uint32_t pulled;
    double start = now();
    for (int i = 0; i < CALLS; i++)
        must(ccan_line(&chip.if1, &pulled));
    return (now() - start) / CALLS;
}

static int compare(const void *a, const void *b)
{
    double x = *(const double *)a, y = *(const double *)b;
    return (x > y) - (x < y);
}

static void measure(const char *name, double (*run)(void))
{
    static double took[CHIPS];
    for (int i = 0; i < CHIPS; i++) {
        must(ccan_open(&chip, 1, 1, 1000));
        took[i] = run();
        must(ccan_end(&chip, &last));
    }
    qsort(took, CHIPS, sizeof took[0], compare);
    printf("from C, %s: %.1f ns\n", name, took[CHIPS / 2]);
}

/* ---- so many calls of a kind */

static void look_once(void)
{
    uint32_t shown = 0;
    must(ccan_until(&chip.if1, 1, CCAN_MSGVAL, 1, &shown));
}

static void transfer_once(void) { must(ccan_request(&chip.if1, 1)); }

static void flags_once(void)
{
    uint64_t shown = 0;
    must(ccan_flags(&chip.if1, CCAN_MSGVAL, &shown));
}

static void line_once(void)
{
    uint32_t pulled = 0;
    must(ccan_line(&chip.if1, &pulled));
}

static const struct {
    const char *name;
    uint16_t command; /* of a transfer */
    void (*once)(void);
} kinds[] = {
    { "look", 0, look_once },          { "read", 0x0073, transfer_once }, { "write", 0x00f3, transfer_once },
    { "flags", 0, flags_once },        { "line", 0, line_once },
};

/* Makes the calls that a word as look=1000 names. */
static int make_calls(const char *word)
{
    size_t length = strcspn(word, "=");
    long calls = word[length] == '=' ? atol(word + length + 1) : 0;
    must(ccan_open(&chip, 1, 1, 1000));
    make_valid();
    for (size_t kind = 0; kind < sizeof kinds / sizeof kinds[0]; kind++)
        if (strlen(kinds[kind].name) == length && memcmp(kinds[kind].name, word, length) == 0) {
            must(ccan_set(&chip.if1, CCAN_CMASK, kinds[kind].command));
            for (long i = 0; i < calls; i++)
                kinds[kind].once();
            return 0;
        }
    fprintf(stderr, "no such calls: %s\n", word);
    return 2;
}

int main(int count, char **words)
{
    if (count > 1)
        return make_calls(words[1]);
    measure("a wait of one look", waits);
    measure("a read into the registers", reads);
    measure("a full write", writes);
    measure("a flag of 32 objects in one moment", flags);
    measure("a full write by the offset of Command Request", writes_by_offset);
    measure("a flag of 16 objects by its offset", flags_by_offset);
    measure("a write of a register of an interface", sets);
    measure("a write of a register of an interface by its offset", sets_by_offset);
    measure("a read of a register of an interface", gets);
    measure("a read of a register of an interface by its offset", gets_by_offset);
    measure("a read of Status by the bus", statuses);
    measure("a read of Status by its offset, by a host", statuses_by_offset);
    measure("a read of Status by its offset, beside rounds", statuses_beside_rounds);
    measure("a read of Control by its offset", controls_by_offset);
    measure("the interrupt line", lines);
    measure("a full write beside the other host", writes_beside_the_other);
    measure("a full write beside the other host and the bus", writes_beside_both);
    return 0;
}
