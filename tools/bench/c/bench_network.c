/* Times frames on a bus of several chips (ccan_network_start and ccan_network_finish), beside rounds in which each chip has the same
 * to do: one round in which the first sends to a node, and one for each other chip in which it stores the frame that a node sends. A
 * host requests each transmission by one transfer, which is not counted. With no word it prints nanoseconds a frame, the median of
 * some runs, for 2, 4 and 8 chips. With words it does one thing and prints nothing, so that its instructions can be counted; `length`
 * asks for the length of the frame alone, which a network needs for its clock and a round doesn't.
 * Usage: bench_network [hosts|rounds|network|length CHIPS FRAMES] */
#define _POSIX_C_SOURCE 200809L
#include <ccan_network.h>
#include <stdio.h>
#include <stdlib.h>
#include <time.h>

enum { MOST = 8, FRAMES = 2048, RUNS = 31 };

static ccan_chip chips[MOST];
static ccan_network network;

static double now(void)
{
    struct timespec time;
    clock_gettime(CLOCK_MONOTONIC, &time);
    return (double)time.tv_sec * 1e9 + (double)time.tv_nsec;
}

static void must(uint32_t code)
{
    if (code != CCAN_DONE) {
        fprintf(stderr, "%s\n", ccan_text(code));
        exit(1);
    }
}

static void expect(uint32_t seen, uint32_t wanted)
{
    if (seen != wanted) {
        fprintf(stderr, "%u, and not %u\n", (unsigned)seen, (unsigned)wanted);
        exit(1);
    }
}

/* Makes object 1 of a chip one that sends or receives the identifier 0x123, with eight bytes. */
static void set_up(ccan_chip *chip, bool sends)
{
    must(ccan_set(&chip->if1, CCAN_CMASK, 0x00f3));
    must(ccan_set(&chip->if1, CCAN_ARB2, sends ? 0xa48c : 0x848c));
    must(ccan_set(&chip->if1, CCAN_CTRL, 0x0088));
    must(ccan_request(&chip->if1, 1));
    must(ccan_set(&chip->if1, CCAN_CMASK, 0x0084)); /* from now on each transfer requests a transmission */
}

static void open_all(uint32_t count)
{
    for (uint32_t k = 0; k < count; k++) {
        ccan_chip_init(&chips[k]);
        must(ccan_open(&chips[k], 1, 1, 1000));
        set_up(&chips[k], k == 0);
    }
}

static void end_all(uint32_t count)
{
    static ccan_final last;
    for (uint32_t k = 0; k < count; k++)
        must(ccan_end(&chips[k], &last));
}

static void hosts(uint32_t count, uint32_t frames)
{
    (void)count;
    for (uint32_t i = 0; i < frames; i++)
        must(ccan_request(&chips[0].if1, 1));
}

static void rounds(uint32_t count, uint32_t frames)
{
    const ccan_offer offer = { 0x123, 1, 0, 0, 8, { 0 } };
    ccan_outcome outcome;
    for (uint32_t i = 0; i < frames; i++) {
        must(ccan_request(&chips[0].if1, 1));
        must(ccan_round(&chips[0].bus, &offer, 0, CCAN_QUIET, &outcome));
        expect(outcome.kind, CCAN_SENT);
        for (uint32_t k = 1; k < count; k++) {
            must(ccan_round(&chips[k].bus, &offer, 1, CCAN_QUIET, &outcome));
            expect(outcome.stored, 1);
        }
    }
}

static void frames_of_network(uint32_t count, uint32_t frames)
{
    uint64_t time = 0, until;
    uint32_t place;
    ccan_network_init(&network, time);
    for (uint32_t k = 0; k < count; k++)
        must(ccan_network_add_chip(&network, &chips[k].bus, &place));
    for (uint32_t i = 0; i < frames; i++) {
        must(ccan_request(&chips[0].if1, 1));
        must(ccan_network_start(&network, time, &until));
        time = until;
        must(ccan_network_finish(&network, time, &until));
        time = until;
        expect(network.at[0].ended.event, CCAN_EVENT_SENT);
        expect(network.at[count - 1].ended.stored, 1);
    }
}

static void lengths(uint32_t count, uint32_t frames)
{
    const ccan_frame frame = { 0x123, 0, 0, 8, { 0 } };
    uint32_t bits;
    (void)count;
    for (uint32_t i = 0; i < frames; i++) {
        must(ccan_frame_bits(&frame, &bits));
        expect(bits > 100, 1);
    }
}

static int compare(const void *a, const void *b)
{
    const double x = *(const double *)a, y = *(const double *)b;
    return (x > y) - (x < y);
}

/* Nanoseconds a frame. */
static double measure(void (*run)(uint32_t, uint32_t), uint32_t count)
{
    static double took[RUNS];
    for (int i = 0; i < RUNS; i++) {
        open_all(count);
        const double began = now();
        run(count, FRAMES);
        took[i] = (now() - began) / FRAMES;
        end_all(count);
    }
    qsort(took, RUNS, sizeof took[0], compare);
    return took[RUNS / 2];
}

int main(int words, char **word)
{
    if (words == 4) {
        const uint32_t asked = (uint32_t)strtoul(word[2], NULL, 10), count = asked <= MOST ? asked : MOST;
        const char first = word[1][0];
        open_all(count);
        (first == 'h' ? hosts : first == 'r' ? rounds : first == 'l' ? lengths : frames_of_network)(
            count, (uint32_t)strtoul(word[3], NULL, 10));
        end_all(count);
        return 0;
    }
    for (uint32_t count = 2; count <= MOST; count *= 2) {
        const double alone = measure(hosts, count), apart = measure(rounds, count) - alone;
        const double together = measure(frames_of_network, count) - alone;
        printf("from C, a frame between %u chips: %.0f ns; %u rounds: %.0f ns; ratio %.2f\n", (unsigned)count, together,
            (unsigned)count, apart, together / apart);
    }
    return 0;
}
