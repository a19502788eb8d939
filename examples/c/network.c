/* Two chips and a node without a chip on one bus of 500 kbit/s, with a clock: ccan_network.h says who is on the bus and for how
 * long, and this program has the time, in one thread.
 *
 * Each number that it prints was worked out by hand after CAN Specification 2.0, and a comment says where it comes from. A frame's
 * length is that of its bits and its stuff bits, from the start of frame to the end of frame; 3 bits of intermission follow. The
 * frames here have no stuff bits but these:
 *
 *   100#BB  52 bits and 3     200#AA, 200#AB  52 bits and 3     300#  44 bits and 4
 *
 *   cc network.c $(pkg-config --cflags --libs ccan) */
#include <ccan_network.h>
#include <inttypes.h>
#include <stdio.h>
#include <stdlib.h>

enum { INIT = 0x01, CCE = 0x40 };                        /* in Control */
enum { SENDS = 1, RECEIVES = 2 };                        /* object 1 sends, and object 2 receives the other chip's identifier */

static ccan_chip a = CCAN_CHIP_CLOSED, b = CCAN_CHIP_CLOSED;
static ccan_network network;
static uint32_t at_a, at_b, at_node;                     /* the places of the three */
static uint64_t now, until;                              /* in bits */
static uint32_t nanoseconds;                             /* of a bit */

/* Ends the program where a call was refused. */
static void must(uint32_t code, const char *what)
{
    if (code != CCAN_DONE) {
        fprintf(stderr, "%s: %s\n", what, ccan_text(code));
        exit(1);
    }
}

/* ---- the hosts */

static void write_register(ccan_chip *chip, uint32_t offset, uint16_t value)
{
    must(ccan_meet(chip), "ccan_meet");
    must(ccan_write16(&chip->if1, offset, value), "ccan_write16");
}

/* Writes an object whole: Arbitration 2, Message Control and the first byte of its data. */
static void write_object(ccan_chip *chip, uint16_t object, uint16_t arbitration, uint16_t control, uint16_t byte)
{
    write_register(chip, CCAN_OFFSET_IF1_COMMAND_MASK, 0x00f3);
    write_register(chip, CCAN_OFFSET_IF1_ARBITRATION_2, arbitration);
    write_register(chip, CCAN_OFFSET_IF1_MESSAGE_CONTROL, control);
    write_register(chip, CCAN_OFFSET_IF1_DATA_A1, byte);
    write_register(chip, CCAN_OFFSET_IF1_COMMAND_REQUEST, object);
}

/* Requests that object 1 is sent, with this identifier and one byte. */
static void request(ccan_chip *chip, uint16_t id, uint16_t byte)
{
    write_object(chip, SENDS, (uint16_t)(0xa000 | id << 2), 0x0181, byte); /* valid, sends; TxRqst, EoB, one byte */
}

/* Starts a chip as on a board: the bit timing while Init and CCE are 1, an object that receives, and Init 0. */
static void start_chip(ccan_chip *chip, uint16_t receives, uint32_t *place)
{
    must(ccan_open_reset(chip, 1, 0, 100, CCAN_LAYOUT_C_CAN), "ccan_open_reset");
    write_register(chip, CCAN_OFFSET_CONTROL, INIT | CCE);
    write_register(chip, CCAN_OFFSET_BIT_TIMING, 0x2301);
    write_object(chip, RECEIVES, (uint16_t)(0x8000 | receives << 2), 0x0080, 0); /* valid, receives; EoB */
    write_register(chip, CCAN_OFFSET_CONTROL, 0);
    must(ccan_network_add_chip(&network, &chip->bus, place), "ccan_network_add_chip");
}

static uint8_t byte_received(ccan_chip *chip)
{
    ccan_record record;
    must(ccan_meet(chip), "ccan_meet");
    must(ccan_peek(&chip->if1, RECEIVES, &record), "ccan_peek");
    return record.bytes[0];
}

/* ---- the clock */

static void meet(void)
{
    must(ccan_meet(&a), "ccan_meet");
    must(ccan_meet(&b), "ccan_meet");
}

static uint64_t microseconds(uint64_t bits) { return bits * nanoseconds / 1000; }

/* Goes on until a frame begins. Whether one does: else nobody wants to send. */
static bool begins(void)
{
    for (;;) {
        meet();
        must(ccan_network_start(&network, now, &until), "ccan_network_start");
        if (network.under_way)
            return true;
        if (until == CCAN_NETWORK_NEVER)
            return false;
        now = until;
    }
}

/* Lets the frame that is under way end. */
static void ends(void)
{
    now = network.ended;
    meet();
    must(ccan_network_finish(&network, now, &until), "ccan_network_finish");
    now = until;
}

/* ---- what is printed */

/* What the last frame was to a member. */
static void print_event(const char *name, uint32_t place)
{
    static const char *const events[] = { "nothing", "sent", "received", "looped", "an error" };
    const ccan_network_member *at = &network.at[place];
    ccan_counts counts = { at->node.tec, at->node.rec, CCAN_ACTIVE };
    if (at->kind == CCAN_NETWORK_CHIP)
        must(ccan_counters(at->chip, 0, &counts), "ccan_counters");
    printf("    %s: %s", name, events[at->ended.event]);
    if (at->ended.code != 0)
        printf(", LEC %" PRIu32, at->ended.code);
    printf(", TEC %" PRIu32 ", REC %" PRIu32 "\n", counts.tec, counts.rec);
}

/* The frame that was on the bus: when it began, when it or its error frame ended, and what it was to all. */
static void print_frame(void)
{
    static const char *const kinds[] = { "idle", "collided", "broken", "flagged", "unheard", "carried" };
    printf("%" PRIu64 " to %" PRIu64 " us: %03" PRIx32 " %s\n", microseconds(network.began), microseconds(network.ended),
        network.wire.frame.id, kinds[network.wire.kind]);
    print_event("A", at_a);
    print_event("B", at_b);
    print_event("node", at_node);
}

/* ---- what happens */

/* All three want to send at once. The lowest identifier wins, and the next one follows behind the intermission:
 *
 *   100 from bit 0 to 55, 0 to 110 us; 200 from 58 to 113, 116 to 226 us; 300 from 116 to 164, 232 to 328 us
 *
 * No errors, so all counters are 0. */
static void arbitration(void)
{
    static const ccan_frame offered = { 0x300, 0, 0, 0, { 0 } };
    printf("arbitration\n");
    request(&a, 0x200, 0xaa);
    request(&b, 0x100, 0xbb);
    must(ccan_network_offer(&network, at_node, &offered), "ccan_network_offer");
    while (begins()) {
        ends();
        print_frame();
    }
    printf("A has %02x, B has %02x\n", byte_received(&a), byte_received(&b));
}

/* The node finds the CRC sequence wrong, and B finds it right and acknowledges. The node's error flag begins behind the ACK
 * delimiter. So A and B see a dominant bit in the end of frame: a form error, LEC 2. A has sent: TEC 8. B has received: REC 1. A
 * tries again at once.
 *
 * The frame begins at bit 167, 334 us. Of its 55 bits 48 go before the error flag, which is 6 bits, and those of A and B end one
 * later; the delimiter has 8: it ends at 167 + 48 + 7 + 8 = 230, 460 us. The second one lasts from 233 to 288, 466 to 576 us: it is
 * sent, TEC 7, and received, REC 0. */
static void a_spoiled_frame(void)
{
    printf("a frame that the node finds spoiled\n");
    request(&a, 0x200, 0xaa);
    while (begins()) {
        if (network.at[at_a].ended.event != CCAN_EVENT_ERROR)
            must(ccan_network_fault(&network, at_node, CCAN_CRC), "ccan_network_fault");
        ends();
        print_frame();
    }
}

/* B's host sets Init while B sends, 20 bits behind the start at bit 291, 582 us. B sends recessive bits from there, and has no
 * event. A and the node see six of them in a row, a stuff error, LEC 1, and each REC is 1. The simulator ends the frame then: the
 * error is found at bit 317, and an error frame has at most 20 bits, so it ends at 337, 674 us.
 *
 * Then B's host clears Init. Its request still stands, so that B sends from bit 340 to 395, 680 to 790 us, and the others' REC is 0
 * again. */
static void init_in_mid_frame(void)
{
    printf("B's host sets Init in mid-frame, and clears it\n");
    request(&b, 0x100, 0xbb);
    if (!begins())
        return;
    write_register(&b, CCAN_OFFSET_CONTROL, INIT);
    now += 26; /* 20, and six bits until the stuff error */
    meet();
    must(ccan_network_finish(&network, now, &until), "ccan_network_finish");
    now = until;
    print_frame();
    write_register(&b, CCAN_OFFSET_CONTROL, 0);
    while (begins()) {
        ends();
        print_frame();
    }
}

/* A finds a bit error in each frame that it sends, LEC 5, and TEC grows by 8 each time, from 7 on: 7 + 8 * 32 = 263 is the first
 * above 255, so the 32nd error leads it off. With the 16th, 7 + 8 * 16 = 135, it is error passive, and from there on it waits 8 bits
 * more before each start. The others see a stuff error each time, so their REC is 32 then.
 *
 * A broken frame is taken as long as it can be: its 55 bits without the last 10, and an error frame of 20, together 65. The first
 * begins at bit 398. Behind the first 15 stand 3 bits each, behind the next 16 stand 11 each: the 32nd begins at
 * 398 + 31 * 65 + 15 * 3 + 16 * 11 = 2634, 5268 us, and ends at 2699, 5398 us.
 *
 * A's host clears Init 3 bits later, at 2702. From there A counts 128 groups of eleven bits, 1408: it is back at bit 4110, 8220 us,
 * with counters of 0, and sends its frame until 4165, 8330 us. With that the REC of B and of the node is 31. */
static void bus_off_and_back(void)
{
    int errors = 0;
    printf("A goes bus off\n");
    request(&a, 0x200, 0xab);
    while (begins()) {
        must(ccan_network_fault(&network, at_a, CCAN_BIT0), "ccan_network_fault");
        ends();
        errors++;
    }
    printf("errors: %d\n", errors);
    print_frame();
    printf("A's host clears Init\n");
    must(ccan_network_pass(&network, now), "ccan_network_pass"); /* what has passed so far doesn't count for A */
    write_register(&a, CCAN_OFFSET_CONTROL, 0);
    while (begins()) {
        ends();
        print_frame();
    }
    printf("B has %02x\n", byte_received(&b));
}

int main(void)
{
    static ccan_final last;
    ccan_network_init(&network, now);
    start_chip(&a, 0x100, &at_a);
    start_chip(&b, 0x200, &at_b);
    must(ccan_network_add_node(&network, &at_node), "ccan_network_add_node");
    nanoseconds = ccan_bit_time(0x2301, 0) * 125; /* 16 periods of a clock of 8 MHz, 125 ns each: 2000 ns, so 500 kbit/s */
    printf("a bit is %" PRIu32 " ns\n", nanoseconds);
    arbitration();
    a_spoiled_frame();
    init_in_mid_frame();
    bus_off_and_back();
    must(ccan_end(&a, &last), "ccan_end");
    must(ccan_end(&b, &last), "ccan_end");
    return 0;
}
