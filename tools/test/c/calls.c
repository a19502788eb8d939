/* The calls of the library, one after the other in one thread: what each answers, and what it gives. Each test begins with two
 * chips that are closed, and what it leaves open is ended behind it. Where something is not so, the program prints the test, the
 * line and what is not so, and ends with status 1. */
#include <ccan.h>
#include <stdio.h>
#include <stdlib.h>
#include <string.h>

#define EXPECT(holds) \
    do { if (!(holds)) { printf("%s, line %d: not so: %s\n", running, __LINE__, #holds); exit(1); } } while (0)
#define COUNT(array) (sizeof (array) / sizeof (array)[0])

/* The test that runs, and its two chips. */
static const char *running = "no test";
static ccan_chip chip, other;

/* A record of which no bit is set. */
static const ccan_record no_record;

/* A place for final records. */
static ccan_final nothing(void) { return (ccan_final){ .objects = 0 }; }

/* ---- a chip */

/* Opens a chip of this profile, whose bus has so many other nodes. */
static void opened(ccan_chip *closed, uint32_t profile, uint32_t nodes)
{
    EXPECT(ccan_open(closed, profile, nodes, 100) == CCAN_DONE);
}

/* Opens a chip with 32 objects and one other node, as after a reset, with this layout. */
static void reset(ccan_chip *closed, uint32_t layout) { EXPECT(ccan_open_reset(closed, 1, 1, 100, layout) == CCAN_DONE); }

/* ---- a host */

/* A register, by its number or by its offset, and what it is set to. */
struct setting { uint32_t at; uint16_t value; };

/* Sets registers, each by its number. */
static void set_all(ccan_host *host, const struct setting *settings, size_t count)
{
    for (size_t i = 0; i < count; i++)
        EXPECT(ccan_set(host, settings[i].at, settings[i].value) == CCAN_DONE);
}

/* The register of this number as a host reads it. */
static uint16_t shown(ccan_host *host, uint32_t reg)
{
    uint16_t value = 7;
    EXPECT(ccan_get(host, reg, &value) == CCAN_DONE);
    return value;
}

/* The register at this offset as a host reads it. */
static uint16_t reads(ccan_host *host, uint32_t offset)
{
    uint16_t value = 7;
    EXPECT(ccan_read16(host, offset, &value) == CCAN_DONE);
    return value;
}

/* Writes registers, each by its offset. */
static void write_all(ccan_host *host, const struct setting *settings, size_t count)
{
    for (size_t i = 0; i < count; i++)
        EXPECT(ccan_write16(host, settings[i].at, settings[i].value) == CCAN_DONE);
}

/* Whether the interrupt line is pulled, as a host sees it. */
static uint32_t pulls(ccan_host *host)
{
    uint32_t pulled = 7;
    EXPECT(ccan_line(host, &pulled) == CCAN_DONE);
    return pulled;
}

/* ---- the tests */

static void a_chip_opens_and_ends(void)
{
    ccan_final last = nothing();
    EXPECT(ccan_end(&chip, &last) == CCAN_CLOSED);
    EXPECT(ccan_open(&chip, 3, 0, 100) == CCAN_PROFILE_RANGE);
    EXPECT(ccan_open(&chip, 1, 9, 100) == CCAN_NODES_RANGE);
    EXPECT(ccan_open(&chip, 2, 8, 0) == CCAN_TRIES_RANGE);
    EXPECT(!ccan_is_open(&chip));
    EXPECT(ccan_open(&chip, 2, 8, 1000) == CCAN_DONE);
    EXPECT(ccan_is_open(&chip));
    EXPECT(ccan_end(&chip, &last) == CCAN_DONE);
    EXPECT(last.objects == 64);
    EXPECT(!ccan_is_open(&chip));
}

/* Writes object 5: what its arbitration, its control and its first two bytes are set to. */
static const struct setting message[] = {
    { CCAN_CMASK, 0x00f3 }, { CCAN_ARB2, 0xa48c }, { CCAN_CTRL, 0x2088 }, { CCAN_DATAA1, 0x2211 } };

static void what_one_host_writes_the_other_reads(void)
{
    opened(&chip, 1, 0);
    set_all(&chip.if1, message, COUNT(message));
    EXPECT(ccan_request(&chip.if1, 5) == CCAN_DONE);
    EXPECT(ccan_set(&chip.if2, CCAN_CMASK, 0x007f) == CCAN_DONE);
    EXPECT(ccan_request(&chip.if2, 5) == CCAN_DONE);
    EXPECT(shown(&chip.if2, CCAN_ARB2) == 0xa48c);
    EXPECT(shown(&chip.if2, CCAN_DATAA1) == 0x2211);
}

static void registers_are_set_by_their_numbers(void)
{
    EXPECT(ccan_set(&chip.if1, CCAN_CMASK, 0x00f3) == CCAN_CLOSED);
    opened(&chip, 1, 0);
    EXPECT(ccan_set(&chip.if1, 10, 0x00f3) == CCAN_REGISTER_RANGE);
    EXPECT(ccan_set(&chip.if1, CCAN_DATAB2, 0x00f3) == CCAN_DONE);
}

/* The other host has read object 5 and cleared its IntPnd, which was the only one. */
static void a_host_sees_flags_and_waits(void)
{
    uint64_t word = 0;
    uint16_t value = 7;
    uint32_t shows = 7;
    opened(&chip, 1, 0);
    set_all(&chip.if1, message, COUNT(message));
    EXPECT(ccan_request(&chip.if1, 5) == CCAN_DONE);
    EXPECT(ccan_set(&chip.if2, CCAN_CMASK, 0x007f) == CCAN_DONE);
    EXPECT(ccan_request(&chip.if2, 5) == CCAN_DONE);
    EXPECT(ccan_flags(&chip.if1, CCAN_MSGVAL, &word) == CCAN_DONE);
    EXPECT(word == 0x10);
    EXPECT(ccan_flags(&chip.if1, 5, &word) == CCAN_FLAG_RANGE);
    EXPECT(ccan_interrupt(&chip.if2, &value) == CCAN_DONE);
    EXPECT(value == 0);
    EXPECT(ccan_until(&chip.if2, 5, CCAN_MSGVAL, 1, &shows) == CCAN_DONE);
    EXPECT(shows == 1);
    EXPECT(ccan_until(&chip.if2, 33, CCAN_MSGVAL, 1, &shows) == CCAN_OBJECT_RANGE);
    EXPECT(ccan_until(&chip.if2, 5, CCAN_MSGVAL, 0, &shows) == CCAN_TURNS_RANGE);
}

static void a_look_shows_the_record_and_leaves_the_registers(void)
{
    static const struct setting settings[] = { { CCAN_CMASK, 0x00f3 }, { CCAN_ARB2, 0xa48c }, { CCAN_DATAA1, 0x2211 } };
    ccan_record seen = no_record;
    EXPECT(ccan_peek(&chip.if1, 5, &seen) == CCAN_CLOSED);
    opened(&chip, 1, 0);
    set_all(&chip.if1, settings, COUNT(settings));
    EXPECT(ccan_request(&chip.if1, 5) == CCAN_DONE);
    EXPECT(ccan_peek(&chip.if2, 33, &seen) == CCAN_OBJECT_RANGE);
    EXPECT(seen.arbitration == 0);
    EXPECT(ccan_peek(&chip.if2, 5, &seen) == CCAN_DONE);
    EXPECT(seen.arbitration == 0xa48c0000);
    EXPECT(seen.bytes[0] == 0x11);
    EXPECT(shown(&chip.if2, CCAN_ARB2) == 0);
}

/* Here the chip as a whole is called between calls on its handles. */
static void the_ports_of_a_chip_meet(void)
{
    uint64_t word = 0;
    EXPECT(ccan_meet(&chip) == CCAN_CLOSED);
    EXPECT(ccan_open(&chip, 1, 0, 100) == CCAN_DONE);
    EXPECT(ccan_set(&chip.if1, CCAN_CMASK, 0x0090) == CCAN_DONE);
    EXPECT(ccan_set(&chip.if1, CCAN_CTRL, 0x8000) == CCAN_DONE);
    EXPECT(ccan_request(&chip.if1, 5) == CCAN_DONE);
    EXPECT(ccan_meet(&chip) == CCAN_DONE);
    EXPECT(ccan_is_open(&chip));
    EXPECT(ccan_bus_flags(&chip.bus, CCAN_NEWDAT, &word) == CCAN_DONE);
    EXPECT(word == 0x10);
    EXPECT(shown(&chip.if1, CCAN_CTRL) == 0x8000);
}

static void an_open_chip_opens_anew(void)
{
    ccan_final last = nothing();
    opened(&chip, 2, 0);
    EXPECT(ccan_open(&chip, 1, 0, 100) == CCAN_DONE);
    EXPECT(ccan_end(&chip, &last) == CCAN_DONE);
    EXPECT(last.objects == 32);
}

static void a_chip_that_ended_is_closed(void)
{
    ccan_final last = nothing();
    EXPECT(ccan_open(&chip, 1, 0, 1) == CCAN_DONE);
    EXPECT(ccan_set(&chip.if1, CCAN_CMASK, 0x0090) == CCAN_DONE);
    EXPECT(ccan_request(&chip.if1, 1) == CCAN_DONE);
    EXPECT(ccan_end(&chip, &last) == CCAN_DONE);
    EXPECT(ccan_request(&chip.if1, 1) == CCAN_CLOSED);
}

/* The frame 0x123 with two bytes, from a node. */
static ccan_offer offer(uint8_t node)
{
    return (ccan_offer){ .id = 0x123, .node = node, .xtd = 0, .rtr = 0, .dlc = 2, .bytes = { 0x11, 0x22 } };
}

/* The frames of a round in which no other node sends. */
static const ccan_offer nobody[1];

/* A place for an outcome. */
static ccan_outcome no_outcome(void) { return (ccan_outcome){ .kind = 77, .loaded = 77, .refused = 77, .winner = 77 }; }

/* What comes of a round with these frames and this fault. No step of it is refused: that takes another port at the same object
 * meanwhile, which one thread can't have. */
static ccan_outcome played(ccan_bus *bus, const ccan_offer *offers, size_t count, uint32_t fault)
{
    ccan_outcome outcome = no_outcome();
    EXPECT(ccan_round(bus, offers, count, fault, &outcome) == CCAN_DONE);
    return outcome;
}

/* What comes of a round in which no other node sends, and nothing is spoiled. */
static ccan_outcome played_alone(ccan_bus *bus) { return played(bus, nobody, 0, CCAN_QUIET); }

/* What comes of a round with this frame alone, which nothing spoils. */
static ccan_outcome played_with(ccan_bus *bus, ccan_offer sent) { return played(bus, &sent, 1, CCAN_QUIET); }

/* Receives frames 0x123 in object 5, with RxIE. */
static void receives(ccan_host *host)
{
    static const struct setting settings[] = { { CCAN_CMASK, 0x00f3 }, { CCAN_ARB2, 0x848c }, { CCAN_CTRL, 0x0488 } };
    set_all(host, settings, COUNT(settings));
    EXPECT(ccan_request(host, 5) == CCAN_DONE);
}

static void a_closed_chip_plays_no_round(void)
{
    ccan_outcome outcome = no_outcome();
    EXPECT(ccan_round(&chip.bus, nobody, 0, CCAN_QUIET, &outcome) == CCAN_CLOSED);
    EXPECT(outcome.kind == 77);
}

static void a_frame_is_stored(void)
{
    uint16_t word = 0;
    uint64_t newdat = 0;
    opened(&chip, 1, 1);
    receives(&chip.if1);
    const ccan_outcome outcome = played_with(&chip.bus, offer(1));
    EXPECT(outcome.kind == CCAN_RECEIVED);
    EXPECT(outcome.stored == 5);
    EXPECT(outcome.stored_record.control == 0xa482);
    EXPECT(ccan_status(&chip.bus, &word) == CCAN_DONE);
    EXPECT(word == 0x0010);
    EXPECT(ccan_bus_interrupt(&chip.bus, &word) == CCAN_DONE);
    EXPECT(word == 5);
    EXPECT(ccan_bus_flags(&chip.bus, CCAN_NEWDAT, &newdat) == CCAN_DONE);
    EXPECT(newdat == 0x10);
}

static void a_frame_is_stored_and_one_is_sent(void)
{
    static const struct setting sends[] = { { CCAN_CMASK, 0x00f3 }, { CCAN_ARB2, 0xa400 }, { CCAN_CTRL, 0x0981 } };
    ccan_loaded loaded = { .kind = 77, .object = 0, .held = no_record };
    opened(&chip, 1, 1);
    EXPECT(ccan_load(&chip.bus, &loaded) == CCAN_DONE);
    EXPECT(loaded.kind == CCAN_LOAD_NOTHING && loaded.frame.id == 0 && loaded.frame.dlc == 0);
    receives(&chip.if1);
    EXPECT(played_with(&chip.bus, offer(1)).stored == 5);
    set_all(&chip.if2, sends, COUNT(sends));
    EXPECT(ccan_request(&chip.if2, 2) == CCAN_DONE);
    EXPECT(ccan_load(&chip.bus, &loaded) == CCAN_DONE);
    EXPECT(loaded.kind == CCAN_LOAD_LOADED);
    EXPECT(loaded.object == 2);
    EXPECT(loaded.held.control == 0x0981);
    EXPECT(loaded.frame.id == 0x100 && loaded.frame.xtd == 0 && loaded.frame.rtr == 0 && loaded.frame.dlc == 1);
    memset(&loaded, 7, sizeof loaded);
    EXPECT(ccan_load(&chip.bus, &loaded) == CCAN_DONE);
    EXPECT(loaded.kind == CCAN_LOAD_HELD && loaded.object == 2);
    EXPECT(loaded.held.control == 0x0981 && loaded.frame.id == 0x100 && loaded.frame.dlc == 1);
    const ccan_outcome outcome = played_alone(&chip.bus);
    EXPECT(outcome.kind == CCAN_SENT);
    EXPECT(outcome.object == 2);
    EXPECT(outcome.finished.control == 0x2881);
}

/* Asks for the frame 0x100 with one byte to be sent, in object 2. */
static void asks_to_send(ccan_host *host)
{
    static const struct setting settings[] = {
        { CCAN_CMASK, 0x00f3 }, { CCAN_ARB2, 0xa400 }, { CCAN_CTRL, 0x0981 }, { CCAN_DATAA1, 0x0077 } };
    set_all(host, settings, COUNT(settings));
    EXPECT(ccan_request(host, 2) == CCAN_DONE);
}

/* The load of the controller's next frame. */
static uint32_t loads(ccan_bus *bus)
{
    ccan_loaded loaded = { .kind = CCAN_LOAD_NOTHING, .object = 0, .held = no_record };
    EXPECT(ccan_load(bus, &loaded) == CCAN_DONE);
    return loaded.object;
}

/* Whether an outcome tells this beside its kind: the object that the round itself loaded, the step that was refused, and the
 * node whose frame was on the bus. */
static bool beside(const ccan_outcome *outcome, uint32_t loaded, uint32_t refused, uint32_t winner)
{
    return outcome->loaded == loaded && outcome->refused == refused && outcome->winner == winner;
}

/* Whether a frame has this identifier and these switches. */
static bool is_named(const ccan_frame *frame, uint32_t id, uint8_t xtd, uint8_t rtr)
{
    return frame->id == id && frame->xtd == xtd && frame->rtr == rtr;
}

/* Whether the data of a frame is these two bytes, and 0 past them. */
static bool has_data(const ccan_frame *frame, uint8_t first, uint8_t second)
{
    const uint8_t bytes[8] = { first, second };
    return memcmp(frame->bytes, bytes, sizeof bytes) == 0;
}

static void a_round_tells_that_the_controllers_frame_was_on_the_bus(void)
{
    const ccan_offer theirs = offer(1);
    opened(&chip, 1, 1);
    asks_to_send(&chip.if1);
    /* Spoiled, and loaded by the round itself. */
    const ccan_outcome spoiled = played(&chip.bus, &theirs, 1, CCAN_STUFF);
    EXPECT(spoiled.kind == CCAN_FAULT);
    EXPECT(beside(&spoiled, 2, CCAN_STEP_NONE, 0));
    EXPECT(spoiled.frame.id == 0x100);
    EXPECT(spoiled.frame.dlc == 1);
    EXPECT(has_data(&spoiled.frame, 0x77, 0));
    /* Sent, and loaded by an earlier load. */
    EXPECT(loads(&chip.bus) == 2);
    const ccan_outcome sent = played_alone(&chip.bus);
    EXPECT(sent.kind == CCAN_SENT);
    EXPECT(beside(&sent, 0, CCAN_STEP_NONE, 0));
    EXPECT(sent.frame.id == 0x100);
}

static void a_round_tells_which_frame_nobody_acknowledged(void)
{
    opened(&chip, 1, 0);
    asks_to_send(&chip.if1);
    const ccan_outcome unheard = played_alone(&chip.bus);
    EXPECT(unheard.kind == CCAN_NO_ACK);
    EXPECT(beside(&unheard, 2, CCAN_STEP_NONE, 0));
    EXPECT(unheard.frame.id == 0x100);
}

/* An extended remote frame from node 2, whose first eleven bits are those of the standard frame 0x123. */
static ccan_offer remote(void)
{
    ccan_offer asks = offer(2);
    asks.id = 0x123 << 18;
    asks.xtd = 7;
    asks.rtr = 7;
    return asks;
}

static void an_idle_round_tells_of_no_frame(void)
{
    opened(&chip, 1, 2);
    const ccan_outcome idle = played_alone(&chip.bus);
    EXPECT(idle.kind == CCAN_IDLE);
    EXPECT(beside(&idle, 0, CCAN_STEP_NONE, CCAN_NO_NODE));
    EXPECT(idle.frame.id == 0);
}

static void a_round_tells_which_nodes_frame_was_on_the_bus(void)
{
    const ccan_offer both[] = { remote(), offer(1) };
    opened(&chip, 1, 2);
    /* The standard frame goes on. */
    const ccan_outcome received = played(&chip.bus, both, COUNT(both), CCAN_QUIET);
    EXPECT(received.kind == CCAN_RECEIVED);
    EXPECT(beside(&received, 0, CCAN_STEP_NONE, 1));
    EXPECT(is_named(&received.frame, 0x123, 0, 0));
    EXPECT(received.frame.dlc == 2);
    EXPECT(has_data(&received.frame, 0x11, 0x22));
}

static void a_round_tells_which_remote_frame_was_on_the_bus(void)
{
    opened(&chip, 1, 2);
    const ccan_outcome asked = played_with(&chip.bus, remote());
    EXPECT(asked.winner == 2);
    EXPECT(is_named(&asked.frame, 0x48c0000, 1, 1));
    EXPECT(asked.frame.dlc == 2);
    EXPECT(has_data(&asked.frame, 0, 0));
}

static void a_collision_tells_of_no_frame(void)
{
    const ccan_offer both[] = { offer(1), offer(2) };
    opened(&chip, 1, 2);
    EXPECT(played_with(&chip.bus, remote()).winner == 2);
    const ccan_outcome collided = played(&chip.bus, both, COUNT(both), CCAN_QUIET);
    EXPECT(collided.kind == CCAN_COLLISION);
    EXPECT(collided.winner == CCAN_NO_NODE);
    EXPECT(collided.frame.id == 0);
}

static void frames_out_of_range_are_refused(void)
{
    ccan_outcome outcome = no_outcome();
    ccan_offer wide = offer(1);
    const ccan_offer first = offer(1), second = offer(2);
    const ccan_offer nine[9] = { first, first, first, first, first, first, first, first, first };
    opened(&chip, 2, 1);
    EXPECT(ccan_round(&chip.bus, nine, COUNT(nine), CCAN_QUIET, &outcome) == CCAN_FRAMES_RANGE);
    wide.id = 0x800;
    EXPECT(ccan_round(&chip.bus, &wide, 1, CCAN_QUIET, &outcome) == CCAN_FRAME_RANGE);
    EXPECT(ccan_round(&chip.bus, &first, 1, 6, &outcome) == CCAN_FAULT_RANGE);
    EXPECT(ccan_round(&chip.bus, &second, 1, CCAN_QUIET, &outcome) == CCAN_SENDERS);
    EXPECT(outcome.kind == 77);
}

/* Whether a node's counters and state are these. */
static bool counted(const ccan_counts *counts, uint32_t tec, uint32_t rec, uint32_t state)
{
    return counts->tec == tec && counts->rec == rec && counts->state == state;
}

static void numbers_out_of_range_are_refused(void)
{
    ccan_counts counts = { .tec = 9, .rec = 9, .state = 9 };
    uint32_t state = 9;
    opened(&chip, 2, 1);
    EXPECT(ccan_counters(&chip.bus, 2, &counts) == CCAN_NODE_RANGE);
    EXPECT(ccan_counters(&chip.bus, 1, &counts) == CCAN_DONE);
    EXPECT(counted(&counts, 0, 0, CCAN_ACTIVE));
    EXPECT(ccan_recessive(&chip.bus, 0, &state) == CCAN_GROUPS_RANGE);
    EXPECT(ccan_recessive(&chip.bus, 128, &state) == CCAN_DONE);
    EXPECT(state == CCAN_ACTIVE);
}

/* ---- registers by their offsets */

/* Control, Bit Timing, and of IF1 Command Request and both masks, whose reserved bit reads 0. */
static void a_chip_opens_as_after_a_reset(void)
{
    EXPECT(ccan_open_reset(&other, 1, 1, 0, 3) == CCAN_TRIES_RANGE);
    EXPECT(ccan_open_reset(&other, 1, 1, 100, 3) == CCAN_LAYOUT_RANGE);
    EXPECT(!ccan_is_open(&other));
    reset(&chip, CCAN_LAYOUT_C_CAN);
    EXPECT(reads(&chip.if1, CCAN_OFFSET_CONTROL) == 0x0001);
    EXPECT(reads(&chip.if1, CCAN_OFFSET_BIT_TIMING) == 0x2301);
    EXPECT(reads(&chip.if1, CCAN_OFFSET_IF1_COMMAND_REQUEST) == 0x0001);
    EXPECT(reads(&chip.if1, CCAN_OFFSET_IF1_MASK_1) == 0xffff);
    EXPECT(reads(&chip.if1, CCAN_OFFSET_IF1_MASK_2) == 0xdfff);
}

/* Bit Timing stands at twice its offset, and at 0x0c with D_CAN. */
static void a_layout_has_its_offsets(void)
{
    ccan_chip *wide = &chip, *dcan = &other;
    uint16_t value = 7;
    reset(wide, CCAN_LAYOUT_C_CAN_32);
    EXPECT(reads(&wide->if1, 0x0c) == 0x2301);
    reset(dcan, CCAN_LAYOUT_D_CAN);
    EXPECT(reads(&dcan->if1, 0x0c) == 0x2301);
    EXPECT(ccan_read16(&dcan->if1, 0x06, &value) == CCAN_OFFSET_RANGE);
    EXPECT(ccan_write16(&wide->if1, 0x0e, 0) == CCAN_OFFSET_RANGE);
    EXPECT(value == 7);
}

static void another_interface_is_refused(void)
{
    uint16_t value = 7;
    reset(&chip, CCAN_LAYOUT_C_CAN);
    EXPECT(ccan_read16(&chip.if1, CCAN_OFFSET_IF2_COMMAND_REQUEST, &value) == CCAN_OTHER_INTERFACE);
    EXPECT(ccan_write16(&chip.if2, CCAN_OFFSET_IF1_COMMAND_MASK, 0x00f3) == CCAN_OTHER_INTERFACE);
    EXPECT(ccan_bus_read16(&chip.bus, CCAN_OFFSET_IF1_COMMAND_REQUEST, &value) == CCAN_OTHER_INTERFACE);
    EXPECT(ccan_bus_write16(&chip.bus, CCAN_OFFSET_IF2_DATA_B2, 1) == CCAN_OTHER_INTERFACE);
    EXPECT(value == 7);
    EXPECT(ccan_read16(&other.if1, CCAN_OFFSET_CONTROL, &value) == CCAN_CLOSED);
    EXPECT(ccan_write16(&other.if1, CCAN_OFFSET_CONTROL, 0) == CCAN_CLOSED);
}

/* Bit Timing takes a write while Init and CCE are 1, and keeps what it has without CCE. */
static void bit_timing_is_written_while_it_is_configured(void)
{
    static const struct setting early[] = { { CCAN_OFFSET_BIT_TIMING, 0x1c00 } };
    static const struct setting settings[] = {
        { CCAN_OFFSET_CONTROL, 0x0041 }, { CCAN_OFFSET_BIT_TIMING, 0x9c00 }, { CCAN_OFFSET_BRP_EXTENSION, 0x00f5 } };
    reset(&chip, CCAN_LAYOUT_C_CAN);
    write_all(&chip.if1, early, COUNT(early));
    EXPECT(reads(&chip.if2, CCAN_OFFSET_BIT_TIMING) == 0x2301);
    write_all(&chip.if1, settings, COUNT(settings));
    EXPECT(reads(&chip.if2, CCAN_OFFSET_BIT_TIMING) == 0x1c00);
    EXPECT(reads(&chip.if2, CCAN_OFFSET_BRP_EXTENSION) == 0x0005);
}

/* Writes Control. */
static void write_control(ccan_host *host, uint16_t value)
{
    EXPECT(ccan_write16(host, CCAN_OFFSET_CONTROL, value) == CCAN_DONE);
}

/* Sets object 5 up, which then receives frames 0x123 with RxIE, and starts with IE, SIE and EIE. */
static void starts(ccan_host *host)
{
    static const struct setting settings[] = {
        { CCAN_OFFSET_IF1_COMMAND_MASK, 0x00f3 }, { CCAN_OFFSET_IF1_ARBITRATION_2, 0x848c },
        { CCAN_OFFSET_IF1_MESSAGE_CONTROL, 0x0488 }, { CCAN_OFFSET_IF1_COMMAND_REQUEST, 5 } };
    write_all(host, settings, COUNT(settings));
    write_control(host, 0x000e);
}

static void a_frame_is_received_by_interrupt(void)
{
    static const struct setting fetches[] = {
        { CCAN_OFFSET_IF1_COMMAND_MASK, 0x007f }, { CCAN_OFFSET_IF1_COMMAND_REQUEST, 5 } };
    reset(&chip, CCAN_LAYOUT_C_CAN);
    starts(&chip.if1);
    EXPECT(pulls(&chip.if1) == 0);
    EXPECT(played_with(&chip.bus, offer(1)).stored == 5);
    EXPECT(pulls(&chip.if1) == 1);
    EXPECT(reads(&chip.if1, CCAN_OFFSET_INTERRUPT) == 0x8000);
    EXPECT(reads(&chip.if1, CCAN_OFFSET_STATUS) == 0x0010);
    EXPECT(reads(&chip.if1, CCAN_OFFSET_INTERRUPT) == 5);
    EXPECT(reads(&chip.if2, CCAN_OFFSET_INTERRUPT_PENDING_1) == 0x0010);
    write_all(&chip.if1, fetches, COUNT(fetches));
    EXPECT(reads(&chip.if1, CCAN_OFFSET_IF1_DATA_A1) == 0x2211);
    EXPECT(pulls(&chip.if1) == 0);
}

/* While Init is 1 nobody acknowledges what node 1 sends. */
static void the_bus_reads_and_writes_registers(void)
{
    uint16_t value = 7;
    uint32_t pulled = 7;
    reset(&chip, CCAN_LAYOUT_C_CAN);
    EXPECT(ccan_bus_read16(&chip.bus, CCAN_OFFSET_CONTROL, &value) == CCAN_DONE);
    EXPECT(value == 0x0001);
    EXPECT(played_with(&chip.bus, offer(1)).kind == CCAN_NO_ACK);
    EXPECT(ccan_bus_write16(&chip.bus, CCAN_OFFSET_CONTROL, 0x0006) == CCAN_DONE);
    EXPECT(ccan_bus_line(&chip.bus, &pulled) == CCAN_DONE);
    EXPECT(pulled == 0);
    EXPECT(played_with(&chip.bus, offer(1)).kind == CCAN_RECEIVED);
    EXPECT(ccan_bus_line(&chip.bus, &pulled) == CCAN_DONE);
    EXPECT(pulled == 1);
}

/* A read of Status leaves the flags of a C_CAN. */
static void a_read_of_status_leaves_its_flags(void)
{
    reset(&chip, CCAN_LAYOUT_C_CAN);
    write_control(&chip.if1, 0);
    EXPECT(played_with(&chip.bus, offer(1)).kind == CCAN_RECEIVED);
    EXPECT(reads(&chip.if1, CCAN_OFFSET_STATUS) == 0x0010);
    EXPECT(reads(&chip.if2, CCAN_OFFSET_STATUS) == 0x0010);
    EXPECT(ccan_write16(&chip.if1, CCAN_OFFSET_STATUS, 0xffef) == CCAN_DONE);
    EXPECT(reads(&chip.if1, CCAN_OFFSET_STATUS) == 0x000f);
}

/* A read of Status clears those of a D_CAN, and sets LEC 7. */
static void a_read_of_status_clears_a_dcan(void)
{
    reset(&chip, CCAN_LAYOUT_D_CAN);
    write_control(&chip.if1, 0);
    EXPECT(played_with(&chip.bus, offer(1)).kind == CCAN_RECEIVED);
    EXPECT(reads(&chip.if1, 0x04) == 0x0010);
    EXPECT(reads(&chip.if2, 0x04) == 0x0007);
}

/* Object 2 sends 0x100 with a byte: Arbitration 2, Message Control, Data A1, the command and its request; and Init is cleared. */
static const struct { uint32_t offset; uint16_t value; } sends_of_dcan[] = {
    { 0x10a, 0xa400 }, { 0x10c, 0x0081 }, { 0x110, 0x0011 }, { 0x102, 0x00b6 }, { 0x100, 2 }, { 0x000, 0 } };

static void sends_by_dcan(void)
{
    for (size_t i = 0; i < COUNT(sends_of_dcan); i++)
        EXPECT(ccan_write16(&chip.if1, sends_of_dcan[i].offset, sends_of_dcan[i].value) == CCAN_DONE);
}

/* New data for a frame on its way, by a command with WR/RD, TxRqst/NewDat and Data A, is sent behind it. */
static void a_command_of_a_dcan_sends_new_data(void)
{
    reset(&chip, CCAN_LAYOUT_D_CAN);
    sends_by_dcan();
    EXPECT(loads(&chip.bus) == 2);
    EXPECT(ccan_write16(&chip.if1, 0x110, 0x0022) == CCAN_DONE);
    EXPECT(ccan_write16(&chip.if1, 0x102, 0x0086) == CCAN_DONE);
    EXPECT(ccan_write16(&chip.if1, 0x100, 2) == CCAN_DONE);
    EXPECT(reads(&chip.if1, 0x10c) == 0x8181);
    EXPECT(played_alone(&chip.bus).frame.bytes[0] == 0x11);
    EXPECT(played_alone(&chip.bus).frame.bytes[0] == 0x22);
    EXPECT(played_alone(&chip.bus).kind == CCAN_IDLE);
}

/* SWR with Init: the error counters too, and what was loaded. SWR without Init is dropped. */
static void a_dcan_is_reset_by_software(void)
{
    reset(&chip, CCAN_LAYOUT_D_CAN);
    sends_by_dcan();
    EXPECT(ccan_write16(&chip.if1, 0x00, 0x8000) == CCAN_DONE);
    EXPECT(reads(&chip.if1, 0x00) == 0x1400);
    EXPECT(loads(&chip.bus) == 2);
    EXPECT(ccan_write16(&chip.if1, 0x00, 0x8001) == CCAN_DONE);
    EXPECT(reads(&chip.if1, 0x00) == 0x1401);
    EXPECT(reads(&chip.if1, 0x04) == 0x0007);
    EXPECT(reads(&chip.if1, 0x08) == 0);
    EXPECT(reads(&chip.if1, 0xc4) == 0);
    write_control(&chip.if1, 0);
    EXPECT(played_alone(&chip.bus).kind == CCAN_IDLE);
}

/* ---- local power down of a D_CAN: PDR is bit 24 of Control, PDA bit 10 of Error and Status */

enum { UPPER_CONTROL = 0x02, ERROR_AND_STATUS = 0x04, PDR = 0x0100, PDA = 0x0400 };

/* Whether the chip is in local power down. */
static uint32_t powers_down(ccan_bus *bus)
{
    uint32_t is_down = 7;
    EXPECT(ccan_power_down(bus, &is_down) == CCAN_DONE);
    return is_down;
}

/* What is requested is sent first. Then Init is set, and nobody acknowledges what node 1 sends, until a host has cleared PDR and then
 * Init. */
static void a_dcan_powers_down_and_wakes(void)
{
    reset(&chip, CCAN_LAYOUT_D_CAN);
    sends_by_dcan();
    EXPECT(powers_down(&chip.bus) == 0);
    EXPECT(ccan_write16(&chip.if2, UPPER_CONTROL, 0xffff) == CCAN_DONE);
    EXPECT(reads(&chip.if1, UPPER_CONTROL) == PDR && reads(&chip.if1, 0x00) == 0x1400);
    EXPECT(powers_down(&chip.bus) == 0);
    EXPECT((reads(&chip.if1, ERROR_AND_STATUS) & PDA) == 0);
    EXPECT(played_alone(&chip.bus).kind == CCAN_SENT);
    EXPECT(powers_down(&chip.bus) == 1);
    EXPECT(reads(&chip.if1, 0x00) == 0x1401 && reads(&chip.if1, UPPER_CONTROL) == PDR);
    EXPECT(reads(&chip.if1, ERROR_AND_STATUS) == (PDA | 0x0008) && reads(&chip.if1, ERROR_AND_STATUS) == (PDA | 0x0007));
    EXPECT(played_with(&chip.bus, offer(1)).kind == CCAN_NO_ACK);
    EXPECT(ccan_write16(&chip.if1, UPPER_CONTROL, 0xfeff) == CCAN_DONE);
    EXPECT(reads(&chip.if1, ERROR_AND_STATUS) == 0x0007 && reads(&chip.if1, 0x00) == 0x1401);
    EXPECT(powers_down(&chip.bus) == 0);
    write_control(&chip.if1, 0);
    EXPECT(powers_down(&chip.bus) == 0);
    EXPECT(played_with(&chip.bus, offer(1)).kind == CCAN_RECEIVED);
}

/* A frame that is requested in local power down waits for Init. */
static void a_request_waits_for_a_dcan_to_wake(void)
{
    reset(&chip, CCAN_LAYOUT_D_CAN);
    write_control(&chip.if1, 0);
    EXPECT(ccan_write8(&chip.if1, UPPER_CONTROL, 0xff) == CCAN_DONE && reads(&chip.if1, UPPER_CONTROL) == 0);
    EXPECT(ccan_write8(&chip.if1, UPPER_CONTROL + 1, 0xff) == CCAN_DONE && reads(&chip.if1, UPPER_CONTROL) == PDR);
    EXPECT(powers_down(&chip.bus) == 1);
    asks_to_send(&chip.if1);
    EXPECT(loads(&chip.bus) == 0 && powers_down(&chip.bus) == 1);
    EXPECT(ccan_write32(&chip.if1, 0x00, 0) == CCAN_DONE && reads(&chip.if1, UPPER_CONTROL) == 0);
    EXPECT(played_alone(&chip.bus).kind == CCAN_SENT);
}

/* Each reset clears PDR, and a write of the lower half of Control leaves it. PDA is 1 too if a host has set Init. */
static void a_reset_clears_pdr(void)
{
    reset(&chip, CCAN_LAYOUT_D_CAN);
    EXPECT(ccan_write16(&chip.if1, UPPER_CONTROL, PDR) == CCAN_DONE);
    write_control(&chip.if1, 0x0041);
    EXPECT(reads(&chip.if1, UPPER_CONTROL) == PDR);
    EXPECT(powers_down(&chip.bus) == 1 && reads(&chip.if1, ERROR_AND_STATUS) == (PDA | 0x0007));
    EXPECT(ccan_write32(&chip.if1, 0x00, 0x01008001) == CCAN_DONE);
    EXPECT(reads(&chip.if1, UPPER_CONTROL) == 0 && reads(&chip.if1, 0x00) == 0x1401);
    EXPECT(ccan_write16(&chip.if1, UPPER_CONTROL, PDR) == CCAN_DONE && ccan_write16(&chip.if1, 0x00, 0x8001) == CCAN_DONE);
    EXPECT(reads(&chip.if1, UPPER_CONTROL) == 0);
    EXPECT(ccan_write16(&chip.if1, UPPER_CONTROL, PDR) == CCAN_DONE && ccan_reset(&chip) == CCAN_DONE);
    EXPECT(reads(&chip.if1, UPPER_CONTROL) == 0 && powers_down(&chip.bus) == 0);
}

/* A C_CAN has no PDR, whatever is written to it, and ccan_status has no PDA. */
static void only_a_dcan_powers_down(void)
{
    uint32_t is_down = 7;
    uint16_t status = 7;
    EXPECT(ccan_power_down(&other.bus, &is_down) == CCAN_CLOSED && is_down == 7);
    reset(&chip, CCAN_LAYOUT_C_CAN);
    write_control(&chip.if1, 0);
    EXPECT(ccan_write32(&chip.if1, 0x00, 0x01000000) == CCAN_DONE && powers_down(&chip.bus) == 0);
    reset(&other, CCAN_LAYOUT_C_CAN_32);
    EXPECT(ccan_write32(&other.if1, 0x00, 0x01000000) == CCAN_DONE && powers_down(&other.bus) == 0);
    EXPECT(ccan_write16(&other.if1, 0x02, PDR) == CCAN_OFFSET_RANGE);
    reset(&chip, CCAN_LAYOUT_D_CAN);
    EXPECT(ccan_write16(&chip.if1, UPPER_CONTROL, PDR) == CCAN_DONE && powers_down(&chip.bus) == 1);
    EXPECT(ccan_status(&chip.bus, &status) == CCAN_DONE && status == 0x0007);
}

/* PDR is saved with the chip: bit 62 of the controller's word, which begins at byte 48. */
static void a_saved_dcan_is_in_power_down(void)
{
    static ccan_saved saved;
    reset(&chip, CCAN_LAYOUT_D_CAN);
    EXPECT(ccan_save(&chip, &saved) == CCAN_DONE && saved.bytes[55] == 0x20); /* has left the bus, bit 61 */
    EXPECT(ccan_write16(&chip.if1, UPPER_CONTROL, PDR) == CCAN_DONE && ccan_save(&chip, &saved) == CCAN_DONE);
    EXPECT(saved.bytes[55] == 0x60);
    EXPECT(ccan_restore(&other, &saved) == CCAN_DONE && powers_down(&other.bus) == 1);
    EXPECT(reads(&other.if1, UPPER_CONTROL) == PDR && reads(&other.if1, ERROR_AND_STATUS) == (PDA | 0x0007));
    saved.bytes[55] = 0xa0; /* no chip has bit 63 */
    EXPECT(ccan_restore(&other, &saved) == CCAN_NO_SAVED_CHIP && powers_down(&other.bus) == 1);
}

/* ---- words of 32 bits, and bytes */

/* Receives frames 0x123 in object 5 of a D_CAN: Arbitration, Message Control, and the command with its mask above. */
static const struct { uint32_t offset, value; } receives_32[] = {
    { 0x108, 0x848c0000 }, { 0x10c, 0x00000488 }, { 0x100, 0x00f30005 }, { 0x000, 0 } };

static void a_frame_is_received_by_words_of_32_bits(void)
{
    uint32_t word = 7;
    reset(&chip, CCAN_LAYOUT_D_CAN);
    for (size_t i = 0; i < COUNT(receives_32); i++)
        EXPECT(ccan_write32(&chip.if1, receives_32[i].offset, receives_32[i].value) == CCAN_DONE);
    EXPECT(played_with(&chip.bus, offer(1)).stored == 5);
    EXPECT(ccan_write32(&chip.if1, 0x100, 0x007f0005) == CCAN_DONE);
    EXPECT(ccan_read32(&chip.if1, 0x110, &word) == CCAN_DONE);
    EXPECT(word == 0x00002211);
}

/* Of Control the upper half has PDR alone; Bit Timing is the lower half of its word, and BRP Extension the upper one. */
static void the_bus_reads_and_writes_words_of_32_bits(void)
{
    uint32_t word = 7;
    reset(&chip, CCAN_LAYOUT_D_CAN);
    EXPECT(ccan_bus_write32(&chip.bus, 0x000, 0xffff0041) == CCAN_DONE);
    EXPECT(ccan_bus_read32(&chip.bus, 0x000, &word) == CCAN_DONE);
    EXPECT(word == 0x01001441);
    EXPECT(ccan_bus_write32(&chip.bus, 0x000, 0xfeff0041) == CCAN_DONE);
    EXPECT(ccan_bus_read32(&chip.bus, 0x000, &word) == CCAN_DONE);
    EXPECT(word == 0x00001441);
    EXPECT(ccan_bus_write32(&chip.bus, 0x00c, 0x00051c00) == CCAN_DONE);
    EXPECT(ccan_bus_read32(&chip.bus, 0x00c, &word) == CCAN_DONE);
    EXPECT(word == 0x00051c00);
}

/* Receives frames 0x123 in object 5, as `receives` by bytes: the upper byte of Command Request starts nothing. */
static const struct { uint32_t offset; uint8_t value; } receives_8[] = {
    { CCAN_OFFSET_IF1_COMMAND_MASK, 0xf3 }, { CCAN_OFFSET_IF1_ARBITRATION_2, 0x8c }, { CCAN_OFFSET_IF1_ARBITRATION_2 + 1, 0x84 },
    { CCAN_OFFSET_IF1_MESSAGE_CONTROL, 0x88 }, { CCAN_OFFSET_IF1_MESSAGE_CONTROL + 1, 0x04 },
    { CCAN_OFFSET_IF1_COMMAND_REQUEST + 1, 0x05 } };

static void a_frame_is_received_by_bytes(void)
{
    uint8_t byte = 7;
    reset(&chip, CCAN_LAYOUT_C_CAN);
    for (size_t i = 0; i < COUNT(receives_8); i++)
        EXPECT(ccan_write8(&chip.if1, receives_8[i].offset, receives_8[i].value) == CCAN_DONE);
    EXPECT(reads(&chip.if1, CCAN_OFFSET_IF1_ARBITRATION_2) == 0x848c);
    EXPECT(reads(&chip.if1, CCAN_OFFSET_MESSAGE_VALID_1) == 0);
    EXPECT(ccan_write8(&chip.if1, CCAN_OFFSET_IF1_COMMAND_REQUEST, 5) == CCAN_DONE);
    EXPECT(reads(&chip.if1, CCAN_OFFSET_MESSAGE_VALID_1) == 0x0010);
    EXPECT(ccan_write8(&chip.if1, CCAN_OFFSET_CONTROL, 0) == CCAN_DONE);
    EXPECT(played_with(&chip.bus, offer(1)).stored == 5);
    EXPECT(ccan_write8(&chip.if1, CCAN_OFFSET_IF1_COMMAND_MASK, 0x7f) == CCAN_DONE);
    EXPECT(ccan_write8(&chip.if1, CCAN_OFFSET_IF1_COMMAND_REQUEST, 5) == CCAN_DONE);
    EXPECT(ccan_read8(&chip.if1, CCAN_OFFSET_IF1_DATA_A1, &byte) == CCAN_DONE && byte == 0x11);
    EXPECT(ccan_read8(&chip.if1, CCAN_OFFSET_IF1_DATA_A1 + 1, &byte) == CCAN_DONE && byte == 0x22);
}

/* Where no register begins at the even offset, and where it is another port's, also the upper byte of Command Request. */
static void bytes_out_of_range_are_refused(void)
{
    uint8_t byte = 7;
    reset(&chip, CCAN_LAYOUT_C_CAN_32);
    EXPECT(ccan_read8(&chip.if1, 0x02, &byte) == CCAN_OFFSET_RANGE);
    EXPECT(ccan_write8(&chip.if1, 0x03, 1) == CCAN_OFFSET_RANGE);
    EXPECT(ccan_bus_read8(&chip.bus, 0xffffffff, &byte) == CCAN_OFFSET_RANGE);
    EXPECT(ccan_bus_write8(&chip.bus, 0x800, 1) == CCAN_OFFSET_RANGE);
    EXPECT(ccan_read8(&chip.if1, 0x81, &byte) == CCAN_OTHER_INTERFACE);
    EXPECT(ccan_write8(&chip.if1, 0x81, 1) == CCAN_OTHER_INTERFACE);
    EXPECT(ccan_bus_read8(&chip.bus, 0x20, &byte) == CCAN_OTHER_INTERFACE);
    EXPECT(ccan_bus_write8(&chip.bus, 0x20, 1) == CCAN_OTHER_INTERFACE);
    EXPECT(ccan_read8(&other.if1, 0x00, &byte) == CCAN_CLOSED);
    EXPECT(ccan_write8(&other.if1, 0x00, 0) == CCAN_CLOSED);
    EXPECT(ccan_bus_read8(&other.bus, 0x00, &byte) == CCAN_CLOSED);
    EXPECT(ccan_bus_write8(&other.bus, 0x00, 0) == CCAN_CLOSED);
    EXPECT(byte == 7);
}

/* At no multiple of 4, where neither half is a register, and where the lower or the upper half is another port's. */
static void words_out_of_range_are_refused(void)
{
    uint32_t word = 7;
    reset(&chip, CCAN_LAYOUT_D_CAN);
    EXPECT(ccan_read32(&chip.if1, 0x00e, &word) == CCAN_OFFSET_RANGE);
    EXPECT(ccan_write32(&chip.if1, 0x102, 0x00f30001) == CCAN_OFFSET_RANGE);
    EXPECT(ccan_read32(&chip.if1, 0xfffffffc, &word) == CCAN_OFFSET_RANGE);
    EXPECT(ccan_write32(&chip.if1, 0x800, 0) == CCAN_OFFSET_RANGE);
    EXPECT(ccan_read32(&chip.if1, 0x120, &word) == CCAN_OTHER_INTERFACE);
    EXPECT(ccan_write32(&chip.if1, 0x120, 1) == CCAN_OTHER_INTERFACE);
    EXPECT(ccan_bus_read32(&chip.bus, 0x100, &word) == CCAN_OTHER_INTERFACE);
    EXPECT(ccan_bus_write32(&chip.bus, 0x100, 1) == CCAN_OTHER_INTERFACE);
    EXPECT(word == 7);
}

/* SIE is set once the frame was there: the status interrupt was raised all the same. */
static void an_enable_shows_what_was_raised(void)
{
    uint16_t word = 7;
    opened(&chip, 1, 1);
    EXPECT(played_with(&chip.bus, offer(1)).kind == CCAN_RECEIVED);
    EXPECT(ccan_bus_interrupt(&chip.bus, &word) == CCAN_DONE);
    EXPECT(word == 0);
    EXPECT(ccan_control(&chip.bus, 1, 0) == CCAN_DONE);
    EXPECT(reads(&chip.if1, CCAN_OFFSET_CONTROL) == 0x0004);
    EXPECT(ccan_bus_interrupt(&chip.bus, &word) == CCAN_DONE);
    EXPECT(word == 0x8000);
    EXPECT(ccan_status(&chip.bus, &word) == CCAN_DONE);
    EXPECT(ccan_bus_interrupt(&chip.bus, &word) == CCAN_DONE);
    EXPECT(word == 0);
}

static void loop_back_mode_is_in_the_registers(void)
{
    opened(&chip, 1, 0);
    asks_to_send(&chip.if1);
    EXPECT(ccan_loop_back(&chip.bus, 1) == CCAN_DONE);
    EXPECT(reads(&chip.if2, CCAN_OFFSET_CONTROL) == 0x0080);
    EXPECT(reads(&chip.if2, CCAN_OFFSET_TEST) == 0x0090);
    EXPECT(played_alone(&chip.bus).kind == CCAN_LOOPED);
    EXPECT(ccan_loop_back(&chip.bus, 0) == CCAN_DONE);
    EXPECT(reads(&chip.if2, CCAN_OFFSET_CONTROL) == 0);
    EXPECT(played_alone(&chip.bus).kind == CCAN_IDLE);
}

/* Init is set while an object is loaded: it is dropped, and sent once Init is cleared. */
static void init_keeps_the_controller_out(void)
{
    opened(&chip, 1, 1);
    asks_to_send(&chip.if1);
    EXPECT(loads(&chip.bus) == 2);
    write_control(&chip.if1, 0x0001);
    EXPECT(loads(&chip.bus) == 0);
    EXPECT(played_alone(&chip.bus).kind == CCAN_IDLE);
    EXPECT(ccan_init(&chip.bus) == CCAN_DONE);
    EXPECT(reads(&chip.if1, CCAN_OFFSET_CONTROL) == 0);
    EXPECT(loads(&chip.bus) == 2);
    EXPECT(played_alone(&chip.bus).kind == CCAN_SENT);
}

/* Writes a byte into object 2, and asks for its frame to be sent. */
static void asks_again(ccan_host *host, uint16_t arbitration, uint16_t byte)
{
    const struct setting settings[] = {
        { CCAN_CMASK, 0x00f3 }, { CCAN_ARB2, arbitration }, { CCAN_CTRL, 0x8981 }, { CCAN_DATAA1, byte } };
    set_all(host, settings, COUNT(settings));
    EXPECT(ccan_request(host, 2) == CCAN_DONE);
}

/* Init is set and cleared again while an object is loaded, and the bus looks only then: what was loaded is dropped all the same, and
 * its object is chosen anew, with what it holds now. One frame goes out. */
static void init_set_and_cleared_drops_what_is_loaded(void)
{
    opened(&chip, 1, 1);
    asks_to_send(&chip.if1);
    EXPECT(loads(&chip.bus) == 2);
    write_control(&chip.if1, 0x0001);
    write_control(&chip.if1, 0);
    asks_again(&chip.if2, 0xa400, 0x0099);
    const ccan_outcome outcome = played_alone(&chip.bus);
    EXPECT(outcome.kind == CCAN_SENT);
    EXPECT(beside(&outcome, 2, CCAN_STEP_NONE, 0));
    EXPECT(has_data(&outcome.frame, 0x99, 0));
    EXPECT(played_alone(&chip.bus).kind == CCAN_IDLE);
}

/* Each object is of zeros afterwards, the first and the last too. The registers of the interface stay, and those of the controller. */
static void all_objects_are_cleared(void)
{
    static const ccan_record zero;
    ccan_chip other = CCAN_CHIP_CLOSED;
    ccan_record record;
    uint64_t valid;
    EXPECT(ccan_clear_objects(&other.if1) == CCAN_CLOSED);
    reset(&chip, CCAN_LAYOUT_D_CAN);
    for (uint16_t object = 1; object <= 32; object += 31) {
        EXPECT(ccan_set(&chip.if1, CCAN_CMASK, 0x00f3) == CCAN_DONE && ccan_set(&chip.if1, CCAN_ARB2, 0xbfff) == CCAN_DONE);
        EXPECT(ccan_set(&chip.if1, CCAN_CTRL, 0xff8f) == CCAN_DONE && ccan_set(&chip.if1, CCAN_DATAB2, 0x8877) == CCAN_DONE);
        EXPECT(ccan_request(&chip.if1, object) == CCAN_DONE);
    }
    EXPECT(ccan_flags(&chip.if1, CCAN_MSGVAL, &valid) == CCAN_DONE && valid == 0x80000001);
    EXPECT(ccan_clear_objects(&chip.if1) == CCAN_DONE);
    for (uint32_t object = 1; object <= 32; object++) {
        EXPECT(ccan_peek(&chip.if1, object, &record) == CCAN_DONE);
        EXPECT(record.arbitration == zero.arbitration && record.masks == zero.masks && record.control == zero.control);
        EXPECT(memcmp(record.bytes, zero.bytes, 8) == 0);
    }
    EXPECT(ccan_get(&chip.if1, CCAN_DATAB2, &record.control) == CCAN_DONE && record.control == 0x8877);
    EXPECT(reads(&chip.if2, 0x00) == 0x1401);
}

/* The chip is reset while an object is loaded: the frame is gone, and so is the request. What the object sends later is what it was
 * given later. */
static void a_reset_drops_what_is_loaded(void)
{
    reset(&chip, CCAN_LAYOUT_C_CAN);
    write_control(&chip.if1, 0);
    asks_to_send(&chip.if1);
    EXPECT(loads(&chip.bus) == 2);
    EXPECT(ccan_reset(&chip) == CCAN_DONE);
    write_control(&chip.if1, 0);
    EXPECT(played_alone(&chip.bus).kind == CCAN_IDLE);
    asks_again(&chip.if1, 0xa800, 0x0099);
    const ccan_outcome outcome = played_alone(&chip.bus);
    EXPECT(outcome.kind == CCAN_SENT);
    EXPECT(is_named(&outcome.frame, 0x200, 0, 0) && has_data(&outcome.frame, 0x99, 0));
    EXPECT(played_alone(&chip.bus).kind == CCAN_IDLE);
}

/* The controller's frames are spoiled 32 times, 8 for TEC each time: 256, bus off. */
static void goes_off(ccan_bus *bus)
{
    for (int i = 0; i < 32; i++)
        EXPECT(played(bus, nobody, 0, CCAN_BIT1).kind == CCAN_FAULT);
}

/* The controller's state after 128 groups of recessive bits. */
static uint32_t after_groups(ccan_bus *bus)
{
    uint32_t state = 9;
    EXPECT(ccan_recessive(bus, 128, &state) == CCAN_DONE);
    return state;
}

static void going_off_sets_init(void)
{
    ccan_counts counts = { .tec = 9, .rec = 9, .state = 9 };
    opened(&chip, 1, 1);
    asks_to_send(&chip.if1);
    goes_off(&chip.bus);
    EXPECT(reads(&chip.if2, CCAN_OFFSET_CONTROL) == 0x0001);
    EXPECT(reads(&chip.if2, CCAN_OFFSET_ERROR_COUNTER) == 0x00ff);
    EXPECT(ccan_counters(&chip.bus, 0, &counts) == CCAN_DONE);
    EXPECT(counted(&counts, 256, 0, CCAN_OFF));
    EXPECT(after_groups(&chip.bus) == CCAN_OFF);
    write_control(&chip.if2, 0);
    EXPECT(after_groups(&chip.bus) == CCAN_ACTIVE);
}

/* A chip is saved and opened again from its bytes. Others are refused, and leave the place as it is. */
static void a_saved_chip_opens_again(void)
{
    ccan_saved text, later;
    memset(&text, 7, sizeof text);
    opened(&chip, 1, 1);
    EXPECT(ccan_save(&other, &text) == CCAN_CLOSED);
    EXPECT(ccan_restore(&other, &text) == CCAN_NO_SAVED_CHIP);
    EXPECT(ccan_set(&chip.if1, CCAN_CMASK, 0x00f3) == CCAN_DONE);
    EXPECT(ccan_set(&chip.if1, CCAN_ARB2, 0xa400) == CCAN_DONE);
    EXPECT(ccan_set(&chip.if1, CCAN_CTRL, 0x0981) == CCAN_DONE);
    EXPECT(ccan_request(&chip.if1, 2) == CCAN_DONE);
    EXPECT(ccan_save(&chip, &text) == CCAN_DONE);
    later = text;
    later.bytes[8] = 3;
    EXPECT(ccan_restore(&other, &later) == CCAN_NO_SAVED_CHIP);
    EXPECT(!ccan_is_open(&other));
    EXPECT(ccan_restore(&other, &text) == CCAN_DONE);
    EXPECT(shown(&other.if1, CCAN_ARB2) == 0xa400);
    EXPECT(loads(&other.bus) == 2);
    EXPECT(played_alone(&other.bus).kind == CCAN_SENT);
}

/* The registers have the values of a reset, those of the flags among them; what else object 2 holds is as it was written. */
static void a_reset_leaves_the_data_of_the_message_ram(void)
{
    static const struct setting settings[] = {
        { CCAN_CMASK, 0x00f3 }, { CCAN_ARB2, 0xa400 }, { CCAN_CTRL, 0xf981 }, { CCAN_DATAA1, 0x0077 } };
    ccan_record seen = no_record;
    EXPECT(ccan_reset(&chip) == CCAN_CLOSED);
    opened(&chip, 1, 1);
    set_all(&chip.if1, settings, COUNT(settings));
    EXPECT(ccan_request(&chip.if1, 2) == CCAN_DONE);
    EXPECT(reads(&chip.if1, CCAN_OFFSET_INTERRUPT) == 2);
    EXPECT(ccan_reset(&chip) == CCAN_DONE);
    EXPECT(reads(&chip.if1, CCAN_OFFSET_TRANSMISSION_REQUEST_1) == 0);
    EXPECT(reads(&chip.if1, CCAN_OFFSET_NEW_DATA_1) == 0);
    EXPECT(reads(&chip.if1, CCAN_OFFSET_INTERRUPT_PENDING_1) == 0);
    EXPECT(reads(&chip.if1, CCAN_OFFSET_MESSAGE_VALID_1) == 0);
    EXPECT(reads(&chip.if1, CCAN_OFFSET_INTERRUPT) == 0);
    EXPECT(shown(&chip.if1, CCAN_ARB2) == 0);
    EXPECT(reads(&chip.if1, CCAN_OFFSET_CONTROL) == 0x0001);
    EXPECT(reads(&chip.if2, CCAN_OFFSET_IF2_MASK_1) == 0xffff);
    EXPECT(ccan_peek(&chip.if2, 2, &seen) == CCAN_DONE);
    EXPECT(seen.arbitration == 0x24000000);
    EXPECT(seen.control == 0x5881);
    EXPECT(seen.bytes[0] == 0x77);
}

/* ---- notes */

/* Writes object 5 whole by a host, with this in its first two data bytes. */
static void writes_object_5(ccan_host *host, uint16_t data)
{
    const struct setting settings[] = { { CCAN_CMASK, 0x00f3 }, { CCAN_CTRL, 0x8008 }, { CCAN_DATAA1, data } };
    set_all(host, settings, COUNT(settings));
    EXPECT(ccan_request(host, 5) == CCAN_DONE);
}

static void what_a_host_tells_the_other_heeds(void)
{
    ccan_note note = CCAN_NOTE_EMPTY;
    opened(&chip, 1, 0);
    writes_object_5(&chip.if1, 0x2211);
    EXPECT(ccan_heed(&chip.if2, &note) == CCAN_UNTOLD);
    EXPECT(ccan_tell(&chip.if1, &note) == CCAN_DONE);
    EXPECT(ccan_heed(&chip.if2, &note) == CCAN_DONE);
    EXPECT(ccan_heed(&chip.if2, &note) == CCAN_UNTOLD);
    EXPECT(ccan_set(&chip.if2, CCAN_CMASK, 0x0073) == CCAN_DONE && ccan_request(&chip.if2, 5) == CCAN_DONE);
    EXPECT(shown(&chip.if2, CCAN_DATAA1) == 0x2211 && shown(&chip.if2, CCAN_CTRL) == 0x8008);
}

static void what_the_bus_tells_a_host_heeds(void)
{
    ccan_note note = CCAN_NOTE_EMPTY;
    uint64_t word = 0;
    opened(&chip, 1, 0);
    EXPECT(ccan_bus_heed(&chip.bus, &note) == CCAN_UNTOLD);
    EXPECT(ccan_bus_tell(&chip.bus, &note) == CCAN_DONE && ccan_heed(&chip.if1, &note) == CCAN_DONE);
    writes_object_5(&chip.if1, 0x4433);
    EXPECT(ccan_tell(&chip.if1, &note) == CCAN_DONE && ccan_bus_heed(&chip.bus, &note) == CCAN_DONE);
    EXPECT(ccan_bus_flags(&chip.bus, CCAN_MSGVAL, &word) == CCAN_DONE && word == 0);
    EXPECT(ccan_bus_flags(&chip.bus, CCAN_NEWDAT, &word) == CCAN_DONE && word == 0x10);
}

static void a_note_is_told_anew_and_forgotten(void)
{
    ccan_note note = CCAN_NOTE_EMPTY;
    opened(&chip, 1, 0);
    EXPECT(ccan_forget(&note) == CCAN_DONE);
    EXPECT(ccan_tell(&chip.if1, &note) == CCAN_DONE && ccan_tell(&chip.if2, &note) == CCAN_DONE);
    EXPECT(ccan_forget(&note) == CCAN_DONE && ccan_heed(&chip.if1, &note) == CCAN_UNTOLD);
}

static void closed_handles_tell_and_heed_nothing(void)
{
    ccan_note note = CCAN_NOTE_EMPTY;
    EXPECT(ccan_tell(&chip.if1, &note) == CCAN_CLOSED && ccan_bus_tell(&chip.bus, &note) == CCAN_CLOSED);
    opened(&other, 1, 0);
    EXPECT(ccan_tell(&other.if1, &note) == CCAN_DONE);
    EXPECT(ccan_heed(&chip.if1, &note) == CCAN_CLOSED && ccan_bus_heed(&chip.bus, &note) == CCAN_CLOSED);
    EXPECT(ccan_bus_heed(&other.bus, &note) == CCAN_DONE);
}

/* ---- several chips on one bus; worked rounds of them are in network.c */

/* A member of this role that finds this error and sends nothing. */
static ccan_member listens(uint32_t role, uint32_t fault) { return (ccan_member){ .role = role, .fault = fault, .sends = 0 }; }

/* An active member that sends the frame 0x100 with this byte. */
static ccan_member sends(uint8_t byte)
{
    return (ccan_member){ .role = CCAN_ROLE_ACTIVE, .sends = 1, .frame = { .id = 0x100, .dlc = 1, .bytes = { byte } } };
}

/* What two members put on the bus. */
static ccan_wire wire_of(ccan_member first, ccan_member second)
{
    const ccan_member members[] = { first, second };
    ccan_wire wire = { .kind = 77 };
    EXPECT(ccan_decide(members, COUNT(members), &wire) == CCAN_DONE);
    return wire;
}

/* What a chip is to the bus at the start of a frame. */
static ccan_member begun(ccan_bus *bus)
{
    ccan_member member = listens(77, 77);
    EXPECT(ccan_begin(bus, &member) == CCAN_DONE);
    return member;
}

static bool is_member(ccan_member member, uint32_t role, uint32_t sends)
{
    return member.role == role && member.fault == CCAN_QUIET && member.sends == sends;
}

static void a_closed_chip_has_no_part_in_a_frame(void)
{
    const ccan_wire wire = wire_of(sends(1), listens(CCAN_ROLE_ACTIVE, CCAN_QUIET));
    ccan_member member = listens(77, 77);
    ccan_finished ended = { .event = 77 };
    EXPECT(ccan_begin(&chip.bus, &member) == CCAN_CLOSED && ccan_stay(&chip.bus, &member) == CCAN_CLOSED && member.role == 77);
    EXPECT(ccan_finish(&chip.bus, &wire, 0, CCAN_QUIET, &ended) == CCAN_CLOSED && ended.event == 77);
    EXPECT(ccan_retry_event(&chip.bus, &ended) == CCAN_CLOSED);
}

/* What is loaded stays loaded until an event of it; what ccan_load has loaded is dropped, and so the other way round. */
static void a_frame_begins_and_ends(void)
{
    ccan_finished ended = { .event = 77 };
    opened(&chip, 1, 0);
    EXPECT(is_member(begun(&chip.bus), CCAN_ROLE_ACTIVE, 0));
    asks_to_send(&chip.if1);
    EXPECT(loads(&chip.bus) == 2);
    const ccan_member member = begun(&chip.bus);
    EXPECT(is_member(member, CCAN_ROLE_ACTIVE, 1) && member.frame.id == 0x100 && has_data(&member.frame, 0x77, 0));
    EXPECT(is_member(begun(&chip.bus), CCAN_ROLE_ACTIVE, 1));
    const ccan_wire wire = wire_of(member, listens(CCAN_ROLE_ACTIVE, CCAN_QUIET));
    EXPECT(ccan_finish(&chip.bus, &wire, 0, CCAN_QUIET, &ended) == CCAN_DONE);
    EXPECT(ended.event == CCAN_EVENT_SENT && ended.object == 2 && ended.finished.control == 0x2881);
    EXPECT(ccan_finish(&chip.bus, &wire, 0, CCAN_QUIET, &ended) == CCAN_DONE && ended.event == CCAN_EVENT_NONE);
    EXPECT(is_member(begun(&chip.bus), CCAN_ROLE_ACTIVE, 0));
}

/* A silent chip hears, and loads nothing. */
static void a_silent_chip_receives(void)
{
    ccan_finished ended = { .event = 77 };
    opened(&chip, 1, 0);
    receives(&chip.if1);
    asks_to_send(&chip.if2);
    EXPECT(ccan_bus_write16(&chip.bus, CCAN_OFFSET_CONTROL, 0x0080) == CCAN_DONE);
    EXPECT(ccan_bus_write16(&chip.bus, CCAN_OFFSET_TEST, 0x0008) == CCAN_DONE);
    EXPECT(is_member(begun(&chip.bus), CCAN_ROLE_SILENT, 0));
    ccan_member sender = sends(1);
    sender.frame.id = 0x123;
    const ccan_wire wire = wire_of(sender, listens(CCAN_ROLE_ACTIVE, CCAN_QUIET));
    EXPECT(ccan_finish(&chip.bus, &wire, 31, CCAN_QUIET, &ended) == CCAN_DONE);
    EXPECT(ended.event == CCAN_EVENT_RECEIVED && ended.stored == 5 && ended.stored_record.bytes[0] == 1);
}

static void events_that_are_none_are_refused(void)
{
    ccan_counts counts;
    ccan_finished lost = { .event = CCAN_EVENT_ERROR, .code = 4, .counts = CCAN_COUNTS_SEND_ERROR };
    opened(&chip, 1, 0);
    EXPECT(ccan_retry_event(&chip.bus, &lost) == CCAN_DONE && ccan_retry_event(&chip.bus, &lost) == CCAN_DONE);
    EXPECT(ccan_counters(&chip.bus, 0, &counts) == CCAN_DONE && counts.tec == 16);
    lost.code = 7;
    EXPECT(ccan_retry_event(&chip.bus, &lost) == CCAN_EVENT_RANGE);
    lost.code = 4;
    lost.counts = 6;
    EXPECT(ccan_retry_event(&chip.bus, &lost) == CCAN_EVENT_RANGE);
    lost.counts = CCAN_COUNTS_NOTHING;
    EXPECT(ccan_retry_event(&chip.bus, &lost) == CCAN_EVENT_RANGE);
    lost.counts = CCAN_COUNTS_SEND_ERROR;
    lost.event = CCAN_EVENT_NONE;
    EXPECT(ccan_retry_event(&chip.bus, &lost) == CCAN_EVENT_RANGE);
    EXPECT(ccan_counters(&chip.bus, 0, &counts) == CCAN_DONE && counts.tec == 16);
}

static void ends_out_of_range_are_refused(void)
{
    const ccan_wire wire = wire_of(sends(1), listens(CCAN_ROLE_ACTIVE, CCAN_QUIET));
    ccan_wire wrong = wire;
    ccan_finished ended = { .event = 77 };
    wrong.kind = 6;
    opened(&chip, 1, 0);
    EXPECT(ccan_finish(&chip.bus, &wrong, 32, 6, &ended) == CCAN_WIRE_RANGE);
    wrong = wire;
    wrong.frame.dlc = 16;
    EXPECT(ccan_finish(&chip.bus, &wrong, 32, 6, &ended) == CCAN_WIRE_RANGE);
    EXPECT(ccan_finish(&chip.bus, &wire, 32, 6, &ended) == CCAN_PLACE_RANGE);
    EXPECT(ccan_finish(&chip.bus, &wire, 31, 6, &ended) == CCAN_FAULT_RANGE && ended.event == 77);
}

static void members_out_of_range_are_refused(void)
{
    static const ccan_member many[33];
    const ccan_wire start = wire_of(sends(1), listens(CCAN_ROLE_ACTIVE, CCAN_QUIET));
    ccan_wire wire = { .kind = 77 }, wrong = start;
    ccan_member member = listens(6, CCAN_QUIET);
    EXPECT(ccan_decide(many, 33, &wire) == CCAN_MEMBERS_RANGE && ccan_decide(&member, 1, &wire) == CCAN_MEMBER_RANGE);
    EXPECT(ccan_decide_again(&start, many, 33, &wire) == CCAN_MEMBERS_RANGE);
    EXPECT(ccan_decide_again(&start, &member, 1, &wire) == CCAN_MEMBER_RANGE);
    wrong.kind = 6;
    EXPECT(ccan_decide_again(&wrong, many, 33, &wire) == CCAN_WIRE_RANGE);
    member = listens(CCAN_ROLE_ACTIVE, 6);
    EXPECT(ccan_decide(&member, 1, &wire) == CCAN_MEMBER_RANGE);
    member = sends(1);
    member.frame.id = 0x800;
    EXPECT(ccan_decide(&member, 1, &wire) == CCAN_MEMBER_RANGE && wire.kind == 77);
    member.sends = 0; /* then it doesn't count */
    EXPECT(ccan_decide(&member, 1, &wire) == CCAN_DONE && wire.kind == CCAN_WIRE_IDLE);
    EXPECT(ccan_decide(many, 32, &wire) == CCAN_DONE && ccan_decide(many, 0, &wire) == CCAN_DONE);
}

/* From its start to its end no frame is interrupted, and the end of one that nobody sends is an end too. */
static void a_dcan_powers_down_between_frames(void)
{
    static const ccan_wire idle = { .kind = CCAN_WIRE_IDLE };
    ccan_finished ended = { .event = 77 };
    reset(&chip, CCAN_LAYOUT_D_CAN);
    write_control(&chip.if1, 0);
    EXPECT(ccan_write16(&chip.if1, UPPER_CONTROL, PDR) == CCAN_DONE);
    EXPECT(is_member(begun(&chip.bus), CCAN_ROLE_ACTIVE, 0));
    EXPECT(powers_down(&chip.bus) == 0 && reads(&chip.if1, 0x00) == 0x1400);
    EXPECT(ccan_finish(&chip.bus, &idle, 0, CCAN_QUIET, &ended) == CCAN_DONE && ended.event == CCAN_EVENT_NONE);
    EXPECT(powers_down(&chip.bus) == 1);
    EXPECT(is_member(begun(&chip.bus), CCAN_ROLE_ABSENT, 0) && powers_down(&chip.bus) == 0);
    EXPECT(ccan_finish(&chip.bus, &idle, 0, CCAN_QUIET, &ended) == CCAN_DONE && powers_down(&chip.bus) == 1);
}

static void a_node_takes_part(void)
{
    const ccan_wire wire = wire_of(sends(1), listens(CCAN_ROLE_ACTIVE, CCAN_QUIET));
    ccan_node node = { .tec = 0, .rec = 5, .groups = 0 };
    ccan_member member = listens(77, 77);
    uint32_t event = 77;
    EXPECT(ccan_node_begin(&node, 1, &wire.frame, &member) == CCAN_DONE && is_member(member, CCAN_ROLE_ACTIVE, 1));
    EXPECT(ccan_node_begin(&node, 0, &wire.frame, &member) == CCAN_DONE && is_member(member, CCAN_ROLE_ACTIVE, 0));
    EXPECT(ccan_node_finish(&node, &wire, 1, &member, &event) == CCAN_DONE && event == CCAN_EVENT_RECEIVED && node.rec == 4);
    node.tec = 128;
    EXPECT(ccan_node_begin(&node, 0, &wire.frame, &member) == CCAN_DONE && is_member(member, CCAN_ROLE_PASSIVE, 0));
    node.tec = 256;
    EXPECT(ccan_node_begin(&node, 0, &wire.frame, &member) == CCAN_DONE && is_member(member, CCAN_ROLE_ABSENT, 0));
    EXPECT(ccan_node_recessive(&node, 127) == CCAN_DONE && node.groups == 127 && node.tec == 256);
    EXPECT(ccan_node_recessive(&node, 1) == CCAN_DONE && node.groups == 0 && node.tec == 0 && node.rec == 0);
}

static void nodes_out_of_range_are_refused(void)
{
    const ccan_wire wire = wire_of(sends(1), listens(CCAN_ROLE_ACTIVE, CCAN_QUIET));
    ccan_wire no_wire = wire;
    ccan_frame wide = wire.frame;
    ccan_node wrong[] = { { .tec = 264 }, { .rec = 256 }, { .tec = 256, .groups = 128 }, { .groups = 1 } }, right = { .tec = 0 };
    ccan_member member = listens(CCAN_ROLE_ACTIVE, CCAN_QUIET), no_member = listens(6, CCAN_QUIET);
    uint32_t event = 77;
    no_wire.kind = 6;
    wide.dlc = 16;
    for (size_t i = 0; i < COUNT(wrong); i++) {
        EXPECT(ccan_node_begin(&wrong[i], 1, &wide, &member) == CCAN_COUNTERS_RANGE);
        EXPECT(ccan_node_finish(&wrong[i], &no_wire, 32, &no_member, &event) == CCAN_COUNTERS_RANGE);
        EXPECT(ccan_node_recessive(&wrong[i], 0) == CCAN_COUNTERS_RANGE);
    }
    EXPECT(ccan_node_begin(&right, 1, &wide, &member) == CCAN_FRAME_RANGE);
    EXPECT(ccan_node_begin(&right, 0, &wide, &member) == CCAN_DONE);
    EXPECT(ccan_node_finish(&right, &no_wire, 32, &no_member, &event) == CCAN_WIRE_RANGE);
    EXPECT(ccan_node_finish(&right, &wire, 32, &no_member, &event) == CCAN_PLACE_RANGE);
    EXPECT(ccan_node_finish(&right, &wire, 0, &no_member, &event) == CCAN_MEMBER_RANGE && event == 77);
    EXPECT(ccan_node_recessive(&right, 0) == CCAN_GROUPS_RANGE && ccan_node_recessive(&right, 10001) == CCAN_GROUPS_RANGE);
}

/* The frame 123#11 has 53 bits by canframelen, without the intermission; after a reset a bit has 16 periods of the clock. */
static void frames_and_bits_have_lengths(void)
{
    ccan_frame frame = { .id = 0x123, .dlc = 1, .bytes = { 0x11 } };
    uint32_t bits = 77;
    EXPECT(ccan_frame_bits(&frame, &bits) == CCAN_DONE && bits == 53);
    frame.id = 0x800;
    EXPECT(ccan_frame_bits(&frame, &bits) == CCAN_FRAME_RANGE && bits == 53);
    EXPECT(ccan_bit_time(0x2301, 0) == 16 && ccan_bit_time(0, 0) == 3 && ccan_bit_time(0xffff, 0xffff) == 25600);
}

static void the_version_is_that_of_the_header(void) { EXPECT(ccan_version() == CCAN_VERSION); }

/* ---- running them */

#define TEST(name) { #name, name }

static const struct { const char *name; void (*run)(void); } tests[] = {
    TEST(a_chip_opens_and_ends),
    TEST(what_one_host_writes_the_other_reads),
    TEST(registers_are_set_by_their_numbers),
    TEST(a_host_sees_flags_and_waits),
    TEST(a_look_shows_the_record_and_leaves_the_registers),
    TEST(the_ports_of_a_chip_meet),
    TEST(an_open_chip_opens_anew),
    TEST(a_chip_that_ended_is_closed),
    TEST(a_closed_chip_plays_no_round),
    TEST(a_frame_is_stored),
    TEST(a_frame_is_stored_and_one_is_sent),
    TEST(a_round_tells_that_the_controllers_frame_was_on_the_bus),
    TEST(a_round_tells_which_frame_nobody_acknowledged),
    TEST(an_idle_round_tells_of_no_frame),
    TEST(a_round_tells_which_nodes_frame_was_on_the_bus),
    TEST(a_round_tells_which_remote_frame_was_on_the_bus),
    TEST(a_collision_tells_of_no_frame),
    TEST(frames_out_of_range_are_refused),
    TEST(numbers_out_of_range_are_refused),
    TEST(a_chip_opens_as_after_a_reset),
    TEST(a_layout_has_its_offsets),
    TEST(another_interface_is_refused),
    TEST(bit_timing_is_written_while_it_is_configured),
    TEST(a_frame_is_received_by_interrupt),
    TEST(the_bus_reads_and_writes_registers),
    TEST(a_read_of_status_leaves_its_flags),
    TEST(a_read_of_status_clears_a_dcan),
    TEST(a_command_of_a_dcan_sends_new_data),
    TEST(a_dcan_is_reset_by_software),
    TEST(a_dcan_powers_down_and_wakes),
    TEST(a_request_waits_for_a_dcan_to_wake),
    TEST(a_reset_clears_pdr),
    TEST(only_a_dcan_powers_down),
    TEST(a_saved_dcan_is_in_power_down),
    TEST(a_frame_is_received_by_words_of_32_bits),
    TEST(the_bus_reads_and_writes_words_of_32_bits),
    TEST(words_out_of_range_are_refused),
    TEST(a_frame_is_received_by_bytes),
    TEST(bytes_out_of_range_are_refused),
    TEST(an_enable_shows_what_was_raised),
    TEST(loop_back_mode_is_in_the_registers),
    TEST(init_keeps_the_controller_out),
    TEST(going_off_sets_init),
    TEST(a_saved_chip_opens_again),
    TEST(init_set_and_cleared_drops_what_is_loaded),
    TEST(all_objects_are_cleared),
    TEST(a_reset_drops_what_is_loaded),
    TEST(a_reset_leaves_the_data_of_the_message_ram),
    TEST(what_a_host_tells_the_other_heeds),
    TEST(what_the_bus_tells_a_host_heeds),
    TEST(a_note_is_told_anew_and_forgotten),
    TEST(closed_handles_tell_and_heed_nothing),
    TEST(a_closed_chip_has_no_part_in_a_frame),
    TEST(a_frame_begins_and_ends),
    TEST(a_silent_chip_receives),
    TEST(events_that_are_none_are_refused),
    TEST(ends_out_of_range_are_refused),
    TEST(members_out_of_range_are_refused),
    TEST(a_dcan_powers_down_between_frames),
    TEST(a_node_takes_part),
    TEST(nodes_out_of_range_are_refused),
    TEST(frames_and_bits_have_lengths),
    TEST(the_version_is_that_of_the_header) };

/* Ends a chip that a test has left open. */
static void let_go(ccan_chip *left)
{
    ccan_final last = nothing();
    if (ccan_is_open(left))
        EXPECT(ccan_end(left, &last) == CCAN_DONE);
}

int main(void)
{
    for (size_t i = 0; i < COUNT(tests); i++) {
        running = tests[i].name;
        ccan_chip_init(&chip);
        ccan_chip_init(&other);
        tests[i].run();
        let_go(&chip);
        let_go(&other);
    }
    printf("the calls of the library: %zu tests\n", COUNT(tests));
    return 0;
}
