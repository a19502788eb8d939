/* Several chips on one bus. Worked rounds by hand after CAN Specification 2.0, with chips in each role; ccan_network.h, its members
 * and its time; and three chips whose hosts run in threads, with so many frames, of which each 11th is spoiled: no frame may be
 * lost or come twice, and each event and each error counter has to be that of a second model, which stands here.
 * Usage: network FRAMES */
#include <ccan.h>
#include <pthread.h>
#include <sched.h>
#include <stdatomic.h>
#include <stdio.h>
#include <stdlib.h>
#include <string.h>

/* The network calls these two in place of the library's, so that an event can be lost as if other ports changed the controller. */
static uint32_t finish_or_lose(ccan_bus *bus, const ccan_wire *wire, uint32_t place, uint32_t fault, ccan_finished *out);
static uint32_t retry_or_lose(ccan_bus *bus, const ccan_finished *lost);
#define ccan_finish finish_or_lose
#define ccan_retry_event retry_or_lose
#include <ccan_network.h>
#undef ccan_finish
#undef ccan_retry_event

#define EXPECT(holds) do { if (!(holds)) { printf("%s, line %d: not so: %s\n", running, __LINE__, #holds); exit(1); } } while (0)
#define COUNT(array) (sizeof (array) / sizeof (array)[0])

enum { CHIPS = 3, TEST = 0x80, LBACK = 0x10, SILENT = 0x08, INIT = 0x01, SENDS = 1, TURNS = 1000000000 };

static const char *running = "no test";
static ccan_chip chips[CHIPS];
static ccan_network network;

/* ---- chips */

/* Writes an object whole, by IF1: Arbitration 2, Message Control, and the first word of its data. */
static void write_object(ccan_chip *chip, uint16_t object, uint16_t arbitration, uint16_t control, uint16_t data)
{
    EXPECT(ccan_set(&chip->if1, CCAN_CMASK, 0x00f3) == CCAN_DONE);
    EXPECT(ccan_set(&chip->if1, CCAN_ARB2, arbitration) == CCAN_DONE);
    EXPECT(ccan_set(&chip->if1, CCAN_CTRL, control) == CCAN_DONE);
    EXPECT(ccan_set(&chip->if1, CCAN_DATAA1, data) == CCAN_DONE);
    EXPECT(ccan_request(&chip->if1, object) == CCAN_DONE);
}

/* Requests that object 1 is sent, with this identifier and one byte. */
static void asks_to_send(ccan_chip *chip, uint16_t id, uint8_t byte)
{
    write_object(chip, SENDS, (uint16_t)(0xa000 | id << 2), 0x0181, byte);
}

static void write_register(ccan_chip *chip, uint32_t offset, uint16_t value)
{
    EXPECT(ccan_bus_write16(&chip->bus, offset, value) == CCAN_DONE);
}

static ccan_counts counts_of(ccan_chip *chip)
{
    ccan_counts counts;
    EXPECT(ccan_counters(&chip->bus, 0, &counts) == CCAN_DONE);
    return counts;
}

/* Makes so many errors of a sender at a chip, 8 more each in its TEC. */
static void makes_errors(ccan_chip *chip, int errors)
{
    ccan_finished error;
    memset(&error, 0, sizeof error);
    error.event = CCAN_EVENT_ERROR;
    error.code = 4;
    error.counts = CCAN_COUNTS_SEND_ERROR;
    for (int i = 0; i < errors; i++)
        EXPECT(ccan_retry_event(&chip->bus, &error) == CCAN_DONE);
}

/* Opens all chips, in loop back mode none. */
static void open_all(void)
{
    for (int k = 0; k < CHIPS; k++)
        EXPECT(ccan_open(&chips[k], 1, 0, 1000) == CCAN_DONE);
}

static void end_all(void)
{
    static ccan_final last;
    for (int k = 0; k < CHIPS; k++)
        if (ccan_is_open(&chips[k]))
            EXPECT(ccan_end(&chips[k], &last) == CCAN_DONE);
}

/* ---- worked rounds */

enum { NOTHING = -1 };

/* What a chip is to the bus: its role, the byte that it sends with the identifier 0x100 or NOTHING, and the error that it finds.
 * And what the frame is to it: the event, the last error code, and what is added to TEC and REC. */
struct part { uint32_t role; int sends; uint32_t fault; uint32_t event, code; int tec, rec; };

struct round { const char *name; struct part part[CHIPS]; uint32_t kind, flagged; };

#define ACTIVE CCAN_ROLE_ACTIVE
#define PASSIVE CCAN_ROLE_PASSIVE
#define NOBODY { CCAN_ROLE_ABSENT, NOTHING, CCAN_QUIET, CCAN_EVENT_NONE, 0, 0, 0 }
#define SENT CCAN_EVENT_SENT, 0
#define RECEIVED CCAN_EVENT_RECEIVED, 0
#define LOOPED CCAN_EVENT_LOOPED, 0
#define ERROR(code) CCAN_EVENT_ERROR, code

/* A passive chip begins with TEC 128, another one with 8 and REC 4, so that a counter can go down. CAN Specification 2.0, part B:
 * "Fault Confinement", rule 1 (a receiver's error: REC 1 more), 3 (a transmitter's error: TEC 8 more; its exception A: an error
 * passive one that detects no dominant bit while it sends its passive error flag for a missing acknowledgement: no more), 7 and 8
 * (1 less); "Error Signalling" and "Error Frame" for where a flag begins and who sees it. */
static const struct round rounds[] = {
    { "a frame is acknowledged",
      { { ACTIVE, 1, 0, SENT, -1, 0 }, { ACTIVE, NOTHING, 0, RECEIVED, 0, -1 }, NOBODY }, CCAN_WIRE_CARRIED, 0 },
    { "nobody acknowledges: an active sender", { { ACTIVE, 1, 0, ERROR(3), 8, 0 }, NOBODY, NOBODY }, CCAN_WIRE_UNHEARD, 1 },
    { "nobody acknowledges: a passive sender", { { PASSIVE, 1, 0, ERROR(3), 0, 0 }, NOBODY, NOBODY }, CCAN_WIRE_UNHEARD, 0 },
    { "a silent monitor does not acknowledge, and hears a passive sender's frame",
      { { PASSIVE, 1, 0, ERROR(3), 0, 0 }, { CCAN_ROLE_SILENT, NOTHING, 0, RECEIVED, 0, -1 }, NOBODY }, CCAN_WIRE_UNHEARD, 0 },
    { "a silent monitor sees an active sender's error flag as a form error",
      { { ACTIVE, 1, 0, ERROR(3), 8, 0 }, { CCAN_ROLE_SILENT, NOTHING, 0, ERROR(2), 0, 1 }, NOBODY }, CCAN_WIRE_UNHEARD, 1 },
    { "a silent monitor that finds an error disturbs nobody",
      { { ACTIVE, 1, 0, SENT, -1, 0 }, { CCAN_ROLE_SILENT, NOTHING, CCAN_STUFF, ERROR(1), 0, 1 },
        { ACTIVE, NOTHING, 0, RECEIVED, 0, -1 } },
      CCAN_WIRE_CARRIED, 0 },
    { "the only listener finds the CRC sequence wrong, and does not acknowledge",
      { { ACTIVE, 1, 0, ERROR(3), 8, 0 }, { ACTIVE, NOTHING, CCAN_CRC, ERROR(6), 0, 1 }, NOBODY }, CCAN_WIRE_UNHEARD, 1 },
    { "the same with a passive sender, which sees the dominant flag",
      { { PASSIVE, 1, 0, ERROR(3), 8, 0 }, { ACTIVE, NOTHING, CCAN_CRC, ERROR(6), 0, 1 }, NOBODY }, CCAN_WIRE_UNHEARD, 1 },
    { "one listener finds the CRC sequence wrong, and another acknowledges",
      { { ACTIVE, 1, 0, ERROR(2), 8, 0 }, { ACTIVE, NOTHING, CCAN_CRC, ERROR(6), 0, 1 }, { ACTIVE, NOTHING, 0, ERROR(2), 0, 1 } },
      CCAN_WIRE_FLAGGED, 0 },
    { "an active listener's flag breaks the frame",
      { { ACTIVE, 1, 0, ERROR(4), 8, 0 }, { ACTIVE, NOTHING, CCAN_STUFF, ERROR(1), 0, 1 }, { ACTIVE, NOTHING, 0, ERROR(1), 0, 1 } },
      CCAN_WIRE_BROKEN, 0 },
    { "a passive listener's flag is seen by nobody",
      { { ACTIVE, 1, 0, SENT, -1, 0 }, { PASSIVE, NOTHING, CCAN_STUFF, ERROR(1), 0, 1 }, { ACTIVE, NOTHING, 0, RECEIVED, 0, -1 } },
      CCAN_WIRE_CARRIED, 0 },
    { "an active sender finds a bit error",
      { { ACTIVE, 1, CCAN_BIT0, ERROR(5), 8, 0 }, { ACTIVE, NOTHING, 0, ERROR(1), 0, 1 }, NOBODY }, CCAN_WIRE_BROKEN, 0 },
    { "a passive sender finds a bit error: its six recessive bits break the stuff rule",
      { { PASSIVE, 1, CCAN_BIT0, ERROR(5), 8, 0 }, { ACTIVE, NOTHING, 0, ERROR(1), 0, 1 }, NOBODY }, CCAN_WIRE_BROKEN, 0 },
    { "frames with the same identifier and other data collide",
      { { ACTIVE, 1, 0, ERROR(4), 8, 0 }, { ACTIVE, 2, 0, ERROR(4), 8, 0 }, { ACTIVE, NOTHING, 0, ERROR(1), 0, 1 } },
      CCAN_WIRE_COLLIDED, 0 },
    { "a passive sender drops out at its first recessive bit, and the other goes on",
      { { ACTIVE, 1, 0, SENT, -1, 0 }, { PASSIVE, 2, 0, ERROR(4), 8, 0 }, { ACTIVE, NOTHING, 0, RECEIVED, 0, -1 } },
      CCAN_WIRE_CARRIED, 0 },
    { "equal frames are one frame",
      { { ACTIVE, 1, 0, SENT, -1, 0 }, { ACTIVE, 1, 0, SENT, -1, 0 }, { ACTIVE, NOTHING, 0, RECEIVED, 0, -1 } },
      CCAN_WIRE_CARRIED, 0 },
    { "equal frames that nobody else acknowledges",
      { { ACTIVE, 1, 0, ERROR(3), 8, 0 }, { ACTIVE, 1, 0, ERROR(3), 8, 0 }, NOBODY }, CCAN_WIRE_UNHEARD, 1 },
    { "a frame in loop back mode is on the bus, and the others acknowledge and receive it",
      { { CCAN_ROLE_LOOPED, 1, 0, LOOPED, -1, 0 }, { ACTIVE, NOTHING, 0, RECEIVED, 0, -1 },
        { CCAN_ROLE_SILENT, NOTHING, 0, RECEIVED, 0, -1 } },
      CCAN_WIRE_CARRIED, 0 },
    { "with Silent nobody sees it",
      { { CCAN_ROLE_ALONE, 1, 0, LOOPED, -1, 0 }, { ACTIVE, NOTHING, 0, CCAN_EVENT_NONE, 0, 0, 0 }, NOBODY }, CCAN_WIRE_IDLE, 0 },
    { "in loop back mode no acknowledgement is missed",
      { { CCAN_ROLE_LOOPED, 1, 0, LOOPED, -1, 0 }, { CCAN_ROLE_SILENT, NOTHING, 0, RECEIVED, 0, -1 }, NOBODY },
      CCAN_WIRE_UNHEARD, 0 },
    { "in loop back mode nothing is acknowledged",
      { { ACTIVE, 1, 0, ERROR(3), 8, 0 }, { CCAN_ROLE_LOOPED, NOTHING, 0, CCAN_EVENT_NONE, 0, 0, 0 }, NOBODY },
      CCAN_WIRE_UNHEARD, 1 },
    { "a listener's flag spoils a frame in loop back mode for the others",
      { { CCAN_ROLE_LOOPED, 1, 0, LOOPED, -1, 0 }, { ACTIVE, NOTHING, CCAN_STUFF, ERROR(1), 0, 1 },
        { ACTIVE, NOTHING, 0, ERROR(1), 0, 1 } },
      CCAN_WIRE_BROKEN, 0 },
    { "a passive sender drops out against a frame in loop back mode",
      { { CCAN_ROLE_LOOPED, 1, 0, LOOPED, -1, 0 }, { PASSIVE, 2, 0, ERROR(4), 8, 0 }, { ACTIVE, NOTHING, 0, RECEIVED, 0, -1 } },
      CCAN_WIRE_CARRIED, 0 },
    { "a frame in loop back mode is driven over one that it does not precede",
      { { CCAN_ROLE_LOOPED, 2, 0, LOOPED, -1, 0 }, { PASSIVE, 1, 0, ERROR(4), 8, 0 }, { ACTIVE, NOTHING, 0, ERROR(1), 0, 1 } },
      CCAN_WIRE_COLLIDED, 0 },
    { "the same frame of another sender, which nobody acknowledges",
      { { CCAN_ROLE_LOOPED, 1, 0, LOOPED, -1, 0 }, { ACTIVE, 1, 0, ERROR(3), 8, 0 }, NOBODY }, CCAN_WIRE_UNHEARD, 1 },
    { "nobody sends",
      { { ACTIVE, NOTHING, 0, CCAN_EVENT_NONE, 0, 0, 0 }, { PASSIVE, NOTHING, 0, CCAN_EVENT_NONE, 0, 0, 0 }, NOBODY },
      CCAN_WIRE_IDLE, 0 },
};

/* The word of Test by which a chip has this role. */
static uint16_t mode_of(uint32_t role)
{
    switch (role) {
    case CCAN_ROLE_SILENT:
        return SILENT;
    case CCAN_ROLE_ALONE:
        return LBACK | SILENT;
    case CCAN_ROLE_LOOPED:
        return LBACK;
    default:
        return 0;
    }
}

/* Brings a chip into a role, with counters that can go down, and requests what it sends. */
static void prepare(ccan_chip *chip, const struct part *part)
{
    ccan_finished heard;
    memset(&heard, 0, sizeof heard);
    heard.event = CCAN_EVENT_ERROR;
    heard.code = 1;
    heard.counts = CCAN_COUNTS_RECEIVE_ERROR;
    makes_errors(chip, part->role == PASSIVE ? 16 : 1);
    for (int i = 0; i < 4; i++)
        EXPECT(ccan_retry_event(&chip->bus, &heard) == CCAN_DONE);
    if (part->sends != NOTHING)
        asks_to_send(chip, 0x100, (uint8_t)part->sends);
    write_register(chip, CCAN_OFFSET_CONTROL, part->role == CCAN_ROLE_ABSENT ? INIT : TEST);
    write_register(chip, CCAN_OFFSET_TEST, mode_of(part->role));
}

/* Plays a round with all chips, each with its calls, and looks at what comes to each. */
static void play(const struct round *round)
{
    ccan_member members[CHIPS];
    ccan_wire start, wire;
    for (int k = 0; k < CHIPS; k++) {
        prepare(&chips[k], &round->part[k]);
        EXPECT(ccan_begin(&chips[k].bus, &members[k]) == CCAN_DONE);
        EXPECT(members[k].role == round->part[k].role && members[k].fault == CCAN_QUIET);
        EXPECT(members[k].sends == (round->part[k].sends != NOTHING));
    }
    EXPECT(ccan_decide(members, CHIPS, &start) == CCAN_DONE);
    for (int k = 0; k < CHIPS; k++) {
        EXPECT(ccan_stay(&chips[k].bus, &members[k]) == CCAN_DONE);
        members[k].fault = round->part[k].fault;
    }
    EXPECT(ccan_decide_again(&start, members, CHIPS, &wire) == CCAN_DONE);
    EXPECT(wire.kind == round->kind && wire.flagged == round->flagged);
    for (uint32_t k = 0; k < CHIPS; k++) {
        const struct part *part = &round->part[k];
        const ccan_counts before = counts_of(&chips[k]);
        ccan_finished ended;
        EXPECT(ccan_finish(&chips[k].bus, &wire, k, part->fault, &ended) == CCAN_DONE);
        const ccan_counts after = counts_of(&chips[k]);
        EXPECT(ended.event == part->event && ended.code == part->code);
        EXPECT((int)after.tec - (int)before.tec == part->tec && (int)after.rec - (int)before.rec == part->rec);
    }
}

static void worked_rounds(void)
{
    for (size_t i = 0; i < COUNT(rounds); i++) {
        running = rounds[i].name;
        open_all();
        play(&rounds[i]);
        end_all();
    }
}

/* ---- the network */

static const ccan_frame frame = { 0x123, 0, 0, 1, { 0x11 } }; /* 53 bits, by canframelen */
static uint64_t until;

static void starts(uint64_t now) { EXPECT(ccan_network_start(&network, now, &until) == CCAN_DONE); }
static void finishes(uint64_t now) { EXPECT(ccan_network_finish(&network, now, &until) == CCAN_DONE); }

static uint32_t add_node(void)
{
    uint32_t place = 77;
    EXPECT(ccan_network_add_node(&network, &place) == CCAN_DONE);
    return place;
}

static uint32_t add_chip(ccan_chip *chip)
{
    uint32_t place = 77;
    EXPECT(ccan_network_add_chip(&network, &chip->bus, &place) == CCAN_DONE);
    return place;
}

static void members_come_and_go(void)
{
    const ccan_frame wide = { 0x800, 0, 0, 0, { 0 } };
    uint32_t place = 77;
    ccan_network_init(&network, 0);
    open_all();
    EXPECT(add_chip(&chips[0]) == 0);
    EXPECT(ccan_network_add_chip(&network, &chips[0].bus, &place) == CCAN_MEMBER_RANGE);
    for (uint32_t k = 1; k < CCAN_NETWORK_MEMBERS; k++)
        EXPECT(add_node() == k);
    EXPECT(ccan_network_add_node(&network, &place) == CCAN_MEMBERS_RANGE);
    EXPECT(ccan_network_add_chip(&network, &chips[1].bus, &place) == CCAN_MEMBERS_RANGE && place == 77);
    EXPECT(ccan_network_remove(&network, 7) == CCAN_DONE && ccan_network_remove(&network, 7) == CCAN_PLACE_RANGE);
    EXPECT(ccan_network_remove(&network, 32) == CCAN_PLACE_RANGE);
    EXPECT(add_chip(&chips[1]) == 7);
    EXPECT(ccan_network_offer(&network, 32, &frame) == CCAN_PLACE_RANGE);
    EXPECT(ccan_network_offer(&network, 0, &frame) == CCAN_PLACE_RANGE);
    EXPECT(ccan_network_offer(&network, 1, &wide) == CCAN_FRAME_RANGE && !network.at[1].offers);
    EXPECT(ccan_network_withdraw(&network, 0) == CCAN_PLACE_RANGE && ccan_network_withdraw(&network, 32) == CCAN_PLACE_RANGE);
    EXPECT(ccan_network_fault(&network, 32, CCAN_CRC) == CCAN_PLACE_RANGE);
    EXPECT(ccan_network_fault(&network, 0, 6) == CCAN_FAULT_RANGE);
    end_all();
    EXPECT(ccan_network_start(&network, 0, &until) == CCAN_CLOSED && network.at[0].code == CCAN_CLOSED && !network.under_way);
    EXPECT(ccan_network_offer(&network, 1, &frame) == CCAN_DONE);
    EXPECT(ccan_network_start(&network, 0, &until) == CCAN_CLOSED && network.at[7].code == CCAN_CLOSED && network.under_way);
}

/* A frame has its exact length, and 3 bits of intermission follow. What is offered is gone once it was sent. */
static void a_frame_has_its_time(void)
{
    ccan_network_init(&network, 1000);
    const uint32_t a = add_node(), b = add_node();
    starts(1000);
    EXPECT(!network.under_way && until == CCAN_NETWORK_NEVER);
    EXPECT(ccan_network_offer(&network, a, &frame) == CCAN_DONE);
    starts(1100);
    EXPECT(network.under_way && network.bits == 53 && until == 1153 && network.wire.kind == CCAN_WIRE_CARRIED);
    EXPECT(ccan_network_offer(&network, b, &frame) == CCAN_DONE);
    starts(1120);
    EXPECT(network.under_way && until == 1153);
    finishes(1153);
    EXPECT(network.at[a].ended.event == CCAN_EVENT_SENT && network.at[b].ended.event == CCAN_EVENT_RECEIVED);
    EXPECT(until == 1156 && network.ended == 1153 && !network.at[a].offers && network.at[b].offers);
    starts(1155);
    EXPECT(!network.under_way && until == 1156);
    EXPECT(ccan_network_withdraw(&network, b) == CCAN_DONE);
    starts(1156);
    EXPECT(!network.under_way && until == CCAN_NETWORK_NEVER && network.wire.kind == CCAN_WIRE_CARRIED);
    finishes(1156);
    EXPECT(until == 1156 && network.at[a].ended.event == CCAN_EVENT_SENT);
}

/* What is offered while the node's own frame is under way is not the frame that was sent. */
static void a_new_offer_stays(void)
{
    ccan_network_init(&network, 0);
    const uint32_t a = add_node();
    add_node();
    EXPECT(ccan_network_offer(&network, a, &frame) == CCAN_DONE);
    starts(0);
    EXPECT(ccan_network_offer(&network, a, &frame) == CCAN_DONE);
    finishes(until);
    EXPECT(network.at[a].ended.event == CCAN_EVENT_SENT && network.at[a].offers);
}

/* A passive sender that nobody acknowledges: its flag of six recessive bits begins behind the ACK slot, so 6 bits more; and it
 * waits for 3 and 8 bits. Meanwhile another may start, and it listens. */
static void a_passive_sender_waits(void)
{
    ccan_network_init(&network, 0);
    const uint32_t a = add_node();
    network.at[a].node.tec = 128;
    EXPECT(ccan_network_offer(&network, a, &frame) == CCAN_DONE);
    starts(0);
    EXPECT(network.wire.kind == CCAN_WIRE_UNHEARD && !network.wire.flagged && until == 59);
    finishes(59);
    EXPECT(network.at[a].ended.event == CCAN_EVENT_ERROR && network.at[a].node.tec == 128 && until == 62);
    starts(62);
    EXPECT(!network.under_way && network.at[a].waits && until == 70);
    starts(69);
    EXPECT(!network.under_way && until == 70);
    const uint32_t b = add_node();
    EXPECT(ccan_network_offer(&network, b, &frame) == CCAN_DONE);
    starts(69);
    EXPECT(network.under_way && network.wire.part[a] == CCAN_PART_LISTENER && network.wire.part[b] == CCAN_PART_SENDER);
    finishes(until);
    EXPECT(network.at[a].ended.event == CCAN_EVENT_RECEIVED && network.at[b].ended.event == CCAN_EVENT_SENT);
    starts(until);
    EXPECT(network.under_way && network.wire.part[a] == CCAN_PART_SENDER);
}

/* An active sender that nobody acknowledges: its flag begins behind the ACK slot, 8 bits before the end of the frame, a later one a
 * bit behind it, and the delimiter has 8: 53 - 8 + 6 + 1 + 8 = 60. It doesn't wait. */
static void an_active_sender_is_not_heard(void)
{
    ccan_network_init(&network, 0);
    const uint32_t a = add_node();
    EXPECT(ccan_network_offer(&network, a, &frame) == CCAN_DONE);
    starts(0);
    EXPECT(network.wire.kind == CCAN_WIRE_UNHEARD && network.wire.flagged && until == 60);
    finishes(60);
    EXPECT(network.at[a].ended.event == CCAN_EVENT_ERROR && network.at[a].node.tec == 8 && until == 63 && network.ended == 60);
    starts(63);
    EXPECT(network.under_way);
}

/* The lengths of frames that an error flag ends. */
static void spoiled_frames_have_their_length(void)
{
    static const struct { uint32_t sender, listener, kind; uint64_t now, length; } cases[] = {
        { CCAN_QUIET, CCAN_CRC, CCAN_WIRE_FLAGGED, 53, 61 }, { CCAN_QUIET, CCAN_FORM, CCAN_WIRE_FLAGGED, 53, 61 },
        { CCAN_QUIET, CCAN_STUFF, CCAN_WIRE_BROKEN, 53, 63 }, { CCAN_QUIET, CCAN_STUFF, CCAN_WIRE_BROKEN, 20, 40 },
        { CCAN_BIT1, CCAN_QUIET, CCAN_WIRE_BROKEN, 500, 63 } };
    for (size_t i = 0; i < COUNT(cases); i++) {
        ccan_network_init(&network, 0);
        const uint32_t a = add_node(), b = add_node();
        add_node();
        EXPECT(ccan_network_offer(&network, a, &frame) == CCAN_DONE);
        starts(0);
        EXPECT(ccan_network_fault(&network, a, cases[i].sender) == CCAN_DONE);
        EXPECT(ccan_network_fault(&network, b, cases[i].listener) == CCAN_DONE);
        finishes(cases[i].now);
        EXPECT(network.wire.kind == cases[i].kind && network.ended == cases[i].length && until == cases[i].length + 3);
        EXPECT(network.at[a].fault == CCAN_QUIET && network.at[b].fault == CCAN_QUIET && network.at[a].offers);
        EXPECT(network.at[a].node.tec == 8 && network.at[b].node.rec == 1);
    }
}

/* A sender that is removed sends no more: the others see six recessive bits. One that is added has no part before the next start,
 * also at the place of one that was there. */
static void who_is_removed_is_absent(void)
{
    ccan_network_init(&network, 0);
    const uint32_t a = add_node(), b = add_node();
    EXPECT(ccan_network_offer(&network, a, &frame) == CCAN_DONE);
    starts(0);
    EXPECT(ccan_network_remove(&network, a) == CCAN_DONE && add_node() == a);
    finishes(30);
    EXPECT(network.wire.kind == CCAN_WIRE_BROKEN && network.ended == 50);
    EXPECT(network.at[a].ended.event == CCAN_EVENT_NONE && network.at[a].node.rec == 0);
    EXPECT(network.at[b].ended.event == CCAN_EVENT_ERROR && network.at[b].node.rec == 1);
    EXPECT(ccan_network_offer(&network, b, &frame) == CCAN_DONE);
    starts(until);
    finishes(until);
    EXPECT(network.at[a].ended.event == CCAN_EVENT_RECEIVED);
}

/* 128 groups of eleven recessive bits, of which the end of a frame and the intermission are one. */
static void groups_pass(void)
{
    ccan_network_init(&network, 0);
    const uint32_t a = add_node(), off = add_node();
    add_node();
    network.at[off].node.tec = 256;
    starts(0);
    EXPECT(!network.under_way && until == 128 * 11);
    starts(10);
    EXPECT(network.at[off].node.groups == 0);
    starts(21);
    EXPECT(network.at[off].node.groups == 1 && until == 128 * 11);
    EXPECT(ccan_network_offer(&network, a, &frame) == CCAN_DONE);
    starts(30);
    EXPECT(network.under_way && network.at[off].node.groups == 2 && network.at[off].member.role == CCAN_ROLE_ABSENT);
    EXPECT(ccan_network_pass(&network, 80) == CCAN_DONE && network.at[off].node.groups == 2);
    finishes(83);
    EXPECT(until == 86);
    starts(85);
    EXPECT(network.at[off].node.groups == 2);
    starts(86);
    EXPECT(network.at[off].node.groups == 3 && until == 86 + 125 * 11);
    starts(86 + 125 * 11);
    EXPECT(network.at[off].node.tec == 0 && network.at[off].node.groups == 0 && until == CCAN_NETWORK_NEVER);
    EXPECT(network.at[off].member.role == CCAN_ROLE_ACTIVE);
}

/* The frame of a passive sender that nobody acknowledges is recessive from its CRC delimiter on: 10 bits of it, and 6 behind it. */
static void groups_pass_behind_an_unheard_frame(void)
{
    ccan_network_init(&network, 0);
    const uint32_t a = add_node(), off = add_node();
    network.at[a].node.tec = 128;
    network.at[off].node.tec = 256;
    EXPECT(ccan_network_offer(&network, a, &frame) == CCAN_DONE);
    starts(0);
    finishes(until);
    EXPECT(network.ended == 59 && network.wire.kind == CCAN_WIRE_UNHEARD);
    starts(64);
    EXPECT(network.at[off].node.groups == 1);
    starts(65);
    EXPECT(network.at[off].node.groups == 2);
}

/* A chip that is bus off counts groups once its host has cleared Init. */
static void a_chip_comes_back(void)
{
    uint64_t now = 0;
    int starts_made = 0;
    ccan_network_init(&network, 0);
    open_all();
    const uint32_t a = add_chip(&chips[0]);
    makes_errors(&chips[0], 32);
    EXPECT(counts_of(&chips[0]).state == CCAN_OFF);
    starts(500);
    EXPECT(until == CCAN_NETWORK_NEVER && network.at[a].member.role == CCAN_ROLE_ABSENT);
    write_register(&chips[0], CCAN_OFFSET_CONTROL, 0);
    for (now = 500; now < 10000 && network.at[a].member.role == CCAN_ROLE_ABSENT; starts_made++) {
        starts(now);
        EXPECT(!network.under_way);
        now = until;
    }
    /* 45 groups have passed before, until 495 */
    EXPECT(starts_made == 129 && until == CCAN_NETWORK_NEVER && network.group_began == 495 + 128 * 11);
    EXPECT(counts_of(&chips[0]).state == CCAN_ACTIVE && counts_of(&chips[0]).tec == 0);
    end_all();
}

/* A chip that may clear its Init by itself after 1000 bits goes bus off by a frame that has ended at 40. */
static uint32_t goes_off(void)
{
    ccan_network_init(&network, 0);
    open_all();
    const uint32_t a = add_chip(&chips[0]), b = add_node();
    EXPECT(ccan_network_auto_bus_on(&network, b, 1000) == CCAN_PLACE_RANGE);
    EXPECT(ccan_network_auto_bus_on(&network, CCAN_NETWORK_MEMBERS, 1000) == CCAN_PLACE_RANGE);
    EXPECT(ccan_network_auto_bus_on(&network, a, 1000) == CCAN_DONE);
    makes_errors(&chips[0], 31);
    asks_to_send(&chips[0], 0x123, 1);
    starts(0);
    EXPECT(network.under_way && ccan_network_fault(&network, a, CCAN_BIT1) == CCAN_DONE);
    finishes(20);
    EXPECT(network.ended == 40 && counts_of(&chips[0]).state == CCAN_OFF);
    return a;
}

static bool has_init(ccan_chip *chip)
{
    uint16_t control = 0;
    EXPECT(ccan_bus_read16(&chip->bus, CCAN_OFFSET_CONTROL, &control) == CCAN_DONE);
    return (control & INIT) != 0;
}

/* The groups behind that frame began at 32, so 91 are over at 1040, and the chip counts those from 1033 on. */
static void a_chip_comes_on_by_itself(void)
{
    const uint32_t a = goes_off();
    starts(43);
    EXPECT(!network.under_way && until == 1040);
    starts(1039);
    EXPECT(until == 1040 && has_init(&chips[0]));
    starts(1040);
    EXPECT(until == 1044 && !has_init(&chips[0]));
    starts(2440);
    EXPECT(!network.under_way && until == 2441 && counts_of(&chips[0]).state == CCAN_OFF);
    starts(2441);
    EXPECT(network.under_way && counts_of(&chips[0]).state == CCAN_ACTIVE && network.wire.kind == CCAN_WIRE_CARRIED);
    finishes(until);
    EXPECT(network.at[a].ended.event == CCAN_EVENT_SENT);
    end_all();
}

/* So it does if one call goes past that time. */
static void a_call_goes_past_the_time(void)
{
    goes_off();
    starts(2440);
    EXPECT(!network.under_way && until == 2441 && !has_init(&chips[0]) && counts_of(&chips[0]).state == CCAN_OFF);
    starts(2441);
    EXPECT(network.under_way && counts_of(&chips[0]).state == CCAN_ACTIVE);
    finishes(until);
    end_all();
}

/* One whose host has been faster, or that may not, is left as it is. */
static void a_host_is_faster(void)
{
    ccan_network_init(&network, 0);
    open_all();
    const uint32_t a = add_chip(&chips[0]), b = add_chip(&chips[1]);
    add_node();
    EXPECT(ccan_network_auto_bus_on(&network, a, 300) == CCAN_DONE);
    makes_errors(&chips[0], 31);
    makes_errors(&chips[1], 31);
    asks_to_send(&chips[0], 0x123, 1);
    asks_to_send(&chips[1], 0x123, 1);
    starts(0);
    EXPECT(ccan_network_fault(&network, a, CCAN_BIT1) == CCAN_DONE && ccan_network_fault(&network, b, CCAN_BIT1) == CCAN_DONE);
    finishes(20);
    EXPECT(counts_of(&chips[0]).state == CCAN_OFF && counts_of(&chips[1]).state == CCAN_OFF);
    EXPECT(ccan_network_pass(&network, 100) == CCAN_DONE);
    write_register(&chips[0], CCAN_OFFSET_CONTROL, 0);
    /* The groups from 98 on count: 128 of them are over at 1506, and the time at 340 has changed nothing. */
    starts(1505);
    EXPECT(!network.under_way && counts_of(&chips[0]).state == CCAN_OFF);
    starts(1506);
    EXPECT(network.under_way && counts_of(&chips[0]).state == CCAN_ACTIVE);
    EXPECT(has_init(&chips[1]) && counts_of(&chips[1]).state == CCAN_OFF);
    end_all();
}

/* A chip in loop back mode with Silent has its event also if the bus is idle, and beside others' frames, which it doesn't hear. */
static void a_chip_in_hot_self_test(void)
{
    ccan_record record;
    ccan_network_init(&network, 0);
    open_all();
    const uint32_t a = add_chip(&chips[0]), b = add_node();
    add_node();
    write_register(&chips[0], CCAN_OFFSET_CONTROL, TEST);
    write_register(&chips[0], CCAN_OFFSET_TEST, LBACK | SILENT);
    write_object(&chips[0], 2, 0x8000 | 0x123 << 2, 0x0080, 0);
    asks_to_send(&chips[0], 0x123, 0x11);
    starts(0);
    EXPECT(network.under_way && network.wire.kind == CCAN_WIRE_IDLE && until == 53);
    finishes(53);
    EXPECT(network.at[a].ended.event == CCAN_EVENT_LOOPED && network.at[a].ended.stored == 2);
    EXPECT(network.at[b].ended.event == CCAN_EVENT_NONE && until == 56);
    EXPECT(ccan_meet(&chips[0]) == CCAN_DONE && ccan_peek(&chips[0].if1, 2, &record) == CCAN_DONE && record.bytes[0] == 0x11);
    asks_to_send(&chips[0], 0x123, 0x22);
    EXPECT(ccan_network_offer(&network, b, &frame) == CCAN_DONE);
    starts(56);
    EXPECT(network.wire.kind == CCAN_WIRE_CARRIED);
    finishes(until);
    EXPECT(network.at[a].ended.event == CCAN_EVENT_LOOPED && network.at[b].ended.event == CCAN_EVENT_SENT);
    end_all();
}

/* Without Silent its frame is on the bus, has its length there, and needs no acknowledgement; and it never stops. */
static void a_chip_in_loop_back_mode(void)
{
    const ccan_frame higher = { 0x124, 0, 0, 0, { 0 } };
    const ccan_frame lower = { 0x122, 0, 0, 0, { 0 } }; /* at most 44 bits and 8 stuff bits, for 34 may be stuffed */
    ccan_network_init(&network, 0);
    open_all();
    const uint32_t a = add_chip(&chips[0]);
    write_register(&chips[0], CCAN_OFFSET_CONTROL, TEST);
    write_register(&chips[0], CCAN_OFFSET_TEST, LBACK);
    asks_to_send(&chips[0], 0x123, 0x11);
    starts(0);
    EXPECT(network.under_way && network.wire.kind == CCAN_WIRE_UNHEARD && !network.wire.flagged && until == 53);
    finishes(53);
    EXPECT(network.at[a].ended.event == CCAN_EVENT_LOOPED && until == 56 && network.group_began == 43);
    const uint32_t b = add_node(), c = add_node();
    asks_to_send(&chips[0], 0x123, 0x11);
    starts(100);
    EXPECT(network.wire.kind == CCAN_WIRE_CARRIED && network.wire.part[a] == CCAN_PART_SENDER && until == 153);
    finishes(153);
    EXPECT(network.at[a].ended.event == CCAN_EVENT_LOOPED && network.at[b].ended.event == CCAN_EVENT_RECEIVED && until == 156);
    asks_to_send(&chips[0], 0x123, 0x11);
    EXPECT(ccan_network_offer(&network, b, &higher) == CCAN_DONE);
    starts(156);
    EXPECT(network.wire.kind == CCAN_WIRE_CARRIED && network.wire.part[b] == CCAN_PART_LISTENER && until == 156 + 53);
    finishes(until);
    EXPECT(network.at[a].ended.event == CCAN_EVENT_LOOPED && network.at[b].ended.event == CCAN_EVENT_RECEIVED);
    asks_to_send(&chips[0], 0x123, 0x11);
    EXPECT(network.at[b].offers && ccan_network_offer(&network, b, &lower) == CCAN_DONE);
    starts(300); /* the longer frame counts, of 53 bits */
    EXPECT(network.wire.kind == CCAN_WIRE_COLLIDED && network.bits == 53 && until == 300 + 53 - 10 + 20);
    finishes(until);
    EXPECT(network.at[a].ended.event == CCAN_EVENT_LOOPED && network.at[b].offers && network.at[b].node.tec == 8);
    EXPECT(network.at[b].ended.event == CCAN_EVENT_ERROR && network.at[c].ended.event == CCAN_EVENT_ERROR);
    starts(until);
    EXPECT(network.wire.kind == CCAN_WIRE_CARRIED && network.wire.part[b] == CCAN_PART_SENDER);
    finishes(until);
    EXPECT(network.at[a].ended.event == CCAN_EVENT_NONE && network.at[b].ended.event == CCAN_EVENT_SENT);
    end_all();
}

/* A host sets Init in mid-frame, and clears it again: the chip has left the frame, which is broken, and sends it anew. */
static void a_host_sets_init_in_mid_frame(void)
{
    ccan_network_init(&network, 0);
    open_all();
    const uint32_t a = add_chip(&chips[0]), b = add_chip(&chips[1]);
    asks_to_send(&chips[0], 0x123, 0x11);
    starts(0);
    EXPECT(network.under_way && until == 53);
    EXPECT(ccan_write16(&chips[0].if1, CCAN_OFFSET_CONTROL, INIT) == CCAN_DONE);
    EXPECT(ccan_write16(&chips[0].if1, CCAN_OFFSET_CONTROL, 0) == CCAN_DONE);
    finishes(20);
    EXPECT(network.wire.kind == CCAN_WIRE_BROKEN && network.ended == 40);
    EXPECT(network.at[a].ended.event == CCAN_EVENT_NONE && counts_of(&chips[0]).tec == 0);
    EXPECT(network.at[b].ended.event == CCAN_EVENT_ERROR && network.at[b].ended.code == 1 && counts_of(&chips[1]).rec == 1);
    starts(until);
    EXPECT(network.under_way && network.wire.part[a] == CCAN_PART_SENDER);
    finishes(until);
    EXPECT(network.at[a].ended.event == CCAN_EVENT_SENT && network.at[b].ended.event == CCAN_EVENT_RECEIVED);
    end_all();
}

/* A chip that is removed in mid-frame, and added at its place again, has left that frame: it has no event of it. */
static void a_chip_is_removed_in_mid_frame(void)
{
    ccan_network_init(&network, 0);
    open_all();
    const uint32_t a = add_chip(&chips[0]), b = add_chip(&chips[1]);
    asks_to_send(&chips[0], 0x123, 0x11);
    starts(0);
    EXPECT(ccan_network_remove(&network, a) == CCAN_DONE && add_chip(&chips[0]) == a);
    finishes(until);
    EXPECT(network.wire.kind == CCAN_WIRE_BROKEN && network.at[b].ended.event == CCAN_EVENT_ERROR);
    EXPECT(network.at[a].ended.event == CCAN_EVENT_NONE && counts_of(&chips[0]).tec == 0);
    starts(until);
    finishes(until);
    EXPECT(network.at[a].ended.event == CCAN_EVENT_SENT && network.at[b].ended.event == CCAN_EVENT_RECEIVED);
    end_all();
}

/* ---- local power down of a D_CAN: PDR is bit 8 of the upper half of Control, PDA bit 10 of Error and Status */

enum { UPPER_CONTROL = 0x02, ERROR_AND_STATUS = 0x04, PDR = 0x0100, PDA = 0x0400, DAR = 0x20 };

/* A network of a D_CAN, with this word in Control. */
static void open_d_can(uint16_t control)
{
    ccan_network_init(&network, 0);
    EXPECT(ccan_open_reset(&chips[0], 1, 0, 1000, CCAN_LAYOUT_D_CAN) == CCAN_DONE);
    write_register(&chips[0], CCAN_OFFSET_CONTROL, control);
    EXPECT(add_chip(&chips[0]) == 0);
}

static bool is_down(void)
{
    uint16_t status = 0;
    EXPECT(ccan_bus_read16(&chips[0].bus, ERROR_AND_STATUS, &status) == CCAN_DONE);
    return (status & PDA) != 0;
}

/* What is requested is sent first. While frames follow each other the bus is not idle, and the chip has its part in them. Then it
 * acknowledges nothing until it is awake. */
static void a_d_can_powers_down(void)
{
    open_d_can(0);
    const uint32_t b = add_node();
    asks_to_send(&chips[0], 0x123, 0x11);
    write_register(&chips[0], UPPER_CONTROL, PDR);
    starts(0);
    EXPECT(network.under_way && network.wire.part[0] == CCAN_PART_SENDER);
    finishes(53);
    EXPECT(network.at[0].ended.event == CCAN_EVENT_SENT && !is_down());
    starts(55);
    EXPECT(!network.under_way && until == 56 && !is_down());
    EXPECT(ccan_network_offer(&network, b, &frame) == CCAN_DONE);
    starts(56);
    EXPECT(network.wire.kind == CCAN_WIRE_CARRIED && !is_down());
    finishes(until);
    EXPECT(network.at[0].ended.event == CCAN_EVENT_RECEIVED && !is_down());
    starts(until);
    EXPECT(!network.under_way && is_down());
    EXPECT(ccan_network_offer(&network, b, &frame) == CCAN_DONE);
    starts(1000);
    EXPECT(network.at[0].member.role == CCAN_ROLE_ABSENT && network.wire.kind == CCAN_WIRE_UNHEARD);
    finishes(until);
    write_register(&chips[0], UPPER_CONTROL, 0);
    EXPECT(!is_down() && has_init(&chips[0]));
    write_register(&chips[0], CCAN_OFFSET_CONTROL, 0);
    starts(until);
    EXPECT(network.wire.kind == CCAN_WIRE_CARRIED && !has_init(&chips[0]));
    finishes(until);
    EXPECT(network.at[0].ended.event == CCAN_EVENT_RECEIVED);
    end_all();
}

/* So it is if the bus has been idle before, and a request on an idle bus is sent first. */
static void a_d_can_powers_down_on_an_idle_bus(void)
{
    open_d_can(0);
    add_node();
    starts(0);
    EXPECT(!network.under_way && until == CCAN_NETWORK_NEVER);
    write_register(&chips[0], UPPER_CONTROL, PDR);
    starts(100);
    EXPECT(is_down() && !network.under_way && until == CCAN_NETWORK_NEVER);
    asks_to_send(&chips[0], 0x123, 0x11);
    starts(200);
    EXPECT(!network.under_way && is_down());
    write_register(&chips[0], UPPER_CONTROL, 0);
    write_register(&chips[0], CCAN_OFFSET_CONTROL, 0);
    starts(300);
    EXPECT(network.under_way);
    write_register(&chips[0], UPPER_CONTROL, PDR);
    finishes(until);
    EXPECT(network.at[0].ended.event == CCAN_EVENT_SENT && !is_down());
    starts(until);
    EXPECT(!network.under_way && is_down());
    end_all();
}

/* An error passive sender that waits is not put into power down, even if its frame is tried once, so that TxRqst is 0 from its start
 * on; once another's frame comes first, nothing is left to send. */
static void a_d_can_that_waits_stays_awake(void)
{
    for (int another = 0; another < 2; another++) {
        open_d_can(DAR);
        makes_errors(&chips[0], 16);
        asks_to_send(&chips[0], 0x123, 0x11);
        starts(0);
        finishes(59);
        EXPECT(network.at[0].ended.event == CCAN_EVENT_ERROR && until == 62);
        asks_to_send(&chips[0], 0x123, 0x22);
        write_register(&chips[0], UPPER_CONTROL, PDR);
        starts(62);
        EXPECT(!network.under_way && network.at[0].waits && until == 70);
        starts(69);
        EXPECT(!network.under_way && network.at[0].waits && !is_down());
        if (another)
            EXPECT(ccan_network_offer(&network, add_node(), &frame) == CCAN_DONE);
        starts(another ? 69 : 70);
        EXPECT(network.under_way && network.wire.part[0] == (another ? CCAN_PART_LISTENER : CCAN_PART_SENDER));
        finishes(until);
        EXPECT(!is_down());
        starts(until);
        EXPECT(!network.under_way && is_down());
        end_all();
    }
}

/* ---- events that are lost at first */

static const ccan_finished *loses; /* what the next end of a frame tells, whose event is lost; null for none */
static int more_losses;            /* and so many tries after that */

static uint32_t finish_or_lose(ccan_bus *bus, const ccan_wire *wire, uint32_t place, uint32_t fault, ccan_finished *out)
{
    if (loses == NULL)
        return ccan_finish(bus, wire, place, fault, out);
    *out = *loses;
    out->refused = CCAN_STEP_EVENT;
    loses = NULL;
    return CCAN_BUSY;
}

static uint32_t retry_or_lose(ccan_bus *bus, const ccan_finished *lost)
{
    return more_losses-- > 0 ? CCAN_BUSY : ccan_retry_event(bus, lost);
}

/* The end of a frame of one chip, of which this is told, and the event lost so often. What the network answers. */
static uint32_t ends_with_losses(const ccan_finished *told, int losses)
{
    end_all();
    open_all();
    ccan_network_init(&network, 0);
    EXPECT(add_chip(&chips[0]) == 0);
    asks_to_send(&chips[0], 0x123, 0x11);
    starts(0);
    loses = told;
    more_losses = losses - 1;
    return ccan_network_finish(&network, until, &until);
}

/* A lost event is made once. If a step at an object was given up beside it, that is told then; and if it is lost for good, that. */
static void lost_events_are_made(void)
{
    static const ccan_finished error = { .event = CCAN_EVENT_ERROR, .code = 3, .counts = CCAN_COUNTS_NO_ACK };
    static const ccan_finished sent = { .event = CCAN_EVENT_SENT, .counts = CCAN_COUNTS_SENT, .object = SENDS };
    static const ccan_finished received = { .event = CCAN_EVENT_RECEIVED, .counts = CCAN_COUNTS_RECEIVED, .object = 2 };
    open_all();
    EXPECT(ends_with_losses(&error, 1) == CCAN_DONE && ends_with_losses(&error, 500) == CCAN_DONE);
    EXPECT(network.at[0].code == CCAN_DONE && network.at[0].ended.refused == CCAN_STEP_NONE && counts_of(&chips[0]).tec == 8);
    EXPECT(ends_with_losses(&sent, 3) == CCAN_BUSY && network.at[0].ended.refused == CCAN_STEP_FINISH);
    EXPECT(ends_with_losses(&received, 3) == CCAN_BUSY && network.at[0].ended.refused == CCAN_STEP_STORE);
    EXPECT(ends_with_losses(&error, 5000) == CCAN_BUSY && network.at[0].ended.refused == CCAN_STEP_EVENT);
    EXPECT(network.at[0].code == CCAN_BUSY && counts_of(&chips[0]).tec == 0 && !network.under_way);
    end_all();
    loses = NULL;
    more_losses = 0;
}

/* ---- three chips whose hosts run in threads */

static atomic_uint seen[CHIPS][CHIPS]; /* how many frames of the second a chip's host has read */
static unsigned each;                  /* how many frames each sends */

/* Lets the others go on; a loop that has made too many turns ends the program. */
static void wait_a_turn(int *turns)
{
    EXPECT(++*turns < TURNS);
    sched_yield();
}

/* Makes a transfer, again if another port changed the object meanwhile. */
static void transfers(ccan_host *host, uint16_t object)
{
    uint32_t code;
    int turns = 0;
    while ((code = ccan_request(host, object)) == CCAN_BUSY)
        wait_a_turn(&turns);
    EXPECT(code == CCAN_DONE);
}

static bool has_flag(ccan_host *host, uint32_t flag, uint32_t object)
{
    uint64_t word;
    EXPECT(ccan_flags(host, flag, &word) == CCAN_DONE);
    return word >> (object - 1) & 1;
}

/* The host at IF1 of a chip: sends numbers from 1 on, each once the last was sent and the others have read it. */
static void *sends_numbers(void *at)
{
    const unsigned self = *(const unsigned *)at;
    ccan_host *host = &chips[self].if1;
    EXPECT(ccan_set(host, CCAN_CMASK, 0x0087) == CCAN_DONE); /* write TxRqst and the data */
    for (unsigned number = 1; number <= each; number++) {
        int turns = 0;
        while (seen[(self + 1) % CHIPS][self] != number - 1 || seen[(self + 2) % CHIPS][self] != number - 1
            || has_flag(host, CCAN_TXRQST, SENDS))
            wait_a_turn(&turns);
        EXPECT(ccan_set(host, CCAN_DATAA1, (uint16_t)number) == CCAN_DONE);
        EXPECT(ccan_set(host, CCAN_DATAA2, (uint16_t)(number >> 16)) == CCAN_DONE);
        transfers(host, SENDS);
    }
    return NULL;
}

/* Reads object 2 or 3 by IF2, and clears its NewDat: it has to hold the next number of its sender, and nothing may be lost. */
static void reads_next(unsigned self, unsigned object)
{
    ccan_host *host = &chips[self].if2;
    const unsigned from = (self + object - 1) % CHIPS;
    uint16_t low, high, control;
    transfers(host, (uint16_t)object);
    EXPECT(ccan_get(host, CCAN_DATAA1, &low) == CCAN_DONE && ccan_get(host, CCAN_DATAA2, &high) == CCAN_DONE);
    EXPECT(ccan_get(host, CCAN_CTRL, &control) == CCAN_DONE && (control & 0x4000) == 0);
    EXPECT((low | (unsigned)high << 16) == seen[self][from] + 1);
    seen[self][from]++;
}

/* The host at IF2 of a chip: reads what the two others send. */
static void *reads_numbers(void *at)
{
    const unsigned self = *(const unsigned *)at;
    int turns = 0;
    EXPECT(ccan_set(&chips[self].if2, CCAN_CMASK, 0x007f) == CCAN_DONE); /* read all, clear NewDat and IntPnd */
    for (unsigned left = 2 * each; left > 0;) {
        for (unsigned object = 2; object <= 3; object++)
            if (has_flag(&chips[self].if2, CCAN_NEWDAT, object)) {
                reads_next(self, object);
                left--;
                turns = 0;
            }
        wait_a_turn(&turns);
    }
    return NULL;
}

/* The second model: what a frame of `sender` is to the chip `self`, all being error active, if `finder` finds `fault`. */
static uint32_t code_at(uint32_t sender, uint32_t finder, uint32_t fault, uint32_t self)
{
    static const uint32_t own[] = { 0, 1, 2, 4, 5, 6 };
    const bool in_stuffed_part = fault == CCAN_STUFF || (finder == sender && (fault == CCAN_BIT1 || fault == CCAN_BIT0));
    if (fault == CCAN_QUIET || self == finder)
        return own[fault];
    if (!in_stuffed_part)
        return 2;
    return self == sender ? 4 : 1;
}

static uint32_t tec[CHIPS], rec[CHIPS];

/* The chip that sends the frame which is under way. */
static uint32_t sender_now(void)
{
    uint32_t sender = 0;
    while (network.wire.part[sender] != CCAN_PART_SENDER)
        sender++;
    EXPECT(network.wire.kind == CCAN_WIRE_CARRIED && network.wire.frame.id == 0x100 + sender);
    return sender;
}

/* Plays one frame to its end, and compares all with the second model. Whether it was sent. */
static bool compares(uint32_t sender, uint32_t finder, uint32_t fault)
{
    EXPECT(ccan_network_fault(&network, finder, fault) == CCAN_DONE);
    finishes(until);
    for (uint32_t k = 0; k < CHIPS; k++) {
        const uint32_t code = code_at(sender, finder, fault, k);
        const ccan_counts counts = counts_of(&chips[k]);
        EXPECT(network.at[k].code == CCAN_DONE && network.at[k].ended.refused == CCAN_STEP_NONE);
        EXPECT(network.at[k].ended.code == code);
        EXPECT(network.at[k].ended.event == (code ? CCAN_EVENT_ERROR : k == sender ? CCAN_EVENT_SENT : CCAN_EVENT_RECEIVED));
        if (k == sender)
            tec[k] = code ? tec[k] + 8 : tec[k] - (tec[k] > 0);
        else
            rec[k] = code ? rec[k] + 1 : rec[k] - (rec[k] > 0);
        EXPECT(counts.tec == tec[k] && counts.rec == rec[k] && tec[k] < 128);
    }
    return fault == CCAN_QUIET;
}

/* The bus: plays frames until all were sent, and spoils each 11th of each sender, found by each chip and with each error in turn.
 * So TEC, 8 more and then 10 less, stays below 16, and all chips are error active. */
static unsigned plays(unsigned frames)
{
    uint64_t now = 0;
    unsigned played[CHIPS] = { 0 }, spoiled = 0;
    int turns = 0;
    while (frames > 0) {
        starts(now);
        now = until == CCAN_NETWORK_NEVER ? now + 1 : until;
        if (!network.under_way) {
            wait_a_turn(&turns);
            continue;
        }
        const uint32_t sender = sender_now();
        const bool spoils = ++played[sender] % 11 == 0;
        spoiled += spoils;
        frames -= compares(sender, spoiled % CHIPS, spoils ? 1 + spoiled / CHIPS % 5 : CCAN_QUIET);
        now = until;
        turns = 0;
    }
    return spoiled;
}

static void hosts_in_threads(unsigned frames)
{
    static unsigned self[CHIPS];
    pthread_t threads[2 * CHIPS];
    each = frames / CHIPS;
    ccan_network_init(&network, 0);
    open_all();
    for (unsigned k = 0; k < CHIPS; k++) {
        self[k] = k;
        write_object(&chips[k], SENDS, (uint16_t)(0xa000 | (0x100 + k) << 2), 0x0084, 0); /* valid, sends; EoB, four bytes */
        write_object(&chips[k], 2, (uint16_t)(0x8000 | (0x100 + (k + 1) % CHIPS) << 2), 0x0080, 0);
        write_object(&chips[k], 3, (uint16_t)(0x8000 | (0x100 + (k + 2) % CHIPS) << 2), 0x0080, 0);
        EXPECT(add_chip(&chips[k]) == k);
    }
    for (unsigned k = 0; k < CHIPS; k++) {
        EXPECT(pthread_create(&threads[2 * k], NULL, sends_numbers, &self[k]) == 0);
        EXPECT(pthread_create(&threads[2 * k + 1], NULL, reads_numbers, &self[k]) == 0);
    }
    const unsigned spoiled = plays(CHIPS * each);
    for (unsigned k = 0; k < 2 * CHIPS; k++)
        EXPECT(pthread_join(threads[k], NULL) == 0);
    starts(until);
    EXPECT(!network.under_way);
    end_all();
    printf("three chips on one bus: %u frames, each read by two hosts once and in order; %u were spoiled\n", CHIPS * each, spoiled);
}

static const struct { const char *name; void (*run)(void); } tests[] = {
#define RUN(test) { #test, test }
    RUN(members_come_and_go), RUN(a_frame_has_its_time), RUN(a_new_offer_stays), RUN(a_passive_sender_waits),
    RUN(an_active_sender_is_not_heard),
    RUN(spoiled_frames_have_their_length), RUN(who_is_removed_is_absent), RUN(groups_pass),
    RUN(groups_pass_behind_an_unheard_frame), RUN(a_chip_comes_back), RUN(a_chip_comes_on_by_itself),
    RUN(a_call_goes_past_the_time), RUN(a_host_is_faster), RUN(a_chip_in_hot_self_test),
    RUN(a_chip_in_loop_back_mode),
    RUN(a_host_sets_init_in_mid_frame), RUN(a_chip_is_removed_in_mid_frame), RUN(a_d_can_powers_down),
    RUN(a_d_can_powers_down_on_an_idle_bus), RUN(a_d_can_that_waits_stays_awake), RUN(lost_events_are_made) };

int main(int count, char **words)
{
    const unsigned frames = count == 2 ? (unsigned)strtoul(words[1], NULL, 10) : 0;
    if (frames < CHIPS) {
        fprintf(stderr, "usage: network FRAMES, %d or more\n", CHIPS);
        return 2;
    }
    for (int k = 0; k < CHIPS; k++)
        ccan_chip_init(&chips[k]);
    worked_rounds();
    for (size_t i = 0; i < COUNT(tests); i++) {
        running = tests[i].name;
        tests[i].run();
    }
    printf("several chips on one bus: %zu worked rounds, %zu tests of a network\n", COUNT(rounds), COUNT(tests));
    running = "three chips with hosts in threads";
    hosts_in_threads(frames);
    return 0;
}
