/* Each field of each struct that crosses: the library writes it, or reads it, where the header has it, and writes nothing past
 * the end of an output. */
#include <ccan.h>
#include <stdio.h>
#include <stdlib.h>
#include <string.h>

#define EXPECT(holds) do { if (!(holds)) { printf("line %d: not so: %s\n", __LINE__, #holds); exit(1); } } while (0)

/* An output, between guards that nobody may write to. It held anything before. */
#define GUARDED(type) struct { uint8_t before[16]; type out; uint8_t after[16]; }
#define FILL(guarded) memset(&(guarded), 0xa5, sizeof(guarded))
#define INTACT(guarded) (is_intact((guarded).before) && is_intact((guarded).after))

static int is_intact(const uint8_t *guard)
{
    for (int i = 0; i < 16; i++)
        if (guard[i] != 0xa5)
            return 0;
    return 1;
}

static ccan_chip chip = CCAN_CHIP_CLOSED;

static void set(uint32_t reg, uint16_t value) { EXPECT(ccan_set(&chip.if1, reg, value) == CCAN_DONE); }

/* Writes an object by IF1, with different bits in each register. */
static void write_object(uint16_t object, uint16_t arb2, uint16_t control)
{
    set(CCAN_CMASK, 0x00f3);
    set(CCAN_MASK1, 0x1234);
    set(CCAN_MASK2, 0xd567);
    set(CCAN_ARB1, 0x89ab);
    set(CCAN_ARB2, arb2);
    set(CCAN_CTRL, control);
    set(CCAN_DATAA1, 0x0201);
    set(CCAN_DATAA2, 0x0403);
    set(CCAN_DATAB1, 0x0605);
    set(CCAN_DATAB2, 0x0807);
    EXPECT(ccan_request(&chip.if1, object) == CCAN_DONE);
}

static int is_written(const ccan_record *record, uint32_t arbitration, uint16_t control)
{
    for (int i = 0; i < 8; i++)
        if (record->bytes[i] != i + 1)
            return 0;
    return record->masks == 0xd5671234u && record->arbitration == arbitration && record->control == control;
}

static int is_frame(const ccan_frame *frame, uint32_t id, uint8_t xtd, uint8_t rtr, uint8_t dlc, const uint8_t *bytes)
{
    return frame->id == id && frame->xtd == xtd && frame->rtr == rtr && frame->dlc == dlc && !memcmp(frame->bytes, bytes, 8);
}

/* Object 3 sends the extended identifier, and object 5 takes whatever has the first bits of 0x123. */
static void rounds(void)
{
    GUARDED(ccan_loaded) loaded;
    GUARDED(ccan_outcome) outcome;
    GUARDED(ccan_counts) counts;
    ccan_offer offer = { .id = 0x123, .node = 2, .dlc = 3, .bytes = { 0x11, 0x22, 0x33, 0x44 } };
    static const uint8_t theirs[8] = { 0x11, 0x22, 0x33 }, ours[8] = { 1, 2, 3, 4, 5, 6, 7, 8 }, none[8];
    FILL(loaded);
    FILL(outcome);
    FILL(counts);
    EXPECT(ccan_load(&chip.bus, &loaded.out) == CCAN_DONE && INTACT(loaded));
    EXPECT(loaded.out.kind == CCAN_LOAD_LOADED && loaded.out.object == 3);
    EXPECT(is_written(&loaded.out.held, 0xe48c89abu, 0x0188));
    EXPECT(is_frame(&loaded.out.frame, 0x048c89abu, 1, 0, 8, ours));
    EXPECT(ccan_round(&chip.bus, &offer, 1, CCAN_QUIET, &outcome.out) == CCAN_DONE && INTACT(outcome));
    EXPECT(outcome.out.kind == CCAN_RECEIVED && outcome.out.object == 0 && outcome.out.stored == 5);
    EXPECT(outcome.out.stored_record.control == 0xa483 && outcome.out.stored_record.bytes[2] == 0x33);
    EXPECT(outcome.out.stored_record.arbitration == 0x848c0000u && outcome.out.finished.arbitration == 0);
    EXPECT(outcome.out.loaded == 0 && outcome.out.refused == CCAN_STEP_NONE && outcome.out.winner == 2);
    EXPECT(is_frame(&outcome.out.frame, 0x123, 0, 0, 3, theirs));
    EXPECT(ccan_round(&chip.bus, &offer, 0, CCAN_QUIET, &outcome.out) == CCAN_DONE && INTACT(outcome));
    EXPECT(outcome.out.kind == CCAN_SENT && outcome.out.object == 3 && outcome.out.stored == 0);
    EXPECT(is_written(&outcome.out.finished, 0xe48c89abu, 0x0088) && outcome.out.stored_record.arbitration == 0);
    EXPECT(outcome.out.loaded == 3 && outcome.out.refused == CCAN_STEP_NONE && outcome.out.winner == 0);
    EXPECT(is_frame(&outcome.out.frame, 0x048c89abu, 1, 0, 8, ours));
    EXPECT(ccan_round(&chip.bus, &offer, 0, CCAN_QUIET, &outcome.out) == CCAN_DONE && outcome.out.kind == CCAN_IDLE);
    EXPECT(outcome.out.loaded == 0 && outcome.out.winner == CCAN_NO_NODE && is_frame(&outcome.out.frame, 0, 0, 0, 0, none));
    /* the other fields of an offer: an extended remote frame asks for object 3 and is stored nowhere */
    offer.id = 0x048c89abu;
    offer.xtd = 1;
    offer.rtr = 1;
    EXPECT(ccan_round(&chip.bus, &offer, 1, CCAN_CRC, &outcome.out) == CCAN_DONE && outcome.out.kind == CCAN_FAULT);
    EXPECT(outcome.out.winner == 2 && is_frame(&outcome.out.frame, 0x048c89abu, 1, 1, 3, none));
    EXPECT(ccan_counters(&chip.bus, 0, &counts.out) == CCAN_DONE && INTACT(counts));
    EXPECT(counts.out.tec == 0 && counts.out.rec == 1 && counts.out.state == CCAN_ACTIVE);
    EXPECT(ccan_counters(&chip.bus, 2, &counts.out) == CCAN_DONE && INTACT(counts));
    EXPECT(counts.out.tec == 8 && counts.out.rec == 0 && counts.out.state == CCAN_ACTIVE);
    offer.node = 3;
    EXPECT(ccan_round(&chip.bus, &offer, 1, CCAN_QUIET, &outcome.out) == CCAN_SENDERS);
    offer.node = 2;
    offer.dlc = 16;
    EXPECT(ccan_round(&chip.bus, &offer, 1, CCAN_QUIET, &outcome.out) == CCAN_FRAME_RANGE);
}

/* Calls from which one number or nothing comes. */
static void numbers(void)
{
    GUARDED(uint8_t) byte;
    GUARDED(uint16_t) half;
    GUARDED(uint32_t) word;
    GUARDED(uint64_t) flags;
    FILL(byte);
    FILL(half);
    FILL(word);
    FILL(flags);
    EXPECT(ccan_get(&chip.if1, CCAN_MASK2, &half.out) == CCAN_DONE && INTACT(half) && half.out == 0xd567);
    EXPECT(ccan_flags(&chip.if2, CCAN_MSGVAL, &flags.out) == CCAN_DONE && INTACT(flags) && flags.out == 0x14);
    EXPECT(ccan_bus_flags(&chip.bus, CCAN_NEWDAT, &flags.out) == CCAN_DONE && INTACT(flags) && flags.out == 0x10);
    EXPECT(ccan_interrupt(&chip.if2, &half.out) == CCAN_DONE && INTACT(half) && half.out == 5);
    EXPECT(ccan_bus_interrupt(&chip.bus, &half.out) == CCAN_DONE && INTACT(half) && half.out == 5);
    EXPECT(ccan_status(&chip.bus, &half.out) == CCAN_DONE && INTACT(half) && (half.out & 7) == 6);
    EXPECT(ccan_until(&chip.if2, 5, CCAN_NEWDAT, 1, &word.out) == CCAN_DONE && INTACT(word) && word.out == 1);
    EXPECT(ccan_until(&chip.if2, 5, CCAN_MSGLST, 1, &word.out) == CCAN_DONE && INTACT(word) && word.out == 0);
    EXPECT(ccan_recessive(&chip.bus, 1, &word.out) == CCAN_DONE && INTACT(word) && word.out == CCAN_ACTIVE);
    EXPECT(ccan_power_down(&chip.bus, &word.out) == CCAN_DONE && INTACT(word) && word.out == 0);
    EXPECT(ccan_read16(&chip.if1, CCAN_OFFSET_IF1_MASK_2, &half.out) == CCAN_DONE && INTACT(half) && half.out == 0xd567);
    EXPECT(ccan_read16(&chip.if1, CCAN_OFFSET_IF2_MASK_2, &half.out) == CCAN_OTHER_INTERFACE && INTACT(half) && half.out == 0xd567);
    EXPECT(ccan_read8(&chip.if1, CCAN_OFFSET_IF1_MASK_2 + 1, &byte.out) == CCAN_DONE && INTACT(byte) && byte.out == 0xd5);
    EXPECT(ccan_bus_read8(&chip.bus, CCAN_OFFSET_IF1_MASK_2, &byte.out) == CCAN_OTHER_INTERFACE && byte.out == 0xd5);
    EXPECT(ccan_bus_read8(&chip.bus, CCAN_OFFSET_INTERRUPT, &byte.out) == CCAN_DONE && INTACT(byte) && byte.out == 5);
    EXPECT(ccan_bus_read16(&chip.bus, CCAN_OFFSET_INTERRUPT, &half.out) == CCAN_DONE && INTACT(half) && half.out == 5);
    EXPECT(ccan_line(&chip.if1, &word.out) == CCAN_DONE && INTACT(word) && word.out == 0);
    EXPECT(ccan_bus_write16(&chip.bus, CCAN_OFFSET_CONTROL, 0x0002) == CCAN_DONE);
    EXPECT(ccan_bus_line(&chip.bus, &word.out) == CCAN_DONE && INTACT(word) && word.out == 1);
    EXPECT(ccan_version() == CCAN_VERSION && ccan_is_open(&chip));
}

/* Object 3 sends the extended identifier on a bus of several chips. The fields of what begins and ends a frame; a member and a wire
 * are read as they are written. */
static void frames(void)
{
    GUARDED(ccan_member) member;
    GUARDED(ccan_wire) wire;
    GUARDED(ccan_finished) ended;
    GUARDED(ccan_node) node;
    GUARDED(uint32_t) word;
    static const uint8_t ours[8] = { 1, 2, 3, 4, 5, 6, 7, 8 };
    ccan_member members[32] = { { .role = CCAN_ROLE_ABSENT } };
    FILL(member);
    FILL(wire);
    FILL(ended);
    FILL(node);
    FILL(word);
    write_object(3, 0xe48c, 0x0188);
    EXPECT(ccan_begin(&chip.bus, &member.out) == CCAN_DONE && INTACT(member));
    EXPECT(member.out.role == CCAN_ROLE_ACTIVE && member.out.fault == CCAN_QUIET && member.out.sends == 1);
    EXPECT(is_frame(&member.out.frame, 0x048c89abu, 1, 0, 8, ours));
    EXPECT(ccan_frame_bits(&member.out.frame, &word.out) == CCAN_DONE && INTACT(word) && word.out >= 128);
    members[30] = member.out;
    node.out = (ccan_node){ .tec = 2, .rec = 130, .groups = 0 };
    EXPECT(ccan_node_begin(&node.out, 0, &member.out.frame, &members[31]) == CCAN_DONE);
    EXPECT(members[31].role == CCAN_ROLE_PASSIVE && members[31].sends == 0 && members[31].frame.id == 0);
    EXPECT(ccan_decide(members, 32, &wire.out) == CCAN_DONE && INTACT(wire));
    EXPECT(wire.out.kind == CCAN_WIRE_CARRIED && wire.out.flagged == 0 && is_frame(&wire.out.frame, 0x048c89abu, 1, 0, 8, ours));
    EXPECT(wire.out.part[30] == CCAN_PART_SENDER && wire.out.part[31] == CCAN_PART_LISTENER && wire.out.part[0] == CCAN_PART_LISTENER);
    EXPECT(ccan_stay(&chip.bus, &member.out) == CCAN_DONE && INTACT(member) && !memcmp(&member.out, &members[30], sizeof members[30]));
    EXPECT(ccan_finish(&chip.bus, &wire.out, 30, CCAN_QUIET, &ended.out) == CCAN_DONE && INTACT(ended));
    EXPECT(ended.out.event == CCAN_EVENT_SENT && ended.out.code == 0 && ended.out.counts == CCAN_COUNTS_SENT);
    EXPECT(ended.out.object == 3 && is_written(&ended.out.finished, 0xe48c89abu, 0x0088));
    EXPECT(ended.out.stored == 0 && ended.out.stored_record.arbitration == 0 && ended.out.refused == CCAN_STEP_NONE);
    EXPECT(ccan_node_finish(&node.out, &wire.out, 31, &members[31], &word.out) == CCAN_DONE && INTACT(node) && INTACT(word));
    EXPECT(word.out == CCAN_EVENT_RECEIVED && node.out.tec == 2 && node.out.rec == 119 && node.out.groups == 0);
    node.out.tec = 256;
    EXPECT(ccan_node_recessive(&node.out, 5) == CCAN_DONE && INTACT(node) && node.out.groups == 5);
    /* the other fields of a wire and of a member: the chip, at the place 31, finds an error in a frame that it stores nowhere */
    EXPECT(ccan_begin(&chip.bus, &member.out) == CCAN_DONE && member.out.sends == 0);
    EXPECT(ccan_finish(&chip.bus, &wire.out, 31, CCAN_CRC, &ended.out) == CCAN_DONE && INTACT(ended));
    EXPECT(ended.out.event == CCAN_EVENT_ERROR && ended.out.code == 6 && ended.out.counts == CCAN_COUNTS_RECEIVE_ERROR);
    EXPECT(ended.out.object == 0 && ended.out.finished.arbitration == 0);
    /* an object that stores a frame: object 5 takes whatever has the first bits of 0x123 */
    wire.out.frame = (ccan_frame){ .id = 0x123, .dlc = 2, .bytes = { 0x11, 0x22 } };
    EXPECT(ccan_begin(&chip.bus, &member.out) == CCAN_DONE);
    EXPECT(ccan_finish(&chip.bus, &wire.out, 31, CCAN_QUIET, &ended.out) == CCAN_DONE && ended.out.event == CCAN_EVENT_RECEIVED);
    EXPECT(ended.out.stored == 5 && ended.out.stored_record.arbitration == 0x848c0000u && ended.out.stored_record.bytes[1] == 0x22);
    EXPECT(ccan_retry_event(&chip.bus, &ended.out) == CCAN_DONE);
    wire.out.kind = CCAN_WIRE_UNHEARD;
    wire.out.flagged = 1;
    EXPECT(ccan_begin(&chip.bus, &member.out) == CCAN_DONE);
    EXPECT(ccan_finish(&chip.bus, &wire.out, 31, CCAN_QUIET, &ended.out) == CCAN_DONE && ended.out.code == 2);
    EXPECT(ccan_bit_time(0x7fff, 0x000f) == 25600);
}

int main(void)
{
    static GUARDED(ccan_final) last;
    GUARDED(ccan_record) record;
    FILL(record);
    FILL(last);
    EXPECT(ccan_open(&chip, 1, 2, 100) == CCAN_DONE);
    write_object(3, 0xe48c, 0x0188);
    write_object(5, 0x848c, 0x0480);
    EXPECT(ccan_peek(&chip.if2, 3, &record.out) == CCAN_DONE && INTACT(record) && is_written(&record.out, 0xe48c89abu, 0x0188));
    rounds();
    numbers();
    frames();
    EXPECT(ccan_end(&chip, &last.out) == CCAN_DONE && INTACT(last) && last.out.objects == 32);
    EXPECT(is_written(&last.out.records[2], 0xe48c89abu, 0x0088) && last.out.records[4].bytes[0] == 0x11);
    EXPECT(last.out.records[63].masks == 0 && last.out.records[63].control == 0);
    printf("each field stands where the header has it\n");
    return 0;
}
