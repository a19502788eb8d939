/* Saves chips and opens them again. A chip that is saved and opened again on the way answers each later call as its twin that never
 * was, and is saved as the same bytes. Of bytes with one bit turned over those that open a chip are just what it is saved as, and
 * the others are refused and leave the place as it was. A chip that is reset in its place is as one that was just opened, but for
 * its message objects, which stay, except their flags MsgVal, NewDat, IntPnd and TxRqst. Prints what it did; a difference ends it with status 1. */
#include <ccan.h>
#include <stdio.h>
#include <stdlib.h>
#include <string.h>

#define EXPECT(what)                                                                                                                  \
    do {                                                                                                                              \
        if (!(what)) {                                                                                                                \
            fprintf(stderr, "%s:%d: %s\n", __FILE__, __LINE__, #what);                                                                \
            exit(1);                                                                                                                  \
        }                                                                                                                             \
    } while (0)

static ccan_chip chip = CCAN_CHIP_CLOSED, twin = CCAN_CHIP_CLOSED, third = CCAN_CHIP_CLOSED;
static uint32_t seed = 1;

static uint32_t number(uint32_t below)
{
    seed = seed * 1664525u + 1013904223u;
    return (seed >> 8) % below;
}

static void open_two(uint32_t profile, uint32_t layout)
{
    EXPECT(ccan_open_reset(&chip, profile, 2, 100, layout) == CCAN_DONE);
    EXPECT(ccan_open_reset(&twin, profile, 2, 100, layout) == CCAN_DONE);
}

/* One call at each of both, by one of the hosts: a write or a read of a register, at an offset or by its name. */
static void access_both(void)
{
    uint32_t offset = number(0x60) * 2, value = number(0x10000), second = number(2);
    ccan_host *one = second ? &chip.if2 : &chip.if1, *other = second ? &twin.if2 : &twin.if1;
    uint16_t read = 0, as_read = 0;
    switch (number(6)) {
    case 0:
        EXPECT(ccan_write16(one, offset, (uint16_t)value) == ccan_write16(other, offset, (uint16_t)value));
        break;
    case 1:
    case 2:
        EXPECT(ccan_set(one, value % 10, (uint16_t)(value ^ offset)) == ccan_set(other, value % 10, (uint16_t)(value ^ offset)));
        break;
    case 3:
        EXPECT(ccan_request(one, (uint16_t)value) == ccan_request(other, (uint16_t)value));
        break;
    case 4:
        EXPECT(ccan_bus_write16(&chip.bus, 0, (uint16_t)(value & 0xee)) == ccan_bus_write16(&twin.bus, 0, (uint16_t)(value & 0xee)));
        break;
    default:
        EXPECT(ccan_read16(one, offset, &read) == ccan_read16(other, offset, &as_read) && read == as_read);
    }
}

/* The upper half of Control of a D_CAN is written at each of both, or the bus lets them enter local power down. */
static void power_both(void)
{
    uint32_t value = number(0x10000), down = 9, as_down = 9;
    if (value % 3)
        EXPECT(ccan_bus_write16(&chip.bus, 2, (uint16_t)value) == CCAN_DONE && ccan_bus_write16(&twin.bus, 2, (uint16_t)value) == CCAN_DONE);
    else
        EXPECT(ccan_power_down(&chip.bus, &down) == CCAN_DONE && ccan_power_down(&twin.bus, &as_down) == CCAN_DONE && down == as_down);
}

/* A round at each of both, with a frame of node 1 or none, spoiled where it is the controller's own. What the first answers. */
static ccan_outcome play_both(uint32_t frames, uint32_t fault)
{
    ccan_offer offer = { .id = number(2048), .node = 1, .dlc = (uint8_t)number(9), .bytes = { (uint8_t)seed } };
    ccan_outcome out, as_out;
    EXPECT(ccan_round(&chip.bus, &offer, frames, fault, &out) == ccan_round(&twin.bus, &offer, frames, fault, &as_out));
    EXPECT(memcmp(&out, &as_out, sizeof out) == 0);
    return out;
}

/* Rounds until nothing is left to send, so that no frame is loaded: that is not of the chip. */
static void play_out(void)
{
    for (int round = 0; round < 200; round++) {
        uint32_t kind = play_both(0, CCAN_QUIET).kind;
        if (kind == CCAN_IDLE || kind == CCAN_PASSED)
            return;
    }
}

static int saves;

/* The chip goes on as one that was opened from its bytes. */
static void swap_chip(void)
{
    ccan_saved saved, again;
    memset(&saved, 0x55, sizeof saved);
    EXPECT(ccan_save(&chip, &saved) == CCAN_DONE);
    EXPECT(ccan_restore(&chip, &saved) == CCAN_DONE);
    memset(&again, 0xaa, sizeof again);
    EXPECT(ccan_save(&chip, &again) == CCAN_DONE && memcmp(&saved, &again, sizeof saved) == 0);
    EXPECT(ccan_save(&twin, &again) == CCAN_DONE && memcmp(&saved, &again, sizeof saved) == 0);
    saves++;
}

static int resets;

/* What a reset leaves of a record: MsgVal, NewDat, IntPnd and TxRqst are 0. */
static ccan_record as_reset(ccan_record record)
{
    record.arbitration &= ~0x80000000u;
    record.control &= (uint16_t)~0xa100u;
    return record;
}

/* Both are reset: all but the records is as in a chip that was just opened, and of the records a reset clears the four flags. */
static void reset_both(uint32_t profile, uint32_t layout)
{
    ccan_saved after, fresh;
    ccan_record before[64], now;
    const size_t records = 136;
    const uint32_t objects = 32 * profile;
    for (uint32_t object = 1; object <= objects; object++)
        EXPECT(ccan_peek(&chip.if1, object, &before[object - 1]) == CCAN_DONE);
    EXPECT(ccan_reset(&chip) == CCAN_DONE && ccan_reset(&twin) == CCAN_DONE);
    for (uint32_t object = 1; object <= objects; object++) {
        const ccan_record left = as_reset(before[object - 1]);
        EXPECT(ccan_peek(&chip.if1, object, &now) == CCAN_DONE && memcmp(&now, &left, 18) == 0);
    }
    EXPECT(ccan_save(&chip, &after) == CCAN_DONE);
    EXPECT(ccan_open_reset(&third, profile, 2, 100, layout) == CCAN_DONE && ccan_save(&third, &fresh) == CCAN_DONE);
    EXPECT(memcmp(after.bytes, fresh.bytes, records) == 0);
    resets++;
}

static void run(uint32_t profile, uint32_t layout)
{
    uint32_t groups, as_groups;
    open_two(profile, layout);
    for (int step = 0; step < 400; step++) {
        access_both();
        if (number(4) == 0)
            play_both(number(2), number(3) ? CCAN_QUIET : 1 + number(5));
        if (number(9) == 0)
            EXPECT(ccan_recessive(&chip.bus, 1 + number(40), &groups) == CCAN_DONE);
        else
            groups = 9;
        if (groups != 9)
            EXPECT(ccan_recessive(&twin.bus, (seed >> 8) % 40 + 1, &as_groups) == CCAN_DONE && groups == as_groups);
        if (layout == CCAN_LAYOUT_D_CAN && number(12) == 0)
            power_both();
        if (number(8) == 0) {
            play_out();
            swap_chip();
        }
        if (number(40) == 0)
            reset_both(profile, layout);
    }
}

/* Each bit of a saved chip is turned over. */
static void spoil(void)
{
    ccan_saved saved, spoiled, again;
    int opened = 0, none = 0, no_chip = 0;
    EXPECT(ccan_save(&chip, &saved) == CCAN_DONE);
    for (size_t bit = 0; bit < 8 * sizeof saved.bytes; bit++) {
        spoiled = saved;
        spoiled.bytes[bit / 8] ^= (uint8_t)(1u << bit % 8);
        uint32_t code = ccan_restore(&third, &spoiled);
        EXPECT(code == CCAN_DONE || code == CCAN_NO_SAVED_CHIP || code == CCAN_NO_CHIP);
        if (code == CCAN_DONE)
            EXPECT(ccan_save(&third, &again) == CCAN_DONE && memcmp(&spoiled, &again, sizeof again) == 0);
        opened += code == CCAN_DONE;
        none += code == CCAN_NO_SAVED_CHIP;
        no_chip += code == CCAN_NO_CHIP;
    }
    EXPECT(opened > 1000 && none > 1000);
    printf("of %zu chips with one bit turned over %d are chips, %d no saved chips, and %d can't be\n", 8 * sizeof saved.bytes, opened,
           none, no_chip);
}

int main(void)
{
    ccan_final last;
    ccan_saved saved;
    memset(&saved, 0, sizeof saved);
    EXPECT(ccan_save(&third, &saved) == CCAN_CLOSED && saved.bytes[0] == 0);
    EXPECT(ccan_restore(&third, &saved) == CCAN_NO_SAVED_CHIP && !ccan_is_open(&third));
    for (uint32_t seeds = 0; seeds < 60; seeds++)
        run(1 + seeds % 2, seeds % 3);
    spoil();
    EXPECT(ccan_end(&chip, &last) == CCAN_DONE && ccan_end(&twin, &last) == CCAN_DONE && ccan_end(&third, &last) == CCAN_DONE);
    EXPECT(resets > 100);
    printf("%d chips were saved and opened again, and went on as their twins; %d were reset in their place\n", saves, resets);
    return 0;
}
