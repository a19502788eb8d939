/* Registers and records in a history: the lines of examples/explain/each_line.json and tests/explain/data_by_length.json, as those
 * of a driver, and then registers of the controller. Its history is held to what `ccan-lab explain` tells of the same lines. */
#include <ccan_every.h>
#include <stdio.h>

static ccan_chip chip = CCAN_CHIP_CLOSED;

static void must(uint32_t code) { ccan_require(code == CCAN_DONE, "%s", ccan_text(code)); }

static void write_object(uint16_t object, const uint16_t registers[4])
{
    static const uint16_t data[] = { 0x2211, 0x4433, 0x6655, 0x8877 };
    must(ccan_set(&chip.if1, CCAN_CMASK, registers[0]));
    must(ccan_set(&chip.if1, CCAN_MASK2, registers[1]));
    must(ccan_set(&chip.if1, CCAN_ARB2, registers[2]));
    must(ccan_set(&chip.if1, CCAN_CTRL, registers[3]));
    for (uint32_t pair = 0; registers[0] & 3 && pair < 4; pair++)
        must(ccan_set(&chip.if1, CCAN_DATAA1 + pair, data[pair]));
    must(ccan_request(&chip.if1, object));
}

static void play_each_line(void)
{
    static const uint16_t listens[] = { 0x00f0, 0xdfe0, 0x8480, 0x1480 };
    static const ccan_offer frame = { .id = 293, .node = 1, .dlc = 1, .bytes = { 0x11 } };
    ccan_outcome came;
    uint64_t flags;
    uint16_t value;
    write_object(1, listens);
    must(ccan_control(&chip.bus, 1, 0));
    must(ccan_round(&chip.bus, &frame, 1, CCAN_QUIET, &came));
    must(ccan_bus_interrupt(&chip.bus, &value));
    must(ccan_status(&chip.bus, &value));
    must(ccan_flags(&chip.if1, CCAN_NEWDAT, &flags));
    must(ccan_set(&chip.if1, CCAN_CMASK, 0x007f));
    must(ccan_request(&chip.if1, 1));
}

static void play_lengths(void)
{
    static const uint16_t sends[3][4] = {
        { 0x00b3, 0xdfe0, 0xa48c, 0x0182 }, { 0x00b3, 0xdfe0, 0xa490, 0x0081 }, { 0x00b3, 0xdfe0, 0xa494, 0x0089 } };
    ccan_outcome came;
    for (uint16_t object = 1; object <= 3; object++)
        write_object(object, sends[object - 1]);
    must(ccan_round(&chip.bus, NULL, 0, CCAN_QUIET, &came));
}

static void look_at_controller(void)
{
    static const uint32_t offsets[] = {
        CCAN_OFFSET_CONTROL, CCAN_OFFSET_STATUS, CCAN_OFFSET_ERROR_COUNTER, CCAN_OFFSET_BIT_TIMING, CCAN_OFFSET_INTERRUPT,
        CCAN_OFFSET_TEST, CCAN_OFFSET_BRP_EXTENSION };
    uint16_t value;
    must(ccan_write16(&chip.if2, CCAN_OFFSET_CONTROL, 0x00ef));
    must(ccan_write16(&chip.if2, CCAN_OFFSET_BIT_TIMING, 0x2301));
    must(ccan_write16(&chip.if2, CCAN_OFFSET_TEST, 0x001c));
    must(ccan_set(&chip.if2, CCAN_ARB2, 0x5234));
    must(ccan_set(&chip.if2, CCAN_ARB1, 0x5678));
    for (int number = 0; number < 7; number++)
        must(ccan_read16(&chip.if2, offsets[number], &value));
}

static void drive(void)
{
    play_each_line();
    play_lengths();
    look_at_controller();
}

int main(void)
{
    must(ccan_open_reset(&chip, 1, 1, 1, CCAN_LAYOUT_C_CAN));
    must(ccan_write16(&chip.if1, CCAN_OFFSET_CONTROL, 0x0000));
    ccan_thread("driver", drive);
    ccan_quiet();
    ccan_fail("the registers are shown");
}
