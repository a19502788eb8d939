/* Every register of all three layouts, with 32 and with 64 objects: at which offsets there is one and for which handle, what it
 * reads after a reset, which of its bits can be written and when, what a read leaves, words of 32 bits, and single bytes. The
 * offsets of D_CAN are those of the AM335x manual, the reset values and bits those of the C_CAN User's Manual, or of the AM335x
 * manual where a D_CAN has others. */
#include <ccan.h>
#include <stdio.h>
#include <stdlib.h>

#define EXPECT(holds) do { if (!(holds)) { printf("layout %u, %u objects, line %d, register %s: not so: %s\n", \
    (unsigned)layout, (unsigned)objects, __LINE__, row->name, #holds); exit(1); } } while (0)

enum owner { ANYBODY, IF1, IF2 };

/* The offset of a register that a C_CAN hasn't. */
#define NOWHERE 0x80000000u

/* A register: its offset with C_CAN and with D_CAN, who may use it, what it reads after a reset, and which bits a write sets. */
struct row { const char *name; uint32_t c_can, d_can; enum owner owner; uint16_t reset, bits; };

static const struct row rows[] = {
    { "Control", CCAN_OFFSET_CONTROL, 0x00, ANYBODY, 0x0001, 0x00ef },
    { "Status", CCAN_OFFSET_STATUS, 0x04, ANYBODY, 0, 0x001f },
    { "Error Counter", CCAN_OFFSET_ERROR_COUNTER, 0x08, ANYBODY, 0, 0 },
    { "Bit Timing", CCAN_OFFSET_BIT_TIMING, 0x0c, ANYBODY, 0x2301, 0x7fff },
    { "Interrupt", CCAN_OFFSET_INTERRUPT, 0x10, ANYBODY, 0, 0 },
    { "Test", CCAN_OFFSET_TEST, 0x14, ANYBODY, 0, 0x001c },
    { "BRP Extension", CCAN_OFFSET_BRP_EXTENSION, 0x0e, ANYBODY, 0, 0x000f },
    { "IF1 Command Request", CCAN_OFFSET_IF1_COMMAND_REQUEST, 0x100, IF1, 1, 0 },
    { "IF1 Command Mask", CCAN_OFFSET_IF1_COMMAND_MASK, 0x102, IF1, 0, 0x00ff },
    { "IF1 Mask 1", CCAN_OFFSET_IF1_MASK_1, 0x104, IF1, 0xffff, 0xffff },
    { "IF1 Mask 2", CCAN_OFFSET_IF1_MASK_2, 0x106, IF1, 0xdfff, 0xdfff },
    { "IF1 Arbitration 1", CCAN_OFFSET_IF1_ARBITRATION_1, 0x108, IF1, 0, 0xffff },
    { "IF1 Arbitration 2", CCAN_OFFSET_IF1_ARBITRATION_2, 0x10a, IF1, 0, 0xffff },
    { "IF1 Message Control", CCAN_OFFSET_IF1_MESSAGE_CONTROL, 0x10c, IF1, 0, 0xff8f },
    { "IF1 Data A1", CCAN_OFFSET_IF1_DATA_A1, 0x110, IF1, 0, 0xffff },
    { "IF1 Data A2", CCAN_OFFSET_IF1_DATA_A2, 0x112, IF1, 0, 0xffff },
    { "IF1 Data B1", CCAN_OFFSET_IF1_DATA_B1, 0x114, IF1, 0, 0xffff },
    { "IF1 Data B2", CCAN_OFFSET_IF1_DATA_B2, 0x116, IF1, 0, 0xffff },
    { "IF2 Command Request", CCAN_OFFSET_IF2_COMMAND_REQUEST, 0x120, IF2, 1, 0 },
    { "IF2 Command Mask", CCAN_OFFSET_IF2_COMMAND_MASK, 0x122, IF2, 0, 0x00ff },
    { "IF2 Mask 1", CCAN_OFFSET_IF2_MASK_1, 0x124, IF2, 0xffff, 0xffff },
    { "IF2 Mask 2", CCAN_OFFSET_IF2_MASK_2, 0x126, IF2, 0xdfff, 0xdfff },
    { "IF2 Arbitration 1", CCAN_OFFSET_IF2_ARBITRATION_1, 0x128, IF2, 0, 0xffff },
    { "IF2 Arbitration 2", CCAN_OFFSET_IF2_ARBITRATION_2, 0x12a, IF2, 0, 0xffff },
    { "IF2 Message Control", CCAN_OFFSET_IF2_MESSAGE_CONTROL, 0x12c, IF2, 0, 0xff8f },
    { "IF2 Data A1", CCAN_OFFSET_IF2_DATA_A1, 0x130, IF2, 0, 0xffff },
    { "IF2 Data A2", CCAN_OFFSET_IF2_DATA_A2, 0x132, IF2, 0, 0xffff },
    { "IF2 Data B1", CCAN_OFFSET_IF2_DATA_B1, 0x134, IF2, 0, 0xffff },
    { "IF2 Data B2", CCAN_OFFSET_IF2_DATA_B2, 0x136, IF2, 0, 0xffff },
    { "Control, upper half", NOWHERE, 0x02, ANYBODY, 0, 0x0100 },
    { "Transmission Request 1", CCAN_OFFSET_TRANSMISSION_REQUEST_1, 0x88, ANYBODY, 0, 0 },
    { "Transmission Request 2", CCAN_OFFSET_TRANSMISSION_REQUEST_2, 0x8a, ANYBODY, 0, 0 },
    { "New Data 1", CCAN_OFFSET_NEW_DATA_1, 0x9c, ANYBODY, 0, 0 },
    { "New Data 2", CCAN_OFFSET_NEW_DATA_2, 0x9e, ANYBODY, 0, 0 },
    { "Interrupt Pending 1", CCAN_OFFSET_INTERRUPT_PENDING_1, 0xb0, ANYBODY, 0, 0 },
    { "Interrupt Pending 2", CCAN_OFFSET_INTERRUPT_PENDING_2, 0xb2, ANYBODY, 0, 0 },
    { "Message Valid 1", CCAN_OFFSET_MESSAGE_VALID_1, 0xc4, ANYBODY, 0, 0 },
    { "Message Valid 2", CCAN_OFFSET_MESSAGE_VALID_2, 0xc6, ANYBODY, 0, 0 },
    { "Transmission Request 3", CCAN_OFFSET_TRANSMISSION_REQUEST_3, 0x8c, ANYBODY, 0, 0 },
    { "Transmission Request 4", CCAN_OFFSET_TRANSMISSION_REQUEST_4, 0x8e, ANYBODY, 0, 0 },
    { "New Data 3", CCAN_OFFSET_NEW_DATA_3, 0xa0, ANYBODY, 0, 0 },
    { "New Data 4", CCAN_OFFSET_NEW_DATA_4, 0xa2, ANYBODY, 0, 0 },
    { "Interrupt Pending 3", CCAN_OFFSET_INTERRUPT_PENDING_3, 0xb4, ANYBODY, 0, 0 },
    { "Interrupt Pending 4", CCAN_OFFSET_INTERRUPT_PENDING_4, 0xb6, ANYBODY, 0, 0 },
    { "Message Valid 3", CCAN_OFFSET_MESSAGE_VALID_3, 0xc8, ANYBODY, 0, 0 },
    { "Message Valid 4", CCAN_OFFSET_MESSAGE_VALID_4, 0xca, ANYBODY, 0, 0 } };

enum { ROWS = sizeof rows / sizeof rows[0], ROWS_OF_32 = ROWS - 8, FLAGS = 30, PAST = 0x400 };

static const struct row nowhere = { "that is none", 0, 0, ANYBODY, 0, 0 };
static const struct row *const control = &rows[0], *const status = &rows[1], *const timing = &rows[3],
    *const test = &rows[5], *const extension = &rows[6], *const upper_control = &rows[29];
static ccan_chip chip = CCAN_CHIP_CLOSED;
static uint32_t layout, objects;

static uint32_t rows_here(void) { return objects == 64 ? ROWS : ROWS_OF_32; }
static bool is_here(const struct row *row) { return row->c_can != NOWHERE || layout == CCAN_LAYOUT_D_CAN; }

static uint32_t place_of(const struct row *row)
{
    return layout == CCAN_LAYOUT_D_CAN ? row->d_can : layout == CCAN_LAYOUT_C_CAN_32 ? 2 * row->c_can : row->c_can;
}

static bool is_dcan(void) { return layout == CCAN_LAYOUT_D_CAN; }

/* Bits that no write changes: Rx of Test is 1, as the bus is recessive, and PMD of Control of a D_CAN is 5. */
static uint16_t fixed_in(const struct row *row)
{
    return row == test ? 0x0080 : is_dcan() && row == control ? 0x1400 : 0;
}

/* What a register reads after a reset: Status of a D_CAN has LEC 7. */
static uint16_t reset_of(const struct row *row)
{
    return fixed_in(row) | (is_dcan() && row == status ? 0x0007 : row->reset);
}

/* The bits that a write sets: Test of a D_CAN has no Basic. */
static uint16_t bits_in(const struct row *row) { return is_dcan() && row == test ? 0x0018 : row->bits; }

static const struct row *row_at(uint32_t offset)
{
    for (uint32_t i = 0; i < rows_here(); i++)
        if (is_here(&rows[i]) && place_of(&rows[i]) == offset)
            return &rows[i];
    return NULL;
}

static uint32_t wanted_code(const struct row *row, enum owner handle)
{
    return row == NULL ? CCAN_OFFSET_RANGE : row->owner == ANYBODY || row->owner == handle ? CCAN_DONE : CCAN_OTHER_INTERFACE;
}

/* An access by the handle of IF1 or IF2, or, with ANYBODY, of the bus. */
static uint32_t read_by(enum owner handle, uint32_t offset, uint16_t *value)
{
    return handle == IF1 ? ccan_read16(&chip.if1, offset, value) : handle == IF2 ? ccan_read16(&chip.if2, offset, value)
        : ccan_bus_read16(&chip.bus, offset, value);
}

static uint32_t write_by(enum owner handle, uint32_t offset, uint16_t value)
{
    return handle == IF1 ? ccan_write16(&chip.if1, offset, value) : handle == IF2 ? ccan_write16(&chip.if2, offset, value)
        : ccan_bus_write16(&chip.bus, offset, value);
}

/* What a register reads, by its own handle or by that of the bus, once the handles have met; 0 if the chip hasn't it. */
static uint16_t get(const struct row *row)
{
    uint16_t value = 0x5a5a;
    if (!is_here(row))
        return 0;
    EXPECT(ccan_meet(&chip) == CCAN_DONE);
    EXPECT(read_by(row->owner, place_of(row), &value) == CCAN_DONE);
    return value;
}

static void put(const struct row *row, uint16_t value)
{
    EXPECT(ccan_meet(&chip) == CCAN_DONE);
    EXPECT(write_by(row->owner == ANYBODY ? IF2 : row->owner, place_of(row), value) == CCAN_DONE);
}

/* At each offset each handle is answered, and a refused call leaves its output. */
static void offsets(void)
{
    for (uint32_t offset = 0; offset < PAST; offset++) {
        const struct row *found = row_at(offset), *row = found ? found : &nowhere;
        for (enum owner handle = ANYBODY; handle <= IF2; handle++) {
            uint16_t value = 0x5a5a;
            uint32_t code = wanted_code(found, handle);
            EXPECT(read_by(handle, offset, &value) == code);
            EXPECT(value == (code == CCAN_DONE ? reset_of(row) : 0x5a5a));
            if (code != CCAN_DONE)
                EXPECT(write_by(handle, offset, 0xffff) == code);
        }
    }
    const struct row *row = &nowhere;
    uint16_t value = 0x5a5a;
    EXPECT(ccan_read16(&chip.if1, 0xffffffff, &value) == CCAN_OFFSET_RANGE && value == 0x5a5a);
    EXPECT(ccan_write16(&chip.if1, 0x80000000, 0) == CCAN_OFFSET_RANGE);
}

/* What a read of each register leaves: all of them, but for the Status register of a D_CAN. */
static void reads_leave(void)
{
    uint16_t first[ROWS];
    for (uint32_t i = 0; i < rows_here(); i++)
        first[i] = get(&rows[i]);
    for (uint32_t i = 0; i < rows_here(); i++) {
        const struct row *row = &rows[i];
        EXPECT(get(row) == (row == status && layout == CCAN_LAYOUT_D_CAN ? 7 : first[i]));
    }
}

/* Bits of a register that can always be written, all 1 and all 0, and that no other register changes. */
static void bits_of(const struct row *row)
{
    uint16_t before[ROWS];
    for (uint32_t i = 0; i < rows_here(); i++)
        before[i] = get(&rows[i]);
    put(row, row == control ? 0x7fff : 0xffff); /* no SWR */
    EXPECT(get(row) == (row->bits | fixed_in(row)));
    put(row, 0x1234);
    EXPECT(get(row) == ((0x1234 & row->bits) | fixed_in(row)));
    for (uint32_t i = 0; i < rows_here(); i++) {
        const struct row *other = &rows[i];
        EXPECT(other == row || get(other) == before[i] || (other == status && layout == CCAN_LAYOUT_D_CAN));
    }
    put(row, 0);
    EXPECT(get(row) == fixed_in(row));
}

/* Bit Timing and BRP Extension: only while Init and CCE are 1. */
static void configured(const struct row *row)
{
    static const uint16_t others[] = { 0x00, 0x40, 0x01 };
    put(control, 0x41);
    put(row, 0xffff);
    EXPECT(get(row) == row->bits);
    for (int i = 0; i < 3; i++) {
        put(control, others[i]);
        put(row, 0x0002);
        EXPECT(get(row) == row->bits);
    }
    put(control, 0x41);
    put(row, 0x0002);
    EXPECT(get(row) == 0x0002);
}

/* Test: only while Test of Control is 1; what it holds stays when that is cleared. */
static void tested(void)
{
    const struct row *row = test;
    put(control, 0x01);
    put(test, 0xffff);
    EXPECT(get(test) == fixed_in(test));
    put(control, 0x81);
    put(test, 0xffff);
    EXPECT(get(test) == (bits_in(test) | fixed_in(test)));
    put(control, 0x01);
    put(test, 0);
    EXPECT(get(test) == (bits_in(test) | fixed_in(test)));
}

/* Status: what is written of it, and what a read leaves. */
static void status_read(void)
{
    const struct row *row = status;
    uint16_t value;
    put(status, 0x0018);
    if (is_dcan()) { /* it can only be read */
        EXPECT(get(status) == 0x0007);
        EXPECT(ccan_status(&chip.bus, &value) == CCAN_DONE && value == 0x0007);
        return;
    }
    put(status, 0xffff);
    EXPECT(get(status) == 0x001f);
    EXPECT(get(status) == 0x001f);
    put(status, 0x000a);
    EXPECT(ccan_status(&chip.bus, &value) == CCAN_DONE && value == 0x000a); /* it clears no flag */
    EXPECT(get(status) == 0x000a);
    put(status, 0);
}

/* PDA of Status: PDR and Init are both 1. A write of one half of Control leaves the other. */
static void power_down_shown(void)
{
    const struct row *row = upper_control;
    bits_of(upper_control);
    put(upper_control, 0x0100);
    for (uint16_t value = 0; value < 2; value++) {
        put(control, value);
        EXPECT(get(upper_control) == 0x0100 && get(status) == (value ? 0x0407 : 0x0007));
    }
    put(upper_control, 0);
    EXPECT(get(control) == 0x1401 && get(status) == 0x0007);
}

/* Registers of an interface, and Command Request, which reads the number of the object, without Busy. */
static void interface(uint32_t first)
{
    for (uint32_t i = first + 1; i < first + 11; i++) {
        if (i != first + 1)
            put(&rows[first + 1], 0); /* a Command Mask that moves nothing */
        bits_of(&rows[i]);
    }
    const struct row *row = &rows[first];
    put(row, 0x8005);
    EXPECT(get(row) == 5);
    put(row, 0xffc0);
    EXPECT(get(row) == (is_dcan() ? 5 : objects)); /* no object has a number of these eight bits */
    put(row, 0x0021);
    EXPECT(get(row) == (objects == 64 ? 0x21 : is_dcan() ? 5 : 1));
}

/* The last object of each register of a flag, valid and with this Message Control. */
static void write_last_objects(uint16_t message_control)
{
    for (uint16_t object = 16; object <= objects; object += 16) {
        put(&rows[8], 0x00b0);  /* write Arbitration and Control */
        put(&rows[12], 0x8000); /* MsgVal */
        put(&rows[13], message_control);
        put(&rows[7], object);
    }
}

/* Registers of the flags: each of the last objects that a register shows has all four, and each register drops what is written. */
static void flags(void)
{
    const struct row *row = &nowhere;
    write_last_objects(0xa100); /* NewDat, IntPnd, TxRqst */
    for (uint32_t i = FLAGS; i < rows_here(); i++) {
        row = &rows[i];
        EXPECT(get(row) == 0x8000);
        put(row, 0xffff);
        EXPECT(get(row) == 0x8000);
        put(row, 0);
        EXPECT(get(row) == 0x8000);
    }
    row = &rows[4];
    EXPECT(get(row) == 16);
}

/* The interrupt line, over IE and what there is to be shown; and that a read of Status takes a status interrupt away. */
static void line(void)
{
    const struct row *row = &rows[4];
    static const ccan_offer offer = { 0x7ff, 1, 0, 0, 0, { 0 } };
    ccan_outcome outcome;
    uint32_t pulled = 7;
    write_last_objects(0x2000); /* IntPnd alone: nothing is to be sent */
    put(control, 0x00);
    EXPECT(ccan_line(&chip.if1, &pulled) == CCAN_DONE && pulled == 0);
    put(control, 0x02);
    EXPECT(ccan_line(&chip.if2, &pulled) == CCAN_DONE && pulled == 1);
    EXPECT(ccan_meet(&chip) == CCAN_DONE && ccan_round(&chip.bus, &offer, 1, CCAN_QUIET, &outcome) == CCAN_DONE);
    EXPECT(outcome.winner == 1 && get(row) == 16);
    put(control, 0x06); /* the frame has raised it, though SIE was 0 */
    EXPECT(get(row) == 0x8000);
    put(control, 0x0a);
    EXPECT(get(row) == 16);
    put(control, 0x0e);
    EXPECT(get(row) == 0x8000);
    EXPECT(get(status) == 0x0010 && get(row) == 16);
    EXPECT(ccan_bus_line(&chip.bus, &pulled) == CCAN_DONE && pulled == 1);
}

static uint32_t read_word_by(enum owner handle, uint32_t offset, uint32_t *word)
{
    return handle == IF1 ? ccan_read32(&chip.if1, offset, word) : handle == IF2 ? ccan_read32(&chip.if2, offset, word)
        : ccan_bus_read32(&chip.bus, offset, word);
}

/* At each offset a word of 32 bits is the register there and the one two bytes on, or it is refused and leaves its output. No
 * word is of two owners. */
static void words_read(void)
{
    for (uint32_t offset = 0; offset < PAST; offset++) {
        const struct row *low = row_at(offset), *high = row_at(offset + 2), *row = low ? low : high ? high : &nowhere;
        uint32_t word = 0x5a5a5a5a;
        if (offset % 4 != 0 || row == &nowhere) {
            EXPECT(ccan_read32(&chip.if1, offset, &word) == CCAN_OFFSET_RANGE && word == 0x5a5a5a5a);
            EXPECT(ccan_write32(&chip.if1, offset, 0) == CCAN_OFFSET_RANGE);
            EXPECT(ccan_bus_write32(&chip.bus, offset, 0) == CCAN_OFFSET_RANGE);
            continue;
        }
        uint32_t wanted = (uint32_t)(high ? get(high) : 0) << 16 | (low ? get(low) : 0);
        for (enum owner handle = ANYBODY; handle <= IF2; handle++) {
            uint32_t code = wanted_code(row, handle);
            word = 0x5a5a5a5a;
            EXPECT(read_word_by(handle, offset, &word) == code && word == (code == CCAN_DONE ? wanted : 0x5a5a5a5a));
        }
        if (row->owner != ANYBODY)
            EXPECT(ccan_write32(row->owner == IF1 ? &chip.if2 : &chip.if1, offset, 0xffffffff) == CCAN_OTHER_INTERFACE);
    }
}

/* The halves of a word are written, and where they are one word the mask of a command before its request. */
static void words_written(void)
{
    const struct row *row = timing;
    uint32_t half = place_of(timing) % 4 * 8;
    put(control, 0x41);
    EXPECT(ccan_write32(&chip.if2, place_of(timing) & ~3u, (uint32_t)0x1c00 << half) == CCAN_DONE && get(timing) == 0x1c00);
    EXPECT(ccan_meet(&chip) == CCAN_DONE);
    EXPECT(ccan_bus_write32(&chip.bus, place_of(timing) & ~3u, (uint32_t)0x2301 << half) == CCAN_DONE && get(timing) == 0x2301);
    if (layout == CCAN_LAYOUT_C_CAN_32)
        return;
    if (is_dcan()) { /* both halves of BTR at once, without the reserved bits, and neither without CCE */
        EXPECT(ccan_meet(&chip) == CCAN_DONE);
        EXPECT(ccan_write32(&chip.if1, 0x0c, 0xfff59c00) == CCAN_DONE && get(timing) == 0x1c00 && get(extension) == 0x0005);
        put(control, 0x01);
        EXPECT(ccan_meet(&chip) == CCAN_DONE);
        EXPECT(ccan_write32(&chip.if1, 0x0c, 0x00002301) == CCAN_DONE && get(timing) == 0x1c00 && get(extension) == 0x0005);
        EXPECT(ccan_meet(&chip) == CCAN_DONE && ccan_write32(&chip.if1, 0x00, 0xffff0041) == CCAN_DONE);
        EXPECT(get(control) == 0x1441 && get(upper_control) == 0x0100);
        EXPECT(ccan_meet(&chip) == CCAN_DONE && ccan_write32(&chip.if1, 0x00, 0xfeff0001) == CCAN_DONE);
        EXPECT(get(control) == 0x1401 && get(upper_control) == 0);
    }
    row = &rows[FLAGS + 6];
    put(&rows[8], 0x0000);  /* a Command Mask that moves nothing */
    put(&rows[12], 0x8000); /* MsgVal */
    EXPECT(ccan_meet(&chip) == CCAN_DONE && ccan_write32(&chip.if1, place_of(&rows[7]), 0x00b00005) == CCAN_DONE);
    EXPECT(get(row) == 0x8010);
}

static uint32_t read_byte_by(enum owner handle, uint32_t offset, uint8_t *value)
{
    return handle == IF1 ? ccan_read8(&chip.if1, offset, value) : handle == IF2 ? ccan_read8(&chip.if2, offset, value)
        : ccan_bus_read8(&chip.bus, offset, value);
}

static uint32_t write_byte_by(enum owner handle, uint32_t offset, uint8_t value)
{
    return handle == IF1 ? ccan_write8(&chip.if1, offset, value) : handle == IF2 ? ccan_write8(&chip.if2, offset, value)
        : ccan_bus_write8(&chip.bus, offset, value);
}

static void put_byte(const struct row *row, uint32_t upper, uint8_t value)
{
    EXPECT(ccan_meet(&chip) == CCAN_DONE);
    EXPECT(write_byte_by(row->owner, place_of(row) + upper, value) == CCAN_DONE);
}

/* At each offset a byte is a half of the register that begins at the even one, or it is refused and leaves its output. */
static void bytes_read(void)
{
    for (uint32_t offset = 0; offset < PAST; offset++) {
        const struct row *found = row_at(offset & ~1u), *row = found ? found : &nowhere;
        uint16_t word = found ? get(found) : 0;
        for (enum owner handle = ANYBODY; handle <= IF2; handle++) {
            uint8_t value = 0x5a;
            uint32_t code = wanted_code(found, handle);
            EXPECT(read_byte_by(handle, offset, &value) == code);
            EXPECT(value == (code != CCAN_DONE ? 0x5a : offset & 1 ? word >> 8 : (uint8_t)word));
            if (code != CCAN_DONE)
                EXPECT(write_byte_by(handle, offset, 0xff) == code);
        }
    }
}

/* What a register reads once a byte of it was written: the other byte stays. Of those of the controller Bit Timing and the upper half
 * of Control have bits in their upper byte. */
static uint16_t with_byte(const struct row *row, uint16_t before, uint32_t upper, uint8_t value)
{
    uint16_t set = is_dcan() && row == status ? 0 : bits_in(row) & (upper ? 0xff00 : 0x00ff);
    return (uint16_t)((before & ~set) | ((upper ? value << 8 : value) & set));
}

/* Each byte of each register except Command Request, while all bits can be written. */
static void bytes_written(void)
{
    static const uint8_t values[] = { 0xff, 0x5a, 0x25, 0x00 };
    for (uint32_t i = 0; i < rows_here(); i++) {
        const struct row *row = &rows[i];
        for (uint32_t step = 0; step < 8 && i != 7 && i != 18 && is_here(row); step++) {
            uint32_t upper = step / 4;
            put(control, 0xc1); /* Init, CCE and Test */
            uint16_t before = get(row);
            put_byte(row, upper, row == control && upper ? values[step % 4] & 0x7f : values[step % 4]);
            EXPECT(get(row) == with_byte(row, before, upper, values[step % 4]));
        }
    }
}

/* A byte of Bit Timing is dropped as the register is, and SWR without Init. */
static void bytes_dropped(void)
{
    const struct row *row = timing;
    put(control, 0x41);
    put(timing, 0x1c00);
    put(control, 0x40);
    put_byte(timing, 0, 0x05);
    put_byte(timing, 1, 0x23);
    put_byte(control, 1, 0x80); /* SWR of a D_CAN, but Init is 0 */
    EXPECT(get(timing) == 0x1c00 && get(control) == (0x40 | fixed_in(control)));
}

/* The lower byte of Command Request makes the transfer, and the upper one nothing. */
static void requests_by_bytes(void)
{
    const struct row *row = &rows[7];
    put(&rows[8], 0x0000); /* a Command Mask that moves nothing */
    put(row, 3);
    put_byte(row, 1, 0x06);
    EXPECT(get(row) == 3);
    put(&rows[8], 0x00b0);  /* write Arbitration and Control */
    put(&rows[12], 0x8000); /* MsgVal */
    put(&rows[13], 0);
    put_byte(row, 1, 0x06);
    row = &rows[FLAGS + 6];
    EXPECT((get(row) & 0x0020) == 0);
    put_byte(&rows[7], 0, 0x06);
    EXPECT((get(row) & 0x0020) == 0x0020);
}

/* SWR with Init 1 resets a D_CAN; in the upper byte of Control of a C_CAN there is nothing. */
static void reset_by_a_byte(void)
{
    const struct row *row = control;
    put(control, 0x41);
    put(timing, 0x1c00);
    put_byte(control, 1, 0x7f);
    EXPECT(get(timing) == 0x1c00);
    if (is_dcan())
        put(upper_control, 0x0100);
    put_byte(control, 1, 0x80);
    EXPECT(get(timing) == (is_dcan() ? 0x2301 : 0x1c00) && get(control) == (is_dcan() ? 0x1401 : 0x0041));
    EXPECT(get(upper_control) == 0);
    EXPECT((get(&rows[FLAGS + 6]) == 0) == is_dcan()); /* no object is valid */
}

int main(void)
{
    static ccan_final last;
    const struct row *row = &nowhere;
    for (layout = CCAN_LAYOUT_C_CAN; layout <= CCAN_LAYOUT_D_CAN; layout++) {
        for (uint32_t profile = 1; profile <= 2; profile++) {
            objects = 32 * profile;
            EXPECT(ccan_open_reset(&chip, profile, 2, 100, layout) == CCAN_DONE);
            offsets();
            reads_leave();
            bits_of(control);
            bits_of(&rows[2]);
            bits_of(&rows[4]);
            status_read();
            if (is_dcan())
                power_down_shown();
            configured(timing);
            configured(extension);
            tested();
            interface(7);
            interface(18);
            flags();
            line();
            words_read();
            words_written();
            bytes_read();
            bytes_written();
            bytes_dropped();
            requests_by_bytes();
            reset_by_a_byte();
            EXPECT(ccan_end(&chip, &last) == CCAN_DONE && last.objects == objects);
        }
    }
    EXPECT(ccan_open_reset(&chip, 1, 2, 100, layout) == CCAN_LAYOUT_RANGE && !ccan_is_open(&chip));
    printf("%d registers in three layouts: offsets are those of the manuals, reset values, bits and reads those of docs/REGISTERS.md\n", ROWS);
    return 0;
}
