/* Registers by their offsets, in the three layouts, and the interrupt line. What a D_CAN does otherwise: Texas Instruments AM335x
 * Technical Reference Manual, chapter DCAN. */
#include "chip.h"

/* A register: its number within an interface or a flag, and the interface or the flag. */
typedef struct { enum reg_name name; unsigned number, of; } reg;
enum { OF_BUS = 2 };
enum { PARTS_OF_CONTROL = PART_INIT | PART_IE | PART_ENABLES | PART_CONTROL }; /* of its lower half */
static const reg none = { NO_REGISTER, 0, 0 };

/* ---- layouts */

bool is_d_can(void) { return C.layout == CCAN_LAYOUT_D_CAN; }

/* The flag registers that begin at an offset: one for 16 objects. */
static reg flag_at(uint32_t offset, uint32_t first, unsigned flag)
{
    if (offset < first || offset >= first + C.objects / 8)
        return none;
    return (reg){ OF_FLAG, (offset - first) / 2, flag };
}

static reg first_flag_at(uint32_t offset, const uint32_t first[4])
{
    static const unsigned flags[] = { CCAN_TXRQST, CCAN_NEWDAT, CCAN_INTPND, CCAN_MSGVAL };
    for (int flag = 0; flag < 4; flag++) {
        reg found = flag_at(offset, first[flag], flags[flag]);
        if (found.name != NO_REGISTER)
            return found;
    }
    return none;
}

/* Place 0 is Command Request, 1 is Command Mask, and the others follow. */
static reg interface_at(unsigned place, unsigned side)
{
    return (reg){ OF_INTERFACE, place ? place - 1 : COMMAND_REQUEST, side };
}

static reg narrow_at(uint32_t offset)
{
    static const uint32_t flags[] = { 0x80, 0x90, 0xa0, 0xb0 };
    if (offset <= 0x0c)
        return (reg){ (enum reg_name)(offset / 2), 0, 0 };
    if (offset >= 0x10 && offset <= 0x24)
        return interface_at((offset - 0x10) / 2, 0);
    if (offset >= 0x40 && offset <= 0x54)
        return interface_at((offset - 0x40) / 2, 1);
    return first_flag_at(offset, flags);
}

/* On a D_CAN the half above Message Control has no register. */
static reg d_can_interface_at(uint32_t within, unsigned side)
{
    unsigned place = within / 2;
    return place == 7 ? none : interface_at(place > 7 ? place - 1 : place, side);
}

static reg d_can_at(uint32_t offset)
{
    static const uint32_t flags[] = { 0x88, 0x9c, 0xb0, 0xc4 };
    switch (offset) {
    case 0x00: return (reg){ CONTROL, 0, 0 };
    case 0x02: return (reg){ CONTROL_UPPER, 0, 0 };
    case 0x04: return (reg){ STATUS, 0, 0 };
    case 0x08: return (reg){ ERROR_COUNTER, 0, 0 };
    case 0x0c: return (reg){ BIT_TIMING, 0, 0 };
    case 0x0e: return (reg){ EXTENSION, 0, 0 };
    case 0x10: return (reg){ INTERRUPT, 0, 0 };
    case 0x14: return (reg){ TEST_REGISTER, 0, 0 };
    default: break;
    }
    if (offset >= 0x100 && offset < 0x118)
        return d_can_interface_at(offset - 0x100, 0);
    if (offset >= 0x120 && offset < 0x138)
        return d_can_interface_at(offset - 0x120, 1);
    return first_flag_at(offset, flags);
}

static reg register_at(uint32_t offset)
{
    if (offset & 1)
        return none;
    if (is_d_can())
        return d_can_at(offset);
    if (C.layout == CCAN_LAYOUT_C_CAN)
        return narrow_at(offset);
    return offset & 3 ? none : narrow_at(offset / 2);
}

/* ---- reads */

/* Reads Status, and clears what a read clears. As the register of a D_CAN it has PDA, and its flags are cleared too. */
static uint16_t status_read(bool of_d_can)
{
    step_at_controller(PART_FLAGS | PART_COUNTERS | (of_d_can ? PART_INIT | PART_POWER : 0), PART_PENDING | (of_d_can ? PART_FLAGS : 0));
    controller before = C.controller;
    uint16_t value = status_word() | (of_d_can && is_powered_down() ? PDA : 0);
    C.controller.pending = 0;
    if (of_d_can)
        C.controller.flags = 7;
    changed_controller(&before);
    tell("reads %s", controller_words(STATUS, value));
    return value;
}

uint16_t read_status(void) { return status_read(false); }

uint16_t read_interrupt(void)
{
    step_at_controller(PART_ENABLES | PART_PENDING, 0);
    if (shows_status()) {
        tell("reads %s", controller_words(INTERRUPT, 0x8000));
        return 0x8000;
    }
    tell("reads Interrupt: no status, so it looks at the objects");
    uint16_t object = pending_object();
    tell("reads %s", controller_words(INTERRUPT, object));
    return object;
}

bool read_line(void)
{
    step_at_controller(PART_IE | PART_ENABLES | PART_PENDING, 0);
    bool is_enabled = C.controller.control & IE, shows = shows_status();
    bool pulled = is_enabled && (shows || pending_object());
    tell("looks at the interrupt line: %s", pulled ? "pulled" : "not pulled");
    return pulled;
}

static uint16_t control_word(void) { return C.controller.control | (is_d_can() ? PMD_OFF : 0); }
static uint16_t control_upper(void) { return C.controller.pdr ? PDR : 0; }

static uint16_t controller_read(enum reg_name name)
{
    static const uint64_t parts[] = {
        [CONTROL] = PARTS_OF_CONTROL, [ERROR_COUNTER] = PART_COUNTERS, [BIT_TIMING] = PART_TIMING,
        [TEST_REGISTER] = PART_TEST, [EXTENSION] = PART_EXTENSION, [CONTROL_UPPER] = PART_POWER };
    step_at_controller(parts[name], 0);
    const controller *of = &C.controller;
    uint16_t value = name == CONTROL ? control_word() : name == ERROR_COUNTER ? error_counter_word() : name == BIT_TIMING ? of->timing :
        name == TEST_REGISTER ? of->test | RX_RECESSIVE : name == CONTROL_UPPER ? control_upper() : of->extension;
    tell("reads %s", controller_words(name, value));
    return value;
}

static uint16_t register_read(reg which)
{
    switch (which.name) {
    case STATUS: return status_read(is_d_can());
    case INTERRUPT: return read_interrupt();
    case OF_INTERFACE: return get_register(which.of, which.number);
    case OF_FLAG: return (uint16_t)(flags_now(which.of, 0xffffull << 16 * which.number) >> 16 * which.number);
    case CONTROL: case ERROR_COUNTER: case BIT_TIMING: case TEST_REGISTER: case EXTENSION: case CONTROL_UPPER:
        return controller_read(which.name);
    case NO_REGISTER: break;
    }
    return 0;
}

static uint32_t refusal(reg which, unsigned side)
{
    if (which.name == NO_REGISTER)
        return CCAN_OFFSET_RANGE;
    return which.name == OF_INTERFACE && which.of != side ? CCAN_OTHER_INTERFACE : CCAN_DONE;
}

static uint32_t read16(unsigned side, uint32_t offset, uint16_t *out)
{
    reg which = register_at(offset);
    uint32_t code = refusal(which, side);
    if (code == CCAN_DONE) {
        uint16_t value = register_read(which);
        give(out, &value, sizeof value);
    }
    return code;
}

/* The register is read whole. */
static uint32_t read8(unsigned side, uint32_t offset, uint8_t *out)
{
    reg which = register_at(offset & ~1u);
    uint32_t code = refusal(which, side);
    if (code == CCAN_DONE) {
        uint16_t word = register_read(which);
        uint8_t value = (uint8_t)(offset & 1 ? word >> 8 : word);
        give(out, &value, sizeof value);
    }
    return code;
}

/* Why an access to a word is refused, or CCAN_DONE. */
static uint32_t word_refusal(unsigned side, uint32_t offset, reg *low, reg *high)
{
    *low = offset & 3 ? none : register_at(offset);
    *high = offset & 3 ? none : register_at(offset + 2);
    if (low->name == NO_REGISTER && high->name == NO_REGISTER)
        return CCAN_OFFSET_RANGE;
    uint32_t code = low->name == NO_REGISTER ? CCAN_DONE : refusal(*low, side);
    return code != CCAN_DONE || high->name == NO_REGISTER ? code : refusal(*high, side);
}

/* The halves are Bit Timing and BRP Extension: the BTR register of a D_CAN. */
static bool is_bit_timing(reg low, reg high) { return low.name == BIT_TIMING && high.name == EXTENSION; }

static void tell_bit_timing(const char *does, uint16_t register_value, uint16_t extension)
{
    tell("%s %s, BRPE %u", does, controller_words(BIT_TIMING, register_value), extension & 15);
}

static uint32_t bit_timing_read(void)
{
    step_at_controller(PART_TIMING | PART_EXTENSION, 0);
    const controller *of = &C.controller;
    tell_bit_timing("reads", of->timing, of->extension);
    return (uint32_t)of->extension << 16 | of->timing;
}

/* The halves are those of Control of a D_CAN. */
static bool is_control(reg low, reg high) { return low.name == CONTROL && high.name == CONTROL_UPPER; }

static void tell_control(const char *does, uint32_t value)
{
    tell("%s %s%s", does, controller_words(CONTROL, (uint16_t)value), value >> 16 & PDR ? ", PDR" : "");
}

static uint32_t control_read(void)
{
    step_at_controller(PARTS_OF_CONTROL | PART_POWER, 0);
    uint32_t value = (uint32_t)control_upper() << 16 | control_word();
    tell_control("reads", value);
    return value;
}

static uint32_t read32(unsigned side, uint32_t offset, uint32_t *out)
{
    reg low, high;
    uint32_t value, code = word_refusal(side, offset, &low, &high);
    if (code != CCAN_DONE)
        return code;
    if (low.name == OF_FLAG && high.name == OF_FLAG) {
        value = (uint32_t)(flags_now(low.of, 0xffffffffull << 16 * low.number) >> 16 * low.number);
    } else if (is_bit_timing(low, high)) {
        value = bit_timing_read();
    } else if (is_control(low, high)) {
        value = control_read();
    } else {
        value = register_read(low);
        value |= (uint32_t)register_read(high) << 16;
    }
    give(out, &value, sizeof value);
    return CCAN_DONE;
}

/* ---- writes */

/* A write takes effect, or by the state of Control none. */
static void controller_written(enum reg_name name, uint16_t value)
{
    controller *of = &C.controller;
    bool may_configure = (of->control & (INIT | CCE)) == (INIT | CCE);
    if (name == CONTROL)
        set_control(value);
    else if (name == STATUS)
        of->flags = value & 0x1f;
    else if (name == TEST_REGISTER && (of->control & TEST))
        of->test = value & (is_d_can() ? 0x18 : 0x1c);
    else if (name == BIT_TIMING && may_configure)
        of->timing = value & 0x7fff;
    else if (name == EXTENSION && may_configure)
        of->extension = value & 0x0f;
    else if (name == CONTROL_UPPER)
        of->pdr = value & PDR;
}

static void controller_write(enum reg_name name, uint16_t value)
{
    static const uint64_t reads[] = {
        [CONTROL] = PART_COUNTERS, [STATUS] = 0, [BIT_TIMING] = PART_INIT | PART_CONTROL, [TEST_REGISTER] = PART_CONTROL,
        [EXTENSION] = PART_INIT | PART_CONTROL, [CONTROL_UPPER] = 0 };
    static const uint64_t writes[] = {
        [CONTROL] = PARTS_OF_CONTROL | PART_COUNTERS | PART_LEFT, [STATUS] = PART_FLAGS, [BIT_TIMING] = PART_TIMING,
        [TEST_REGISTER] = PART_TEST, [EXTENSION] = PART_EXTENSION, [CONTROL_UPPER] = PART_POWER };
    step_at_controller(reads[name], writes[name]);
    controller before = C.controller;
    controller_written(name, value);
    changed_controller(&before);
    tell("writes %s", controller_words(name, value));
}

static void bit_timing_write(uint16_t register_value, uint16_t extension)
{
    step_at_controller(PART_INIT | PART_CONTROL, PART_TIMING | PART_EXTENSION);
    controller before = C.controller;
    controller_written(BIT_TIMING, register_value);
    controller_written(EXTENSION, extension);
    changed_controller(&before);
    tell_bit_timing("writes", register_value, extension);
}

static void control_write(uint32_t value)
{
    step_at_controller(PART_COUNTERS, PARTS_OF_CONTROL | PART_COUNTERS | PART_LEFT | PART_POWER);
    controller before = C.controller;
    controller_written(CONTROL, (uint16_t)value);
    controller_written(CONTROL_UPPER, (uint16_t)(value >> 16));
    changed_controller(&before);
    tell_control("writes", value);
}

/* A software reset of a D_CAN: the controller, and then each object. */
static void reset_by_software(void)
{
    step_at_controller(0, ALL_PARTS);
    controller was = C.controller;
    reset_controller();
    changed_controller(&was);
    tell("resets the controller by SWR");
    for (unsigned object = 1; object <= C.objects; object++) {
        step_at_object(object, true);
        read_object(object, ALL_ROWS);
        ccan_record before = C.records[object - 1];
        reset_record(&C.records[object - 1]);
        changed_object(object, &before);
        tell("resets object %u", object);
    }
}

/* Whether a write of Control is the software reset of a D_CAN. */
static bool resets(uint32_t value) { return is_d_can() && (value & SWR) && (value & INIT); }

static void register_write(reg which, uint16_t value)
{
    if (which.name == CONTROL && resets(value)) {
        reset_by_software();
        return;
    }
    if (is_d_can() && which.name == STATUS)
        return;
    switch (which.name) {
    case OF_INTERFACE:
        if (which.number == COMMAND_REQUEST)
            (is_d_can() ? request_of_d_can : transfer)(which.of, value);
        else
            set_register(which.of, which.number, value);
        break;
    case CONTROL: case STATUS: case BIT_TIMING: case TEST_REGISTER: case EXTENSION: case CONTROL_UPPER:
        controller_write(which.name, value);
        break;
    case ERROR_COUNTER: case INTERRUPT: case OF_FLAG: case NO_REGISTER:
        break;
    }
}

static uint32_t write16(unsigned side, uint32_t offset, uint16_t value)
{
    reg which = register_at(offset);
    uint32_t code = refusal(which, side);
    if (code == CCAN_DONE)
        register_write(which, value);
    return code;
}

/* SWR of a D_CAN, of which Init is in the other byte. */
static void reset_in_init(void)
{
    step_at_controller(PART_INIT, 0);
    bool is_init = C.controller.control & INIT;
    tell("looks at Init: %d", is_init);
    if (is_init)
        reset_by_software();
}

/* The bits of Control, Status, Test and BRP Extension are in the lower byte, PDR is in the upper one, and the lower one of Command
 * Request makes the transfer. */
static void byte_write(reg which, bool upper, uint8_t value)
{
    if (which.name == BIT_TIMING)
        controller_write(BIT_TIMING, with_byte(controller_read(BIT_TIMING), upper, value));
    else if (which.name == OF_INTERFACE && which.number != COMMAND_REQUEST)
        set_byte(which.of, which.number, upper, value);
    else if (which.name == CONTROL_UPPER && upper)
        register_write(which, (uint16_t)(value << 8));
    else if (which.name == CONTROL_UPPER)
        return;
    else if (!upper)
        register_write(which, value);
    else if (is_d_can() && which.name == CONTROL && value & SWR >> 8)
        reset_in_init();
}

static uint32_t write8(unsigned side, uint32_t offset, uint8_t value)
{
    reg which = register_at(offset & ~1u);
    uint32_t code = refusal(which, side);
    if (code == CCAN_DONE)
        byte_write(which, offset & 1, value);
    return code;
}

static uint32_t write32(unsigned side, uint32_t offset, uint32_t value)
{
    reg low, high;
    uint32_t code = word_refusal(side, offset, &low, &high);
    if (code != CCAN_DONE)
        return code;
    if (is_bit_timing(low, high)) {
        bit_timing_write((uint16_t)value, (uint16_t)(value >> 16));
    } else if (is_control(low, high) && resets(value)) {
        reset_by_software();
    } else if (is_control(low, high)) {
        control_write(value);
    } else {
        register_write(high, (uint16_t)(value >> 16));
        register_write(low, (uint16_t)value);
    }
    return CCAN_DONE;
}

/* ---- the calls */

static uint32_t line(uint32_t *out)
{
    uint32_t pulled = read_line();
    give(out, &pulled, sizeof pulled);
    return CCAN_DONE;
}

uint32_t ccan_read16(ccan_host *host, uint32_t offset, uint16_t *out)
{
    return host->ccan_private_full ? read16(side_of(host), offset, out) : CCAN_CLOSED;
}

uint32_t ccan_write16(ccan_host *host, uint32_t offset, uint16_t value)
{
    return host->ccan_private_full ? write16(side_of(host), offset, value) : CCAN_CLOSED;
}

uint32_t ccan_read8(ccan_host *host, uint32_t offset, uint8_t *out)
{
    return host->ccan_private_full ? read8(side_of(host), offset, out) : CCAN_CLOSED;
}

uint32_t ccan_write8(ccan_host *host, uint32_t offset, uint8_t value)
{
    return host->ccan_private_full ? write8(side_of(host), offset, value) : CCAN_CLOSED;
}

uint32_t ccan_read32(ccan_host *host, uint32_t offset, uint32_t *out)
{
    return host->ccan_private_full ? read32(side_of(host), offset, out) : CCAN_CLOSED;
}

uint32_t ccan_write32(ccan_host *host, uint32_t offset, uint32_t value)
{
    return host->ccan_private_full ? write32(side_of(host), offset, value) : CCAN_CLOSED;
}

uint32_t ccan_line(ccan_host *host, uint32_t *out) { return host->ccan_private_full ? line(out) : CCAN_CLOSED; }

uint32_t ccan_bus_read16(ccan_bus *bus, uint32_t offset, uint16_t *out)
{
    return bus->ccan_private_full ? read16(OF_BUS, offset, out) : CCAN_CLOSED;
}

uint32_t ccan_bus_write16(ccan_bus *bus, uint32_t offset, uint16_t value)
{
    return bus->ccan_private_full ? write16(OF_BUS, offset, value) : CCAN_CLOSED;
}

uint32_t ccan_bus_read8(ccan_bus *bus, uint32_t offset, uint8_t *out)
{
    return bus->ccan_private_full ? read8(OF_BUS, offset, out) : CCAN_CLOSED;
}

uint32_t ccan_bus_write8(ccan_bus *bus, uint32_t offset, uint8_t value)
{
    return bus->ccan_private_full ? write8(OF_BUS, offset, value) : CCAN_CLOSED;
}

uint32_t ccan_bus_read32(ccan_bus *bus, uint32_t offset, uint32_t *out)
{
    return bus->ccan_private_full ? read32(OF_BUS, offset, out) : CCAN_CLOSED;
}

uint32_t ccan_bus_write32(ccan_bus *bus, uint32_t offset, uint32_t value)
{
    return bus->ccan_private_full ? write32(OF_BUS, offset, value) : CCAN_CLOSED;
}

uint32_t ccan_bus_line(ccan_bus *bus, uint32_t *out) { return bus->ccan_private_full ? line(out) : CCAN_CLOSED; }
