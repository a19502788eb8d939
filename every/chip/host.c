/* The calls of a host's handle by the names of registers, and the looks at objects. */
#include "chip.h"

const char *const flag_names[5] = { "NewDat", "MsgLst", "IntPnd", "TxRqst", "MsgVal" };

unsigned side_of(const ccan_host *host) { return (interface *)host->ccan_private_at == &C.interfaces[1]; }

/* ---- registers of an interface */

static void put(unsigned side, uint32_t reg, uint16_t value)
{
    interface *of = &C.interfaces[side];
    ccan_record *buffer = &of->buffer;
    switch (reg) {
    case CCAN_CMASK: of->mask = value & 0xff; break;
    case CCAN_MASK1: buffer->masks = (buffer->masks & 0xffff0000u) | value; break;
    case CCAN_MASK2: buffer->masks = (buffer->masks & 0xffff) | (uint32_t)(value & 0xdfff) << 16; break;
    case CCAN_ARB1: buffer->arbitration = (buffer->arbitration & 0xffff0000u) | value; break;
    case CCAN_ARB2: buffer->arbitration = (buffer->arbitration & 0xffff) | (uint32_t)value << 16; break;
    case CCAN_CTRL: buffer->control = value & 0xff8f; break;
    default: copy_bytes(buffer->bytes + 2 * (reg - CCAN_DATAA1), &value, 2);
    }
}

static uint16_t shown(unsigned side, uint32_t reg)
{
    const interface *of = &C.interfaces[side];
    const ccan_record *buffer = &of->buffer;
    uint16_t pair;
    switch (reg) {
    case CCAN_CMASK: return of->mask;
    case CCAN_MASK1: return (uint16_t)buffer->masks;
    case CCAN_MASK2: return (uint16_t)(buffer->masks >> 16);
    case CCAN_ARB1: return (uint16_t)buffer->arbitration;
    case CCAN_ARB2: return (uint16_t)(buffer->arbitration >> 16);
    case CCAN_CTRL: return buffer->control;
    case COMMAND_REQUEST: return of->request;
    default: copy_bytes(&pair, buffer->bytes + 2 * (reg - CCAN_DATAA1), 2); return pair;
    }
}

/* Notes of the registers of an interface which ones are other than before. */
static void changed_interface(unsigned side, const interface *before)
{
    const interface *now = &C.interfaces[side];
    const ccan_record *from = &before->buffer, *to = &now->buffer;
    uint64_t bits = before->mask != now->mask ? 1 << CCAN_CMASK : 0;
    bits |= from->masks != to->masks ? 1 << CCAN_MASK1 | 1 << CCAN_MASK2 : 0;
    bits |= from->arbitration != to->arbitration ? 1 << CCAN_ARB1 | 1 << CCAN_ARB2 : 0;
    bits |= from->control != to->control ? 1 << CCAN_CTRL : 0;
    bits |= memcmp(from->bytes, to->bytes, 8) ? 0xf << CCAN_DATAA1 : 0;
    bits |= before->request != now->request ? 1 << COMMAND_REQUEST : 0;
    E->event->writes[ROW_INTERFACES] |= bits << 16 * side;
}

void set_register(unsigned side, uint32_t reg, uint16_t value)
{
    step_at_interface(side, 0, 1ull << reg);
    interface before = C.interfaces[side];
    put(side, reg, value);
    changed_interface(side, &before);
    tell("writes %s", interface_words(side, reg, value));
}

uint16_t with_byte(uint16_t word, bool upper, uint8_t value)
{
    return upper ? (uint16_t)((word & 0xff) | value << 8) : (uint16_t)((word & 0xff00) | value);
}

void set_byte(unsigned side, uint32_t reg, bool upper, uint8_t value)
{
    step_at_interface(side, 0, 1ull << reg);
    interface before = C.interfaces[side];
    put(side, reg, with_byte(shown(side, reg), upper, value));
    changed_interface(side, &before);
    tell("writes a byte of %s", interface_words(side, reg, shown(side, reg)));
}

uint16_t get_register(unsigned side, uint32_t reg)
{
    step_at_interface(side, 1ull << reg, 0);
    uint16_t value = shown(side, reg);
    tell("reads %s", interface_words(side, reg, value));
    return value;
}

uint32_t ccan_set(ccan_host *host, uint32_t reg, uint16_t value)
{
    if (!host->ccan_private_full)
        return CCAN_CLOSED;
    if (reg > CCAN_DATAB2)
        return CCAN_REGISTER_RANGE;
    set_register(side_of(host), reg, value);
    return CCAN_DONE;
}

uint32_t ccan_get(ccan_host *host, uint32_t reg, uint16_t *out)
{
    if (!host->ccan_private_full)
        return CCAN_CLOSED;
    if (reg > CCAN_DATAB2)
        return CCAN_REGISTER_RANGE;
    uint16_t value = get_register(side_of(host), reg);
    give(out, &value, sizeof value);
    return CCAN_DONE;
}

/* ---- transfers */

/* In Command Mask. */
enum {
    WRITE = 0x80, MASKS = 0x40, ARBITRATION = 0x20, MESSAGE_CONTROL = 0x10, CLEAR_INTPND = 0x08, REQUEST = 0x04, DATA_A = 0x02,
    DATA_B = 0x01
};

static void take_groups(ccan_record *to, const ccan_record *from, uint16_t mask)
{
    if (mask & MASKS)
        to->masks = from->masks;
    if (mask & ARBITRATION)
        to->arbitration = from->arbitration;
    if (mask & MESSAGE_CONTROL)
        to->control = from->control;
    if (mask & DATA_A)
        copy_bytes(to->bytes, from->bytes, 4);
    if (mask & DATA_B)
        copy_bytes(to->bytes + 4, from->bytes + 4, 4);
}

static unsigned rows_of_read(uint16_t mask)
{
    unsigned rows = 0;
    rows |= mask & MASKS ? 1 << ROW_REST : 0;
    rows |= mask & ARBITRATION ? 1 << ROW_REST | 1 << ROW_MSGVAL : 0;
    rows |= mask & MESSAGE_CONTROL ? 1 << ROW_REST | 1 << ROW_NEWDAT | 1 << ROW_MSGLST | 1 << ROW_INTPND | 1 << ROW_TXRQST : 0;
    rows |= mask & CLEAR_INTPND ? 1 << ROW_INTPND : 0;
    rows |= mask & REQUEST ? 1 << ROW_NEWDAT : 0;
    rows |= mask & (DATA_A | DATA_B) ? 1 << ROW_DATA : 0;
    return rows;
}

/* A request of a transmission sets these. */
static void write_object(interface *of, ccan_record *record, uint16_t sets)
{
    take_groups(record, &of->buffer, of->mask);
    if (of->mask & REQUEST)
        record->control |= sets;
    of->buffer = *record;
}

static void fetch_object(interface *of, ccan_record *record)
{
    take_groups(&of->buffer, record, of->mask);
    if (of->mask & CLEAR_INTPND)
        record->control &= (uint16_t)~INTPND;
    if (of->mask & REQUEST)
        record->control &= (uint16_t)~NEWDAT;
}

static void transfer_with(unsigned side, unsigned object, uint16_t sets)
{
    interface *of = &C.interfaces[side], before;
    footprint most = { 0 };
    for (int row = 0; row < ROW_CONTROLLER; row++)
        most.reads[row] = most.writes[row] = 1ull << (object - 1);
    most.reads[ROW_INTERFACES] = most.writes[ROW_INTERFACES] = 0x7ffull << 16 * side;
    step(&most);
    ccan_record *record = &C.records[object - 1], was = *record;
    bool writes = of->mask & WRITE;
    before = *of;
    of->request = (uint16_t)object;
    if (writes)
        write_object(of, record, sets);
    else
        fetch_object(of, record);
    read_object(object, writes ? ALL_ROWS : rows_of_read(of->mask));
    changed_object(object, &was);
    E->event->reads[ROW_INTERFACES] |= (writes ? 0x7ffull : 0x401ull) << 16 * side;
    changed_interface(side, &before);
    if (!writes)
        E->event->writes[ROW_INTERFACES] |= (uint64_t)0x3fe << 16 * side; /* it may have written over what it didn't read */
    tell("%s object %u by IF%u, mask %02x: %s%s", writes ? "writes" : "reads", object, side + 1, of->mask,
        record_words(&of->buffer), flags_changed(&was, record));
}

void transfer(unsigned side, uint16_t request)
{
    unsigned object = (request & 63) % C.objects;
    transfer_with(side, object ? object : C.objects, TXRQST);
}

/* Eight bits of it are the object's number; where none has it, nothing happens. */
void request_of_d_can(unsigned side, uint16_t request)
{
    unsigned number = request & 0xff;
    if (number && number <= C.objects)
        transfer_with(side, number, TXRQST | NEWDAT);
}

uint32_t ccan_request(ccan_host *host, uint16_t request)
{
    if (!host->ccan_private_full)
        return CCAN_CLOSED;
    transfer(side_of(host), request);
    return CCAN_DONE;
}

uint32_t ccan_clear_objects(ccan_host *host)
{
    if (!host->ccan_private_full)
        return CCAN_CLOSED;
    for (unsigned object = 1; object <= C.objects; object++) {
        step_at_object(object, true);
        read_object(object, ALL_ROWS);
        ccan_record before = C.records[object - 1];
        C.records[object - 1] = (ccan_record){ 0 };
        changed_object(object, &before);
        tell("clears object %u", object);
    }
    return CCAN_DONE;
}

/* ---- looks at objects */

bool shows_flag(const ccan_record *record, uint32_t flag)
{
    static const uint16_t bits[] = { NEWDAT, MSGLST, INTPND, TXRQST };
    return flag == CCAN_MSGVAL ? record->arbitration & MSGVAL : record->control & bits[flag];
}

unsigned row_of_flag(uint32_t flag)
{
    static const uint8_t rows[] = { ROW_NEWDAT, ROW_MSGLST, ROW_INTPND, ROW_TXRQST, ROW_MSGVAL };
    return rows[flag];
}

uint64_t flags_now(uint32_t flag, uint64_t which)
{
    uint64_t word = 0;
    step_at_objects(1u << row_of_flag(flag), which);
    E->event->reads[row_of_flag(flag)] |= which;
    for (unsigned object = 0; object < C.objects; object++)
        word |= (uint64_t)shows_flag(&C.records[object], flag) << object;
    tell("reads %s:%s", flag_names[flag], objects_words(word & which));
    return word & which;
}

uint16_t pending_object(void)
{
    step_at_objects(1u << ROW_INTPND, all_objects());
    E->event->reads[ROW_INTPND] |= up_to_first_pending();
    return (uint16_t)first_pending();
}

uint32_t ccan_flags(ccan_host *host, uint32_t flag, uint64_t *out)
{
    if (!host->ccan_private_full)
        return CCAN_CLOSED;
    if (flag > CCAN_MSGVAL)
        return CCAN_FLAG_RANGE;
    uint64_t word = flags_now(flag, all_objects());
    give(out, &word, sizeof word);
    return CCAN_DONE;
}

uint32_t ccan_interrupt(ccan_host *host, uint16_t *out)
{
    if (!host->ccan_private_full)
        return CCAN_CLOSED;
    uint16_t value = pending_object();
    tell("reads the interrupt value of the objects: %04x", value);
    give(out, &value, sizeof value);
    return CCAN_DONE;
}

uint32_t ccan_peek(ccan_host *host, uint32_t object, ccan_record *out)
{
    if (!host->ccan_private_full)
        return CCAN_CLOSED;
    if (object < 1 || object > C.objects)
        return CCAN_OBJECT_RANGE;
    step_at_object(object, false);
    read_object(object, ALL_ROWS);
    ccan_record found = C.records[object - 1];
    tell("looks at object %u: %s%s", (unsigned)object, record_words(&found), flags_changed(&found, &found));
    give(out, &found, sizeof found);
    return CCAN_DONE;
}

typedef struct { uint32_t object, flag; } flag_of;

static bool shows_asked(const thread *of)
{
    const flag_of *asked = of->about;
    return shows_flag(&C.records[asked->object - 1], asked->flag);
}

static uint32_t looks_for(uint32_t object, uint32_t flag)
{
    step_at_object(object, false);
    read_object(object, 1u << row_of_flag(flag));
    bool shows = shows_flag(&C.records[object - 1], flag);
    tell("looks whether object %u shows %s: %s", (unsigned)object, flag_names[flag], shows ? "yes" : "no");
    return shows;
}

/* Looks that find nothing change nothing. So there are two ways after a first one that found nothing: all the others come at once,
 * and it gives up; or the next one that counts is the first that finds the flag. */
uint32_t ccan_until(ccan_host *host, uint32_t object, uint32_t flag, uint32_t turns, uint32_t *out)
{
    uint32_t shows;
    flag_of asked;
    if (!host->ccan_private_full)
        return CCAN_CLOSED;
    if (object < 1 || object > C.objects)
        return CCAN_OBJECT_RANGE;
    if (flag > CCAN_MSGVAL)
        return CCAN_FLAG_RANGE;
    if (turns < 1 || turns > 1000000)
        return CCAN_TURNS_RANGE;
    shows = looks_for(object, flag);
    if (!shows && turns > 1 && step_choosing(2)) {
        asked = (flag_of){ object, flag };
        footprint most = { 0 };
        most.reads[row_of_flag(flag)] = 1ull << (object - 1);
        ME->may_stay = true;
        step_when(&most, shows_asked, &asked);
        ME->may_stay = false;
        shows = looks_for(object, flag);
    }
    give(out, &shows, sizeof shows);
    return CCAN_DONE;
}
