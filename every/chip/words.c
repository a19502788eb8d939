/* Registers and records in words, as `ccan-lab explain` has them (docs/OUTPUT.md; C_CAN User's Manual 1.2, the sections of the
 * registers). Each function has a text of its own, which stays until it is called again. */
#include "chip.h"

/* A text that is put together. */
typedef struct { char *text; size_t room, length; } words;
#define WORDS_IN(text) { text, sizeof text, 0 }

static void add(words *to, const char *format, ...)
{
    va_list arguments;
    va_start(arguments, format);
    if (to->length < to->room)
        to->length += (size_t)vsnprintf(to->text + to->length, to->room - to->length, format, arguments);
    va_end(arguments);
}

/* Bits with names, the last of them none. */
typedef struct { uint16_t bit; const char *name; } named_bit;

static void add_bits(words *to, uint16_t value, const named_bit *bits)
{
    for (; bits->bit; bits++)
        if (value & bits->bit)
            add(to, " %s", bits->name);
}

/* ---- registers of an interface */

static const named_bit in_control_of_message[] = {
    { NEWDAT, "NewDat" }, { MSGLST, "MsgLst" }, { INTPND, "IntPnd" }, { UMASK, "UMask" }, { TXIE, "TxIE" }, { RXIE, "RxIE" },
    { RMTEN, "RmtEn" }, { TXRQST, "TxRqst" }, { EOB, "EoB" }, { 0, NULL } };
static const named_bit in_mask_2[] = { { 0x8000, "MXtd" }, { 0x4000, "MDir" }, { 0, NULL } };
static const named_bit in_arbitration_2[] = { { 0x8000, "MsgVal" }, { 0x4000, "Xtd" }, { 0x2000, "Dir" }, { 0, NULL } };
static const named_bit in_command_mask[] = {
    { 0x40, "Mask" }, { 0x20, "Arb" }, { 0x10, "Control" }, { 0x08, "ClrIntPnd" }, { 0, NULL } };
static const named_bit in_command_mask_behind[] = { { 0x02, "DataA" }, { 0x01, "DataB" }, { 0, NULL } };

static void add_length(words *to, uint16_t control)
{
    unsigned code = control & DLC, count = code > 8 ? 8 : code;
    add(to, "%u byte%s%s", count, count == 1 ? "" : "s", code > 8 ? " (DLC above 8)" : "");
}

static void add_command_mask(words *to, uint16_t value)
{
    add(to, value & 0x80 ? " WR" : " RD");
    add_bits(to, value, in_command_mask);
    add(to, value & 0x04 ? value & 0x80 ? " TxRqst" : " NewDat" : "");
    add_bits(to, value, in_command_mask_behind);
}

static void add_message_control(words *to, uint16_t value)
{
    add_bits(to, value, in_control_of_message);
    add(to, value & (uint16_t)~DLC & 0xff80 ? ", " : " ");
    add_length(to, value);
}

static void add_mask_2(words *to, uint16_t value)
{
    add_bits(to, value, in_mask_2);
    add(to, "%s Msk28-16 %04X", value & 0xc000 ? "," : "", value & 0x1fff);
}

/* The upper part of an identifier: all of it where it is standard. */
static void add_arbitration_2(words *to, uint16_t value)
{
    add_bits(to, value, in_arbitration_2);
    add(to, value & 0xe000 ? ", " : " ");
    if (value & 0x4000)
        add(to, "ID28-16 %04X", value & 0x1fff);
    else
        add(to, "id %03X std", value >> 2 & 0x7ff);
}

const char *interface_words(unsigned side, uint32_t reg, uint16_t value)
{
    static const char *const names[] = {
        "Command Mask", "Mask 1", "Mask 2", "Arbitration 1", "Arbitration 2", "Message Control", "Data A1", "Data A2", "Data B1",
        "Data B2", "Command Request" };
    static char text[160];
    words to = WORDS_IN(text);
    add(&to, "IF%u %s %04x:", side + 1, names[reg], value);
    switch (reg) {
    case CCAN_CMASK: add_command_mask(&to, value); break;
    case CCAN_MASK1: add(&to, " Msk15-0 %04X", value); break;
    case CCAN_MASK2: add_mask_2(&to, value); break;
    case CCAN_ARB1: add(&to, " ID15-0 %04X", value); break;
    case CCAN_ARB2: add_arbitration_2(&to, value); break;
    case CCAN_CTRL: add_message_control(&to, value); break;
    case COMMAND_REQUEST: add(&to, " object %u", value & 0xff); break;
    default: add(&to, " %02X %02X", value & 0xff, value >> 8);
    }
    return text;
}

/* ---- registers of the controller */

static const named_bit in_control[] = {
    { SWR, "SWR" }, { TEST, "Test" }, { CCE, "CCE" }, { 0x20, "DAR" }, { EIE, "EIE" }, { SIE, "SIE" }, { IE, "IE" },
    { INIT, "Init" }, { 0, NULL } };
static const named_bit in_control_upper[] = { { PDR, "PDR" }, { 0, NULL } };
static const named_bit in_status[] = {
    { PDA, "PDA" }, { 0x80, "BOff" }, { 0x40, "EWarn" }, { 0x20, "EPass" }, { 0x10, "RxOk" }, { 0x08, "TxOk" }, { 0, NULL } };
static const named_bit in_test[] = {
    { RX_RECESSIVE, "Rx" }, { LBACK, "LBack" }, { 0x08, "Silent" }, { 0x04, "Basic" }, { 0, NULL } };

const char *code_words(uint16_t status)
{
    static const char *const codes[] = {
        "no error", "stuff error", "form error", "not acknowledged", "bit 1 error", "bit 0 error", "CRC error", "unchanged" };
    return codes[status & 7];
}

static void add_timing(words *to, uint16_t value)
{
    add(to, " TSeg2 %u, TSeg1 %u, SJW %u, BRP %u", value >> 12 & 7, value >> 8 & 15, value >> 6 & 3, value & 63);
}

static void add_counters(words *to, uint16_t value)
{
    add(to, "%s REC %u, TEC %u", value & 0x8000 ? " RP," : "", value >> 8 & 127, value & 255);
}

static void add_interrupt(words *to, uint16_t value)
{
    if (value == 0x8000)
        add(to, " status");
    else
        add(to, value ? " object %u" : " none", value);
}

const char *controller_words(enum reg_name name, uint16_t value)
{
    static const char *const names[] = {
        "Control", "Status", "Error Counter", "Bit Timing", "Interrupt", "Test", "BRP Extension", "the upper half of Control" };
    static char text[160];
    words to = WORDS_IN(text);
    add(&to, "%s %04x:", names[name], value);
    switch (name) {
    case CONTROL: add_bits(&to, value, in_control); break;
    case STATUS: add_bits(&to, value, in_status), add(&to, " LEC %u %s", value & 7, code_words(value)); break;
    case ERROR_COUNTER: add_counters(&to, value); break;
    case BIT_TIMING: add_timing(&to, value); break;
    case INTERRUPT: add_interrupt(&to, value); break;
    case TEST_REGISTER: add_bits(&to, value, in_test); break;
    case EXTENSION: add(&to, " BRPE %u", value & 15); break;
    case CONTROL_UPPER: add_bits(&to, value, in_control_upper); break;
    case OF_INTERFACE: case OF_FLAG: case NO_REGISTER: break;
    }
    if (text[to.length - 1] == ':')
        add(&to, " no bit");
    return text;
}

/* ---- records and flags of objects */

/* An identifier, or a mask at its place: three digits where it is standard, eight where it is extended. */
static void add_id(words *to, uint32_t arbitration, bool xtd)
{
    if (xtd)
        add(to, "%08X", (unsigned)(arbitration & IDENTIFIER));
    else
        add(to, "%03X", (unsigned)((arbitration & STANDARD) >> 18));
}

static void add_mask(words *to, const ccan_record *record, bool xtd)
{
    add(to, ", mask ");
    add_id(to, record->masks, xtd);
    add(to, "%s%s", record->masks & MXTD ? " MXtd" : "", record->masks & MDIR ? " MDir" : "");
}

const char *record_words(const ccan_record *record)
{
    static const named_bit enables[] = { { TXIE, "TxIE" }, { RXIE, "RxIE" }, { RMTEN, "RmtEn" }, { EOB, "EoB" }, { 0, NULL } };
    static char text[240];
    words to = WORDS_IN(text);
    bool xtd = record->arbitration & XTD;
    unsigned count = record->control & DLC;
    add(&to, "id ");
    add_id(&to, record->arbitration, xtd);
    add(&to, " %s, %s, %s", xtd ? "ext" : "std", record->arbitration & DIR ? "transmit" : "receive",
        record->arbitration & MSGVAL ? "valid" : "not valid");
    if (record->control & UMASK)
        add_mask(&to, record, xtd);
    for (const named_bit *of = enables; of->bit; of++)
        add(&to, record->control & of->bit ? ", %s" : "", of->name);
    add(&to, ", ");
    add_length(&to, record->control);
    for (unsigned byte = 0; byte < count && byte < 8; byte++)
        add(&to, " %02X", record->bytes[byte]);
    return text;
}

/* The flags of an object: + before one that was set, - before one that was cleared; nothing where none is set and none was. */
const char *flags_changed(const ccan_record *before, const ccan_record *now)
{
    static const named_bit flags[] = {
        { NEWDAT, "NewDat" }, { MSGLST, "MsgLst" }, { INTPND, "IntPnd" }, { TXRQST, "TxRqst" }, { 0, NULL } };
    static char text[64];
    words to = WORDS_IN(text);
    text[0] = '\0';
    for (const named_bit *of = flags; of->bit; of++) {
        bool was = before->control & of->bit, is = now->control & of->bit;
        if (was || is)
            add(&to, "%s %s%s", to.length ? "" : " |", was == is ? "" : is ? "+" : "-", of->name);
    }
    return text;
}

/* The objects of a word of flags: ` objects 1 3`, or ` no object`. */
const char *objects_words(uint64_t which)
{
    static char text[240];
    words to = WORDS_IN(text);
    add(&to, which ? " objects" : " no object");
    for (; which; which &= which - 1)
        add(&to, " %u", (unsigned)__builtin_ctzll(which) + 1);
    return text;
}
