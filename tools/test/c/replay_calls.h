/* What tools/test/c/replay.c and tools/test/c/replay_network.c have in common: the words of a line, and the calls of hosts and on
 * registers. Of a call they print what `ccan` prints of the line of a script that it stands for, or of a register what came of
 * it. */
#ifndef REPLAY_CALLS_H
#define REPLAY_CALLS_H
#include "ccan.h"
#include <stdio.h>
#include <stdlib.h>
#include <string.h>

static const char *const registers[] = { "cmask", "mask1", "mask2", "arb1", "arb2", "ctrl", "dataa1", "dataa2", "datab1", "datab2" };
static const char *const flags[] = { "newdat", "msglst", "intpnd", "txrqst", "msgval" };
static const char *const faults[] = { "none", "stuff", "form", "bit1", "bit0", "crc" };
static const char *const states[] = { "active", "passive", "off" };
/* The chip that is called, how many objects it has, and its layout. */
static ccan_chip *chip;
static unsigned objects, layout;

static void need(uint32_t code, const char *call)
{
    if (code != CCAN_DONE) {
        fprintf(stderr, "replay: %s: %s\n", call, ccan_text(code));
        exit(1);
    }
}

/* The number of a word in a list of them. */
static uint32_t number_in(const char *const *words, uint32_t count, const char *word)
{
    uint32_t number = 0;
    while (number < count && strcmp(words[number], word))
        number++;
    return number;
}

static const char *next(void)
{
    const char *word = strtok(NULL, " \n");
    return word ? word : "";
}

static uint32_t flag_next(void) { return number_in(flags, 5, next()); }
static unsigned long next_number(int base) { return strtoul(next(), NULL, base); }

/* The object that a request names. */
static unsigned object_of(uint16_t asked)
{
    return (asked & 63) % objects ? (asked & 63) % objects : objects;
}

/* The same by registers, where the number of a D_CAN has eight bits: 0 if no object has it. */
static unsigned object_at(uint16_t asked)
{
    if (layout != CCAN_LAYOUT_D_CAN)
        return object_of(asked);
    return (asked & 255) <= objects ? asked & 255 : 0;
}

static void show(uint32_t arbitration, uint32_t masks, uint16_t control, const uint8_t *bytes)
{
    printf(" %08x %08x %04x ", (unsigned)arbitration, (unsigned)masks, (unsigned)control);
    for (int at = 0; at < 8; at++)
        printf("%02x", bytes[at]);
    printf("\n");
}

static void show_record(const char *begin, uint32_t object, const ccan_record *record)
{
    printf("%s %02u", begin, (unsigned)object);
    show(record->arbitration, record->masks, record->control, record->bytes);
}

static uint16_t get(ccan_host *host, uint32_t reg)
{
    uint16_t value;
    need(ccan_get(host, reg, &value), "ccan_get");
    return value;
}

static uint16_t get16(ccan_host *host, unsigned offset)
{
    uint16_t value;
    need(ccan_read16(host, offset, &value), "ccan_read16");
    return value;
}

/* The half of a word of 32 bits at this offset. */
static uint16_t get_in_word(ccan_host *host, unsigned offset)
{
    uint32_t word;
    need(ccan_read32(host, offset & ~3u, &word), "ccan_read32");
    return (uint16_t)(offset & 2 ? word >> 16 : word);
}

/* What a transfer left in the registers, by one of the calls above: the offsets of the ten registers are in the line. */
static void show_transfer(const char *name, ccan_host *host, uint16_t asked, unsigned at, uint16_t (*read)(ccan_host *, unsigned))
{
    uint16_t value[10], shown = read(host, at);
    if (object_at(asked) == 0) {
        printf("%s names none, reads %04x\n", name, (unsigned)shown);
        return;
    }
    if (shown != object_at(asked)) {
        printf("%s: Command Request reads %04x\n", name, (unsigned)shown);
        return;
    }
    for (int reg = 0; reg < 10; reg++)
        value[reg] = read(host, (unsigned)next_number(16));
    uint8_t bytes[8];
    for (int pair = 0; pair < 4; pair++) {
        bytes[2 * pair] = (uint8_t)value[CCAN_DATAA1 + pair];
        bytes[2 * pair + 1] = (uint8_t)(value[CCAN_DATAA1 + pair] >> 8);
    }
    printf("%s %s %02u", name, value[CCAN_CMASK] & 0x80 ? "write" : "read", object_at(asked));
    show((uint32_t)value[CCAN_ARB2] << 16 | value[CCAN_ARB1], (uint32_t)value[CCAN_MASK2] << 16 | value[CCAN_MASK1],
         value[CCAN_CTRL], bytes);
}

/* A transfer by registers at their offsets: that of Command Request, and those of the ten others, are in the line. */
static void request16(const char *name, ccan_host *host)
{
    uint16_t asked = (uint16_t)next_number(16);
    unsigned at = (unsigned)next_number(16);
    need(ccan_write16(host, at, asked), "ccan_write16");
    show_transfer(name, host, asked, at, get16);
}

/* What a transfer left that calls before it have made, by words of 32 bits. */
static void shown32(const char *name, ccan_host *host)
{
    uint16_t asked = (uint16_t)next_number(16);
    unsigned at = (unsigned)next_number(16);
    show_transfer(name, host, asked, at, get_in_word);
}

/* What came of an access to a register. */
static void show_access(const char *name, const char *call, unsigned offset, uint32_t code, const char *value)
{
    printf("%s %s %04x ", name, call, offset);
    if (code == CCAN_OFFSET_RANGE || code == CCAN_OTHER_INTERFACE)
        printf("refused %u\n", (unsigned)code);
    else if (code != CCAN_DONE)
        need(code, call);
    else
        printf("%s\n", value);
}

static void read_register(const char *name, ccan_host *host, const char *call, unsigned offset)
{
    char text[9];
    uint8_t byte = 0;
    uint16_t half = 0;
    uint32_t word = 0, code;
    if (!strcmp(call, "read8")) {
        code = host ? ccan_read8(host, offset, &byte) : ccan_bus_read8(&chip->bus, offset, &byte);
        snprintf(text, sizeof text, "%02x", (unsigned)byte);
    } else if (!strcmp(call, "read16")) {
        code = host ? ccan_read16(host, offset, &half) : ccan_bus_read16(&chip->bus, offset, &half);
        snprintf(text, sizeof text, "%04x", (unsigned)half);
    } else {
        code = host ? ccan_read32(host, offset, &word) : ccan_bus_read32(&chip->bus, offset, &word);
        snprintf(text, sizeof text, "%08x", (unsigned)word);
    }
    show_access(name, call, offset, code, text);
}

static void write_register(const char *name, ccan_host *host, const char *call, unsigned offset, uint32_t value)
{
    uint32_t code;
    if (!strcmp(call, "write8"))
        code = host ? ccan_write8(host, offset, (uint8_t)value) : ccan_bus_write8(&chip->bus, offset, (uint8_t)value);
    else if (!strcmp(call, "write16"))
        code = host ? ccan_write16(host, offset, (uint16_t)value) : ccan_bus_write16(&chip->bus, offset, (uint16_t)value);
    else
        code = host ? ccan_write32(host, offset, value) : ccan_bus_write32(&chip->bus, offset, value);
    show_access(name, call, offset, code, "done");
}

/* A call on a register or the interrupt line, by one of the hosts, or by the bus where there is none. */
static int is_register_call(const char *name, ccan_host *host, const char *call)
{
    if (!strcmp(call, "read8") || !strcmp(call, "read16") || !strcmp(call, "read32")) {
        read_register(name, host, call, (unsigned)next_number(16));
    } else if (!strcmp(call, "write8") || !strcmp(call, "write16") || !strcmp(call, "write32")) {
        unsigned offset = (unsigned)next_number(16);
        write_register(name, host, call, offset, (uint32_t)next_number(16));
    } else if (!strcmp(call, "line")) {
        uint32_t pulled;
        need(host ? ccan_line(host, &pulled) : ccan_bus_line(&chip->bus, &pulled), "ccan_line");
        printf("%s line %u\n", name, (unsigned)pulled);
    } else {
        return 0;
    }
    return 1;
}

static void request(const char *name, ccan_host *host)
{
    uint16_t asked = (uint16_t)next_number(16);
    unsigned object = object_of(asked);
    uint32_t code = ccan_request(host, asked);
    if (code == CCAN_BUSY || code == CCAN_SPENT) {
        printf("%s %s %02u\n", name, code == CCAN_BUSY ? "busy" : "spent", object);
        return;
    }
    need(code, "ccan_request");
    uint8_t bytes[8];
    for (uint32_t pair = 0; pair < 4; pair++) {
        uint16_t value = get(host, CCAN_DATAA1 + pair);
        bytes[2 * pair] = (uint8_t)value;
        bytes[2 * pair + 1] = (uint8_t)(value >> 8);
    }
    printf("%s %s %02u", name, get(host, CCAN_CMASK) & 0x80 ? "write" : "read", object);
    show((uint32_t)get(host, CCAN_ARB2) << 16 | get(host, CCAN_ARB1), (uint32_t)get(host, CCAN_MASK2) << 16 | get(host, CCAN_MASK1),
         get(host, CCAN_CTRL), bytes);
}

static void show_flags(const char *name, uint32_t flag, uint64_t word)
{
    printf("%s flags %s %0*llx\n", name, flags[flag], (int)objects / 4, (unsigned long long)word);
}

static void host_call(const char *name, ccan_host *host, const char *call)
{
    if (!strcmp(call, "set")) {
        uint32_t reg = number_in(registers, 10, next());
        need(ccan_set(host, reg, (uint16_t)next_number(16)), "ccan_set");
    } else if (!strcmp(call, "set16")) {
        unsigned offset = (unsigned)next_number(16);
        need(ccan_write16(host, offset, (uint16_t)next_number(16)), "ccan_write16");
    } else if (!strcmp(call, "set32")) {
        unsigned offset = (unsigned)next_number(16);
        need(ccan_write32(host, offset, (uint32_t)next_number(16)), "ccan_write32");
    } else if (!strcmp(call, "request16")) {
        request16(name, host);
    } else if (!strcmp(call, "shown32")) {
        shown32(name, host);
    } else if (is_register_call(name, host, call)) {
        return;
    } else if (!strcmp(call, "request")) {
        request(name, host);
    } else if (!strcmp(call, "until")) {
        uint32_t object = (uint32_t)next_number(10), flag = flag_next(), is_shown;
        need(ccan_until(host, object, flag, (uint32_t)next_number(10), &is_shown), "ccan_until");
        printf("%s until %02u %s %s\n", name, (unsigned)object, flags[flag], is_shown ? "yes" : "no");
    } else if (!strcmp(call, "interrupt")) {
        uint16_t value;
        need(ccan_interrupt(host, &value), "ccan_interrupt");
        printf("%s interrupt %04x\n", name, (unsigned)value);
    } else {
        uint32_t flag = flag_next();
        uint64_t word;
        need(ccan_flags(host, flag, &word), "ccan_flags");
        show_flags(name, flag, word);
    }
}
#endif
