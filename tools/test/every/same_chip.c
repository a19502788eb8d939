/* Holds the chip of libccan-every, which is C, to the proved libccan: makes random calls of ccan.h on both, the same ones in one
 * thread, and compares each code, each output, and at times all registers and all records. It loads both libraries itself, since
 * they have the same names.
 *
 *   same_chip PROVED.so EVERY.so CALLS SEED */
#include <ccan.h>
#include <dlfcn.h>
#include <stdio.h>
#include <stdlib.h>
#include <string.h>

enum { PROVED, EVERY };
#define CALL(name) static typeof(ccan_##name) *name##_of[2]
CALL(open); CALL(open_reset); CALL(is_open); CALL(end); CALL(meet); CALL(reset); CALL(read16); CALL(write16); CALL(read32); CALL(write32);
CALL(read8); CALL(write8); CALL(bus_read8); CALL(bus_write8);
CALL(line); CALL(bus_read16); CALL(bus_write16); CALL(bus_read32); CALL(bus_write32); CALL(bus_line); CALL(set); CALL(get);
CALL(request); CALL(clear_objects); CALL(flags); CALL(interrupt); CALL(peek); CALL(until); CALL(load); CALL(round);
CALL(status); CALL(counters);
CALL(control); CALL(init); CALL(recessive); CALL(power_down); CALL(loop_back); CALL(bus_interrupt); CALL(bus_flags); CALL(version);

static ccan_chip chips[2];
static unsigned long made;
static uint64_t seed;
static char doing[200];

/* ---- dice */

static unsigned dice(unsigned sides)
{
    seed = seed * 6364136223846793005ull + 1442695040888963407ull;
    return (unsigned)(seed >> 33) % sides;
}

static unsigned chance(unsigned one_in) { return dice(one_in) == 0; }
static uint16_t word(void) { return (uint16_t)(chance(3) ? dice(65536) : 1u << dice(16)); }

/* ---- comparing */

static void differ(const char *what)
{
    fprintf(stderr, "call %lu, %s: %s differs\n", made, doing, what);
    exit(1);
}

static void same(const void *outputs, size_t size, uint32_t proved, uint32_t every)
{
    if (proved != every) {
        fprintf(stderr, "the proved one answers %u, the other %u\n", proved, every);
        differ("the code");
    }
    for (size_t byte = 0; byte < size; byte++)
        if (((const uint8_t *)outputs)[byte] != ((const uint8_t *)outputs)[size + byte]) {
            fprintf(stderr, "byte %zu: the proved one writes %02x, the other %02x\n", byte, ((const uint8_t *)outputs)[byte],
                ((const uint8_t *)outputs)[size + byte]);
            differ("the output");
        }
}

/* What C leaves open: the bytes of a structure that are no field. */
static void clear_record(ccan_record *of) { memset((char *)of + 18, 0, 2); }
static void clear_frame(ccan_frame *of) { memset((char *)of + 15, 0, 1); }

static void clear_loaded(ccan_loaded *of)
{
    clear_record(&of->held);
    clear_frame(&of->frame);
}

static void clear_outcome(ccan_outcome *of)
{
    clear_record(&of->finished);
    clear_record(&of->stored_record);
    clear_frame(&of->frame);
}

static void clear_final(ccan_final *of)
{
    for (int object = 0; object < 64; object++)
        clear_record(&of->records[object]);
}

static void clear_nothing(void *of) { (void)of; }
#define CLEAR(at) \
    _Generic(at, ccan_record *: clear_record, ccan_loaded *: clear_loaded, ccan_outcome *: clear_outcome, \
        ccan_final *: clear_final, default: clear_nothing)(at)

/* Calls both, with an output that held the same bytes, and compares. */
#define BOTH(type, name, ...) \
    do { \
        type out[2]; \
        uint32_t code[2]; \
        memset(out, 0x5a, sizeof out); \
        for (int of = 0; of < 2; of++) { \
            ccan_chip *chip = &chips[of]; \
            type *to = &out[of]; \
            (void)chip, (void)to; \
            code[of] = name##_of[of](__VA_ARGS__); \
            CLEAR(to); \
        } \
        same(out, sizeof out[0], code[0], code[1]); \
    } while (0)
#define DOING(...) snprintf(doing, sizeof doing, __VA_ARGS__)

/* ---- the calls */

static ccan_host *host_of(ccan_chip *chip, unsigned side) { return side ? &chip->if2 : &chip->if1; }

static void random_open(void)
{
    unsigned profile = 1 + dice(2), nodes = chance(20) ? dice(12) : 1 + dice(3), tries = 1 + dice(3), layout = dice(chance(20) ? 5 : 3);
    DOING("ccan_open or ccan_open_reset %u %u %u", profile, nodes, layout);
    if (chance(3))
        BOTH(char, open, chip, profile, nodes, tries);
    else
        BOTH(char, open_reset, chip, profile, nodes, tries, layout);
}

static uint32_t random_offset(void)
{
    static const uint32_t likely[] = { 0x00, 0x02, 0x04, 0x06, 0x08, 0x0a, 0x0c, 0x0e, 0x10, 0x12, 0x14, 0x16, 0x18, 0x1a, 0x1c, 0x1e, 0x20 };
    return chance(2) ? likely[dice(17)] : chance(3) ? dice(0x200) : 2 * dice(0x100);
}

/* A register, from kind 2 on mostly a word, and from kind 4 on any byte. */
static uint32_t random_offset_of(unsigned kind)
{
    uint32_t offset = random_offset();
    return kind < 2 ? offset : kind < 4 ? offset & (chance(8) ? ~0u : ~3u) : offset | dice(2);
}

static void random_host_access(void)
{
    unsigned side = dice(2), kind = dice(6);
    uint32_t offset = random_offset_of(kind);
    uint16_t half = word();
    uint32_t whole = (uint32_t)word() << 16 | word();
    DOING("IF%u access %u at %x, value %x", side + 1, kind, offset, kind == 1 ? half : kind == 5 ? whole & 0xff : whole);
    if (kind == 0)
        BOTH(uint16_t, read16, host_of(chip, side), offset, to);
    else if (kind == 1)
        BOTH(char, write16, host_of(chip, side), offset, half);
    else if (kind == 2)
        BOTH(uint32_t, read32, host_of(chip, side), offset, to);
    else if (kind == 3)
        BOTH(char, write32, host_of(chip, side), offset, whole);
    else if (kind == 4)
        BOTH(uint8_t, read8, host_of(chip, side), offset, to);
    else
        BOTH(char, write8, host_of(chip, side), offset, (uint8_t)whole);
}

static void random_bus_access(void)
{
    unsigned kind = dice(6);
    uint32_t offset = random_offset_of(kind);
    uint16_t half = word();
    uint32_t whole = (uint32_t)word() << 16 | word();
    DOING("bus access %u at %x, value %x", kind, offset, whole);
    if (kind == 0)
        BOTH(uint16_t, bus_read16, &chip->bus, offset, to);
    else if (kind == 1)
        BOTH(char, bus_write16, &chip->bus, offset, half);
    else if (kind == 2)
        BOTH(uint32_t, bus_read32, &chip->bus, offset, to);
    else if (kind == 3)
        BOTH(char, bus_write32, &chip->bus, offset, whole);
    else if (kind == 4)
        BOTH(uint8_t, bus_read8, &chip->bus, offset, to);
    else
        BOTH(char, bus_write8, &chip->bus, offset, (uint8_t)whole);
}

/* A transfer of an object of the first few, mostly with values that make it take part. */
static void random_transfer(void)
{
    unsigned side = dice(2);
    uint16_t request = (uint16_t)(chance(10) ? dice(65536) : 1 + dice(5));
    for (unsigned reg = 0; reg < 11; reg++) {
        uint16_t value = word();
        if (chance(3))
            continue;
        if (reg == CCAN_CMASK)
            value = (uint16_t)(chance(2) ? 0x80 | dice(128) : dice(128));
        if (reg == CCAN_ARB1)
            value = chance(3) ? value : 0;
        if (reg == CCAN_ARB2)
            value = (uint16_t)((value & 0x6000) | (chance(6) ? 0 : 0x8000) | dice(4) << 2 | (chance(5) ? dice(4) : 0));
        if (reg == CCAN_CTRL)
            value = (uint16_t)((value & (chance(2) ? 0x7fff : 0xffff)) | (chance(2) ? 0x80 : 0));
        DOING("ccan_set IF%u %u %04x", side + 1, reg, value);
        BOTH(char, set, host_of(chip, side), reg, value);
    }
    if (chance(3)) { /* of a D_CAN, where there is one, by its offset */
        DOING("a write of Command Request of IF%u: %04x", side + 1, request);
        BOTH(char, write16, host_of(chip, side), side ? 0x120u : 0x100u, request);
        return;
    }
    DOING("ccan_request IF%u %04x", side + 1, request);
    BOTH(char, request, host_of(chip, side), request);
}

static void random_look(void)
{
    unsigned side = dice(2), flag = dice(chance(20) ? 7 : 5), object = chance(10) ? dice(70) : 1 + dice(5), turns = dice(3), reg = dice(11);
    DOING("a look of IF%u, flag %u, object %u, turns %u", side + 1, flag, object, turns);
    switch (dice(6)) {
    case 0: BOTH(uint64_t, flags, host_of(chip, side), flag, to); break;
    case 1: BOTH(uint16_t, interrupt, host_of(chip, side), to); break;
    case 2: BOTH(ccan_record, peek, host_of(chip, side), object, to); break;
    case 3: BOTH(uint32_t, until, host_of(chip, side), object, flag, turns, to); break;
    case 4: BOTH(uint32_t, line, host_of(chip, side), to); break;
    default: BOTH(uint16_t, get, host_of(chip, side), reg, to); break;
    }
}

static ccan_offer random_offer(unsigned node)
{
    ccan_offer made = { .node = (uint8_t)(chance(40) ? dice(10) : node), .xtd = chance(3), .rtr = chance(4), .dlc = (uint8_t)dice(16) };
    made.id = made.xtd ? dice(4) << 20 | (chance(2) ? 0 : dice(1 << 20)) : dice(4);
    if (chance(60))
        made.id = ~0u >> dice(32);
    for (int byte = 0; byte < 8; byte++)
        made.bytes[byte] = (uint8_t)dice(256);
    return made;
}

static void random_round(void)
{
    ccan_offer offers[9];
    size_t count = chance(50) ? 9 : dice(3);
    uint32_t fault = chance(3) ? dice(chance(20) ? 8 : 6) : 0;
    for (size_t i = 0; i < count; i++)
        offers[i] = random_offer((unsigned)i + 1);
    DOING("ccan_round of %zu frames, fault %u", count, fault);
    BOTH(ccan_outcome, round, &chip->bus, offers, count, fault, to);
}

static void random_bus_call(void)
{
    unsigned first = dice(4), second = dice(2), groups = chance(30) ? dice(20000) : 1 + dice(90), flag = dice(chance(20) ? 7 : 5), kind = dice(12);
    DOING("bus call %u with %u %u %u %u", kind, first, second, groups, flag);
    switch (kind) {
    case 0: BOTH(ccan_loaded, load, &chip->bus, to); break;
    case 1: BOTH(uint16_t, status, &chip->bus, to); break;
    case 2: BOTH(ccan_counts, counters, &chip->bus, first, to); break;
    case 3: BOTH(char, control, &chip->bus, first & 2, second); break;
    case 4: case 5: BOTH(char, init, &chip->bus); break;
    case 6: case 7: BOTH(uint32_t, recessive, &chip->bus, groups, to); break;
    case 8:
        if (chance(4))
            BOTH(char, loop_back, &chip->bus, second);
        break;
    case 9: BOTH(uint16_t, bus_interrupt, &chip->bus, to); break;
    case 10: BOTH(uint32_t, power_down, &chip->bus, to); break;
    default: BOTH(uint64_t, bus_flags, &chip->bus, flag, to); break;
    }
    if (chance(10))
        BOTH(uint32_t, bus_line, &chip->bus, to);
}

/* Init for a moment, between two loads. */
static void random_absence(void)
{
    DOING("a load, Init set and cleared, a load");
    BOTH(ccan_loaded, load, &chip->bus, to);
    BOTH(char, bus_write16, &chip->bus, CCAN_OFFSET_CONTROL, 0x0003);
    if (chance(3))
        BOTH(ccan_loaded, load, &chip->bus, to);
    BOTH(char, init, &chip->bus);
    BOTH(ccan_loaded, load, &chip->bus, to);
}

/* PDR, which a D_CAN has, is set, a frame is sent or not, and power down is entered or not; at times the chip is woken again. */
static void random_power_down(void)
{
    ccan_offer none = { .node = 1 };
    uint8_t asks = !chance(4);
    uint32_t wakes = chance(2) ? 0x00000002 : 0x01000002;
    DOING("PDR %u, perhaps a round, and power down", asks);
    BOTH(char, bus_write16, &chip->bus, CCAN_OFFSET_CONTROL, 0x0002);
    BOTH(char, bus_write8, &chip->bus, 3, asks);
    if (chance(2))
        BOTH(ccan_outcome, round, &chip->bus, &none, 0, CCAN_QUIET, to);
    BOTH(uint32_t, power_down, &chip->bus, to);
    BOTH(uint16_t, bus_read16, &chip->bus, 4, to);
    if (chance(2))
        BOTH(char, bus_write32, &chip->bus, 0, wakes);
    BOTH(uint32_t, bus_read32, &chip->bus, 0, to);
}

/* A frame of the chip, and so many spoiled rounds that it may go bus off. */
static void random_storm(void)
{
    static const uint16_t values[][2] = { { CCAN_CMASK, 0x00b4 }, { CCAN_ARB1, 0 }, { CCAN_ARB2, 0xa400 }, { CCAN_CTRL, 0x0982 } };
    unsigned rounds = 20 + dice(30);
    ccan_offer none = { .node = 1 };
    DOING("a storm of %u rounds", rounds);
    for (int i = 0; i < 4; i++)
        BOTH(char, set, &chip->if1, values[i][0], values[i][1]);
    BOTH(char, request, &chip->if1, 1);
    BOTH(char, init, &chip->bus);
    for (unsigned i = 0; i < rounds; i++)
        BOTH(ccan_outcome, round, &chip->bus, &none, 0, CCAN_BIT1, to);
    BOTH(uint16_t, bus_read16, &chip->bus, CCAN_OFFSET_CONTROL, to);
}

/* ---- the whole chip */

static void compare_all(void)
{
    for (uint32_t offset = 0; offset < 0x160; offset++)
        for (unsigned side = 0; side < 2; side++) {
            if (offset == 2 || offset == 4)
                continue; /* a read of Status is a change; it comes among the calls */
            DOING("all registers, IF%u at %x", side + 1, offset);
            BOTH(uint16_t, read16, host_of(chip, side), offset, to);
        }
    for (uint32_t object = 1; object <= 64; object++) {
        DOING("all records, object %u", object);
        BOTH(ccan_record, peek, &chip->if1, object, to);
    }
    for (uint32_t node = 0; node < 9; node++) {
        DOING("all counters, node %u", node);
        BOTH(ccan_counts, counters, &chip->bus, node, to);
    }
}

static void end_both(void)
{
    static ccan_final out[2];
    DOING("ccan_end");
    uint32_t codes[2];
    memset(out, 0x5a, sizeof out);
    for (int of = 0; of < 2; of++) {
        codes[of] = end_of[of](&chips[of], &out[of]);
        clear_final(&out[of]);
    }
    same(out, sizeof out[0], codes[0], codes[1]);
}

static void random_call(void)
{
    unsigned kind = dice(40);
    made++;
    if (kind < 10)
        random_transfer();
    else if (kind < 20)
        random_round();
    else if (kind < 25)
        random_host_access();
    else if (kind < 28)
        random_bus_access();
    else if (kind < 33)
        random_look();
    else
        random_bus_call();
    if (chance(20))
        BOTH(char, meet, chip);
    if (chance(30))
        random_absence();
    if (chance(60))
        random_power_down();
    if (chance(400))
        random_storm();
    if (chance(400)) {
        DOING("ccan_clear_objects");
        BOTH(char, clear_objects, &chip->if2);
    }
    if (chance(400)) {
        DOING("ccan_reset");
        BOTH(char, reset, chip);
    }
    if (chance(50))
        compare_all();
    if (chance(1000)) {
        if (chance(2))
            end_both();
        random_open();
    }
}

static void take_calls(int of, const char *name)
{
    void *library = dlopen(name, RTLD_NOW | RTLD_LOCAL);
    if (!library) {
        fprintf(stderr, "%s\n", dlerror());
        exit(2);
    }
#define TAKE(call) call##_of[of] = (typeof(call##_of[of]))dlsym(library, "ccan_" #call)
    TAKE(open); TAKE(open_reset); TAKE(is_open); TAKE(end); TAKE(meet); TAKE(reset); TAKE(read16); TAKE(write16); TAKE(read32);
    TAKE(write32); TAKE(line); TAKE(bus_read16); TAKE(bus_write16); TAKE(bus_read32); TAKE(bus_write32); TAKE(bus_line); TAKE(set);
    TAKE(get); TAKE(request); TAKE(clear_objects); TAKE(flags); TAKE(interrupt); TAKE(peek); TAKE(until); TAKE(load);
    TAKE(round); TAKE(status); TAKE(counters); TAKE(control); TAKE(init); TAKE(recessive); TAKE(power_down); TAKE(loop_back); TAKE(bus_interrupt); TAKE(bus_flags); TAKE(version);
    TAKE(read8); TAKE(write8); TAKE(bus_read8); TAKE(bus_write8);
}

int main(int count, char **words)
{
    if (count != 5)
        return 2;
    take_calls(PROVED, words[1]);
    take_calls(EVERY, words[2]);
    unsigned long calls = strtoul(words[3], NULL, 10);
    seed = strtoull(words[4], NULL, 10) * 7919 + 1;
    chips[0] = chips[1] = (ccan_chip)CCAN_CHIP_CLOSED;
    if (version_of[PROVED]() != version_of[EVERY]())
        differ("the version");
    random_call(); /* on closed handles */
    random_open();
    while (made < calls)
        random_call();
    end_both();
    printf("%lu random calls, each answered as by the proved library\n", made);
    return 0;
}
