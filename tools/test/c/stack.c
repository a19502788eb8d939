/* How much stack the calls need: each is made in a thread of its own on a stack that holds a pattern, and what is left of the
 * pattern tells how far down the call came. Below what a thread needs that calls nothing it counts as none. Fails where a call
 * needs more than LIMIT bytes. */
#define _GNU_SOURCE
#include <ccan.h>
#include <pthread.h>
#include <stdio.h>
#include <string.h>
#include <sys/mman.h>

enum { LIMIT = 16384, STACK = 1 << 20, PATTERN = 0xa5 };

static ccan_chip chip = CCAN_CHIP_CLOSED;
static ccan_final last;
static ccan_record record;
static ccan_loaded loaded;
static ccan_outcome outcome;
static ccan_counts counts;
static ccan_member members[32];
static ccan_wire wire;
static ccan_finished ended;
static ccan_node node;
static ccan_note note = CCAN_NOTE_EMPTY;
static uint8_t byte;
static uint16_t value;
static uint32_t number;
static uint64_t word;

static uint32_t nothing(void) { return CCAN_DONE; }
static uint32_t open_chip(void) { return ccan_open(&chip, 2, 1, 3); }
static uint32_t meet(void) { return ccan_meet(&chip); }
static uint32_t tell(void) { return ccan_tell(&chip.if1, &note) | ccan_heed(&chip.if2, &note); }
static uint32_t bus_tell(void) { return ccan_bus_tell(&chip.bus, &note) | ccan_forget(&note); }

/* Writes an object whole: Arbitration 2 and Message Control. */
static uint32_t write(uint16_t object, uint16_t arb2, uint16_t control)
{
    return ccan_set(&chip.if1, CCAN_CMASK, 0x00f3) | ccan_set(&chip.if1, CCAN_ARB2, arb2)
        | ccan_set(&chip.if1, CCAN_CTRL, control) | ccan_request(&chip.if1, object);
}

static uint32_t receiver(void) { return write(1, 0x848c, 0x0088); }
static uint32_t sender(void) { return write(2, 0xa400, 0x0188); }
static uint32_t host_flags(void) { return ccan_flags(&chip.if1, CCAN_MSGVAL, &word); }
static uint32_t host_interrupt(void) { return ccan_interrupt(&chip.if1, &value); }
static uint32_t peek(void) { return ccan_peek(&chip.if1, 1, &record) | ccan_get(&chip.if1, CCAN_CMASK, &value); }
static uint32_t clear_objects(void) { return ccan_clear_objects(&chip.if1); }
static uint32_t wait_for_flag(void) { return ccan_until(&chip.if1, 1, CCAN_NEWDAT, 3, &number); }
static uint32_t load(void) { return ccan_load(&chip.bus, &loaded); }

static uint32_t round_with(size_t count)
{
    ccan_offer offer = { 0x123, 1, 0, 0, 2, { 1, 2 } };
    return ccan_round(&chip.bus, &offer, count, CCAN_QUIET, &outcome);
}

static uint32_t round_received(void) { return round_with(1); }
static uint32_t round_sent(void) { return round_with(0); }
static uint32_t round_looped(void) { return ccan_loop_back(&chip.bus, 1) | sender() | round_with(0); }
static uint32_t status(void) { return ccan_status(&chip.bus, &value) | ccan_counters(&chip.bus, 0, &counts); }
static uint32_t control(void) { return ccan_control(&chip.bus, 1, 1) | ccan_init(&chip.bus); }
static uint32_t recessive(void) { return ccan_recessive(&chip.bus, 10000, &number); }
static uint32_t power_down(void)
{
    return ccan_open_reset(&chip, 2, 1, 3, CCAN_LAYOUT_D_CAN) | ccan_write32(&chip.if1, 0x00, 0x01000000)
        | ccan_power_down(&chip.bus, &number) | (number != 1);
}
static uint32_t bus_flags(void) { return ccan_bus_flags(&chip.bus, CCAN_MSGVAL, &word); }
static uint32_t bus_interrupt(void) { return ccan_bus_interrupt(&chip.bus, &value); }
static uint32_t open_reset(void) { return ccan_open_reset(&chip, 2, 1, 3, CCAN_LAYOUT_C_CAN); }
static uint32_t read_status(void) { return ccan_read16(&chip.if1, CCAN_OFFSET_STATUS, &value); }
static uint32_t read_interrupt(void) { return ccan_read16(&chip.if1, CCAN_OFFSET_INTERRUPT, &value); }
static uint32_t read_flags(void) { return ccan_read16(&chip.if1, CCAN_OFFSET_MESSAGE_VALID_4, &value); }
static uint32_t write_control(void) { return ccan_write16(&chip.if1, CCAN_OFFSET_CONTROL, 0x000e); }
static uint32_t write_request(void) { return ccan_write16(&chip.if1, CCAN_OFFSET_IF1_COMMAND_REQUEST, 1); }
static uint32_t read_bytes(void)
{
    return ccan_read8(&chip.if1, CCAN_OFFSET_INTERRUPT, &byte) | ccan_bus_read8(&chip.bus, CCAN_OFFSET_STATUS + 1, &byte);
}
static uint32_t write_bytes(void)
{
    return ccan_write8(&chip.if1, CCAN_OFFSET_BIT_TIMING + 1, 0x23) | ccan_write8(&chip.if1, CCAN_OFFSET_IF1_DATA_A1, 1)
        | ccan_write8(&chip.if1, CCAN_OFFSET_IF1_COMMAND_REQUEST, 1) | ccan_bus_write8(&chip.bus, CCAN_OFFSET_CONTROL, 0x0e);
}
static uint32_t line(void) { return ccan_line(&chip.if1, &number); }
static uint32_t bus_registers(void)
{
    return ccan_bus_read16(&chip.bus, CCAN_OFFSET_INTERRUPT, &value) | ccan_bus_write16(&chip.bus, CCAN_OFFSET_CONTROL, 0)
        | ccan_bus_line(&chip.bus, &number);
}

/* The frame of a chip at the place 1, and a node that acknowledges at the place 2. */
static uint32_t begin(void)
{
    return sender() | ccan_begin(&chip.bus, &members[1]) | ccan_node_begin(&node, 0, &members[1].frame, &members[2]);
}
static uint32_t stay(void) { return ccan_stay(&chip.bus, &members[1]); }
static uint32_t decide(void) { return ccan_decide(members, 32, &wire); }
static uint32_t decide_again(void)
{
    const ccan_wire start = wire;
    return ccan_decide_again(&start, members, 32, &wire);
}
static uint32_t finish(void) { return ccan_finish(&chip.bus, &wire, 1, CCAN_QUIET, &ended); }
static uint32_t retry_event(void) { return ccan_retry_event(&chip.bus, &ended); }
static uint32_t node_finish(void)
{
    return ccan_node_finish(&node, &wire, 2, &members[2], &number) | ccan_node_recessive(&node, 1)
        | ccan_frame_bits(&members[1].frame, &number) | (ccan_bit_time(0x2301, 0) != 16);
}
static uint32_t end(void) { return ccan_end(&chip, &last); }

static const struct { const char *name; uint32_t (*call)(void); } calls[] = {
    { "nothing", nothing }, { "open", open_chip }, { "meet", meet }, { "tell", tell }, { "bus tell", bus_tell }, { "request", receiver }, { "request to send", sender },
    { "flags", host_flags }, { "interrupt", host_interrupt }, { "peek", peek }, { "until", wait_for_flag },
    { "clear_objects", clear_objects },
    { "round, received", round_received }, { "load", load }, { "round, sent", round_sent }, { "round, looped", round_looped },
    { "status", status }, { "control", control }, { "recessive", recessive }, { "bus flags", bus_flags },
    { "bus interrupt", bus_interrupt }, { "open after a reset", open_reset }, { "read Status", read_status },
    { "read Interrupt", read_interrupt }, { "read flags", read_flags }, { "write Control", write_control },
    { "write Command Request", write_request }, { "read bytes", read_bytes }, { "write bytes", write_bytes }, { "line", line },
    { "registers by the bus", bus_registers }, { "power down", power_down },
    { "open for several chips", open_chip }, { "begin", begin }, { "decide", decide }, { "stay", stay },
    { "decide again", decide_again }, { "finish", finish }, { "retry event", retry_event }, { "node finish", node_finish },
    { "end", end } };

static void *work(void *at)
{
    size_t i = *(size_t *)at;
    *(size_t *)at = calls[i].call();
    return NULL;
}

/* How many bytes of its stack a thread used that made this call. */
static size_t used_by(size_t call)
{
    pthread_attr_t attributes;
    pthread_t thread;
    size_t left = 0, answer = call;
    unsigned char *stack = mmap(NULL, STACK, PROT_READ | PROT_WRITE, MAP_PRIVATE | MAP_ANONYMOUS, -1, 0);
    if (stack == MAP_FAILED)
        return STACK;
    memset(stack, PATTERN, STACK);
    if (pthread_attr_init(&attributes) || pthread_attr_setstack(&attributes, stack, STACK)
        || pthread_create(&thread, &attributes, work, &answer) || pthread_join(thread, NULL) || answer != CCAN_DONE)
        return STACK;
    while (left < STACK && stack[left] == PATTERN)
        left++;
    munmap(stack, STACK);
    return STACK - left;
}

int main(void)
{
    size_t none = used_by(0), most = 0, deepest = 0;
    for (size_t i = 1; i < sizeof calls / sizeof calls[0]; i++) {
        size_t used = used_by(i);
        used -= used < none ? used : none;
        if (used > most) {
            most = used;
            deepest = i;
        }
    }
    printf("a call needs at most %zu bytes of stack (%s)\n", most, calls[deepest].name);
    return most > LIMIT;
}
