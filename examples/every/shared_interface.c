/* A task and an interrupt handler on one processor share the registers of IF1: the task sends at object 2, and the handler reads
 * object 1. As it stands, the handler comes between the task's registers. Compiled with -DMASKED the task keeps the interrupt out.
 *
 *   cc -g -fsanitize=thread shared_interface.c $(pkg-config --cflags --libs ccan-every) && ./a.out */
#include <ccan_every.h>
#include <stdio.h>

enum { RECEIVES = 1, SENDS = 2, DATA = 0x5a5a, SENT = 0x1001 };

static ccan_chip chip = CCAN_CHIP_CLOSED;
static int received, sent;

static void must(uint32_t code) { ccan_require(code == CCAN_DONE, "%s", ccan_text(code)); }
static void set(uint32_t offset, uint16_t value) { must(ccan_write16(&chip.if1, offset, value)); }

/* ---- the driver */

static void on_interrupt(void)
{
    uint16_t object, data;
    must(ccan_read16(&chip.if1, CCAN_OFFSET_INTERRUPT, &object));
    if (object != RECEIVES)
        return;
    set(CCAN_OFFSET_IF1_COMMAND_MASK, 0x007f);
    set(CCAN_OFFSET_IF1_COMMAND_REQUEST, object);
    must(ccan_read16(&chip.if1, CCAN_OFFSET_IF1_DATA_A1, &data));
    ccan_require(data == DATA, "the handler reads %04x", data);
    received++;
}

static void send(void)
{
    ccan_on_cpu(1);
#ifdef MASKED
    ccan_irq_off();
#endif
    set(CCAN_OFFSET_IF1_COMMAND_MASK, 0x00b7); /* write arbitration, control and data, and request the transmission */
    set(CCAN_OFFSET_IF1_ARBITRATION_1, 0);
    set(CCAN_OFFSET_IF1_ARBITRATION_2, 0xa400); /* valid, sends 0x100 */
    set(CCAN_OFFSET_IF1_MESSAGE_CONTROL, 0x0082);
    set(CCAN_OFFSET_IF1_DATA_A1, SENT);
    set(CCAN_OFFSET_IF1_COMMAND_REQUEST, SENDS);
#ifdef MASKED
    ccan_irq_on();
#endif
}

static void start(void)
{
    set(CCAN_OFFSET_IF1_COMMAND_MASK, 0x00f3);
    set(CCAN_OFFSET_IF1_ARBITRATION_2, 0x848c); /* valid, receives 0x123 */
    set(CCAN_OFFSET_IF1_MESSAGE_CONTROL, 0x0482);
    set(CCAN_OFFSET_IF1_COMMAND_REQUEST, RECEIVES);
    set(CCAN_OFFSET_CONTROL, 0x0002); /* IE */
}

/* ---- the bus: a frame for the driver, and what the chip sends, which has to be what the task handed over */

static void bus(void)
{
    static const ccan_offer frame = { .id = 0x123, .node = 1, .dlc = 2, .bytes = { 0x5a, 0x5a } };
    for (size_t offered = 0; offered < 1 || !sent;) {
        ccan_outcome came;
        must(ccan_round(&chip.bus, &frame, 1 - offered, CCAN_QUIET, &came));
        offered += came.kind == CCAN_RECEIVED;
        if (came.kind == CCAN_SENT) {
            ccan_require(came.frame.id == 0x100 && came.frame.dlc == 2 && came.frame.bytes[0] == (SENT & 255) &&
                came.frame.bytes[1] == SENT >> 8, "the chip sends %03x#%02x%02x", (unsigned)came.frame.id, came.frame.bytes[0],
                came.frame.bytes[1]);
            sent++;
        }
        if (came.kind == CCAN_IDLE)
            ccan_wait();
    }
}

int main(void)
{
    must(ccan_open(&chip, 1, 1, 100));
    start();
    ccan_irq("handler", 1, on_interrupt);
    ccan_thread("task", send);
    ccan_thread("bus", bus);
    ccan_quiet();
    ccan_require(sent == 1, "the frame of the task was never sent");
    ccan_require(received == 1, "the frame of the bus was not read");
    printf("sent and received\n");
    return 0;
}
