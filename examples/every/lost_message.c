/* Does the receive path of a driver lose a message without a word? This one reads object 1, and then clears NewDat by a second
 * transfer. Compiled with -DCURED it reads and clears by one.
 *
 *   cc -g -fsanitize=thread lost_message.c $(pkg-config --cflags --libs ccan-every) && ./a.out */
#include <ccan_every.h>
#include <stdio.h>

enum { FRAMES = 2 };
enum { NEWDAT = 0x8000, MSGLST = 0x4000 };                    /* in Message Control */
enum { READ_ALL = 0x0033, CLEAR = 0x000c, READ_AND_CLEAR = 0x003f }; /* in Command Mask */

static ccan_chip chip = CCAN_CHIP_CLOSED;
static int received, overruns;

static void must(uint32_t code) { ccan_require(code == CCAN_DONE, "%s", ccan_text(code)); }

/* ---- the driver: its own code, over ccan.h alone */

static uint16_t transfer(uint16_t mask)
{
    uint16_t control;
    must(ccan_write16(&chip.if1, CCAN_OFFSET_IF1_COMMAND_MASK, mask));
    must(ccan_write16(&chip.if1, CCAN_OFFSET_IF1_COMMAND_REQUEST, 1));
    must(ccan_read16(&chip.if1, CCAN_OFFSET_IF1_MESSAGE_CONTROL, &control));
    return control;
}

static void on_interrupt(void)
{
#ifdef CURED
    uint16_t control = transfer(READ_AND_CLEAR);
#else
    uint16_t control = transfer(READ_ALL);
#endif
    if (!(control & NEWDAT))
        return;
    received++;
    overruns += (control & MSGLST) != 0;
#ifndef CURED
    (void)transfer(CLEAR);
#endif
}

static void start(void)
{
    must(ccan_write16(&chip.if1, CCAN_OFFSET_IF1_COMMAND_MASK, 0x00f3));
    must(ccan_write16(&chip.if1, CCAN_OFFSET_IF1_ARBITRATION_2, 0x848c));  /* valid, receives 0x123 */
    must(ccan_write16(&chip.if1, CCAN_OFFSET_IF1_MESSAGE_CONTROL, 0x0481)); /* RxIE, EoB, one byte */
    must(ccan_write16(&chip.if1, CCAN_OFFSET_IF1_COMMAND_REQUEST, 1));
    must(ccan_write16(&chip.if1, CCAN_OFFSET_CONTROL, 0x0002));            /* IE */
}

/* ---- what is beside it, and what has to be so */

int main(void)
{
    static const ccan_offer frames[FRAMES] = { { .id = 0x123, .node = 1, .dlc = 1, .bytes = { 1 } },
        { .id = 0x123, .node = 1, .dlc = 1, .bytes = { 2 } } };
    must(ccan_open(&chip, 1, 1, 100));
    start();
    ccan_irq("interrupt", 0, on_interrupt);
    ccan_bus_sends(&chip, frames, FRAMES, 0);
    ccan_quiet();
    ccan_require(received == FRAMES || overruns, "%d of %d frames were received, and no loss was seen", received, FRAMES);
    printf("%d received, %d overruns\n", received, overruns);
    return 0;
}
