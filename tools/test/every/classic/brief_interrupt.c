/* An interrupt whose line is pulled between two steps of main, and no more at its end: the handler runs there, or never. */
#include <ccan_every.h>
#include <stdio.h>

static ccan_chip chip = CCAN_CHIP_CLOSED;
static int handled;

static void must(uint32_t code) { ccan_require(code == CCAN_DONE, "%s", ccan_text(code)); }

static void on_interrupt(void)
{
    uint16_t value;
    must(ccan_read16(&chip.if2, CCAN_OFFSET_INTERRUPT, &value));
    handled += value == 1;
    must(ccan_set(&chip.if2, CCAN_CMASK, 0x0008));
    must(ccan_request(&chip.if2, 1));
}

int main(void)
{
    must(ccan_open_reset(&chip, 1, 1, 1, CCAN_LAYOUT_C_CAN));
    must(ccan_write16(&chip.if1, CCAN_OFFSET_CONTROL, 0x0002));
    ccan_irq("interrupt", 0, on_interrupt);
    must(ccan_set(&chip.if1, CCAN_CMASK, 0x0090));
    must(ccan_set(&chip.if1, CCAN_CTRL, 0x2000));
    must(ccan_request(&chip.if1, 1)); /* IntPnd of object 1 */
    must(ccan_set(&chip.if1, CCAN_CTRL, 0x0000));
    must(ccan_request(&chip.if1, 1));
    printf("%d handled\n", handled);
    return 0;
}
