/* Bit Timing and BRP Extension of a D_CAN, written in one access of 32 bits beside a read of both: neither is seen without the
 * other. */
#include <ccan_every.h>
#include <stdio.h>

enum { CONTROL = 0x00, BTR = 0x0c };

static ccan_chip chip = CCAN_CHIP_CLOSED;
static uint32_t timing;

static void must(uint32_t code) { ccan_require(code == CCAN_DONE, "%s", ccan_text(code)); }
static void look(void) { must(ccan_read32(&chip.if1, BTR, &timing)); }
static void set(void) { must(ccan_write32(&chip.if2, BTR, 0x00051c00)); }

int main(void)
{
    must(ccan_open_reset(&chip, 1, 1, 1, CCAN_LAYOUT_D_CAN));
    must(ccan_write32(&chip.if1, CONTROL, 0x41)); /* Init and CCE */
    ccan_thread("look", look);
    ccan_thread("set", set);
    ccan_quiet();
    printf("%08x\n", (unsigned)timing);
    return 0;
}
