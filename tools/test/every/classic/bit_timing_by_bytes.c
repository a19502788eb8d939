/* Bit Timing, whose bytes two hosts write: each write is a look and then a write of the whole register, so that one of the two bytes
 * may be lost. */
#include <ccan_every.h>
#include <stdio.h>

enum { CONTROL = 0x00, TIMING_LOWER = 0x0c, TIMING_UPPER = 0x0d };

static ccan_chip chip = CCAN_CHIP_CLOSED;

static void must(uint32_t code) { ccan_require(code == CCAN_DONE, "%s", ccan_text(code)); }
static void lower(void) { must(ccan_write8(&chip.if1, TIMING_LOWER, 0x05)); }
static void upper(void) { must(ccan_write8(&chip.if2, TIMING_UPPER, 0x1c)); }

int main(void)
{
    uint16_t timing;
    must(ccan_open_reset(&chip, 1, 1, 1, CCAN_LAYOUT_D_CAN));
    must(ccan_write8(&chip.if1, CONTROL, 0x41)); /* Init and CCE */
    ccan_thread("lower", lower);
    ccan_thread("upper", upper);
    ccan_quiet();
    must(ccan_meet(&chip));
    must(ccan_read16(&chip.if1, TIMING_LOWER, &timing));
    printf("%04x\n", timing);
    return 0;
}
