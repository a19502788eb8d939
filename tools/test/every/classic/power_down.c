/* Local power down of a D_CAN. A host that wakes the chip beside it, by PDR and then Init, finds it awake: it is not put to sleep
 * behind PDR. With -DREQUEST a host requests a transmission beside it: its frame is sent, or waits until the chip is awake. */
#include <ccan_every.h>
#include <stdio.h>

enum { CONTROL = 0x00, UPPER_CONTROL = 0x02, PDR = 0x0100 };

static ccan_chip chip = CCAN_CHIP_CLOSED;
static uint32_t is_down;
static ccan_outcome came;

static void must(uint32_t code) { ccan_require(code == CCAN_DONE, "%s", ccan_text(code)); }

static void power_down(void)
{
    const ccan_offer none = { 0 };
    must(ccan_power_down(&chip.bus, &is_down));
#ifdef REQUEST
    must(ccan_round(&chip.bus, &none, 0, CCAN_QUIET, &came));
#else
    (void)none;
#endif
}

#ifdef REQUEST
static void host(void) { must(ccan_request(&chip.if1, 1)); }
#else
static void host(void)
{
    must(ccan_write16(&chip.if1, UPPER_CONTROL, 0));
    must(ccan_write16(&chip.if1, CONTROL, 0));
}
#endif

int main(void)
{
    uint32_t control;
    must(ccan_open_reset(&chip, 1, 1, 1, CCAN_LAYOUT_D_CAN));
    must(ccan_set(&chip.if1, CCAN_CMASK, 0x00b3));
    must(ccan_set(&chip.if1, CCAN_ARB2, 0xa48c));
    must(ccan_set(&chip.if1, CCAN_CTRL, 0x0180));
    must(ccan_write16(&chip.if1, UPPER_CONTROL, PDR));
    must(ccan_write16(&chip.if1, CONTROL, 0));
    ccan_thread("host", host);
    ccan_thread("bus", power_down);
    ccan_quiet();
    must(ccan_meet(&chip));
    must(ccan_read32(&chip.if1, CONTROL, &control));
    printf("down %u, Control %08x%s\n", (unsigned)is_down, (unsigned)control, came.kind == CCAN_SENT ? ", sent" : "");
    return 0;
}
