/* A look at NewDat beside a round that stores a frame: it comes before the store or after it. */
#include <ccan_every.h>
#include <stdio.h>

static ccan_chip chip = CCAN_CHIP_CLOSED;
static uint64_t flags;

static void must(uint32_t code) { ccan_require(code == CCAN_DONE, "%s", ccan_text(code)); }
static void look(void) { must(ccan_flags(&chip.if1, CCAN_NEWDAT, &flags)); }

static void play(void)
{
    static const ccan_offer frame = { .id = 0x123, .node = 1, .dlc = 1 };
    ccan_outcome came;
    must(ccan_round(&chip.bus, &frame, 1, CCAN_QUIET, &came));
}

int main(void)
{
    must(ccan_open(&chip, 1, 1, 1));
    must(ccan_set(&chip.if1, CCAN_CMASK, 0x00f3));
    must(ccan_set(&chip.if1, CCAN_ARB2, 0x848c));
    must(ccan_set(&chip.if1, CCAN_CTRL, 0x0081));
    must(ccan_request(&chip.if1, 1));
    ccan_thread("look", look);
    ccan_thread("bus", play);
    ccan_quiet();
    printf("%d\n", (int)flags);
    return 0;
}
