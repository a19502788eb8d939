/* The bus that most programs want. */
#include "explorer.h"

enum { MOST_FRAMES = 16 };
/* Part of the program's state, and not of the explorer. */
__attribute__((section(".data.ccan_bus"))) static struct {
    ccan_chip *chip;
    ccan_offer frames[MOST_FRAMES];
    unsigned count, faults;
} bus;

static void send_all(void)
{
    for (unsigned next = 0;;) {
        ccan_outcome outcome;
        uint32_t fault = bus.faults && ccan_choose(2) ? CCAN_CRC : CCAN_QUIET;
        uint32_t code = ccan_round(&bus.chip->bus, &bus.frames[next], next < bus.count, fault, &outcome);
        ccan_require(code == CCAN_DONE, "ccan_bus_sends: %s", ccan_text(code));
        bus.faults -= outcome.kind == CCAN_FAULT;
        next += outcome.winner != 0 && (outcome.kind == CCAN_RECEIVED || outcome.kind == CCAN_PASSED);
        if (outcome.kind == CCAN_IDLE)
            ccan_wait();
    }
}

void ccan_bus_sends(ccan_chip *chip, const ccan_offer *frames, unsigned count, unsigned faults)
{
    if (count > MOST_FRAMES)
        stop(2, "ccan_bus_sends takes at most %d frames", MOST_FRAMES);
    bus.chip = chip;
    copy_bytes(bus.frames, frames, count * sizeof *frames);
    bus.count = count;
    bus.faults = faults;
    ccan_thread("bus", send_all);
}
