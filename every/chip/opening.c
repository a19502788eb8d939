/* The calls on a whole chip. The explorer has one chip. */
#include "chip.h"

static const ccan_chip closed = CCAN_CHIP_CLOSED;

uint32_t ccan_version(void) { return CCAN_VERSION; }

static uint32_t refusal(uint32_t profile, uint32_t nodes, uint32_t tries)
{
    if (profile < 1 || profile > 2)
        return CCAN_PROFILE_RANGE;
    if (nodes > 8)
        return CCAN_NODES_RANGE;
    return tries < 1 || tries > 1000 ? CCAN_TRIES_RANGE : CCAN_DONE;
}

static void open_chip(ccan_chip *at, uint32_t profile, uint32_t nodes, uint32_t tries)
{
    if (C.is_open && at->bus.ccan_private_at != &C)
        stop(2, "the program opens a second chip; a search has one");
    clear_bytes(&C, sizeof C);
    C.objects = profile == 2 ? 64 : 32;
    C.others = nodes;
    C.tries = tries;
    C.is_open = true;
    C.interfaces[0].request = C.interfaces[1].request = 1;
    ccan_chip made = closed;
    made.if1 = (ccan_host){ true, &C.interfaces[0] };
    made.if2 = (ccan_host){ true, &C.interfaces[1] };
    made.bus = (ccan_bus){ true, &C };
    give(at, &made, sizeof made);
}

uint32_t ccan_open(ccan_chip *at, uint32_t profile, uint32_t nodes, uint32_t tries)
{
    uint32_t code = refusal(profile, nodes, tries);
    if (code == CCAN_DONE)
        open_chip(at, profile, nodes, tries);
    return code;
}

static void reset_interface(interface *of)
{
    *of = (interface){ .request = 1, .buffer = { .masks = 0xdfffffffu } };
}

uint32_t ccan_open_reset(ccan_chip *at, uint32_t profile, uint32_t nodes, uint32_t tries, uint32_t layout)
{
    uint32_t code = refusal(profile, nodes, tries);
    if (code != CCAN_DONE)
        return code;
    if (layout > CCAN_LAYOUT_D_CAN)
        return CCAN_LAYOUT_RANGE;
    open_chip(at, profile, nodes, tries);
    C.layout = layout;
    reset_controller();
    reset_interface(&C.interfaces[0]);
    reset_interface(&C.interfaces[1]);
    return CCAN_DONE;
}

bool ccan_is_open(const ccan_chip *at)
{
    return at->if1.ccan_private_full && at->if2.ccan_private_full && at->bus.ccan_private_full;
}

uint32_t ccan_meet(ccan_chip *at) { return ccan_is_open(at) ? CCAN_DONE : CCAN_CLOSED; }

/* A note has nothing to show here: the one chip has one order of steps, in which each call already sees all that came before. So it
 * only is told or empty. */
static uint32_t fill_note(bool is_open, ccan_note *note)
{
    if (!is_open)
        return CCAN_CLOSED;
    note->ccan_private_full = true;
    return CCAN_DONE;
}

static uint32_t empty_note(bool is_open, ccan_note *note)
{
    if (!is_open)
        return CCAN_CLOSED;
    if (!note->ccan_private_full)
        return CCAN_UNTOLD;
    note->ccan_private_full = false;
    return CCAN_DONE;
}

uint32_t ccan_tell(ccan_host *host, ccan_note *note) { return fill_note(host->ccan_private_full, note); }
uint32_t ccan_bus_tell(ccan_bus *bus, ccan_note *note) { return fill_note(bus->ccan_private_full, note); }
uint32_t ccan_heed(ccan_host *host, ccan_note *note) { return empty_note(host->ccan_private_full, note); }
uint32_t ccan_bus_heed(ccan_bus *bus, ccan_note *note) { return empty_note(bus->ccan_private_full, note); }

uint32_t ccan_forget(ccan_note *note)
{
    note->ccan_private_full = false;
    return CCAN_DONE;
}

/* All parts of the chip, as promise 3 of ccan.h has it: nobody else is in a call. */
static void step_at_all(bool changes)
{
    footprint most = { 0 };
    for (int row = 0; row <= ROW_INTERFACES; row++) {
        most.reads[row] = ~0ull;
        most.writes[row] = changes ? ~0ull : 0;
    }
    step(&most);
    add_footprint(E->event, &most);
}

uint32_t ccan_end(ccan_chip *at, ccan_final *out)
{
    if (!ccan_is_open(at))
        return CCAN_CLOSED;
    step_at_all(true);
    ccan_final last;
    clear_bytes(&last, sizeof last);
    last.objects = C.objects;
    copy_bytes(last.records, C.records, C.objects * sizeof C.records[0]);
    C.is_open = false;
    give(at, &closed, sizeof closed);
    give(out, &last, sizeof last);
    tell("ends the chip");
    return CCAN_DONE;
}

uint32_t ccan_reset(ccan_chip *at)
{
    if (!ccan_is_open(at))
        return CCAN_CLOSED;
    step_at_all(true);
    reset_controller();
    reset_interface(&C.interfaces[0]);
    reset_interface(&C.interfaces[1]);
    for (unsigned object = 0; object < C.objects; object++)
        reset_record(&C.records[object]);
    C.loaded = 0;
    C.held = (ccan_record){ 0 };
    tell("resets the chip");
    return CCAN_DONE;
}

uint32_t ccan_save(ccan_chip *at, ccan_saved *out)
{
    (void)at, (void)out;
    stop(2, "the program calls ccan_save, which a search has not");
}

uint32_t ccan_restore(ccan_chip *at, const ccan_saved *saved)
{
    (void)at, (void)saved;
    stop(2, "the program calls ccan_restore, which a search has not");
}
