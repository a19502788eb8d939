/* The chip's state, and the steps at its parts with what each of them touches. A change counts as a write of just those parts that
 * are other afterwards, and as a read of all that it looked at or wrote over. */
#include "chip.h"

chip *the_chip;

void chip_reset(void)
{
    if (!the_chip)
        the_chip = own_memory(sizeof *the_chip);
    clear_bytes(the_chip, sizeof *the_chip);
}

size_t chip_bytes(void **at)
{
    *at = the_chip;
    return sizeof *the_chip;
}

/* ---- objects */

uint64_t all_objects(void) { return C.objects == 64 ? ~0ull : 0xffffffffull; }

unsigned first_pending(void)
{
    for (unsigned object = 1; object <= C.objects; object++)
        if (C.records[object - 1].control & INTPND)
            return object;
    return 0;
}

/* What a look for the first pending object has to read. */
uint64_t up_to_first_pending(void)
{
    unsigned first = first_pending();
    return !first ? all_objects() : first == 64 ? ~0ull : (1ull << first) - 1;
}

void step_at_object(unsigned object, bool changes)
{
    footprint most = { 0 };
    for (int row = 0; row < ROW_CONTROLLER; row++) {
        most.reads[row] = 1ull << (object - 1);
        most.writes[row] = changes ? 1ull << (object - 1) : 0;
    }
    step(&most);
}

void read_object(unsigned object, unsigned rows)
{
    for (int row = 0; row < ROW_CONTROLLER; row++)
        if (rows >> row & 1)
            E->event->reads[row] |= 1ull << (object - 1);
}

void changed_object(unsigned object, const ccan_record *before)
{
    static const uint16_t flags[] = { NEWDAT, MSGLST, INTPND, TXRQST };
    const ccan_record *now = &C.records[object - 1];
    uint64_t bit = 1ull << (object - 1), *writes = E->event->writes;
    uint16_t control = before->control ^ now->control;
    uint32_t arbitration = before->arbitration ^ now->arbitration;
    for (int row = ROW_NEWDAT; row <= ROW_TXRQST; row++)
        if (control & flags[row])
            writes[row] |= bit;
    if (arbitration & MSGVAL)
        writes[ROW_MSGVAL] |= bit;
    if ((arbitration & ~MSGVAL) || before->masks != now->masks || (control & ~(NEWDAT | MSGLST | INTPND | TXRQST)))
        writes[ROW_REST] |= bit;
    if (memcmp(before->bytes, now->bytes, 8))
        writes[ROW_DATA] |= bit;
}

/* One picture of these rows of these objects. */
void step_at_objects(unsigned rows, uint64_t which)
{
    footprint most = { 0 };
    for (int row = 0; row < ROW_CONTROLLER; row++)
        if (rows >> row & 1)
            most.reads[row] = which;
    step(&most);
}

/* ---- the controller and the interfaces */

void step_at_controller(uint64_t reads, uint64_t writes)
{
    footprint most = { 0 };
    most.reads[ROW_CONTROLLER] = reads | writes;
    most.writes[ROW_CONTROLLER] = writes;
    step(&most);
    E->event->reads[ROW_CONTROLLER] |= reads | writes;
}

void changed_controller(const controller *before)
{
    const controller *now = &C.controller;
    const counters *from = &before->counters, *to = &now->counters;
    uint64_t parts = 0;
    uint16_t control = before->control ^ now->control;
    parts |= control & INIT ? PART_INIT : 0;
    parts |= control & IE ? PART_IE : 0;
    parts |= control & (SIE | EIE) ? PART_ENABLES : 0;
    parts |= control & ~(INIT | IE | SIE | EIE) ? PART_CONTROL : 0;
    parts |= before->flags != now->flags ? PART_FLAGS : 0;
    parts |= before->pending != now->pending ? PART_PENDING : 0;
    parts |= before->timing != now->timing ? PART_TIMING : 0;
    parts |= before->extension != now->extension ? PART_EXTENSION : 0;
    parts |= before->test != now->test ? PART_TEST : 0;
    parts |= before->has_left != now->has_left ? PART_LEFT : 0;
    parts |= before->pdr != now->pdr ? PART_POWER : 0;
    if (from->tec != to->tec || from->rec != to->rec || from->groups != to->groups || from->init_cleared != to->init_cleared)
        parts |= PART_COUNTERS;
    E->event->writes[ROW_CONTROLLER] |= parts;
}

/* Registers of an interface, by their bits: register r at bit r, Command Request at bit 10. */
void step_at_interface(unsigned side, uint64_t reads, uint64_t writes)
{
    footprint most = { 0 };
    most.reads[ROW_INTERFACES] = (reads | writes) << 16 * side;
    most.writes[ROW_INTERFACES] = writes << 16 * side;
    step(&most);
    E->event->reads[ROW_INTERFACES] |= most.reads[ROW_INTERFACES];
}

void chip_flags(uint64_t flags[4])
{
    static const uint16_t bits[] = { NEWDAT, MSGLST, INTPND, TXRQST };
    for (int flag = 0; flag < 4; flag++) {
        flags[flag] = 0;
        for (unsigned object = 0; object < 64; object++)
            flags[flag] |= (uint64_t)((C.records[object].control & bits[flag]) != 0) << object;
    }
}

/* ---- the interrupt line, for the explorer's interrupts */

bool chip_pulls_line(void)
{
    return C.is_open && (C.controller.control & IE) && (shows_status() || first_pending());
}

void chip_line_reach(footprint *into)
{
    into->reads[ROW_CONTROLLER] |= PART_IE | PART_ENABLES | PART_PENDING;
    into->reads[ROW_INTPND] |= all_objects();
}

void chip_line_footprint(footprint *into)
{
    into->reads[ROW_CONTROLLER] |= PART_IE | PART_ENABLES | PART_PENDING;
    if ((C.controller.control & IE) && !shows_status())
        into->reads[ROW_INTPND] |= up_to_first_pending();
}
