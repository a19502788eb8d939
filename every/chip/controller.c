/* The controller's registers and the error counters of all nodes (C_CAN User's Manual 1.2, "CAN Control Register", "Status
 * Register", "Error Counter"; ISO 11898-1, fault confinement). */
#include "chip.h"

enum { WARNING = 96, PASSIVE = 128, OFF = 256, GROUPS_OF_RECOVERY = 128 };

bool is_off(const counters *of) { return of->tec >= OFF; }

uint32_t state_of(const counters *of)
{
    return is_off(of) ? CCAN_OFF : of->tec >= PASSIVE || of->rec >= PASSIVE ? CCAN_PASSIVE : CCAN_ACTIVE;
}

void count(counters *of, enum counted what)
{
    if (is_off(of))
        return;
    switch (what) {
    case COUNT_NONE:
        break;
    case COUNT_SENT:
        of->tec -= of->tec > 0;
        break;
    case COUNT_RECEIVED:
        of->rec = of->rec >= PASSIVE ? 119 : of->rec - (of->rec > 0);
        break;
    case COUNT_NO_ACK:
        if (state_of(of) != CCAN_PASSIVE)
            of->tec += 8;
        break;
    case COUNT_SEND_FAULT:
        of->tec += 8;
        break;
    case COUNT_RECEIVE_FAULT:
        of->rec += of->rec < 255;
        break;
    }
    if (is_off(of)) {
        of->groups = 0;
        of->init_cleared = false;
    }
}

/* A host's way back from bus off begins when its Init is cleared; another node's begins at once. */
void let_groups_pass(counters *of, uint32_t groups, bool is_host)
{
    if (!is_off(of) || (is_host && !of->init_cleared))
        return;
    of->groups += groups;
    if (of->groups >= GROUPS_OF_RECOVERY)
        *of = (counters){ 0, 0, 0, false };
}

/* BOff and EWarn, a change of which is a status interrupt. */
uint8_t levels_of(const counters *of)
{
    return (uint8_t)((is_off(of) ? 2 : 0) | (of->tec >= WARNING || of->rec >= WARNING ? 1 : 0));
}

bool shows_status(void)
{
    uint16_t control = C.controller.control;
    return ((control & SIE) && (C.controller.pending & 1)) || ((control & EIE) && (C.controller.pending & 2));
}

bool is_powered_down(void) { return C.controller.pdr && (C.controller.control & INIT); }

uint16_t status_word(void)
{
    const counters *of = &C.controller.counters;
    uint8_t levels = levels_of(of);
    bool passive = of->tec >= PASSIVE || of->rec >= PASSIVE;
    return (uint16_t)((levels & 2 ? 0x80 : 0) | (levels & 1 ? 0x40 : 0) | (passive ? 0x20 : 0) | C.controller.flags);
}

uint16_t error_counter_word(void)
{
    const counters *of = &C.controller.counters;
    return (uint16_t)((of->rec >= PASSIVE ? 0x8000 : 0) | (of->rec & 127) << 8 | (of->tec > 255 ? 255 : of->tec));
}

void set_control(uint16_t value)
{
    uint16_t before = C.controller.control;
    C.controller.control = value & (TEST | CCE | 0x20 | EIE | SIE | IE | INIT);
    if ((before & INIT) && !(value & INIT) && is_off(&C.controller.counters))
        C.controller.counters.init_cleared = true;
    if (value & INIT)
        C.controller.has_left = true;
}

void reset_controller(void)
{
    C.controller = (controller){ .control = INIT, .timing = 0x2301, .flags = is_d_can() ? 7 : 0, .has_left = true };
}

/* What a reset leaves of an object. */
void reset_record(ccan_record *record)
{
    record->arbitration &= ~MSGVAL;
    record->control &= (uint16_t)~(NEWDAT | INTPND | TXRQST);
}
