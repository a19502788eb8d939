/* Frames, and what message objects make of them (C_CAN User's Manual 1.2, "Acceptance Filtering of Received Messages", "Reception
 * of Data Frame", "Reception of Remote Frame"; CAN Specification 2.0, arbitration). */
#include "chip.h"

static unsigned length_of(uint8_t dlc) { return dlc > 8 ? 8 : dlc; }

/* The frame's identifier at its place in Arbitration. */
static uint32_t placed(const frame *of) { return of->xtd ? of->id : of->id << 18; }

frame frame_of(const ccan_record *record)
{
    frame made = { .xtd = record->arbitration & XTD, .rtr = !(record->arbitration & DIR), .dlc = record->control & DLC };
    made.id = made.xtd ? record->arbitration & IDENTIFIER : (record->arbitration & IDENTIFIER) >> 18;
    if (!made.rtr)
        copy_bytes(made.bytes, record->bytes, length_of(made.dlc));
    return made;
}

frame frame_of_offer(const ccan_offer *offer)
{
    frame made = { .id = offer->id, .xtd = offer->xtd, .rtr = offer->rtr, .dlc = offer->dlc };
    if (!made.rtr)
        copy_bytes(made.bytes, offer->bytes, length_of(made.dlc));
    return made;
}

bool accepts(const ccan_record *record, const frame *of)
{
    bool uses_masks = record->control & UMASK, xtd = record->arbitration & XTD, dir = record->arbitration & DIR;
    uint32_t masks = uses_masks ? record->masks & IDENTIFIER : IDENTIFIER;
    uint32_t compared = xtd && of->xtd ? masks : masks & STANDARD;
    bool is_locked = !(record->control & EOB) && (record->control & NEWDAT);
    if (!(record->arbitration & MSGVAL) || is_locked)
        return false;
    if (xtd != of->xtd && !(uses_masks && !(record->masks & MXTD)))
        return false;
    if (dir != of->rtr && !(uses_masks && !(record->masks & MDIR)))
        return false;
    return (((record->arbitration & IDENTIFIER) ^ placed(of)) & compared) == 0;
}

ccan_record stored(const ccan_record *record, const frame *of)
{
    ccan_record now = *record;
    bool dir = record->arbitration & DIR;
    if (of->rtr && dir && (record->control & RMTEN)) {
        now.control |= TXRQST;
        return now;
    }
    if (of->rtr && dir && !(record->control & UMASK))
        return now;
    now.arbitration = (record->arbitration & MSGVAL) | (of->xtd ? XTD : 0) | (of->rtr ? DIR : 0) | placed(of);
    now.control = (uint16_t)((now.control & ~(DLC | TXRQST)) | of->dlc | NEWDAT);
    if ((record->control & NEWDAT) && !dir)
        now.control |= MSGLST;
    if (record->control & RXIE)
        now.control |= INTPND;
    if (!of->rtr)
        copy_bytes(now.bytes, of->bytes, 8);
    return now;
}

bool is_ready(const ccan_record *record) { return (record->arbitration & MSGVAL) && (record->control & TXRQST); }

/* The bits that decide who sends on, the first one highest: less wins. */
uint32_t arbitration_key(const frame *of)
{
    if (!of->xtd)
        return of->id << 21 | (uint32_t)of->rtr << 20;
    return (of->id >> 18) << 21 | 3u << 19 | (of->id & 0x3ffff) << 1 | of->rtr;
}

/* As candump writes a frame: a remote one with its length where that isn't 0, and a length code above 8 behind the bytes. */
const char *text_of(const frame *of)
{
    static char text[40];
    int length = sprintf(text, of->xtd ? "%08X#" : "%03X#", (unsigned)of->id);
    if (of->rtr)
        length += sprintf(text + length, of->dlc ? "R%u" : "R", length_of(of->dlc));
    for (unsigned byte = 0; !of->rtr && byte < length_of(of->dlc); byte++)
        length += sprintf(text + length, "%02X", of->bytes[byte]);
    if (of->dlc > 8)
        sprintf(text + length, "_%X", of->dlc);
    return text;
}
