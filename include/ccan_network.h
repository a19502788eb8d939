/* A bus of several chips, with time: a ready-made network over the calls of ccan.h, for C11 and C++11.
 *
 * A network has up to 32 members: chips, each by its bus's handle, and nodes that have no chip. Its caller has a clock and counts
 * time in bits. So at 500 kbit/s the unit of all times here is 2 us; ccan_bit_time has it from a chip's registers.
 *
 *   ccan_network_start    at any time: begins a frame if the bus is free and a member wants to send, and says when it ends; or says
 *                         when to ask again
 *   until then            hosts do what they like, members come and go, and ccan_network_fault gives a member an error to find
 *   ccan_network_finish   when the frame ends: gives each member its event, and says when the bus is free again
 *
 *   static ccan_network network;
 *   uint64_t now = 0, until;
 *   uint32_t place;
 *   ccan_network_init(&network, now);
 *   must(ccan_network_add_chip(&network, &a.bus, &place));
 *   must(ccan_network_add_chip(&network, &b.bus, &place));
 *   for (;;) {
 *       must(ccan_network_start(&network, now, &until));
 *       if (!network.under_way && until == CCAN_NETWORK_NEVER)
 *           break;                                           (nobody wants to send)
 *       now = until;                                         (let hosts run until then)
 *       if (network.under_way)
 *           must(ccan_network_finish(&network, now, &until));
 *   }
 *
 * This header is C, and not proved. What is on the bus, what it is to each member, and what that does to a chip come from the calls
 * of ccan.h, which are proved: ccan_begin, ccan_decide, ccan_stay, ccan_decide_again, ccan_finish, and those of a node. What is
 * added here is who takes part, when, and for how long. It is tested by tools/test/c/network.c, with three chips whose hosts run in
 * threads, and by examples/c/network.c, whose times and counters were worked out by hand.
 *
 * It takes no memory, and has no state but the struct. One thread at a time may be in a call with a network. The calls use the
 * bus's handles of its chips, which no other thread may use meanwhile (promise 2 of ccan.h). Hosts may run beside them, in threads
 * of their own. Whoever has all in one thread calls ccan_meet of each chip before ccan_network_start and ccan_network_finish.
 *
 * What is exact, and what is not:
 *  - A frame that ends well has its exact length, and so has one that an error passive sender ends alone since nobody acknowledges
 *    it. A frame that an error flag ends is taken as long as it can be: where in the frame an error is, is not known, unless
 *    ccan_network_finish is called then; and how the error flags of several members overlap isn't looked at. See
 *    ccan_network_finish.
 *  - A chip in loop back mode starts its frame when the others start theirs, and not at any time as a part does. If an error flag
 *    ends the frame for the others, what the chip still sends of it disturbs nothing. With Silent it keeps no time of its own: it
 *    has its event when the frame on the bus ends; if nobody else sends, the others wait until its frame is over.
 *  - Intermission, suspend transmission, and groups of eleven recessive bits are those of CAN Specification 2.0. Behind a frame of an
 *    error passive sender that nobody acknowledges, groups count from the CRC delimiter on; on a real bus they count from the last
 *    dominant bit of the CRC sequence, up to 4 bits earlier. There are no overload frames, no errors between frames and no second
 *    error in an error frame; and bits don't differ in length.
 *  - All members see a frame end at once: propagation takes no time. */
#ifndef CCAN_NETWORK_H
#define CCAN_NETWORK_H
#include "ccan.h"
#include <string.h>
#ifdef __cplusplus
extern "C" {
#endif

enum ccan_network_numbers {
    CCAN_NETWORK_MEMBERS = 32, /* so many members a network has at most */
    CCAN_NETWORK_TRIES = 1000  /* so often a call of a chip that answers CCAN_BUSY is made again */
};

/* A time that never comes: nothing happens by itself. */
#define CCAN_NETWORK_NEVER UINT64_MAX

/* What is at a place. */
enum ccan_network_kind { CCAN_NETWORK_NOBODY, CCAN_NETWORK_CHIP, CCAN_NETWORK_NODE };

/* What is at one place of a network. C may read all of it, and may write `node` while no frame is under way. A switch is 0 for
 * no, and 1 for yes. */
typedef struct {
    uint32_t kind;       /* an enum ccan_network_kind */
    uint32_t code;       /* what the last call of this chip or node answered, an enum ccan_code */
    ccan_bus *chip;      /* of a chip: the bus's handle */
    ccan_node node;      /* of a node: its error counters */
    uint32_t offers;     /* of a node: switch, it has a frame to send */
    uint32_t started;    /* of a node: switch, that is the frame which it started to send */
    ccan_frame frame;    /* that frame */
    uint32_t fault;      /* an enum ccan_fault: the error that it finds by itself in this frame, or in the next one */
    uint32_t takes_part; /* switch: it was there when the frame that is under way began, and has not been removed */
    uint32_t waits;      /* switch: it may not start yet, since it is error passive and sent the frame before. Its object is
                            started all the same: so with DAR its one try is over if another's frame comes first */
    uint32_t was_sender; /* switch: it sent the frame before */
    ccan_member member;  /* what it is to the frame that is under way, else what it was to the bus when that was asked last */
    ccan_finished ended; /* what the last frame was to it; of a node `event` alone, and all else is zero */
    uint64_t auto_bus_on; /* of a chip: how many bits after it has gone bus off its Init is cleared; see ccan_network_auto_bus_on */
    uint64_t comes_on;    /* when that will be, CCAN_NETWORK_NEVER if it will not */
} ccan_network_member;

/* A network. C reads what it likes of it, and writes none of it but what is said here. */
typedef struct {
    ccan_network_member at[CCAN_NETWORK_MEMBERS]; /* the members, each at its place */
    ccan_wire wire;       /* what is on the bus, as far as it is decided; else what was on it last */
    uint32_t places;      /* so many places are looked at, from the first on: behind them nobody is */
    uint32_t under_way;   /* switch: a frame is under way, between ccan_network_start and ccan_network_finish */
    uint32_t has_lost;    /* switch: a member was removed since that frame began */
    uint32_t bits;        /* how many bits that frame, or the last one, has if nothing disturbs it */
    uint64_t began;       /* when it began */
    uint64_t ended;       /* when it ends; or when the last one has ended */
    uint64_t free;        /* from then on the next one may begin */
    uint64_t group_began; /* when the group of recessive bits began that is not over yet */
} ccan_network;

/* ---- members */

/* A network without members, whose bus is idle since `now`, a time in bits. A chip keeps what it has loaded. */
static inline void ccan_network_init(ccan_network *network, uint64_t now)
{
    memset(network, 0, sizeof *network);
    network->began = now;
    network->ended = now;
    network->free = now;
    network->group_began = now;
}

/* The lowest place where nobody is, CCAN_NETWORK_MEMBERS if there is none. */
static inline uint32_t ccan_network_private_place(const ccan_network *network)
{
    uint32_t place = 0;
    while (place < CCAN_NETWORK_MEMBERS && network->at[place].kind != CCAN_NETWORK_NOBODY)
        place++;
    return place;
}

/* Puts somebody of this kind at an empty place, and all else of it is zero. */
static inline void ccan_network_private_take(ccan_network *network, uint32_t place, uint32_t kind)
{
    memset(&network->at[place], 0, sizeof network->at[place]);
    network->at[place].kind = kind;
    network->at[place].auto_bus_on = CCAN_NETWORK_NEVER;
    network->at[place].comes_on = CCAN_NETWORK_NEVER;
    if (place >= network->places)
        network->places = place + 1;
}

/* Adds a chip, at the lowest place that is empty, and gives that. It takes part from the next start on. The handle stays open and
 * where it is until the chip is removed. CCAN_MEMBER_RANGE: the chip is a member already; else CCAN_MEMBERS_RANGE: there are 32
 * members. Then nothing is changed, and `place` stays as it was. */
static inline CCAN_CODE ccan_network_add_chip(ccan_network *network, ccan_bus *chip, uint32_t *place)
{
    const uint32_t empty = ccan_network_private_place(network);
    for (uint32_t k = 0; k < network->places; k++)
        if (network->at[k].kind == CCAN_NETWORK_CHIP && network->at[k].chip == chip)
            return CCAN_MEMBER_RANGE;
    if (empty == CCAN_NETWORK_MEMBERS)
        return CCAN_MEMBERS_RANGE;
    ccan_network_private_take(network, empty, CCAN_NETWORK_CHIP);
    network->at[empty].chip = chip;
    *place = empty;
    return CCAN_DONE;
}

/* Adds a node that has no chip, whose error counters are 0, at the lowest place that is empty, and gives that. It takes part from
 * the next start on, and acknowledges frames. CCAN_MEMBERS_RANGE: there are 32 members; then nothing is changed. */
static inline CCAN_CODE ccan_network_add_node(ccan_network *network, uint32_t *place)
{
    const uint32_t empty = ccan_network_private_place(network);
    if (empty == CCAN_NETWORK_MEMBERS)
        return CCAN_MEMBERS_RANGE;
    ccan_network_private_take(network, empty, CCAN_NETWORK_NODE);
    *place = empty;
    return CCAN_DONE;
}

/* Removes the member at this place. From a frame that is under way it is absent for the rest, and has no event of it; what a chip
 * has loaded stays loaded, and its object requested. The handle may be closed then. CCAN_PLACE_RANGE: nobody is there. */
static inline CCAN_CODE ccan_network_remove(ccan_network *network, uint32_t place)
{
    if (place >= CCAN_NETWORK_MEMBERS || network->at[place].kind == CCAN_NETWORK_NOBODY)
        return CCAN_PLACE_RANGE;
    memset(&network->at[place], 0, sizeof network->at[place]);
    network->has_lost = 1;
    while (network->places > 0 && network->at[network->places - 1].kind == CCAN_NETWORK_NOBODY)
        network->places--;
    return CCAN_DONE;
}

/* Gives the node at this place a frame to send. It is offered from the next start on, until it was sent; a frame that was offered
 * before, and has not been sent, is replaced. The first of CCAN_PLACE_RANGE, no node is there, and CCAN_FRAME_RANGE; then nothing
 * is changed. */
static inline CCAN_CODE ccan_network_offer(ccan_network *network, uint32_t place, const ccan_frame *frame)
{
    uint32_t bits, code;
    if (place >= CCAN_NETWORK_MEMBERS || network->at[place].kind != CCAN_NETWORK_NODE)
        return CCAN_PLACE_RANGE;
    code = ccan_frame_bits(frame, &bits);
    if (code != CCAN_DONE)
        return code;
    network->at[place].offers = 1;
    network->at[place].started = 0;
    network->at[place].frame = *frame;
    return CCAN_DONE;
}

/* Takes back what the node at this place offers. A frame that is under way goes on. CCAN_PLACE_RANGE: no node is there. */
static inline CCAN_CODE ccan_network_withdraw(ccan_network *network, uint32_t place)
{
    if (place >= CCAN_NETWORK_MEMBERS || network->at[place].kind != CCAN_NETWORK_NODE)
        return CCAN_PLACE_RANGE;
    network->at[place].offers = 0;
    return CCAN_DONE;
}

/* The member at this place finds an error by itself, an enum ccan_fault, in the frame that is under way if it takes part in it,
 * else in the next frame in which it does. CCAN_QUIET takes that back. What the others make of its error flag follows
 * (docs/C_REFERENCE.md, "Frames on a bus of several"). The end of the frame forgets it. The first of CCAN_PLACE_RANGE, nobody is
 * there, and CCAN_FAULT_RANGE. */
static inline CCAN_CODE ccan_network_fault(ccan_network *network, uint32_t place, uint32_t fault)
{
    if (place >= CCAN_NETWORK_MEMBERS || network->at[place].kind == CCAN_NETWORK_NOBODY)
        return CCAN_PLACE_RANGE;
    if (fault > CCAN_CRC)
        return CCAN_FAULT_RANGE;
    network->at[place].fault = fault;
    return CCAN_DONE;
}

/* Lets a chip that goes bus off clear its Init by itself, so many bits later, as a D_CAN does while bit 9 (ABO) of its CAN Control
 * register is 1: `bits` is the number in its Auto Bus On Time register, which is in clock cycles, divided by those of a bit
 * (ccan_bit_time). CCAN_NETWORK_NEVER, as it is at first: a host has to clear Init. Seen when the next frame ends. The chip itself
 * keeps neither the bit nor the register: the device does. CCAN_PLACE_RANGE: no chip is at this place; then nothing is changed. */
static inline CCAN_CODE ccan_network_auto_bus_on(ccan_network *network, uint32_t place, uint64_t bits)
{
    if (place >= CCAN_NETWORK_MEMBERS || network->at[place].kind != CCAN_NETWORK_CHIP)
        return CCAN_PLACE_RANGE;
    network->at[place].auto_bus_on = bits;
    return CCAN_DONE;
}

/* ---- time */

/* Whether a chip is bus off, and whether its Init is 1. */
static inline bool ccan_network_private_off(ccan_bus *chip, bool *init)
{
    ccan_counts counts;
    uint16_t control;
    if (ccan_counters(chip, 0, &counts) != CCAN_DONE || counts.state != CCAN_OFF
        || ccan_bus_read16(chip, CCAN_OFFSET_CONTROL, &control) != CCAN_DONE)
        return false;
    *init = (control & 1) != 0;
    return true;
}

/* Lets groups of recessive bits pass at a chip that is bus off, 1 to 10000. To another they are nothing. */
static inline CCAN_CODE ccan_network_private_hear(ccan_bus *chip, uint32_t groups)
{
    ccan_counts counts;
    uint32_t state, code = ccan_counters(chip, 0, &counts);
    if (code != CCAN_DONE || counts.state != CCAN_OFF)
        return code;
    code = ccan_recessive(chip, groups, &state);
    for (uint32_t i = 0; i < CCAN_NETWORK_TRIES && code == CCAN_BUSY; i++)
        code = ccan_recessive(chip, groups, &state);
    return code;
}

/* Gives each member that is bus off the groups of eleven recessive bits that are over at this time, and are not given yet. */
static inline CCAN_CODE ccan_network_private_groups(ccan_network *network, uint64_t now)
{
    uint32_t told = CCAN_DONE, groups;
    uint64_t over;
    if ((network->under_way && network->wire.kind != CCAN_WIRE_IDLE) || now < network->group_began + 11)
        return CCAN_DONE;
    over = (now - network->group_began) / 11;
    network->group_began += 11 * over;
    groups = over < 10000 ? (uint32_t)over : 10000; /* 128 of them bring each member back */
    for (uint32_t k = 0; k < network->places; k++) {
        ccan_network_member *at = &network->at[k];
        if (at->kind == CCAN_NETWORK_NOBODY)
            continue;
        at->code = at->kind == CCAN_NETWORK_CHIP ? ccan_network_private_hear(at->chip, groups)
                                                 : ccan_node_recessive(&at->node, groups);
        if (told == CCAN_DONE)
            told = at->code;
    }
    return told;
}

/* The chip whose Init is to be cleared first by itself, if that is until `now`; NULL if there is none. */
static inline ccan_network_member *ccan_network_private_comes_on(ccan_network *network, uint64_t now)
{
    ccan_network_member *first = NULL;
    for (uint32_t k = 0; k < network->places; k++) {
        ccan_network_member *at = &network->at[k];
        if (at->kind == CCAN_NETWORK_CHIP && at->comes_on != CCAN_NETWORK_NEVER && at->comes_on <= now
            && (!first || at->comes_on < first->comes_on))
            first = at;
    }
    return first;
}

/* Clears Init of a chip if it is still bus off and Init is 1. */
static inline CCAN_CODE ccan_network_private_come_on(ccan_network_member *at)
{
    bool init = false;
    uint32_t code = CCAN_DONE;
    at->comes_on = CCAN_NETWORK_NEVER;
    if (ccan_network_private_off(at->chip, &init) && init) {
        code = ccan_init(at->chip);
        for (uint32_t i = 0; i < CCAN_NETWORK_TRIES && code == CCAN_BUSY; i++)
            code = ccan_init(at->chip);
    }
    at->code = code;
    return code;
}

/* Lets time pass until `now` on a bus that is recessive: gives each member that is bus off the groups of eleven recessive bits that
 * are over by then, and are not given yet. The 8 recessive bits at the end of a frame or of an error frame count. No group passes
 * while a frame is on the bus, or if `now` is a time before. Init of a chip is cleared at its time (ccan_network_auto_bus_on).
 *
 * ccan_network_start does it itself. It counts for a chip as its registers are when this is called: so a simulator calls it before
 * each access by which a host may clear Init. Else groups from before that access count too.
 *
 * CCAN_CLOSED, CCAN_BUSY: the code of the first member with another one than CCAN_DONE; that one has missed these groups, or its
 * Init is still 1. */
static inline CCAN_CODE ccan_network_pass(ccan_network *network, uint64_t now)
{
    ccan_network_member *first = ccan_network_private_comes_on(network, now);
    uint32_t told = CCAN_DONE, code;
    while (first) {
        code = ccan_network_private_groups(network, first->comes_on);
        if (told == CCAN_DONE)
            told = code;
        code = ccan_network_private_come_on(first);
        if (told == CCAN_DONE)
            told = code;
        first = ccan_network_private_comes_on(network, now);
    }
    code = ccan_network_private_groups(network, now);
    return told != CCAN_DONE ? told : code;
}

/* When a group of recessive bits is over that may bring this member back, or when its Init is cleared: CCAN_NETWORK_NEVER if it isn't
 * bus off, or a host has to clear Init. */
static inline uint64_t ccan_network_private_back(const ccan_network *network, const ccan_network_member *at)
{
    bool init = false;
    if (at->kind == CCAN_NETWORK_NODE && at->node.tec > 255)
        return network->group_began + 11 * (uint64_t)(128 - at->node.groups);
    if (at->kind != CCAN_NETWORK_CHIP || !ccan_network_private_off(at->chip, &init))
        return CCAN_NETWORK_NEVER;
    return init ? at->comes_on : network->group_began + 11;
}

/* When to ask an idle bus again: the first time at which a member may send that may not yet. */
static inline uint64_t ccan_network_private_until(const ccan_network *network)
{
    uint64_t first = CCAN_NETWORK_NEVER;
    for (uint32_t k = 0; k < network->places; k++) {
        const ccan_network_member *at = &network->at[k];
        const uint64_t back = ccan_network_private_back(network, at);
        if (at->waits && network->free + 8 < first)
            first = network->free + 8;
        if (back < first)
            first = back;
    }
    return first;
}

/* ---- the start of a frame */

/* What a member is to the bus at the start of a frame. */
static inline CCAN_CODE ccan_network_private_begin(ccan_network_member *at)
{
    uint32_t code;
    memset(&at->member, 0, sizeof at->member);
    if (at->kind == CCAN_NETWORK_NOBODY)
        return CCAN_DONE;
    if (at->kind == CCAN_NETWORK_NODE)
        return ccan_node_begin(&at->node, at->offers, &at->frame, &at->member);
    code = ccan_begin(at->chip, &at->member);
    for (uint32_t i = 0; i < CCAN_NETWORK_TRIES && code == CCAN_BUSY; i++)
        code = ccan_begin(at->chip, &at->member);
    return code;
}

/* Asks all members, and decides what they put on the bus. One that waits listens. */
static inline CCAN_CODE ccan_network_private_decide(ccan_network *network, uint64_t now)
{
    ccan_member all[CCAN_NETWORK_MEMBERS];
    uint32_t code, told = CCAN_DONE;
    for (uint32_t k = 0; k < network->places; k++) {
        ccan_network_member *at = &network->at[k];
        at->code = ccan_network_private_begin(at);
        if (told == CCAN_DONE)
            told = at->code;
        at->takes_part = at->kind != CCAN_NETWORK_NOBODY;
        at->waits = at->was_sender && at->member.role == CCAN_ROLE_PASSIVE && at->member.sends && now < network->free + 8;
        if (at->waits)
            at->member.sends = 0;
        at->started = at->kind == CCAN_NETWORK_NODE && at->member.sends;
        all[k] = at->member;
    }
    code = ccan_decide(all, network->places, &network->wire);
    return code != CCAN_DONE ? code : told;
}

/* How many bits the longest frame has that is sent, on the bus or only to itself if the bus is idle: 0 if none is. One in loop back
 * mode drives its frame to the end, even if it loses the arbitration. */
static inline uint32_t ccan_network_private_longest(const ccan_network *network)
{
    uint32_t longest = 0, bits;
    for (uint32_t k = 0; k < network->places; k++) {
        const ccan_member *member = &network->at[k].member;
        const bool alone = network->wire.kind == CCAN_WIRE_IDLE && member->role == CCAN_ROLE_ALONE && member->sends;
        const bool looped = member->role == CCAN_ROLE_LOOPED && member->sends;
        if ((alone || looped || network->wire.part[k] == CCAN_PART_SENDER) && ccan_frame_bits(&member->frame, &bits) == CCAN_DONE
            && bits > longest)
            longest = bits;
    }
    return longest;
}

/* Whether a sender of the frame that is error passive is there, which flags a missing acknowledgement by six recessive bits. One in
 * loop back mode does not. */
static inline bool ccan_network_private_passive(const ccan_network *network)
{
    bool found = false;
    for (uint32_t k = 0; k < network->places; k++)
        found = found || (network->wire.part[k] == CCAN_PART_SENDER && network->at[k].member.role == CCAN_ROLE_PASSIVE);
    return found;
}

/* How many bits there are between the start of a frame and the intermission, if an error that breaks it is found after so many. */
static inline uint64_t ccan_network_private_length(const ccan_network *network, uint64_t passed)
{
    const uint64_t bits = network->bits;
    switch (network->wire.kind) {
    case CCAN_WIRE_UNHEARD: /* an error flag begins behind the ACK slot, 8 bits before the end: 6 bits, one later, delimiter of 8 */
        if (!network->wire.flagged && !ccan_network_private_passive(network))
            return bits;
        return bits - 8 + 6 + (network->wire.flagged ? 1 : 0) + 8;
    case CCAN_WIRE_FLAGGED: /* behind the ACK delimiter, 7 bits before the end; the others' flags begin a bit later */
        return bits - 7 + 6 + 1 + 8;
    case CCAN_WIRE_BROKEN: /* at the latest behind the CRC sequence, 10 bits before the end; the others' flags up to 6 bits later */
    case CCAN_WIRE_COLLIDED:
        return (passed < bits - 10 ? passed : bits - 10) + 6 + 6 + 8;
    default:
        return bits;
    }
}

/* On an idle bus: lets each chip enter local power down that asks for it by PDR and has nothing to send. One that waits has a frame
 * to send. */
static inline CCAN_CODE ccan_network_private_power_down(const ccan_network *network)
{
    uint32_t told = CCAN_DONE, code, is_down;
    for (uint32_t k = 0; k < network->places; k++) {
        const ccan_network_member *at = &network->at[k];
        if (at->kind != CCAN_NETWORK_CHIP || at->waits)
            continue;
        code = ccan_power_down(at->chip, &is_down);
        for (uint32_t i = 0; i < CCAN_NETWORK_TRIES && code == CCAN_BUSY; i++)
            code = ccan_power_down(at->chip, &is_down);
        if (told == CCAN_DONE)
            told = code;
    }
    return told;
}

/* Ends what ccan_begin began at each chip, if nobody sends: nothing is under way there, and what is loaded stays. */
static inline CCAN_CODE ccan_network_private_rest(const ccan_network *network)
{
    ccan_finished nothing;
    uint32_t told = CCAN_DONE, code;
    for (uint32_t k = 0; k < network->places; k++) {
        if (network->at[k].kind != CCAN_NETWORK_CHIP)
            continue;
        code = ccan_finish(network->at[k].chip, &network->wire, k, CCAN_QUIET, &nothing);
        if (told == CCAN_DONE)
            told = code;
    }
    return told;
}

/* What a start comes to if nobody sends. */
static inline CCAN_CODE ccan_network_private_idle(const ccan_network *network)
{
    const uint32_t rest = ccan_network_private_rest(network), down = ccan_network_private_power_down(network);
    return rest != CCAN_DONE ? rest : down;
}

/* At the time `now`: begins a frame, if the bus is free and a member wants to send. `under_way` of the network then is 1, `wire`
 * and each member's `member` say what is on the bus, and `until` is when the frame ends if nothing disturbs it: call
 * ccan_network_finish then. Else `under_way` is 0, and `until` is when to call it again: during the intermission of 3 bits its end;
 * for a member that may not start yet, since it is error passive and sent the frame before, 8 bits later; for one that is on its
 * way back from bus off the end of the next group of recessive bits, or when its Init is cleared; and CCAN_NETWORK_NEVER if nothing
 * happens by itself. A host's request and ccan_network_offer are seen by the next call, so call it after these too.
 *
 * While a frame is under way, the call only reports its end. Time passes as by ccan_network_pass. A chip in loop back mode
 * with Silent that sends to itself is a frame under way too, even if the bus is idle (`wire.kind` is CCAN_WIRE_IDLE).
 *
 * Local power down of a D_CAN: if the bus is free and nobody sends, it is idle, and a chip whose PDR is 1 and that has nothing to
 * send enters it, by ccan_power_down. A host's write of PDR is seen by the next call. A chip has its part in a frame that begins
 * before the bus was idle.
 *
 * The code is that of the first member with another one than CCAN_DONE, and all else is done: CCAN_CLOSED, it takes no part;
 * CCAN_BUSY, CCAN_SPENT, the start of its object was refused, and it sends nothing, or it has missed groups of recessive bits, or it
 * has not entered local power down; CCAN_COUNTERS_RANGE, C has written counters to a node that it can't have, and it takes no part. */
static inline CCAN_CODE ccan_network_start(ccan_network *network, uint64_t now, uint64_t *until)
{
    const ccan_wire last = network->wire;
    uint32_t passed, code, bits;
    if (network->under_way) {
        *until = network->ended;
        return CCAN_DONE;
    }
    passed = ccan_network_pass(network, now);
    if (now < network->free) {
        *until = network->free;
        return passed;
    }
    code = ccan_network_private_decide(network, now);
    passed = passed != CCAN_DONE ? passed : code;
    bits = ccan_network_private_longest(network);
    if (bits == 0) {
        code = ccan_network_private_idle(network);
        network->wire = last;
        *until = ccan_network_private_until(network);
        return passed != CCAN_DONE ? passed : code;
    }
    network->under_way = 1;
    network->has_lost = 0;
    network->bits = bits;
    network->began = now;
    network->ended = now + ccan_network_private_length(network, UINT64_MAX);
    *until = network->ended;
    return passed;
}

/* ---- its end */

/* Looks who is still there, and decides how the frame ends. If all are there and nobody finds an error, it ends as was decided at its
 * start. */
static inline CCAN_CODE ccan_network_private_decide_again(ccan_network *network)
{
    static const ccan_member nobody = { CCAN_ROLE_ABSENT, CCAN_QUIET, 0, { 0, 0, 0, 0, { 0 } } };
    const ccan_wire start = network->wire;
    ccan_member all[CCAN_NETWORK_MEMBERS];
    bool as_begun = !network->has_lost;
    for (uint32_t k = 0; k < network->places; k++) {
        ccan_network_member *at = &network->at[k];
        all[k] = at->takes_part ? at->member : nobody;
        if (at->takes_part && at->kind == CCAN_NETWORK_CHIP && ccan_stay(at->chip, &all[k]) != CCAN_DONE)
            all[k] = nobody;
        if (at->takes_part) {
            all[k].fault = at->fault;
            as_begun = as_begun && all[k].role == at->member.role && at->fault == CCAN_QUIET;
            at->member.role = all[k].role;
            at->member.fault = at->fault;
        }
    }
    if (as_begun)
        return CCAN_DONE;
    return ccan_decide_again(&start, all, network->places, &network->wire);
}

/* The step at an object that was given up, of an event that was lost at first and made later. */
static inline uint32_t ccan_network_private_given_up(const ccan_finished *ended)
{
    if (ended->object == 0 || ended->finished.arbitration != 0)
        return CCAN_STEP_NONE;
    return ended->event == CCAN_EVENT_SENT ? CCAN_STEP_FINISH : CCAN_STEP_STORE;
}

/* The end of a frame at a chip; an event whose tries were all lost is tried again. */
static inline CCAN_CODE ccan_network_private_end_chip(const ccan_network *network, uint32_t place, ccan_network_member *at)
{
    uint32_t code = ccan_finish(at->chip, &network->wire, place, at->fault, &at->ended);
    if (code != CCAN_BUSY || at->ended.refused != CCAN_STEP_EVENT)
        return code;
    for (uint32_t i = 0; i < CCAN_NETWORK_TRIES && code == CCAN_BUSY; i++)
        code = ccan_retry_event(at->chip, &at->ended);
    if (code == CCAN_DONE) {
        at->ended.refused = ccan_network_private_given_up(&at->ended);
        code = at->ended.refused == CCAN_STEP_NONE ? CCAN_DONE : CCAN_BUSY;
    }
    return code;
}

/* The end of a frame at a node. What it offers is gone if it was sent. */
static inline CCAN_CODE ccan_network_private_end_node(const ccan_network *network, uint32_t place, ccan_network_member *at)
{
    const uint32_t code = ccan_node_finish(&at->node, &network->wire, place, &at->member, &at->ended.event);
    if (code == CCAN_DONE && at->ended.event == CCAN_EVENT_SENT && at->started)
        at->offers = 0;
    return code;
}

/* Gives each of those their events who are such a part of the frame. */
static inline CCAN_CODE ccan_network_private_end(ccan_network *network, bool senders)
{
    uint32_t told = CCAN_DONE;
    for (uint32_t k = 0; k < network->places; k++) {
        ccan_network_member *at = &network->at[k];
        if ((network->wire.part[k] == CCAN_PART_SENDER) != senders)
            continue;
        memset(&at->ended, 0, sizeof at->ended);
        if (!at->takes_part)
            continue;
        at->code = at->kind == CCAN_NETWORK_CHIP ? ccan_network_private_end_chip(network, k, at)
                                                 : ccan_network_private_end_node(network, k, at);
        if (told == CCAN_DONE)
            told = at->code;
        at->was_sender = network->wire.part[k] != CCAN_PART_LISTENER;
        at->fault = CCAN_QUIET;
    }
    return told;
}

/* Notes when each chip that went bus off by the frame that has ended clears its Init by itself. */
static inline void ccan_network_private_note_off(ccan_network *network)
{
    for (uint32_t k = 0; k < network->places; k++) {
        ccan_network_member *at = &network->at[k];
        bool init = false;
        if (at->kind == CCAN_NETWORK_CHIP && at->takes_part && at->auto_bus_on != CCAN_NETWORK_NEVER
            && at->ended.event == CCAN_EVENT_ERROR && ccan_network_private_off(at->chip, &init))
            at->comes_on = network->ended + at->auto_bus_on;
    }
}

/* The end of the frame that is under way. `wire` of the network then is what was on the bus, and each member's `ended` and `code`
 * what it was to that member. Those who listen come first, so that a frame is stored before its sender's TxOk. `until` is when the
 * bus is free again: 3 bits behind the end of the frame, or of the error frame. An event that a chip's registers don't take,
 * CCAN_BUSY with CCAN_STEP_EVENT, is tried again. If none is under way, nothing is done, and `until` is when the bus is free.
 *
 * `now` counts only if the frame is broken before the end of its CRC sequence (CCAN_WIRE_BROKEN, CCAN_WIRE_COLLIDED): then the
 * error was found at this time, or at the end of that sequence if that comes first. So whoever breaks a frame calls this when it
 * breaks, and who calls it when the frame would have ended gets the longest one.
 *
 * From the start of the frame to the intermission there are, with n bits of ccan_frame_bits:
 *
 *   CCAN_WIRE_CARRIED                 n, exactly
 *   CCAN_WIRE_UNHEARD, not flagged    n + 6, exactly: 6 recessive bits behind the ACK slot, and the delimiter of 8; or n, exactly,
 *                                     if each of its senders that is still there is in loop back mode
 *   CCAN_WIRE_UNHEARD, flagged        n + 7: at most; n + 6 if the sender's error flag is the only one
 *   CCAN_WIRE_FLAGGED                 n + 8: at most; n + 7 if an error flag begins in the ACK slot or right behind it
 *   CCAN_WIRE_BROKEN, _COLLIDED       20 more than until the error: at most; an error frame has 14 to 20 bits, as the error flags
 *                                     of several members overlap
 *
 * The code is that of the first member with another one than CCAN_DONE, those who listen first; all else is done. CCAN_CLOSED: the
 * chip was closed meanwhile, and was absent. CCAN_BUSY, CCAN_SPENT: `refused` of its `ended` says which step was given up; with
 * CCAN_STEP_EVENT ccan_retry_event may still make the event. If an event was lost at first and a step at an object too, `refused`
 * is CCAN_STEP_FINISH for CCAN_EVENT_SENT and else CCAN_STEP_STORE, and the code is CCAN_BUSY. */
static inline CCAN_CODE ccan_network_finish(ccan_network *network, uint64_t now, uint64_t *until)
{
    uint32_t code, listeners, senders;
    *until = network->free;
    if (!network->under_way)
        return CCAN_DONE;
    code = ccan_network_private_decide_again(network);
    listeners = ccan_network_private_end(network, false);
    senders = ccan_network_private_end(network, true);
    network->ended = network->began
        + ccan_network_private_length(network, now > network->began ? now - network->began : 0);
    network->free = network->ended + 3;
    if (network->wire.kind == CCAN_WIRE_UNHEARD && !network->wire.flagged)
        network->group_began = network->began + network->bits - 10; /* it is recessive from its CRC delimiter on */
    else if (network->wire.kind != CCAN_WIRE_IDLE)
        network->group_began = network->ended - 8;
    network->under_way = 0;
    ccan_network_private_note_off(network);
    *until = network->free;
    return code != CCAN_DONE ? code : listeners != CCAN_DONE ? listeners : senders;
}

#ifdef __cplusplus
}
#endif
#endif
