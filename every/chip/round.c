/* The bus's handle: loads, rounds, and what the bus does to the controller. */
#include "chip.h"

/* ---- arrival and load */

static bool may_take_part(void) { return !(C.controller.control & INIT) && !is_off(&C.controller.counters); }

static void look_at_controller(void) { step_at_controller(PART_INIT | PART_COUNTERS | PART_CONTROL | PART_TEST | PART_LEFT, 0); }

/* How the controller was at the look with which a load or a round begins. */
typedef struct { bool takes_part, loops; } arrival;

static void drop_loaded(void)
{
    C.loaded = 0;
    C.held = (ccan_record){ 0 };
}

/* Where the controller comes back, the bus joins it by a change, and looks again. */
static arrival arrive(void)
{
    look_at_controller();
    if (C.controller.has_left)
        drop_loaded();
    if (may_take_part() && C.controller.has_left) {
        step_at_controller(PART_INIT, PART_LEFT);
        controller before = C.controller;
        C.controller.has_left = C.controller.control & INIT;
        changed_controller(&before);
        tell("round: the bus joins the controller, which was away");
        look_at_controller();
    }
    arrival found = { may_take_part() && !C.controller.has_left, (C.controller.control & TEST) && (C.controller.test & LBACK) };
    if (!found.takes_part) {
        drop_loaded();
        tell("round: the controller takes no part");
    }
    return found;
}

/* Starts an object, unless a host has changed it so that it is ready no more. */
static bool start_object(unsigned object)
{
    step_at_object(object, true);
    read_object(object, ALL_ROWS);
    ccan_record *record = &C.records[object - 1], before = *record;
    if (!is_ready(record)) {
        tell("round: object %u is ready no more", object);
        return false;
    }
    record->control &= (uint16_t)~NEWDAT;
    changed_object(object, &before);
    C.loaded = object;
    C.held = *record;
    frame sent = frame_of(record);
    tell("round: starts object %u, %s%s", object, text_of(&sent), flags_changed(&before, record));
    return true;
}

/* Chooses the object to send, and starts it. */
static void load(void)
{
    uint64_t ready = 0;
    step_at_objects(1 << ROW_TXRQST | 1 << ROW_MSGVAL, all_objects());
    E->event->reads[ROW_TXRQST] |= all_objects();
    E->event->reads[ROW_MSGVAL] |= all_objects();
    for (unsigned object = 0; object < C.objects; object++)
        ready |= (uint64_t)is_ready(&C.records[object]) << object;
    if (ready)
        tell("round: chooses among%s", objects_words(ready));
    while (ready && !start_object((unsigned)__builtin_ctzll(ready) + 1))
        ready &= ready - 1;
}

static ccan_frame shown_frame(const frame *of)
{
    ccan_frame made = { .id = of->id, .xtd = of->xtd, .rtr = of->rtr, .dlc = of->dlc };
    copy_bytes(made.bytes, of->bytes, 8);
    return made;
}

uint32_t ccan_load(ccan_bus *bus, ccan_loaded *out)
{
    if (!bus->ccan_private_full)
        return CCAN_CLOSED;
    arrival found = arrive();
    uint32_t had = C.loaded;
    if (found.takes_part && !had)
        load();
    ccan_loaded told = { .kind = !C.loaded ? CCAN_LOAD_NOTHING : had ? CCAN_LOAD_HELD : CCAN_LOAD_LOADED, .object = C.loaded };
    if (C.loaded) {
        frame of = frame_of(&C.held);
        told.held = C.held;
        told.frame = shown_frame(&of);
    }
    give(out, &told, sizeof told);
    return CCAN_DONE;
}

/* ---- what a frame is to the objects and to the controller */

static void finish_object(unsigned object, ccan_outcome *told)
{
    step_at_object(object, true);
    read_object(object, ALL_ROWS);
    ccan_record *record = &C.records[object - 1], before = *record;
    if (!(record->control & NEWDAT))
        record->control &= (uint16_t)~TXRQST;
    if (record->control & TXIE)
        record->control |= INTPND;
    changed_object(object, &before);
    told->object = object;
    told->finished = *record;
    tell("round: sent from object %u: %s%s", object, record_words(record), flags_changed(&before, record));
}

static bool offered(unsigned object, const frame *of, ccan_outcome *told)
{
    step_at_object(object, true);
    ccan_record *record = &C.records[object - 1], before = *record;
    if (!accepts(record, of)) {
        read_object(object, 1 << ROW_NEWDAT | 1 << ROW_MSGVAL | 1 << ROW_REST);
        return false;
    }
    read_object(object, ALL_ROWS);
    *record = stored(&before, of);
    changed_object(object, &before);
    told->stored = object;
    told->stored_record = *record;
    tell("round: stored in object %u: %s%s", object, record_words(record), flags_changed(&before, record));
    return true;
}

static void store_frame(const frame *of, ccan_outcome *told)
{
    for (unsigned object = 1; object <= C.objects; object++)
        if (offered(object, of, told))
            return;
    tell("round: no object takes %s", text_of(of));
}

/* The round's event. `done`: TxOk 1, RxOk 2; 0 where it is a fault, which leaves these two. */
static void make_event(enum counted what, uint8_t code, uint8_t done)
{
    step_at_controller(PART_ENABLES, PART_COUNTERS | PART_FLAGS | PART_PENDING | PART_INIT | PART_LEFT);
    controller *of = &C.controller, before = *of;
    count(&of->counters, what);
    of->flags = (uint8_t)((of->flags & 0x18) | done << 3 | code);
    of->pending |= 1;
    of->pending |= levels_of(&before.counters) != levels_of(&of->counters) ? 2 : 0;
    if (!is_off(&before.counters) && is_off(&of->counters)) {
        of->control |= INIT;
        of->has_left = true;
    }
    changed_controller(&before);
    tell("round: the event at the controller: LEC %u %s%s%s, TEC %u, REC %u%s", code, code_words(code), done & 1 ? ", TxOk" : "",
        done & 2 ? ", RxOk" : "", of->counters.tec, of->counters.rec, is_off(&of->counters) ? ", bus off" : "");
}

/* ---- rounds */

/* A round as it is played. Node 0 is the controller. */
typedef struct {
    frame frames[9];
    uint32_t contending, on, winners;   /* sets of nodes */
    uint32_t fault;
} contest;

static uint32_t refusal(const ccan_offer *offers, size_t count, uint32_t fault)
{
    uint32_t senders = 0;
    if (count > 8)
        return CCAN_FRAMES_RANGE;
    for (size_t i = 0; i < count; i++)
        if (offers[i].id > (offers[i].xtd ? (uint32_t)IDENTIFIER : 0x7ff) || offers[i].dlc > 15)
            return CCAN_FRAME_RANGE;
    if (fault > CCAN_CRC)
        return CCAN_FAULT_RANGE;
    for (size_t i = 0; i < count; i++) {
        if (offers[i].node < 1 || offers[i].node > C.others || senders >> offers[i].node & 1)
            return CCAN_SENDERS;
        senders |= 1u << offers[i].node;
    }
    return CCAN_DONE;
}

static uint32_t winners_of(const contest *of)
{
    uint32_t least = ~0u, winners = 0;
    for (unsigned node = 0; node < 9; node++) {
        uint32_t key = arbitration_key(&of->frames[node]);
        if (!(of->contending >> node & 1) || key > least)
            continue;
        winners = key < least ? 1u << node : winners | 1u << node;
        least = key;
    }
    return winners;
}

static void play_loop_back(ccan_outcome *told)
{
    unsigned object = C.loaded;
    frame own = frame_of(&C.held);
    if (!object)
        return;
    drop_loaded();
    told->kind = CCAN_LOOPED;
    told->winner = 0;
    told->frame = shown_frame(&own);
    finish_object(object, told);
    store_frame(&own, told);
    make_event(COUNT_SENT, 0, 3);
}

/* Who contends: the controller's frame that is loaded, and those of the other nodes that are on. */
static contest begin_contest(const ccan_offer *offers, size_t count, uint32_t fault, bool takes_part)
{
    contest of = { .fault = fault, .on = takes_part };
    for (unsigned node = 1; node <= C.others; node++)
        of.on |= (uint32_t)!is_off(&C.nodes[node]) << node;
    if (C.loaded) {
        of.frames[0] = frame_of(&C.held);
        of.contending = 1;
    }
    for (size_t i = 0; i < count; i++) {
        of.frames[offers[i].node] = frame_of_offer(&offers[i]);
        of.contending |= of.on & 1u << offers[i].node;
    }
    of.winners = winners_of(&of);
    return of;
}

/* What came of the frame: the kind of the round, what it is to who sent and to the others, and the last error code. */
typedef struct { uint32_t kind; enum counted sender, other; uint8_t code; } verdict;

static verdict judge(const contest *of)
{
    static const uint8_t codes[] = { 0, 1, 2, 4, 5, 6 };
    bool own = of->winners & 1;
    if (__builtin_popcount(of->winners) > 1)
        return (verdict){ CCAN_COLLISION, COUNT_SEND_FAULT, COUNT_RECEIVE_FAULT, own ? 4 : 1 };
    if (of->fault)
        return (verdict){ CCAN_FAULT, COUNT_SEND_FAULT, COUNT_RECEIVE_FAULT, codes[of->fault] };
    if (of->on == of->winners)
        return (verdict){ CCAN_NO_ACK, COUNT_NO_ACK, COUNT_RECEIVE_FAULT, 3 };
    return (verdict){ own ? CCAN_SENT : of->on & 1 ? CCAN_RECEIVED : CCAN_PASSED, COUNT_SENT, COUNT_RECEIVED, 0 };
}

static void tell_verdict(const contest *of, const verdict *came, const frame *won)
{
    static const char *const words[] = {
        [CCAN_IDLE] = "", [CCAN_SENT] = "", [CCAN_RECEIVED] = "", [CCAN_PASSED] = ", which the controller doesn't hear",
        [CCAN_COLLISION] = ", by two nodes", [CCAN_NO_ACK] = ", not acknowledged", [CCAN_FAULT] = ", spoiled" };
    tell("round: %s is on the bus, from %s%s", text_of(won), of->winners & 1 ? "the chip" : "another node", words[came->kind]);
}

static void play_contest(const contest *of, ccan_outcome *told)
{
    bool own = of->winners & 1;
    unsigned object = C.loaded;
    const frame *won = &of->frames[__builtin_ctz(of->winners)];
    verdict came = judge(of);
    drop_loaded();
    told->kind = came.kind;
    if (came.kind != CCAN_COLLISION) {
        told->winner = (uint32_t)__builtin_ctz(of->winners);
        told->frame = shown_frame(won);
    }
    tell_verdict(of, &came, won);
    for (unsigned node = 1; node <= C.others; node++)
        if (of->on >> node & 1)
            count(&C.nodes[node], of->winners >> node & 1 ? came.sender : came.other);
    if (came.kind == CCAN_SENT)
        finish_object(object, told);
    if (came.kind == CCAN_RECEIVED)
        store_frame(won, told);
    if (of->on & 1)
        make_event(own ? came.sender : came.other, came.code, came.code ? 0 : own ? 1 : 2);
}

uint32_t ccan_round(ccan_bus *bus, const ccan_offer *offers, size_t count, uint32_t fault, ccan_outcome *out)
{
    if (!bus->ccan_private_full)
        return CCAN_CLOSED;
    uint32_t code = refusal(offers, count, fault);
    if (code != CCAN_DONE)
        return code;
    ccan_outcome told = { .kind = CCAN_IDLE, .winner = CCAN_NO_NODE };
    arrival found = arrive();
    if (found.takes_part && !C.loaded) {
        load();
        told.loaded = C.loaded;
    }
    contest of = begin_contest(offers, count, fault, found.takes_part);
    if (found.takes_part && found.loops)
        play_loop_back(&told);
    else if (of.winners)
        play_contest(&of, &told);
    give(out, &told, sizeof told);
    return CCAN_DONE;
}

/* ---- the controller, by the bus */

uint32_t ccan_status(ccan_bus *bus, uint16_t *out)
{
    if (!bus->ccan_private_full)
        return CCAN_CLOSED;
    uint16_t value = read_status();
    give(out, &value, sizeof value);
    return CCAN_DONE;
}

uint32_t ccan_counters(ccan_bus *bus, uint32_t node, ccan_counts *out)
{
    if (!bus->ccan_private_full)
        return CCAN_CLOSED;
    if (node > C.others)
        return CCAN_NODE_RANGE;
    if (!node)
        step_at_controller(PART_COUNTERS, 0);
    const counters *of = node ? &C.nodes[node] : &C.controller.counters;
    ccan_counts counts = { of->tec, of->rec, state_of(of) };
    tell("looks at the error counters of node %u: TEC %u, REC %u", (unsigned)node, of->tec, of->rec);
    give(out, &counts, sizeof counts);
    return CCAN_DONE;
}

/* Changes bits of Control in one step. */
static void change_control(uint64_t parts, uint16_t bits, uint16_t to)
{
    step_at_controller(0, parts);
    controller before = C.controller;
    set_control((uint16_t)((C.controller.control & ~bits) | to));
    changed_controller(&before);
    tell("changes %s", controller_words(CONTROL, C.controller.control));
}

uint32_t ccan_control(ccan_bus *bus, uint32_t sie, uint32_t eie)
{
    if (!bus->ccan_private_full)
        return CCAN_CLOSED;
    change_control(PART_ENABLES, SIE | EIE, (uint16_t)((sie ? SIE : 0) | (eie ? EIE : 0)));
    return CCAN_DONE;
}

uint32_t ccan_init(ccan_bus *bus)
{
    if (!bus->ccan_private_full)
        return CCAN_CLOSED;
    change_control(PART_INIT | PART_COUNTERS | PART_LEFT, INIT, 0);
    return CCAN_DONE;
}

uint32_t ccan_recessive(ccan_bus *bus, uint32_t groups, uint32_t *out)
{
    if (!bus->ccan_private_full)
        return CCAN_CLOSED;
    if (groups < 1 || groups > 10000)
        return CCAN_GROUPS_RANGE;
    step_at_controller(0, PART_COUNTERS | PART_FLAGS | PART_PENDING);
    controller *of = &C.controller, before = *of;
    if (is_off(&of->counters) && of->counters.init_cleared)
        of->flags = (uint8_t)((of->flags & 0x18) | 5);
    let_groups_pass(&of->counters, groups, true);
    for (unsigned node = 1; node <= C.others; node++)
        let_groups_pass(&C.nodes[node], groups, false);
    of->pending |= levels_of(&before.counters) != levels_of(&of->counters) ? 2 : 0;
    changed_controller(&before);
    uint32_t state = state_of(&of->counters);
    tell("%u groups of recessive bits pass", (unsigned)groups);
    give(out, &state, sizeof state);
    return CCAN_DONE;
}

/* Local power down: whether the controller is in it, or enters it since PDR is 1 and nothing is to be sent. */
static bool enters_power_down(void)
{
    step_at_controller(PART_INIT | PART_POWER, 0);
    tell("looks at PDR %u and Init %u", C.controller.pdr, C.controller.control & INIT);
    if (!C.controller.pdr || (C.controller.control & INIT))
        return is_powered_down();
    if (flags_now(CCAN_TXRQST, all_objects()))
        return false;
    step_at_controller(PART_POWER, PART_INIT | PART_LEFT);
    controller before = C.controller;
    if (C.controller.pdr)
        set_control(C.controller.control | INIT);
    changed_controller(&before);
    tell("local power down: PDR is %u, and Init %u", C.controller.pdr, C.controller.control & INIT);
    return is_powered_down();
}

uint32_t ccan_power_down(ccan_bus *bus, uint32_t *out)
{
    if (!bus->ccan_private_full)
        return CCAN_CLOSED;
    uint32_t is_down = enters_power_down();
    give(out, &is_down, sizeof is_down);
    return CCAN_DONE;
}

uint32_t ccan_loop_back(ccan_bus *bus, uint32_t on)
{
    if (!bus->ccan_private_full)
        return CCAN_CLOSED;
    change_control(PART_CONTROL, TEST, on ? TEST : 0);
    if (on) {
        step_at_controller(PART_CONTROL, PART_TEST);
        controller before = C.controller;
        if (C.controller.control & TEST)
            C.controller.test = LBACK;
        changed_controller(&before);
        tell("sets LBack of Test");
    }
    return CCAN_DONE;
}

uint32_t ccan_bus_interrupt(ccan_bus *bus, uint16_t *out)
{
    if (!bus->ccan_private_full)
        return CCAN_CLOSED;
    uint16_t value = read_interrupt();
    give(out, &value, sizeof value);
    return CCAN_DONE;
}

uint32_t ccan_bus_flags(ccan_bus *bus, uint32_t flag, uint64_t *out)
{
    if (!bus->ccan_private_full)
        return CCAN_CLOSED;
    if (flag > CCAN_MSGVAL)
        return CCAN_FLAG_RANGE;
    uint64_t word = flags_now(flag, all_objects());
    give(out, &word, sizeof word);
    return CCAN_DONE;
}
