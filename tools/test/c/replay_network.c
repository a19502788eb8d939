/* Plays the frames of a bus of several members that it reads, one step a line, in one thread, and prints what comes of each: over
 * ccan_network.h with its clock, or over the calls of ccan.h that begin, decide and end a frame. tools/test/check_networks writes
 * the steps. The first line says whether there is a clock; one for each member follows, and then "play". */
#include "replay_calls.h"
#include <ccan_network.h>

enum { MOST = 8, TRIES = 100 };

static ccan_chip chips[MOST];
static unsigned sizes[MOST], layouts[MOST], members;
static bool is_chip[MOST], timed;

/* ---- what is printed */

static void show_frame(const ccan_frame *frame, bool is_there)
{
    if (!is_there) {
        printf("-");
        return;
    }
    printf("%x,%u,%u,%u,", (unsigned)frame->id, frame->xtd, frame->rtr, frame->dlc);
    for (int at = 0; at < 8; at++)
        printf("%02x", frame->bytes[at]);
}

static void show_wire(const ccan_wire *wire)
{
    printf("net wire %u %u ", (unsigned)wire->kind, (unsigned)wire->flagged);
    show_frame(&wire->frame, wire->kind != CCAN_WIRE_IDLE && wire->kind != CCAN_WIRE_COLLIDED);
    printf(" ");
    for (unsigned k = 0; k < members; k++)
        printf("%u", wire->part[k]);
    printf("\n");
}

static void show_member(unsigned k, const ccan_member *member)
{
    printf("%u member %u ", k, (unsigned)member->role);
    show_frame(&member->frame, member->sends && member->role != CCAN_ROLE_ABSENT);
    printf("\n");
}

static void show_bytes(const ccan_record *record)
{
    printf(" %08x %08x %04x ", (unsigned)record->arbitration, (unsigned)record->masks, (unsigned)record->control);
    for (int at = 0; at < 8; at++)
        printf("%02x", record->bytes[at]);
}

/* The counters of a chip and what it is; of a node the groups that count on its way back. */
static void show_counters(unsigned k, const ccan_node *node)
{
    ccan_counts counts;
    if (!is_chip[k]) {
        printf("counters %u %u %u\n", (unsigned)node->tec, (unsigned)node->rec, (unsigned)node->groups);
        return;
    }
    need(ccan_counters(&chips[k].bus, 0, &counts), "ccan_counters");
    printf("counters %u %u %u\n", (unsigned)counts.tec, (unsigned)counts.rec, (unsigned)counts.state);
}

static void show_ended(unsigned k, const ccan_finished *ended, const ccan_node *node)
{
    printf("%u ended %u ", k, (unsigned)ended->event);
    if (is_chip[k]) {
        if (ended->refused != CCAN_STEP_NONE)
            printf("refused ");
        printf("%u %u %u", (unsigned)ended->code, (unsigned)ended->counts, (unsigned)ended->object);
        show_bytes(&ended->finished);
        printf(" %u", (unsigned)ended->stored);
        show_bytes(&ended->stored_record);
        printf(" ");
    }
    show_counters(k, node);
}

/* ---- over ccan_network.h */

static ccan_network network;
static uint64_t now;

static void timed_start(void)
{
    uint64_t until;
    need(ccan_network_start(&network, now, &until), "ccan_network_start");
    while (!network.under_way && until != CCAN_NETWORK_NEVER) {
        now = until;
        need(ccan_network_start(&network, now, &until), "ccan_network_start");
    }
    if (!network.under_way) {
        printf("net never\n");
        return;
    }
    for (unsigned k = 0; k < members; k++)
        show_member(k, &network.at[k].member);
    show_wire(&network.wire);
    printf("net begins %llu %u %llu\n", (unsigned long long)network.began, (unsigned)network.bits, (unsigned long long)until);
}

/* The end of a frame so many bits after its start, or when it is over. */
static void timed_finish(uint64_t after)
{
    uint64_t until;
    now = network.began + after < network.ended ? network.began + after : network.ended;
    need(ccan_network_finish(&network, now, &until), "ccan_network_finish");
    for (unsigned k = 0; k < members; k++)
        show_ended(k, &network.at[k].ended, &network.at[k].node);
    show_wire(&network.wire);
    printf("net ends %llu %llu\n", (unsigned long long)network.ended, (unsigned long long)until);
    now = network.ended;
}

/* ---- over the calls of ccan.h */

static ccan_node nodes[MOST];
static ccan_member asked[MOST];
static ccan_frame offered[MOST];
static bool offers[MOST], started[MOST]; /* a node has a frame to send; and that is the one which it started */
static uint32_t faults_found[MOST];
static ccan_wire wire;
static bool under_way;

static void plain_start(void)
{
    for (unsigned k = 0; k < members; k++) {
        if (is_chip[k])
            need(ccan_begin(&chips[k].bus, &asked[k]), "ccan_begin");
        else
            need(ccan_node_begin(&nodes[k], offers[k], &offered[k], &asked[k]), "ccan_node_begin");
        started[k] = !is_chip[k] && asked[k].sends;
        show_member(k, &asked[k]);
    }
    need(ccan_decide(asked, members, &wire), "ccan_decide");
    show_wire(&wire);
    under_way = true;
}

static void plain_finish(void)
{
    const ccan_wire start = wire;
    for (unsigned k = 0; k < members; k++) {
        if (is_chip[k])
            need(ccan_stay(&chips[k].bus, &asked[k]), "ccan_stay");
        asked[k].fault = faults_found[k];
    }
    need(ccan_decide_again(&start, asked, members, &wire), "ccan_decide_again");
    for (unsigned k = 0; k < members; k++) {
        ccan_finished ended = { 0 };
        if (is_chip[k]) {
            need(ccan_finish(&chips[k].bus, &wire, k, faults_found[k], &ended), "ccan_finish");
        } else {
            need(ccan_node_finish(&nodes[k], &wire, k, &asked[k], &ended.event), "ccan_node_finish");
            if (ended.event == CCAN_EVENT_SENT && started[k])
                offers[k] = false;
        }
        show_ended(k, &ended, &nodes[k]);
        faults_found[k] = CCAN_QUIET;
    }
    show_wire(&wire);
    under_way = false;
}

static void plain_groups(uint32_t groups)
{
    uint32_t state;
    for (unsigned k = 0; k < members && groups; k++) {
        if (is_chip[k])
            need(ccan_recessive(&chips[k].bus, groups, &state), "ccan_recessive");
        else
            need(ccan_node_recessive(&nodes[k], groups), "ccan_node_recessive");
    }
}

/* ---- the steps. Each chip's ports meet before one, since all is done in one thread. */

static void meet(void)
{
    for (unsigned k = 0; k < members; k++)
        if (is_chip[k])
            need(ccan_meet(&chips[k]), "ccan_meet");
}

static ccan_frame frame_next(void)
{
    ccan_frame frame = { 0 };
    frame.id = (uint32_t)next_number(10);
    frame.xtd = (uint8_t)next_number(10);
    frame.rtr = (uint8_t)next_number(10);
    frame.dlc = (uint8_t)next_number(10);
    for (int byte = 0; byte < 8; byte++)
        frame.bytes[byte] = (uint8_t)next_number(16);
    return frame;
}

static void offer(unsigned k)
{
    const ccan_frame frame = frame_next();
    if (timed)
        need(ccan_network_offer(&network, k, &frame), "ccan_network_offer");
    offered[k] = frame;
    offers[k] = true;
    started[k] = false;
}

static void withdraw(unsigned k)
{
    if (timed)
        need(ccan_network_withdraw(&network, k), "ccan_network_withdraw");
    offers[k] = false;
}

static void fault(unsigned k)
{
    const uint32_t found = number_in(faults, 6, next());
    if (timed)
        need(ccan_network_fault(&network, k, found), "ccan_network_fault");
    faults_found[k] = found;
}

static void power_down(unsigned k)
{
    uint32_t is_down;
    if (timed ? network.under_way : under_way)
        return;
    need(ccan_power_down(&chips[k].bus, &is_down), "ccan_power_down");
    printf("%u powerdown %u\n", k, (unsigned)is_down);
}

static void wait_for(unsigned bits)
{
    if (timed && !network.under_way) {
        now += bits;
        need(ccan_network_pass(&network, now), "ccan_network_pass");
    } else if (!timed && !under_way) {
        plain_groups(bits / 11);
    }
}

static void step(const char *name)
{
    if (!strcmp(name, "start") && timed) {
        if (!network.under_way)
            timed_start();
    } else if (!strcmp(name, "start")) {
        if (!under_way)
            plain_start();
    } else if (!strcmp(name, "finish") && timed) {
        if (network.under_way)
            timed_finish(next_number(10));
    } else if (!strcmp(name, "finish")) {
        if (under_way)
            plain_finish();
    } else if (!strcmp(name, "wait")) {
        wait_for((unsigned)next_number(10));
    } else {
        const unsigned k = (unsigned)next_number(10);
        if (!strcmp(name, "offer"))
            offer(k);
        else if (!strcmp(name, "withdraw"))
            withdraw(k);
        else if (!strcmp(name, "fault"))
            fault(k);
        else if (!strcmp(name, "powerdown"))
            power_down(k);
    }
}

/* A call on a chip, by one of its hosts or by the bus. Groups of recessive bits that are over before it count first. */
static void call_of(unsigned k)
{
    const char *port = next(), *call = next();
    ccan_host *host = !strcmp(port, "if1") ? &chips[k].if1 : !strcmp(port, "if2") ? &chips[k].if2 : NULL;
    chip = &chips[k];
    objects = sizes[k];
    layout = layouts[k];
    if (timed)
        need(ccan_network_pass(&network, now), "ccan_network_pass");
    if (!strncmp(call, "set", 3)) {
        host_call(port, host, call);
        return;
    }
    printf("%u ", k);
    if (host)
        host_call(port, host, call);
    else if (!is_register_call(port, NULL, call))
        need(CCAN_REGISTER_RANGE, call);
}

/* ---- the whole */

static void add_member(const char *kind, unsigned profile, unsigned own_layout, bool reset)
{
    uint32_t place;
    const unsigned k = members++;
    is_chip[k] = !strcmp(kind, "chip");
    if (!is_chip[k]) {
        need(ccan_network_add_node(&network, &place), "ccan_network_add_node");
        return;
    }
    ccan_chip_init(&chips[k]);
    sizes[k] = profile == 2 ? 64 : 32;
    layouts[k] = own_layout;
    if (reset)
        need(ccan_open_reset(&chips[k], profile, 0, TRIES, own_layout), "ccan_open_reset");
    else
        need(ccan_open(&chips[k], profile, 0, TRIES), "ccan_open");
    need(ccan_network_add_chip(&network, &chips[k].bus, &place), "ccan_network_add_chip");
}

static void end_all(void)
{
    static ccan_final final;
    static const ccan_record zero;
    for (unsigned k = 0; k < members; k++) {
        if (!is_chip[k])
            continue;
        need(ccan_end(&chips[k], &final), "ccan_end");
        for (uint32_t at = 0; at < final.objects; at++) {
            if (memcmp(&final.records[at], &zero, sizeof zero)) {
                printf("%u ", k);
                show_record("final", at + 1, &final.records[at]);
            }
        }
    }
}

int main(void)
{
    static char line[2048];
    char kind[8];
    unsigned clock, profile, own_layout, reset;
    if (!fgets(line, sizeof line, stdin) || sscanf(line, "network %u", &clock) != 1)
        return 2;
    timed = clock != 0;
    ccan_network_init(&network, 0);
    while (fgets(line, sizeof line, stdin) && sscanf(line, "%7s %u %u %u", kind, &profile, &own_layout, &reset) == 4)
        if (members < MOST)
            add_member(kind, profile, own_layout, reset != 0);
    while (fgets(line, sizeof line, stdin)) {
        const char *first = strtok(line, " \n");
        meet();
        if (!strcmp(first, "net"))
            step(next());
        else
            call_of((unsigned)strtoul(first, NULL, 10));
    }
    end_all();
    return 0;
}
