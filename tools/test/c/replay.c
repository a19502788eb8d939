/* Makes the calls that it reads, one a line, on a chip of the library, in one thread, and prints of each what `ccan` prints of
 * the line of a script that it stands for, or of a register what came of it. tools/test/check_library writes the calls. The first
 * line has profile, nodes and tries, and where the chip opens as after a reset the layout. */
#include "replay_calls.h"

static void load(void)
{
    ccan_loaded loaded;
    need(ccan_load(&chip->bus, &loaded), "ccan_load");
    if (loaded.kind == CCAN_LOAD_LOADED)
        show_record("bus loaded", loaded.object, &loaded.held);
    else if (loaded.kind == CCAN_LOAD_HELD)
        printf("bus held %02u\n", (unsigned)loaded.object);
    else
        printf("bus loaded none\n");
}

static void play(void)
{
    static const char *const kinds[] = { "idle", "sent", "received", "passed", "collision", "ack", "fault", "looped" };
    uint32_t fault = number_in(faults, 6, next());
    size_t count = next_number(10);
    ccan_offer offers[8] = { { 0 } };
    for (size_t at = 0; at < count; at++) {
        offers[at].node = (uint8_t)next_number(10);
        offers[at].id = (uint32_t)next_number(10);
        offers[at].xtd = (uint8_t)next_number(10);
        offers[at].rtr = (uint8_t)next_number(10);
        offers[at].dlc = (uint8_t)next_number(10);
        for (int byte = 0; byte < 8; byte++)
            offers[at].bytes[byte] = (uint8_t)next_number(16);
    }
    ccan_outcome out;
    need(ccan_round(&chip->bus, offers, count, fault, &out), "ccan_round");
    if (out.kind == CCAN_SENT)
        show_record("bus sent", out.object, &out.finished);
    else if (out.kind == CCAN_RECEIVED && out.stored)
        show_record("bus received", out.stored, &out.stored_record);
    else if (out.kind == CCAN_RECEIVED)
        printf("bus received none\n");
    else if (out.kind == CCAN_LOOPED && out.stored) {
        printf("bus looped %02u", (unsigned)out.object);
        show_record("", out.stored, &out.stored_record);
    } else if (out.kind == CCAN_LOOPED)
        printf("bus looped %02u none\n", (unsigned)out.object);
    else
        printf("bus %s\n", kinds[out.kind]);
}

static void bus_call(const char *call)
{
    uint16_t word;
    if (is_register_call("bus", NULL, call)) {
        return;
    } else if (!strcmp(call, "load")) {
        load();
    } else if (!strcmp(call, "round")) {
        play();
    } else if (!strcmp(call, "status")) {
        need(ccan_status(&chip->bus, &word), "ccan_status");
        printf("bus status %04x\n", (unsigned)word);
    } else if (!strcmp(call, "control")) {
        uint32_t sie = (uint32_t)next_number(10), eie = (uint32_t)next_number(10);
        need(ccan_control(&chip->bus, sie, eie), "ccan_control");
        printf("bus control %u %u\n", (unsigned)sie, (unsigned)eie);
    } else if (!strcmp(call, "interrupt")) {
        need(ccan_bus_interrupt(&chip->bus, &word), "ccan_bus_interrupt");
        printf("bus interrupt %04x\n", (unsigned)word);
    } else if (!strcmp(call, "flags")) {
        uint32_t flag = flag_next();
        uint64_t shown;
        need(ccan_bus_flags(&chip->bus, flag, &shown), "ccan_bus_flags");
        show_flags("bus", flag, shown);
    } else if (!strcmp(call, "counters")) {
        uint32_t node = (uint32_t)next_number(10);
        ccan_counts counts;
        need(ccan_counters(&chip->bus, node, &counts), "ccan_counters");
        printf("bus counters %u %u %u %s\n", (unsigned)node, (unsigned)counts.tec, (unsigned)counts.rec, states[counts.state]);
    } else if (!strcmp(call, "init")) {
        need(ccan_init(&chip->bus), "ccan_init");
        printf("bus init\n");
    } else if (!strcmp(call, "recessive")) {
        uint32_t state;
        need(ccan_recessive(&chip->bus, (uint32_t)next_number(10), &state), "ccan_recessive");
        printf("bus recessive %s\n", states[state]);
    } else if (!strcmp(call, "powerdown")) {
        uint32_t is_down;
        need(ccan_power_down(&chip->bus, &is_down), "ccan_power_down");
        printf("bus powerdown %u\n", (unsigned)is_down);
    } else {
        uint32_t on = (uint32_t)next_number(10);
        need(ccan_loop_back(&chip->bus, on), "ccan_loop_back");
        printf("bus loopback %u\n", (unsigned)on);
    }
}

int main(void)
{
    static char line[2048];
    static ccan_final final;
    static ccan_chip only = CCAN_CHIP_CLOSED;
    unsigned profile, nodes, tries;
    int given = fgets(line, sizeof line, stdin) ? sscanf(line, "%u %u %u %u", &profile, &nodes, &tries, &layout) : 0;
    if (given < 3)
        return 2;
    chip = &only;
    objects = profile == 2 ? 64 : 32;
    if (given == 4)
        need(ccan_open_reset(chip, profile, nodes, tries, layout), "ccan_open_reset");
    else
        need(ccan_open(chip, profile, nodes, tries), "ccan_open");
    while (fgets(line, sizeof line, stdin)) {
        const char *port = strtok(line, " \n"), *call = next();
        if (!strcmp(port, "bus"))
            bus_call(call);
        else
            host_call(port, !strcmp(port, "if1") ? &chip->if1 : &chip->if2, call);
    }
    need(ccan_end(chip, &final), "ccan_end");
    for (uint32_t at = 0; at < final.objects; at++) {
        static const ccan_record zero;
        if (memcmp(&final.records[at], &zero, sizeof zero))
            show_record("final", at + 1, &final.records[at]);
    }
    return 0;
}
