/*
 * The chips of libccan on one can-bus: see ccan_net.h.
 *
 * The network counts time in bits. A bit is as long as the registers of the
 * first chip say that takes part; whether the others' say the same is not
 * looked at.
 */
#include "qemu/osdep.h"
#include "qemu/error-report.h"
#include "qemu/host-utils.h"
#include "qemu/timer.h"
#include "qapi/error.h"
#include "qom/object.h"
#include "ccan_net.h"
#include "ccan_peers.h"
#include "hw/vmstate-if.h"
#include "migration/vmstate.h"

#define TYPE_CCAN_NET "ccan-net"
OBJECT_DECLARE_SIMPLE_TYPE(CcanNet, CCAN_NET)

enum {
    INIT = 1,                                   /* in Control */
    AT_BIT_TIMING = 2 * CCAN_OFFSET_BIT_TIMING, /* CCAN_LAYOUT_C_CAN_32 */
    AT_BRP_EXTENSION = 2 * CCAN_OFFSET_BRP_EXTENSION,
    CHIPS = CCAN_NETWORK_MEMBERS - 2            /* the peers have two places */
};

struct CcanNet {
    Object parent;
    ccan_network network;
    QTAILQ_HEAD(, CcanChip) chips;
    uint32_t chip_count;
    CcanPeers peers;
    QEMUTimer *timer;
    /* The bit `base_bit` began at `base_ns`; a bit has `periods` of `clock`. */
    uint64_t base_bit;
    int64_t base_ns;
    uint32_t periods;
    uint32_t clock;
    uint64_t free; /* of a saved network: from then on a frame may begin */
};

void ccan_net_check(uint32_t code, const char *call)
{
    if (code != CCAN_DONE) {
        error_report_once("%s: %s", call, ccan_text(code));
    }
}

/* ---- time */

static uint64_t ccan_net_now(const CcanNet *net)
{
    int64_t passed = qemu_clock_get_ns(QEMU_CLOCK_VIRTUAL) - net->base_ns;

    if (passed < 0) {
        return net->base_bit;
    }
    passed = muldiv64(passed, net->clock, NANOSECONDS_PER_SECOND);
    return net->base_bit + passed / net->periods;
}

static int64_t ccan_net_ns(const CcanNet *net, uint64_t bit)
{
    uint64_t bits = bit > net->base_bit ? bit - net->base_bit : 0;

    return net->base_ns + muldiv64_round_up(bits * net->periods,
                                            NANOSECONDS_PER_SECOND, net->clock);
}

static void ccan_net_set_bit_time(CcanNet *net, uint32_t periods,
                                  uint32_t clock)
{
    uint64_t now = ccan_net_now(net);

    if (periods != net->periods || clock != net->clock) {
        net->base_ns = qemu_clock_get_ns(QEMU_CLOCK_VIRTUAL);
        net->base_bit = now;
        net->periods = periods;
        net->clock = clock;
    }
}

static uint16_t ccan_net_register(CcanChip *chip, uint32_t offset)
{
    uint16_t value = 0;

    ccan_net_check(ccan_bus_read16(&chip->chip.bus, offset, &value),
                   "ccan_bus_read16");
    return value;
}

static void ccan_net_find_bit_time(CcanNet *net)
{
    CcanChip *chip;

    QTAILQ_FOREACH(chip, &net->chips, next) {
        if (!(ccan_net_register(chip, CCAN_OFFSET_CONTROL) & INIT)) {
            uint16_t timing = ccan_net_register(chip, AT_BIT_TIMING);
            uint16_t extension = ccan_net_register(chip, AT_BRP_EXTENSION);

            ccan_net_set_bit_time(net, ccan_bit_time(timing, extension),
                                  chip->clock);
            return;
        }
    }
}

/* ---- frames */

static void ccan_net_meet(CcanNet *net)
{
    CcanChip *chip;

    QTAILQ_FOREACH(chip, &net->chips, next) {
        ccan_net_check(ccan_meet(&chip->chip), "ccan_meet");
    }
}

static void ccan_net_update(CcanNet *net)
{
    CcanChip *chip;

    QTAILQ_FOREACH(chip, &net->chips, next) {
        chip->update(chip);
    }
}

static bool ccan_net_sends(const CcanNet *net, const CcanChip *chip)
{
    return net->network.under_way
           && net->network.wire.part[chip->place] == CCAN_PART_SENDER;
}

/* Whether this chip sends the frame under way to its end. */
static bool ccan_net_goes_on(const CcanNet *net, CcanChip *chip)
{
    ccan_member member;

    return ccan_net_sends(net, chip)
           && net->network.at[chip->place].fault == CCAN_QUIET
           && ccan_stay(&chip->chip.bus, &member) == CCAN_DONE
           && member.role != CCAN_ROLE_ABSENT;
}

/* Whether the frame under way is a chip's, and nothing breaks it. */
static bool ccan_net_chip_goes_on(const CcanNet *net)
{
    CcanChip *chip;

    if (net->network.wire.kind != CCAN_WIRE_CARRIED) {
        return false;
    }
    QTAILQ_FOREACH(chip, &net->chips, next) {
        if (ccan_net_goes_on(net, chip)) {
            return true;
        }
    }
    return false;
}

static void ccan_net_spoil(CcanNet *net)
{
    CcanChip *chip;

    QTAILQ_FOREACH(chip, &net->chips, next) {
        if (chip->fault_frames && ccan_net_sends(net, chip)) {
            chip->fault_frames--;
            ccan_net_check(ccan_network_fault(&net->network, chip->place,
                                              chip->fault),
                           "ccan_network_fault");
        }
    }
}

static void ccan_net_finish(CcanNet *net, uint64_t now)
{
    uint64_t until;

    if (ccan_net_chip_goes_on(net)) {
        ccan_peers_hand_out(&net->peers, &net->network);
    }
    ccan_net_check(ccan_network_finish(&net->network, now, &until),
                   "ccan_network_finish");
    ccan_peers_leave(&net->peers, &net->network);
}

/* Begins a frame if it can, and says when there is something to do again. */
static uint64_t ccan_net_start(CcanNet *net)
{
    uint64_t until;

    ccan_net_find_bit_time(net);
    ccan_peers_join(&net->peers, &net->network);
    ccan_net_check(ccan_network_start(&net->network, ccan_net_now(net), &until),
                   "ccan_network_start");
    if (!net->network.under_way) {
        ccan_peers_leave(&net->peers, &net->network);
    }
    ccan_net_spoil(net);
    return until;
}

static void ccan_net_run(void *opaque)
{
    CcanNet *net = opaque;
    uint64_t now = ccan_net_now(net);
    uint64_t until = net->network.ended;

    ccan_net_meet(net);
    if (net->network.under_way && now >= net->network.ended) {
        ccan_net_finish(net, now);
        ccan_net_meet(net);
    }
    if (!net->network.under_way) {
        until = ccan_net_start(net);
    }
    if (until == CCAN_NETWORK_NEVER) {
        timer_del(net->timer);
    } else {
        timer_mod(net->timer, ccan_net_ns(net, until));
    }
    ccan_net_update(net);
}

void ccan_net_kick(CcanNet *net)
{
    if (!net->network.under_way) {
        ccan_net_run(net);
    }
}

static void ccan_net_arrived(void *opaque)
{
    ccan_net_kick(opaque);
}

void ccan_net_pass(CcanNet *net)
{
    ccan_net_meet(net);
    ccan_net_check(ccan_network_pass(&net->network, ccan_net_now(net)),
                   "ccan_network_pass");
    ccan_net_update(net);
}

/* ---- who is there */

bool ccan_net_join(CcanNet *net, CcanChip *chip, Error **errp)
{
    uint32_t code = CCAN_MEMBERS_RANGE;

    if (net->chip_count < CHIPS) {
        code = ccan_network_add_chip(&net->network, &chip->chip.bus,
                                     &chip->place);
    }
    if (code != CCAN_DONE) {
        error_setg(errp, "a can-bus takes %d C_CANs: %s", CHIPS,
                   ccan_text(code));
        return false;
    }
    QTAILQ_INSERT_TAIL(&net->chips, chip, next);
    net->chip_count++;
    return true;
}

void ccan_net_leave(CcanNet *net, CcanChip *chip)
{
    ccan_net_check(ccan_network_remove(&net->network, chip->place),
                   "ccan_network_remove");
    QTAILQ_REMOVE(&net->chips, chip, next);
    net->chip_count--;
}

/* ---- migration */

/*
 * A frame that is under way is not migrated, as a chip is restored without
 * what it has loaded: it begins anew, and nobody has had its event yet.
 */
static int ccan_net_pre_save(void *opaque)
{
    CcanNet *net = opaque;

    net->free = net->network.under_way ? ccan_net_now(net) : net->network.free;
    return 0;
}

/* The network begins anew with the same chips, each maybe at another place. */
static int ccan_net_begin_anew(CcanNet *net)
{
    CcanChip *chip;

    net->peers.joined = false;
    ccan_network_init(&net->network, net->free);
    QTAILQ_FOREACH(chip, &net->chips, next) {
        if (ccan_network_add_chip(&net->network, &chip->chip.bus,
                                  &chip->place) != CCAN_DONE) {
            return -EINVAL;
        }
    }
    return 0;
}

static int ccan_net_post_load(void *opaque, int version)
{
    CcanNet *net = opaque;

    /* What ccan_bit_time may answer. */
    if (net->periods < 3 || net->periods > 25600 || net->clock == 0) {
        return -EINVAL;
    }
    /* Not before all chips are there, and the clock runs. */
    timer_mod(net->timer, net->base_ns);
    return ccan_net_begin_anew(net);
}

static const VMStateDescription vmstate_ccan_net = {
    .name = TYPE_CCAN_NET,
    .version_id = 1,
    .minimum_version_id = 1,
    .pre_save = ccan_net_pre_save,
    .post_load = ccan_net_post_load,
    .fields = (VMStateField[]) {
        VMSTATE_UINT64(base_bit, CcanNet),
        VMSTATE_INT64(base_ns, CcanNet),
        VMSTATE_UINT32(periods, CcanNet),
        VMSTATE_UINT32(clock, CcanNet),
        VMSTATE_UINT64(free, CcanNet),
        VMSTATE_STRUCT(peers, CcanNet, 1, vmstate_ccan_peers, CcanPeers),
        VMSTATE_END_OF_LIST()
    }
};

static char *ccan_net_get_id(VMStateIf *obj)
{
    return object_get_canonical_path(OBJECT(obj));
}

/* ---- the type */

static CcanNet *ccan_net_new(CanBusState *canbus, Error **errp)
{
    CcanNet *net = CCAN_NET(object_new(TYPE_CCAN_NET));

    object_property_add_child(OBJECT(canbus), TYPE_CCAN_NET, OBJECT(net));
    object_unref(net); /* the can-bus has it */
    if (vmstate_register_with_alias_id(VMSTATE_IF(net), VMSTATE_INSTANCE_ID_ANY,
                                       &vmstate_ccan_net, net, -1, 0,
                                       errp) < 0) {
        object_unparent(OBJECT(net));
        return NULL;
    }
    ccan_peers_init(&net->peers, canbus, ccan_net_arrived, net);
    return net;
}

CcanNet *ccan_net_of(CanBusState *canbus, Error **errp)
{
    Object *net = object_resolve_path_component(OBJECT(canbus), TYPE_CCAN_NET);

    return net ? CCAN_NET(net) : ccan_net_new(canbus, errp);
}

static void ccan_net_init(Object *obj)
{
    CcanNet *net = CCAN_NET(obj);

    net->periods = 16; /* 2 us, until a chip says another */
    net->clock = 8000000;
    net->timer = timer_new_ns(QEMU_CLOCK_VIRTUAL, ccan_net_run, net);
    QTAILQ_INIT(&net->chips);
    ccan_network_init(&net->network, 0);
}

static void ccan_net_finalize(Object *obj)
{
    timer_free(CCAN_NET(obj)->timer);
}

static void ccan_net_class_init(ObjectClass *klass, void *data)
{
    VMSTATE_IF_CLASS(klass)->get_id = ccan_net_get_id;
}

static const TypeInfo ccan_net_types[] = {
    {
        .name = TYPE_CCAN_NET,
        .parent = TYPE_OBJECT,
        .instance_size = sizeof(CcanNet),
        .instance_init = ccan_net_init,
        .instance_finalize = ccan_net_finalize,
        .class_init = ccan_net_class_init,
        .interfaces = (InterfaceInfo[]) { { TYPE_VMSTATE_IF }, { } },
    },
};

DEFINE_TYPES(ccan_net_types)
