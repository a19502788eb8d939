/* Runs the Linux driver c_can, unchanged, on a chip of the library, in three threads: one hands frames to the driver, which sends
 * them at IF2; one has the interrupt, the polls and the restarts, at IF1; one is the bus, with frames of another node, faults and
 * times of bus off. No lock is round the chip. tools/test/check_linux_driver builds it.
 *
 * Seen to:
 *   - Each frame that was handed over is on the bus once, whole and in order, and is then told as sent. Those that a restart drops
 *     are on it at most once.
 *   - Each frame that the chip stored is received once, whole, from the object that stored it, and in order there. Lost are just
 *     those that MsgLst tells of: a frame that set it, or that was in the object then. The driver tells each such loss once.
 *     A remote frame makes the object a transmitting one, which has no MsgLst: so it alone may be overwritten untold, in the last
 *     object.
 *   - With a pace of 1 all frames are received in the order of the bus. With more the driver may read a later object first.
 *   - The driver's statistics are those of the frames, and its state and its error counters are those of the chip at the end.
 *   - No handle is in two calls at once, and IF2 is used by the sender alone.
 *   - The controller is back from bus off after 128 groups of recessive bits; a D_CAN is at once, by its software reset.
 *   - A D_CAN enters local power down on an idle bus as the driver asks for it, so that the driver sees PDA, and is awake again as
 *     the driver wakes it: c_can_power_down, c_can_power_up.
 * Usage: run FRAMES LAYOUT OBJECTS PACE OFFS [SEED [TRIES]]. FRAMES of each side; LAYOUT is an enum ccan_layout; OBJECTS 32 or 64;
 * PACE how many frames may wait in the chip, 0 for any number; OFFS how often the controller goes bus off; TRIES are those of
 * ccan_open_reset, 1000 if left out. */
#include <ccan.h>
#include <pthread.h>
#include <unistd.h>
#include "common.h"

enum { OTHER_NODES = 2, PATIENCE = 30, NOT_STORED = 0xff, MESSAGE_LOST = 0x4000 };
enum { LOST = 1, MAY_BE_LOST = 2 };
enum port { SENDS, SERVES, PORTS };
enum group { AT_IF1, AT_IF2, AT_CONTROLLER, GROUPS };

const struct ethtool_ops c_can_ethtool_ops = { 0 };

static u32 frames, layout, objects, pace, offs, tries = 1000;
static ccan_chip chip = CCAN_CHIP_CLOSED;
static struct net_device *device;
static irq_handler_t handler;
static atomic_int carrier, queue_stopped, stop, sender_done;
static atomic_uint restarts, finished_own, received, progress, faults;
static pthread_mutex_t queue_lock = PTHREAD_MUTEX_INITIALIZER; /* as the kernel's own: two sends, or a send and a restart */

/* What each frame came to, by its number. Each array is written by one thread, and read after all have ended. */
static u8 *on_bus, *told_sent, *dropped;           /* our own */
static u8 *stored_at, *losses, *read_at;           /* the other node's */
static u32 *rank;                                  /* at which place it was received */

static void fault(const char *text, u32 number)
{
    if (atomic_fetch_add(&faults, 1) < 10)
        fprintf(stderr, "frame %u: %s\n", number, text);
}

void driver_error(const char *text)
{
    fault(text, atomic_load(&finished_own));
}

/* ---- the registers. Those of an interface are at its own handle, all others at the handle of the thread. */

static __thread enum port port = SERVES;
static atomic_int in_call[PORTS];
static unsigned long uses[PORTS][GROUPS], busy[PORTS], lines, spurious;
static u32 requested; /* the object that IF1 requested last */

static enum port enter(enum port at)
{
    if (atomic_exchange_explicit(&in_call[at], 1, memory_order_relaxed)) {
        fprintf(stderr, "a handle is in two calls at once\n");
        abort();
    }
    return at;
}

static void leave(enum port at) { atomic_store_explicit(&in_call[at], 0, memory_order_relaxed); }

static enum port port_of(enum reg index)
{
    bool first = index >= C_CAN_IF1_COMREQ_REG && index <= C_CAN_IF1_DATA4_REG;
    bool second = index >= C_CAN_IF2_COMREQ_REG && index <= C_CAN_IF2_DATA4_REG;
    uses[port][first ? AT_IF1 : second ? AT_IF2 : AT_CONTROLLER]++;
    return first ? SERVES : second ? SENDS : port;
}

static ccan_host *host_of(enum port at) { return at == SENDS ? &chip.if2 : &chip.if1; }

static u32 offset_of(const struct c_can_priv *priv, enum reg index)
{
    return priv->regs[index] * (layout == CCAN_LAYOUT_C_CAN_32 ? 2u : 1u);
}

static u32 any_read(const struct c_can_priv *priv, enum reg index, bool wide)
{
    enum port at = enter(port_of(index));
    u32 offset = offset_of(priv, index), word = 0, code;
    u16 half = 0;
    do {
        code = wide ? ccan_read32(host_of(at), offset, &word) : ccan_read16(host_of(at), offset, &half);
        busy[port] += code == CCAN_BUSY;
    } while (code == CCAN_BUSY);
    must(code, "a read");
    leave(at);
    return wide ? word : half;
}

static void any_write(const struct c_can_priv *priv, enum reg index, u32 value, bool wide)
{
    enum port at = enter(port_of(index));
    u32 offset = offset_of(priv, index), code;
    if (index == C_CAN_IF1_COMREQ_REG)
        requested = value & 63 ? value & 63 : 64;
    do {
        code = wide ? ccan_write32(host_of(at), offset, value) : ccan_write16(host_of(at), offset, (u16)value);
        busy[port] += code == CCAN_BUSY;
    } while (code == CCAN_BUSY);
    must(code, "a write");
    leave(at);
}

static u16 read_one(const struct c_can_priv *priv, enum reg index) { return (u16)any_read(priv, index, false); }
static void write_one(const struct c_can_priv *priv, enum reg index, u16 value) { any_write(priv, index, value, false); }

/* Two registers at once: a D_CAN has them in one word. On a C_CAN the upper one is written first: it may be a command's mask. */
static u32 read_two(const struct c_can_priv *priv, enum reg index)
{
    if (priv->type == BOSCH_D_CAN)
        return any_read(priv, index, true);
    u32 low = read_one(priv, index);
    return low | (u32)read_one(priv, index + 1) << 16;
}

static void write_two(const struct c_can_priv *priv, enum reg index, u32 value)
{
    if (priv->type == BOSCH_D_CAN) {
        any_write(priv, index, value, true);
        return;
    }
    write_one(priv, index + 1, (u16)(value >> 16));
    write_one(priv, index, (u16)value);
}

/* ---- what shim.h declares: the queue, the interrupt */

void netif_start_queue(struct net_device *dev) { (void)dev; atomic_store(&queue_stopped, 0); }
void netif_stop_queue(struct net_device *dev) { (void)dev; atomic_store(&queue_stopped, 1); }
void netif_wake_queue(struct net_device *dev) { (void)dev; atomic_store(&queue_stopped, 0); }

int request_irq(int irq, irq_handler_t wanted, unsigned long flags, const char *name, void *of)
{
    (void)irq, (void)flags, (void)name, (void)of;
    handler = wanted;
    return 0;
}

void free_irq(int irq, void *of) { (void)irq, (void)of; handler = NULL; }

/* ---- what shim.h declares: frames, and the device */

int open_candev(struct net_device *dev)
{
    (void)dev;
    atomic_store(&carrier, 1);
    return 0;
}

static unsigned long told_overruns, told_off, told_states, told_bus_errors, told_restarts;
static unsigned long received_bytes, sent_bytes, dropped_frames;
static u32 last_received, last_sent, overtaken;
static bool any_received, any_sent;

/* A frame of the other node. */
static void receive(const struct can_frame *got)
{
    ccan_frame frame, wanted;
    memset(&frame, 0, sizeof frame);
    frame.xtd = (got->can_id & CAN_EFF_FLAG) != 0;
    frame.rtr = (got->can_id & CAN_RTR_FLAG) != 0;
    frame.id = got->can_id & (frame.xtd ? CAN_EFF_MASK : CAN_SFF_MASK);
    frame.dlc = got->len;
    memcpy(frame.bytes, got->data, got->len <= 8 ? got->len : 8);
    u32 number = number_of(&frame, last_received);
    if (number >= frames) {
        fault("received, and never sent", number);
        return;
    }
    wanted = frame_numbered(number, 1);
    wanted.dlc = can_cc_dlc2len(wanted.dlc);
    if (!same(&frame, &wanted))
        fault("received, but other than it was sent", number);
    if (read_at[number])
        fault("received twice", number);
    read_at[number] = (u8)requested;
    rank[number] = atomic_load(&received);
    if (any_received && number < last_received) {
        overtaken++;
        if (pace == 1)
            fault("received late", number);
    } else {
        last_received = number;
    }
    any_received = true;
    received_bytes += length_of(&wanted);
    atomic_fetch_add(&received, 1);
}

int netif_receive_skb(struct sk_buff *skb)
{
    const struct can_frame *frame = &skb->frame;
    if (!(frame->can_id & CAN_ERR_FLAG))
        receive(frame);
    else if (frame->can_id & CAN_ERR_BUSOFF)
        told_off++;
    else if (frame->can_id & CAN_ERR_RESTARTED)
        told_restarts++;
    else if (frame->can_id & CAN_ERR_PROT)
        told_bus_errors++;
    else if (frame->data[1] == CAN_ERR_CRTL_RX_OVERFLOW && !(frame->can_id & CAN_ERR_CNT))
        told_overruns++;
    else
        told_states++;
    free(skb);
    atomic_fetch_add(&progress, 1);
    return 0;
}

int can_put_echo_skb(struct sk_buff *skb, struct net_device *dev, unsigned place, unsigned length)
{
    struct can_priv *can = netdev_priv(dev);
    (void)length;
    if (atomic_exchange(&can->echoes[place], skb))
        fault("handed over for an object whose frame was not told as sent", skb->number);
    return 0;
}

unsigned can_get_echo_skb(struct net_device *dev, unsigned place, unsigned *length)
{
    struct can_priv *can = netdev_priv(dev);
    struct sk_buff *skb = atomic_exchange(&can->echoes[place], NULL);
    if (!skb) {
        fault("an object without a frame is told as sent", place);
        return 0;
    }
    ccan_frame frame = frame_numbered(skb->number, 0);
    (void)length;
    if (any_sent && skb->number <= last_sent)
        fault("told as sent out of order", skb->number);
    last_sent = skb->number;
    any_sent = true;
    told_sent[skb->number]++;
    sent_bytes += length_of(&frame);
    free(skb);
    atomic_fetch_add(&finished_own, 1);
    atomic_fetch_add(&progress, 1);
    return length_of(&frame);
}

static void drop_echoes(struct net_device *dev)
{
    struct can_priv *can = netdev_priv(dev);
    for (int place = 0; place < ECHOES; place++) {
        struct sk_buff *skb = atomic_exchange(&can->echoes[place], NULL);
        if (skb) {
            dropped[skb->number]++;
            dropped_frames++;
            free(skb);
            atomic_fetch_add(&finished_own, 1);
        }
    }
}

void close_candev(struct net_device *dev) { drop_echoes(dev); }
void can_bus_off(struct net_device *dev) { (void)dev; atomic_store(&carrier, 0); }

/* As the kernel restarts a device that is bus off: nobody sends meanwhile, and what was handed over is dropped. */
static void restart(void)
{
    struct can_priv *can = netdev_priv(device);
    struct can_frame *frame;
    pthread_mutex_lock(&queue_lock);
    pthread_mutex_unlock(&queue_lock);
    drop_echoes(device);
    struct sk_buff *skb = alloc_can_err_skb(device, &frame);
    frame->can_id |= CAN_ERR_RESTARTED;
    netif_receive_skb(skb);
    if (can->do_set_mode(device, CAN_MODE_START))
        fault("no restart", atomic_load(&restarts));
    atomic_store(&carrier, 1);
    atomic_fetch_add(&restarts, 1);
}

/* ---- the threads */

static struct sk_buff *skb_numbered(u32 number)
{
    ccan_frame frame = frame_numbered(number, 0);
    struct sk_buff *skb = new_skb(device);
    skb->number = number;
    skb->frame.can_id = frame.id | (frame.xtd ? CAN_EFF_FLAG : 0) | (frame.rtr ? CAN_RTR_FLAG : 0);
    skb->frame.len = frame.dlc;
    memcpy(skb->frame.data, frame.bytes, 8);
    return skb;
}

static unsigned long refused_sends;

/* Hands over a frame, unless the queue is stopped meanwhile. Now and then it asks for the error counters, as a user does. */
static bool send(struct sk_buff *skb)
{
    struct can_priv *can = netdev_priv(device);
    bool taken = false;
    u32 number = skb->number;
    pthread_mutex_lock(&queue_lock);
    if (atomic_load(&carrier) && !atomic_load(&queue_stopped) && ring_has_room(device)) {
        taken = device->netdev_ops->ndo_start_xmit(skb, device) == NETDEV_TX_OK;
        refused_sends += !taken;
    }
    pthread_mutex_unlock(&queue_lock);
    if (taken && number % 64 == 0) {
        struct can_berr_counter counts;
        if (can->do_get_berr_counter(device, &counts) || counts.txerr > 255 || counts.rxerr > 127)
            fault("its error counters are out of range", number);
    }
    return taken;
}

static void *sender(void *unused)
{
    (void)unused;
    port = SENDS;
    for (u32 number = 0; number < frames && !atomic_load(&stop); number++) {
        struct sk_buff *skb = skb_numbered(number);
        while (!send(skb) && !atomic_load(&stop))
            sched_yield();
    }
    atomic_store(&sender_done, 1);
    return NULL;
}

static bool line_is_pulled(void)
{
    u32 pulled = 0;
    enum port at = enter(SERVES);
    must(ccan_line(&chip.if1, &pulled), "ccan_line");
    leave(at);
    return pulled;
}

/* A poll. With a D_CAN no frame is handed over meanwhile, as on a board of one processor. There the poll requests what was handed
 * over before the ring began anew. A frame that is handed over just then may be requested by the poll first, and then be requested
 * no more, or it may be sent before older ones. */
static void poll_once(struct c_can_priv *priv)
{
    bool alone = priv->type == BOSCH_D_CAN;
    if (alone)
        pthread_mutex_lock(&queue_lock);
    priv->napi.poll(&priv->napi, priv->napi.weight);
    if (alone)
        pthread_mutex_unlock(&queue_lock);
}

/* The interrupt: the handler, then polls until the driver has done all. */
static void *server(void *unused)
{
    struct c_can_priv *priv = netdev_priv(device);
    (void)unused;
    for (bool pulled = true; pulled || !atomic_load(&stop);) {
        pulled = line_is_pulled();
        if (pulled) {
            lines++;
            spurious += handler(device->irq, device) == IRQ_NONE;
            while (priv->napi.scheduled)
                poll_once(priv);
        } else {
            sched_yield();
        }
        if (!atomic_load(&carrier))
            restart();
    }
    return NULL;
}

/* ---- the bus */

static unsigned long rounds, spoiled, steps_refused[5], groups, idle, taken_by_none;
static u32 offered, overruns, next_own, latest[65];
static uint64_t dice_state = 1;
static bool last_lost;

static u32 dice(void)
{
    dice_state = dice_state * 6364136223846793005u + 1442695040888963407u;
    return (u32)(dice_state >> 33);
}

/* Objects in which frames wait. */
static u32 waiting(void)
{
    u32 new_data = 0, both = layout == CCAN_LAYOUT_C_CAN ? CCAN_OFFSET_NEW_DATA_1 : layout == CCAN_LAYOUT_D_CAN ? 0x9c : 0x120;
    u16 half;
    must(ccan_bus_read16(&chip.bus, both, &half), "a read of New Data");
    new_data = half;
    if (objects == 64) {
        must(ccan_bus_read16(&chip.bus, both + 2, &half), "a read of New Data");
        new_data |= (u32)half << 16;
    }
    return hweight32(new_data);
}

/* The driver's own frame was sent. */
static void see_own(const ccan_frame *frame)
{
    u32 number = number_of(frame, next_own);
    ccan_frame wanted = frame_numbered(number, 0);
    if (number >= frames || !same(frame, &wanted)) {
        fault("on the bus, and never handed over", number);
        return;
    }
    if (number < next_own)
        fault("on the bus twice or late", number);
    on_bus[number]++;
    next_own = number + 1;
    atomic_fetch_add(&progress, 1);
}

/* The other node's frame was sent, and stored in an object; the last one that receives takes what no other takes. */
static void see_stored(const ccan_outcome *outcome)
{
    u32 at = outcome->stored;
    if (at < 1 || at > objects / 2) {
        fault("no object of those that receive has it", offered);
        taken_by_none++;
        at = NOT_STORED;
    }
    stored_at[offered] = (u8)at;
    if (at != NOT_STORED) {
        bool lost = outcome->stored_record.control & MESSAGE_LOST;
        if (lost) {
            losses[offered] |= LOST;
            if (latest[at])
                losses[latest[at] - 1] |= MAY_BE_LOST;
        }
        if (at == objects / 2 && latest[at] && frame_numbered(latest[at] - 1, 1).rtr)
            losses[latest[at] - 1] |= MAY_BE_LOST;
        if (lost && at != objects / 2)
            fault("lost, with other objects behind it", offered);
        if (at == objects / 2) {
            overruns += lost && !last_lost;
            last_lost = lost;
        }
        latest[at] = offered + 1;
    }
    offered++;
    atomic_fetch_add(&progress, 1);
}

/* Plays a round, with or without the other node's next frame. */
static u32 play(bool with_offer, u32 spoil)
{
    ccan_frame next = frame_numbered(offered < frames ? offered : 0, 1);
    ccan_offer offer = { next.id, 1, next.xtd, next.rtr, next.dlc, { 0 } };
    ccan_outcome outcome;
    memcpy(offer.bytes, next.bytes, 8);
    u32 code = ccan_round(&chip.bus, &offer, with_offer && offered < frames, spoil, &outcome);
    rounds++;
    if (code == CCAN_BUSY)
        steps_refused[outcome.refused]++;
    else
        must(code, "ccan_round");
    switch (outcome.kind) {
    case CCAN_SENT:
        see_own(&outcome.frame);
        break;
    case CCAN_RECEIVED:
        see_stored(&outcome);
        break;
    case CCAN_PASSED:
        stored_at[offered++] = NOT_STORED;
        break;
    case CCAN_FAULT:
        spoiled++;
        break;
    case CCAN_IDLE:
        idle++;
        break;
    case CCAN_ROUND_BUSY:
        break;
    default:
        fault("a round of an unexpected kind", outcome.kind);
    }
    return outcome.kind;
}

static u32 state(void)
{
    ccan_counts counts;
    must(ccan_counters(&chip.bus, 0, &counts), "ccan_counters");
    return counts.state;
}

/* Spoils the driver's frames until the controller is off, waits for the restart, and lets the bits of the way back pass. */
static void go_off(void)
{
    u32 before = atomic_load(&restarts), now = CCAN_OFF;
    while (state() != CCAN_OFF) {
        if (atomic_load(&stop) || atomic_load(&finished_own) == frames)
            return;
        if (play(false, 1 + dice() % 5) == CCAN_IDLE)
            sched_yield();
    }
    for (u32 object = 1; object <= objects; object++) { /* a restart forgets what nobody has read */
        if (latest[object])
            losses[latest[object] - 1] |= MAY_BE_LOST;
        latest[object] = 0;
    }
    last_lost = false;
    for (u32 passed = 0; atomic_load(&restarts) == before && !atomic_load(&stop); sched_yield())
        if (passed < 3 && dice() % 4 == 0)
            passed += play(true, CCAN_QUIET) == CCAN_PASSED;
    u32 passing = 0, last_passing = 0;
    while (now == CCAN_OFF && !atomic_load(&stop)) {
        last_passing = 1 + dice() % 3;
        u32 code = ccan_recessive(&chip.bus, last_passing, &now);
        if (code == CCAN_BUSY)
            continue;
        must(code, "ccan_recessive");
        passing += last_passing;
    }
    groups += passing;
    if (layout != CCAN_LAYOUT_D_CAN && now != CCAN_OFF && (passing < 128 || passing - last_passing >= 128))
        fault("it came back after another number of groups than 128", passing);
    atomic_fetch_add(&progress, 1);
}

static void *bus(void *unused)
{
    u32 times = 0;
    (void)unused;
    while (!atomic_load(&stop)) {
        bool with_offer = offered < frames && dice() % 4 && (!pace || waiting() < pace);
        u32 kind = play(with_offer, dice() % 50 ? CCAN_QUIET : 1 + dice() % 5);
        if (kind == CCAN_IDLE)
            sched_yield();
        if (times < offs && next_own > (uint64_t)frames * (times + 1) / (offs + 1)) {
            times++;
            go_off();
        }
        if (kind == CCAN_IDLE && offered == frames && atomic_load(&sender_done) && atomic_load(&finished_own) == frames
            && waiting() == 0)
            atomic_store(&stop, 1);
    }
    return NULL;
}

/* ---- the whole */

/* Ends the threads where nothing goes on. */
static void watch(void)
{
    unsigned last = atomic_load(&progress), still = 0;
    while (!atomic_load(&stop)) {
        usleep(20000);
        unsigned now = atomic_load(&progress);
        still = now == last ? still + 1 : 0;
        last = now;
        if (still >= PATIENCE * 50) {
            fault("nothing goes on", atomic_load(&finished_own));
            atomic_store(&stop, 2);
        }
    }
}

static void check_own(void)
{
    for (u32 number = 0; number < frames; number++) {
        if (told_sent[number] + dropped[number] != 1)
            fault("neither told as sent nor dropped, or both", number);
        if (told_sent[number] && on_bus[number] != 1)
            fault("told as sent, and not once on the bus", number);
        if (dropped[number] && on_bus[number] > 1)
            fault("dropped, and more than once on the bus", number);
    }
}

static u32 check_other(void)
{
    u32 lost = 0, last[65] = { 0 };
    for (u32 number = 0; number < frames; number++) {
        u32 at = stored_at[number];
        if (!read_at[number]) {
            lost += at != NOT_STORED;
            if (at != NOT_STORED && !losses[number])
                fault("stored, and neither received nor lost", number);
            continue;
        }
        if (read_at[number] != at)
            fault("received from another object than stored it", number);
        if (losses[number] & LOST)
            fault("received, though it was told as lost", number);
        if (at <= 64 && rank[number] < last[at])
            fault("received late from its object", number);
        if (at <= 64)
            last[at] = rank[number];
    }
    return lost;
}

static void check_statistics(void)
{
    struct c_can_priv *priv = netdev_priv(device);
    const struct net_device_stats *told = &device->stats;
    u16 status = read_one(priv, C_CAN_STS_REG);
    enum can_state wanted = status & 0x80 ? CAN_STATE_BUS_OFF : status & 0x20 ? CAN_STATE_ERROR_PASSIVE
        : status & 0x40 ? CAN_STATE_ERROR_WARNING : CAN_STATE_ERROR_ACTIVE;
    struct can_berr_counter counts;
    ccan_counts chip_counts;
    if (told->rx_packets != atomic_load(&received) || told->rx_bytes != received_bytes)
        fault("what the driver counts as received", (u32)told->rx_packets);
    if (told->tx_packets + dropped_frames != frames || told->tx_bytes != sent_bytes)
        fault("what the driver counts as sent", (u32)told->tx_packets);
    if (told->rx_over_errors != told_overruns)
        fault("what the driver counts as overruns", (u32)told->rx_over_errors);
    if (told_overruns > overruns || told_overruns + atomic_load(&restarts) + 1 < overruns)
        fault("losses, but another number of them told", overruns);
    if (told_restarts != atomic_load(&restarts) || told_off != told_restarts || priv->can.can_stats.bus_off != told_off)
        fault("what the driver counts as bus off", (u32)told_off);
    if (priv->can.state != wanted)
        fault("the driver's state is not that of the chip", priv->can.state);
    must(ccan_counters(&chip.bus, 0, &chip_counts), "ccan_counters");
    if (priv->can.do_get_berr_counter(device, &counts) || counts.txerr != (chip_counts.tec & 255)
        || counts.rxerr != (chip_counts.rec & 127))
        fault("the driver's error counters are not those of the chip", counts.txerr);
}

/* The bus once all frames were sent: it is idle, round after round. */
static atomic_int awake;
static void *idle_bus(void *unused)
{
    const ccan_offer none = { 0 };
    ccan_outcome outcome;
    u32 is_down, code;
    (void)unused;
    while (!atomic_load(&awake)) {
        code = ccan_round(&chip.bus, &none, 0, CCAN_QUIET, &outcome);
        if (code == CCAN_DONE)
            code = ccan_power_down(&chip.bus, &is_down);
        if (code != CCAN_BUSY)
            must(code, "an idle bus");
        sched_yield();
    }
    return NULL;
}

/* The driver lets its D_CAN enter local power down, as in a suspend, and wakes it. */
static void power_down_and_up(void)
{
    struct c_can_priv *priv = netdev_priv(device);
    pthread_t thread;
    device->flags |= IFF_UP;
    pthread_create(&thread, NULL, idle_bus, NULL);
    if (c_can_power_down(device))
        fault("the driver sees no PDA", 0);
    if (!(read_one(priv, C_CAN_CTRL_REG) & 1) || read_one(priv, C_CAN_CTRL_EX_REG) != 0x0100)
        fault("the chip is not in local power down", 0);
    if (c_can_power_up(device))
        fault("the driver still sees PDA", 0);
    if ((read_one(priv, C_CAN_CTRL_REG) & 1) || read_one(priv, C_CAN_CTRL_EX_REG) || (read_one(priv, C_CAN_STS_REG) & 0x0400))
        fault("the chip is not awake", 0);
    atomic_store(&awake, 1);
    pthread_join(thread, NULL);
}

static void *zeros(size_t size)
{
    void *at = calloc(frames + 1u, size);
    if (!at)
        must(CCAN_NO_MEMORY, "the frames");
    return at;
}

static void set_up(void)
{
    on_bus = zeros(1), told_sent = zeros(1), dropped = zeros(1);
    stored_at = zeros(1), losses = zeros(1), read_at = zeros(1), rank = zeros(sizeof *rank);
    must(ccan_open_reset(&chip, objects / 32, OTHER_NODES, tries, layout), "ccan_open_reset");
    device = alloc_c_can_dev((int)objects);
    struct c_can_priv *priv = netdev_priv(device);
    priv->type = layout == CCAN_LAYOUT_D_CAN ? BOSCH_D_CAN : BOSCH_C_CAN;
    priv->regs = layout == CCAN_LAYOUT_D_CAN ? reg_map_d_can : reg_map_c_can;
    priv->read_reg = read_one, priv->write_reg = write_one, priv->read_reg32 = read_two, priv->write_reg32 = write_two;
    priv->can.ctrlmode = CAN_CTRLMODE_BERR_REPORTING;
    priv->can.bittiming = (struct can_bittiming){ .bitrate = 500000, .prop_seg = 6, .phase_seg1 = 7, .phase_seg2 = 2, .sjw = 1,
        .brp = 1 };
    if (register_c_can_dev(device) || device->netdev_ops->ndo_open(device)) {
        fprintf(stderr, "the driver does not open\n");
        exit(1);
    }
}

static void show(double took, u32 lost)
{
    printf("layout %u, %u objects, pace %u: %u frames each way in %.1f s, %lu rounds, %lu spoiled\n", layout, objects, pace, frames,
        took, rounds, spoiled);
    printf("  sent %lu, %lu dropped at %u restarts, %lu groups of recessive bits; the queue refused %lu\n",
        device->stats.tx_packets, dropped_frames, atomic_load(&restarts), groups, refused_sends);
    printf("  received %u, lost %u in %u overruns, %lu told; %u were overtaken\n", atomic_load(&received), lost, overruns,
        told_overruns, overtaken);
    printf("  told of states %lu times, of bus errors %lu times; %lu interrupts, %lu for nothing\n", told_states, told_bus_errors,
        lines, spurious);
    printf("  busy: %lu of the sender, %lu of the service; of rounds %lu loads, %lu finishes, %lu stores, %lu events\n",
        busy[SENDS], busy[SERVES], steps_refused[CCAN_STEP_LOAD], steps_refused[CCAN_STEP_FINISH], steps_refused[CCAN_STEP_STORE],
        steps_refused[CCAN_STEP_EVENT]);
    printf("  accesses: the sender %lu at IF1, %lu at IF2, %lu elsewhere; the service %lu, %lu and %lu\n", uses[SENDS][AT_IF1],
        uses[SENDS][AT_IF2], uses[SENDS][AT_CONTROLLER], uses[SERVES][AT_IF1], uses[SERVES][AT_IF2], uses[SERVES][AT_CONTROLLER]);
}

int main(int count, char **words)
{
    static ccan_final last;
    pthread_t threads[3];
    if (count < 6) {
        fprintf(stderr, "usage: run FRAMES LAYOUT OBJECTS PACE OFFS [SEED [TRIES]]\n");
        return 1;
    }
    frames = (u32)strtoul(words[1], NULL, 10), layout = (u32)strtoul(words[2], NULL, 10);
    objects = (u32)strtoul(words[3], NULL, 10), pace = (u32)strtoul(words[4], NULL, 10);
    offs = (u32)strtoul(words[5], NULL, 10), dice_state = count > 6 ? strtoul(words[6], NULL, 10) : 1;
    tries = count > 7 ? (u32)strtoul(words[7], NULL, 10) : 1000;
    double began = seconds();
    set_up();
    pthread_create(&threads[0], NULL, sender, NULL);
    pthread_create(&threads[1], NULL, server, NULL);
    pthread_create(&threads[2], NULL, bus, NULL);
    watch();
    for (int i = 0; i < 3; i++)
        pthread_join(threads[i], NULL);
    double took = seconds() - began;
    if (uses[SENDS][AT_IF1] || uses[SERVES][AT_IF2])
        fault("an interface is used by the other thread", 0);
    must(ccan_meet(&chip), "ccan_meet");
    check_own();
    u32 lost = check_other();
    check_statistics();
    show(took, lost);
    if (layout == CCAN_LAYOUT_D_CAN)
        power_down_and_up();
    device->netdev_ops->ndo_stop(device);
    unregister_c_can_dev(device);
    free_c_can_dev(device);
    must(ccan_end(&chip, &last), "ccan_end");
    printf("  %u faults\n", atomic_load(&faults));
    return atomic_load(&faults) != 0;
}
