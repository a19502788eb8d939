/* Runs the Linux driver c_can, unchanged, on two chips of the library that talk to each other on one bus (ccan_network.h), in five
 * threads: for each chip one that hands frames to the driver, which sends them at IF2, and one that has the interrupt and the
 * polls, at IF1; and one that has the bus's handles of both and its clock. No lock is round a chip. tools/test/check_linux_driver
 * builds it.
 *
 * Seen to:
 *   - Each frame that was handed over at one chip is on the bus once, whole and in order, though each 50th is spoiled. It is then
 *     told as sent once, and received once at the other chip, whole. With a pace of 1 it is received in the order of the bus; with
 *     more a driver may read a later object first.
 *   - Nothing is lost, and neither chip goes bus off. The drivers' statistics and states say so too.
 *   - No handle is in two calls at once, and IF2 is used by its sender alone.
 * A frame is spoiled by an error that one chip finds, and only while both are error active: an error passive chip may send a frame
 * twice that was received, which CAN has it do.
 * Usage: pair FRAMES LAYOUT LAYOUT PACE [SEED]. FRAMES each way; LAYOUT is an enum ccan_layout, of each chip; PACE how many frames
 * may wait in a chip. */
#include <ccan_network.h>
#include <pthread.h>
#include <unistd.h>
#include "common.h"

enum { SIDES = 2, OBJECTS = 32, PATIENCE = 60, SPOILED_EACH = 50 };
enum port { SENDS, SERVES, PORTS };

const struct ethtool_ops c_can_ethtool_ops = { 0 };

/* One chip with its driver. Each member is written by one thread, or is an atomic. */
struct side {
    ccan_chip chip;
    u32 layout;
    struct net_device *device;
    irq_handler_t handler;
    pthread_mutex_t queue_lock; /* as the kernel's own: two sends; with a D_CAN also a send and a poll */
    atomic_int queue_stopped, in_call[PORTS];
    atomic_uint told_sent, received;
    u32 next_on_bus, next_told;                 /* the numbers that come next: on the bus, and told as sent */
    u32 last_received, overtaken;
    u8 *read;                                   /* which frames of the other side were received */
    unsigned long received_bytes, sent_bytes, busy[PORTS], lines, refused_sends, told_errors, told_states;
};

static struct side sides[SIDES];
static u32 frames, pace;
static atomic_int stop;
static atomic_uint progress, faults;

static u32 index_of(const struct side *side) { return (u32)(side - sides); }
static struct side *other_of(const struct side *side) { return &sides[1 - index_of(side)]; }

static struct side *side_of(const struct net_device *dev)
{
    return dev == sides[0].device ? &sides[0] : &sides[1];
}

static void fault(const struct side *side, const char *text, u32 number)
{
    if (atomic_fetch_add(&faults, 1) < 10)
        fprintf(stderr, "chip %u, frame %u: %s\n", index_of(side), number, text);
}

void driver_error(const char *text)
{
    fault(&sides[0], text, 0);
}

/* The frame of a number that a side sends. */
static ccan_frame frame_of(u32 number, const struct side *side)
{
    ccan_frame frame = frame_numbered(number, index_of(side));
    frame.dlc = can_cc_dlc2len(frame.dlc); /* the driver sends no other lengths */
    return frame;
}

/* ---- the registers. Those of an interface are at its own handle, all others at the handle of the thread. */

static __thread enum port port = SERVES;

static enum port enter(struct side *side, enum port at)
{
    if (atomic_exchange_explicit(&side->in_call[at], 1, memory_order_relaxed)) {
        fprintf(stderr, "a handle is in two calls at once\n");
        abort();
    }
    return at;
}

static void leave(struct side *side, enum port at)
{
    atomic_store_explicit(&side->in_call[at], 0, memory_order_relaxed);
}

static enum port port_of(const struct side *side, enum reg index)
{
    const bool first = index >= C_CAN_IF1_COMREQ_REG && index <= C_CAN_IF1_DATA4_REG;
    const bool second = index >= C_CAN_IF2_COMREQ_REG && index <= C_CAN_IF2_DATA4_REG;
    if ((first && port != SERVES) || (second && port != SENDS))
        fault(side, "an interface is used by the other thread", index);
    return first ? SERVES : second ? SENDS : port;
}

static ccan_host *host_of(struct side *side, enum port at) { return at == SENDS ? &side->chip.if2 : &side->chip.if1; }

static u32 offset_of(const struct c_can_priv *priv, const struct side *side, enum reg index)
{
    return priv->regs[index] * (side->layout == CCAN_LAYOUT_C_CAN_32 ? 2u : 1u);
}

static u32 any_read(const struct c_can_priv *priv, enum reg index, bool wide)
{
    struct side *side = side_of(priv->dev);
    const enum port at = enter(side, port_of(side, index));
    u32 offset = offset_of(priv, side, index), word = 0, code;
    u16 half = 0;
    do {
        code = wide ? ccan_read32(host_of(side, at), offset, &word) : ccan_read16(host_of(side, at), offset, &half);
        side->busy[port] += code == CCAN_BUSY;
    } while (code == CCAN_BUSY);
    must(code, "a read");
    leave(side, at);
    return wide ? word : half;
}

static void any_write(const struct c_can_priv *priv, enum reg index, u32 value, bool wide)
{
    struct side *side = side_of(priv->dev);
    const enum port at = enter(side, port_of(side, index));
    u32 offset = offset_of(priv, side, index), code;
    do {
        code = wide ? ccan_write32(host_of(side, at), offset, value) : ccan_write16(host_of(side, at), offset, (u16)value);
        side->busy[port] += code == CCAN_BUSY;
    } while (code == CCAN_BUSY);
    must(code, "a write");
    leave(side, at);
}

static u16 read_one(const struct c_can_priv *priv, enum reg index) { return (u16)any_read(priv, index, false); }
static void write_one(const struct c_can_priv *priv, enum reg index, u16 value) { any_write(priv, index, value, false); }

/* Two registers at once: a D_CAN has them in one word. On a C_CAN the upper one is written first: it may be a command's mask. */
static u32 read_two(const struct c_can_priv *priv, enum reg index)
{
    if (priv->type == BOSCH_D_CAN)
        return any_read(priv, index, true);
    u32 low = read_one(priv, index);
    return low | (u32)read_one(priv, index + 1) << 16;
}

static void write_two(const struct c_can_priv *priv, enum reg index, u32 value)
{
    if (priv->type == BOSCH_D_CAN) {
        any_write(priv, index, value, true);
        return;
    }
    write_one(priv, index + 1, (u16)(value >> 16));
    write_one(priv, index, (u16)value);
}

/* ---- what shim.h declares, for the device that is named */

void netif_start_queue(struct net_device *dev) { atomic_store(&side_of(dev)->queue_stopped, 0); }
void netif_stop_queue(struct net_device *dev) { atomic_store(&side_of(dev)->queue_stopped, 1); }
void netif_wake_queue(struct net_device *dev) { atomic_store(&side_of(dev)->queue_stopped, 0); }

int request_irq(int irq, irq_handler_t wanted, unsigned long flags, const char *name, void *of)
{
    (void)irq, (void)flags, (void)name;
    side_of(of)->handler = wanted;
    return 0;
}

void free_irq(int irq, void *of) { (void)irq, side_of(of)->handler = NULL; }
int open_candev(struct net_device *dev) { (void)dev; return 0; }
void close_candev(struct net_device *dev) { (void)dev; }
void can_bus_off(struct net_device *dev) { fault(side_of(dev), "bus off", 0); }

/* A frame of the other side. */
static void receive(struct side *side, const struct can_frame *got)
{
    ccan_frame frame;
    memset(&frame, 0, sizeof frame);
    frame.xtd = (got->can_id & CAN_EFF_FLAG) != 0;
    frame.rtr = (got->can_id & CAN_RTR_FLAG) != 0;
    frame.id = got->can_id & (frame.xtd ? CAN_EFF_MASK : CAN_SFF_MASK);
    frame.dlc = got->len;
    memcpy(frame.bytes, got->data, got->len <= 8 ? got->len : 8);
    const u32 number = number_of(&frame, side->last_received);
    const ccan_frame wanted = frame_of(number, other_of(side));
    if (number >= frames || !same(&frame, &wanted)) {
        fault(side, "received, but never sent so", number);
        return;
    }
    if (side->read[number]++)
        fault(side, "received twice", number);
    if (number < side->last_received) {
        side->overtaken++;
        if (pace == 1)
            fault(side, "received late", number);
    } else {
        side->last_received = number;
    }
    side->received_bytes += length_of(&frame);
    atomic_fetch_add(&side->received, 1);
}

int netif_receive_skb(struct sk_buff *skb)
{
    struct side *side = side_of(skb->dev);
    const struct can_frame *frame = &skb->frame;
    if (!(frame->can_id & CAN_ERR_FLAG))
        receive(side, frame);
    else if (frame->can_id & (CAN_ERR_BUSOFF | CAN_ERR_RESTARTED))
        fault(side, "told of bus off", 0);
    else if (frame->can_id & CAN_ERR_PROT)
        side->told_errors++;
    else if (frame->data[1] == CAN_ERR_CRTL_RX_OVERFLOW && !(frame->can_id & CAN_ERR_CNT))
        fault(side, "told of an overrun", side->last_received);
    else
        side->told_states++;
    free(skb);
    atomic_fetch_add(&progress, 1);
    return 0;
}

int can_put_echo_skb(struct sk_buff *skb, struct net_device *dev, unsigned place, unsigned length)
{
    struct can_priv *can = netdev_priv(dev);
    (void)length;
    if (atomic_exchange(&can->echoes[place], skb))
        fault(side_of(dev), "handed over for an object whose frame was not told as sent", skb->number);
    return 0;
}

unsigned can_get_echo_skb(struct net_device *dev, unsigned place, unsigned *length)
{
    struct can_priv *can = netdev_priv(dev);
    struct side *side = side_of(dev);
    struct sk_buff *skb = atomic_exchange(&can->echoes[place], NULL);
    (void)length;
    if (!skb) {
        fault(side, "an object without a frame is told as sent", place);
        return 0;
    }
    const ccan_frame frame = frame_of(skb->number, side);
    if (skb->number != side->next_told)
        fault(side, "told as sent twice or out of order", skb->number);
    side->next_told = skb->number + 1;
    side->sent_bytes += length_of(&frame);
    free(skb);
    atomic_fetch_add(&side->told_sent, 1);
    atomic_fetch_add(&progress, 1);
    return length_of(&frame);
}

/* ---- the threads of a chip */

static struct sk_buff *skb_numbered(struct side *side, u32 number)
{
    const ccan_frame frame = frame_of(number, side);
    struct sk_buff *skb = new_skb(side->device);
    skb->number = number;
    skb->frame.can_id = frame.id | (frame.xtd ? CAN_EFF_FLAG : 0) | (frame.rtr ? CAN_RTR_FLAG : 0);
    skb->frame.len = frame.dlc;
    memcpy(skb->frame.data, frame.bytes, 8);
    return skb;
}

/* Hands over a frame, unless the queue is stopped meanwhile, and only while a C_CAN's ring has room (README.md, "The 17th
 * frame"). */
static bool send(struct side *side, struct sk_buff *skb)
{
    bool taken = false;
    pthread_mutex_lock(&side->queue_lock);
    if (!atomic_load(&side->queue_stopped) && ring_has_room(side->device)) {
        taken = side->device->netdev_ops->ndo_start_xmit(skb, side->device) == NETDEV_TX_OK;
        side->refused_sends += !taken;
    }
    pthread_mutex_unlock(&side->queue_lock);
    return taken;
}

static void *sender(void *of)
{
    struct side *side = of;
    port = SENDS;
    for (u32 number = 0; number < frames && !atomic_load(&stop); number++) {
        struct sk_buff *skb = skb_numbered(side, number);
        while (!send(side, skb) && !atomic_load(&stop))
            sched_yield();
    }
    return NULL;
}

static bool line_is_pulled(struct side *side)
{
    u32 pulled = 0;
    const enum port at = enter(side, SERVES);
    must(ccan_line(&side->chip.if1, &pulled), "ccan_line");
    leave(side, at);
    return pulled;
}

/* A poll. With a D_CAN no frame is handed over meanwhile, as on a board of one processor (README.md, "Polls and sends"). */
static void poll_once(struct side *side, struct c_can_priv *priv)
{
    const bool alone = priv->type == BOSCH_D_CAN;
    if (alone)
        pthread_mutex_lock(&side->queue_lock);
    priv->napi.poll(&priv->napi, priv->napi.weight);
    if (alone)
        pthread_mutex_unlock(&side->queue_lock);
}

/* The interrupt: the handler, then polls until the driver has done all. */
static void *server(void *of)
{
    struct side *side = of;
    struct c_can_priv *priv = netdev_priv(side->device);
    for (bool pulled = true; pulled || !atomic_load(&stop);) {
        pulled = line_is_pulled(side);
        if (!pulled) {
            sched_yield();
            continue;
        }
        side->lines++;
        side->handler(side->device->irq, side->device);
        while (priv->napi.scheduled)
            poll_once(side, priv);
    }
    return NULL;
}

/* ---- the bus */

static ccan_network network;
static uint64_t now;
static unsigned long played, spoiled, kinds[CCAN_WIRE_CARRIED + 1];
static uint64_t dice_state = 1;

static u32 dice(void)
{
    dice_state = dice_state * 6364136223846793005u + 1442695040888963407u;
    return (u32)(dice_state >> 33);
}

/* Objects of a chip in which frames wait. */
static u32 waiting(struct side *side)
{
    static const u32 offsets[] = { CCAN_OFFSET_NEW_DATA_1, 2 * CCAN_OFFSET_NEW_DATA_1, 0x9c }; /* by the layout */
    u16 new_data;
    must(ccan_bus_read16(&side->chip.bus, offsets[side->layout], &new_data), "a read of New Data");
    return hweight32(new_data);
}

/* What the end of a frame was to its sender. */
static void see_sent(struct side *side)
{
    const ccan_frame *frame = &network.wire.frame, wanted = frame_of(side->next_on_bus, side);
    if (side->next_on_bus >= frames || !same(frame, &wanted))
        fault(side, "on the bus, and not the next one that was handed over", side->next_on_bus);
    else
        side->next_on_bus++;
    atomic_fetch_add(&progress, 1);
}

static void finish(uint64_t until)
{
    now = until;
    must(ccan_network_finish(&network, now, &until), "ccan_network_finish");
    played++;
    kinds[network.wire.kind]++;
    for (u32 k = 0; k < SIDES; k++) {
        const ccan_finished *ended = &network.at[k].ended;
        if (ended->event == CCAN_EVENT_SENT)
            see_sent(&sides[k]);
        if (ended->event == CCAN_EVENT_RECEIVED && (ended->stored < 1 || ended->stored > OBJECTS / 2))
            fault(&sides[k], "no object of those that receive has it", other_of(&sides[k])->next_on_bus);
    }
    now = until;
}

/* Now and then one chip finds an error in the frame that is under way, while both are error active. */
static void may_spoil(void)
{
    if (dice() % SPOILED_EACH || network.at[0].member.role != CCAN_ROLE_ACTIVE || network.at[1].member.role != CCAN_ROLE_ACTIVE)
        return;
    must(ccan_network_fault(&network, dice() % SIDES, CCAN_STUFF + dice() % (CCAN_CRC - CCAN_STUFF + 1)), "ccan_network_fault");
    spoiled++;
}

static bool is_all_done(void)
{
    return atomic_load(&sides[0].told_sent) == frames && atomic_load(&sides[1].told_sent) == frames
        && atomic_load(&sides[0].received) == frames && atomic_load(&sides[1].received) == frames;
}

static void *bus(void *unused)
{
    uint64_t until;
    (void)unused;
    while (!atomic_load(&stop)) {
        if (waiting(&sides[0]) >= pace || waiting(&sides[1]) >= pace) {
            sched_yield();
            continue;
        }
        must(ccan_network_start(&network, now, &until), "ccan_network_start");
        if (network.under_way) {
            may_spoil();
            finish(until);
        } else if (until != CCAN_NETWORK_NEVER) {
            now = until;
        } else {
            now++;
            sched_yield();
        }
        if (is_all_done())
            atomic_store(&stop, 1);
    }
    return NULL;
}

/* ---- the whole */

static void set_up(struct side *side, u32 layout)
{
    uint32_t place;
    const bool is_dcan = layout == CCAN_LAYOUT_D_CAN;
    ccan_chip_init(&side->chip);
    pthread_mutex_init(&side->queue_lock, NULL);
    side->layout = layout;
    side->read = calloc(frames + 1u, 1);
    if (!side->read)
        must(CCAN_NO_MEMORY, "the frames");
    must(ccan_open_reset(&side->chip, 1, 0, 1000, layout), "ccan_open_reset");
    side->device = alloc_c_can_dev(OBJECTS);
    struct c_can_priv *priv = netdev_priv(side->device);
    priv->type = is_dcan ? BOSCH_D_CAN : BOSCH_C_CAN;
    priv->regs = is_dcan ? reg_map_d_can : reg_map_c_can;
    priv->read_reg = read_one, priv->write_reg = write_one, priv->read_reg32 = read_two, priv->write_reg32 = write_two;
    priv->can.ctrlmode = CAN_CTRLMODE_BERR_REPORTING;
    priv->can.bittiming = (struct can_bittiming){ .bitrate = 500000, .prop_seg = 6, .phase_seg1 = 7, .phase_seg2 = 2, .sjw = 1,
        .brp = 1 };
    if (register_c_can_dev(side->device) || side->device->netdev_ops->ndo_open(side->device)) {
        fprintf(stderr, "the driver does not open\n");
        exit(1);
    }
    must(ccan_network_add_chip(&network, &side->chip.bus, &place), "ccan_network_add_chip");
}

/* Ends the threads if nothing goes on. */
static void watch(void)
{
    unsigned last = atomic_load(&progress), still = 0;
    while (!atomic_load(&stop)) {
        usleep(20000);
        const unsigned seen = atomic_load(&progress);
        still = seen == last ? still + 1 : 0;
        last = seen;
        if (still >= PATIENCE * 50) {
            fault(&sides[0], "nothing goes on", sides[0].next_on_bus);
            atomic_store(&stop, 2);
        }
    }
}

static void check(struct side *side)
{
    const struct net_device_stats *told = &side->device->stats;
    struct c_can_priv *priv = netdev_priv(side->device);
    ccan_counts counts;
    if (side->next_on_bus != frames || side->next_told != frames || atomic_load(&side->received) != frames)
        fault(side, "not all frames came over", side->next_on_bus);
    if (told->tx_packets != frames || told->tx_bytes != side->sent_bytes)
        fault(side, "what the driver counts as sent", (u32)told->tx_packets);
    if (told->rx_packets != frames || told->rx_bytes != side->received_bytes || told->rx_over_errors)
        fault(side, "what the driver counts as received", (u32)told->rx_packets);
    must(ccan_counters(&side->chip.bus, 0, &counts), "ccan_counters");
    if (counts.state != CCAN_ACTIVE || priv->can.state > CAN_STATE_ERROR_WARNING)
        fault(side, "it is not error active", priv->can.state);
    printf("  chip %u, layout %u: sent %lu, received %u, %u overtaken; told of bus errors %lu times, of states %lu times; %lu "
        "interrupts; busy: %lu of the sender, %lu of the service\n", index_of(side), side->layout, told->tx_packets,
        atomic_load(&side->received), side->overtaken, side->told_errors, side->told_states, side->lines, side->busy[SENDS],
        side->busy[SERVES]);
}

static void take_down(struct side *side)
{
    static ccan_final last;
    side->device->netdev_ops->ndo_stop(side->device);
    unregister_c_can_dev(side->device);
    free_c_can_dev(side->device);
    must(ccan_end(&side->chip, &last), "ccan_end");
    free(side->read);
}

int main(int count, char **words)
{
    pthread_t threads[2 * SIDES + 1];
    if (count < 5) {
        fprintf(stderr, "usage: pair FRAMES LAYOUT LAYOUT PACE [SEED]\n");
        return 1;
    }
    frames = (u32)strtoul(words[1], NULL, 10), pace = (u32)strtoul(words[4], NULL, 10);
    dice_state = count > 5 ? strtoul(words[5], NULL, 10) : 1;
    const double began = seconds();
    ccan_network_init(&network, 0);
    for (u32 k = 0; k < SIDES; k++)
        set_up(&sides[k], (u32)strtoul(words[2 + k], NULL, 10));
    for (u32 k = 0; k < SIDES; k++) {
        pthread_create(&threads[2 * k], NULL, sender, &sides[k]);
        pthread_create(&threads[2 * k + 1], NULL, server, &sides[k]);
    }
    pthread_create(&threads[2 * SIDES], NULL, bus, NULL);
    watch();
    for (u32 k = 0; k < 2 * SIDES + 1; k++)
        pthread_join(threads[k], NULL);
    printf("two chips, pace %u: %u frames each way in %.1f s, %lu frames on the bus in %llu bits, %lu spoiled (%lu broken, %lu "
        "flagged, %lu not acknowledged)\n", pace, frames, seconds() - began, played, (unsigned long long)now, spoiled,
        kinds[CCAN_WIRE_BROKEN], kinds[CCAN_WIRE_FLAGGED], kinds[CCAN_WIRE_UNHEARD]);
    for (u32 k = 0; k < SIDES; k++) {
        must(ccan_meet(&sides[k].chip), "ccan_meet");
        check(&sides[k]);
    }
    for (u32 k = 0; k < SIDES; k++)
        take_down(&sides[k]);
    printf("  %u faults\n", atomic_load(&faults));
    return atomic_load(&faults) != 0;
}
