/* Runs the Linux driver c_can, unchanged, under every schedule of its interrupt with its polls, which have IF1, of a sender, which
 * has IF2, and of the bus. tools/test/check_linux_driver --every builds it, with these numbers:
 *
 *   -DSENDS=N      frames that are handed over to the driver    -DRECEIVES=N   frames of another node
 *   -DBEFORE=N     frames that were sent before the schedules begin, which is where the driver's ring stands
 *   -DLAYOUT=N     an enum ccan_layout                          -DFAULTS=N     rounds that may be spoiled
 *   -DAPART        polls and sends are held apart by a mutex, which the kernel doesn't have
 *
 * Seen to: each frame that was handed over is on the bus once and told as sent once; each frame of the node is received once, or an
 * overrun is told; and nothing stands still. */
#include <ccan_every.h>
#include <pthread.h>
#include <stdio.h>
#include <string.h>
#include "shim.h"
#include "c_can.h"

enum { ALL = SENDS + BEFORE, SKBS = 64, OTHER_NODES = 2 };

const struct ethtool_ops c_can_ethtool_ops = { 0 };

static ccan_chip chip = CCAN_CHIP_CLOSED;
static struct net_device the_device, *device;
static irq_handler_t handler;
static atomic_int queue_stopped;
static pthread_mutex_t apart = PTHREAD_MUTEX_INITIALIZER;
static struct sk_buff handed_over[ALL + 1], received_skbs[SKBS];
static int skbs, on_bus[ALL + 1], told[ALL + 1], received[RECEIVES + 1], order[SKBS], order_count, overruns, errors;
static int offered, sent, faults = FAULTS;

static void must(u32 code) { ccan_require(code == CCAN_DONE, "a call answers: %s", ccan_text(code)); }
void driver_error(const char *text) { ccan_fail("the driver says: %s", text); }

static void hold_apart(int (*change)(pthread_mutex_t *))
{
#ifdef APART
    change(&apart);
#else
    (void)change, (void)apart;
#endif
}

/* ---- registers: IF2 is the sender's, and all else is at IF1's handle */

static ccan_host *host_of(enum reg index)
{
    return index >= C_CAN_IF2_COMREQ_REG && index <= C_CAN_IF2_DATA4_REG ? &chip.if2 : &chip.if1;
}

static u32 offset_of(const struct c_can_priv *priv, enum reg index)
{
    return priv->regs[index] * (LAYOUT == CCAN_LAYOUT_C_CAN_32 ? 2u : 1u);
}

static u16 read_one(const struct c_can_priv *priv, enum reg index)
{
    u16 value;
    must(ccan_read16(host_of(index), offset_of(priv, index), &value));
    return value;
}

static void write_one(const struct c_can_priv *priv, enum reg index, u16 value)
{
    must(ccan_write16(host_of(index), offset_of(priv, index), value));
}

static u32 read_two(const struct c_can_priv *priv, enum reg index)
{
    u32 word;
    if (priv->type == BOSCH_D_CAN) {
        must(ccan_read32(host_of(index), offset_of(priv, index), &word));
        return word;
    }
    word = read_one(priv, index);
    return word | (u32)read_one(priv, index + 1) << 16;
}

static void write_two(const struct c_can_priv *priv, enum reg index, u32 value)
{
    if (priv->type == BOSCH_D_CAN) {
        must(ccan_write32(host_of(index), offset_of(priv, index), value));
        return;
    }
    write_one(priv, index + 1, (u16)(value >> 16));
    write_one(priv, index, (u16)value);
}

/* ---- what shim.h declares */

void netif_start_queue(struct net_device *dev) { (void)dev; queue_stopped = 0; }
void netif_stop_queue(struct net_device *dev) { (void)dev; queue_stopped = 1; }
void netif_wake_queue(struct net_device *dev) { (void)dev; queue_stopped = 0; }

int request_irq(int irq, irq_handler_t wanted, unsigned long flags, const char *name, void *of)
{
    (void)irq, (void)flags, (void)name, (void)of;
    handler = wanted;
    return 0;
}

void free_irq(int irq, void *of) { (void)irq, (void)of; }

void netif_napi_add_weight(struct net_device *dev, struct napi_struct *napi, int (*poll)(struct napi_struct *, int), int weight)
{
    *napi = (struct napi_struct){ dev, poll, weight, false, false };
}

void netif_napi_del(struct napi_struct *napi) { napi->poll = NULL; }
void napi_enable(struct napi_struct *napi) { napi->enabled = true; }
void napi_disable(struct napi_struct *napi) { napi->enabled = false; }

bool napi_schedule(struct napi_struct *napi)
{
    bool anew = napi->enabled && !napi->scheduled;
    if (anew)
        napi->scheduled = true;
    return anew;
}

bool napi_complete_done(struct napi_struct *napi, int done)
{
    (void)done;
    napi->scheduled = false;
    return true;
}

struct net_device *alloc_candev(int size, unsigned echoes) { return (void)size, (void)echoes, &the_device; }
void free_candev(struct net_device *dev) { (void)dev; }
int register_candev(struct net_device *dev) { return dev->netdev_ops ? 0 : -EINVAL; }
void unregister_candev(struct net_device *dev) { (void)dev; }
int can_change_mtu(struct net_device *dev, int size) { return (void)dev, (void)size, -EINVAL; }
int open_candev(struct net_device *dev) { return (void)dev, 0; }
void close_candev(struct net_device *dev) { (void)dev; }
void can_bus_off(struct net_device *dev) { (void)dev; }

struct sk_buff *alloc_can_skb(struct net_device *dev, struct can_frame **frame)
{
    struct sk_buff *skb = &received_skbs[skbs++ % SKBS];
    (void)dev;
    memset(skb, 0, sizeof *skb);
    skb->data = (unsigned char *)&skb->frame;
    *frame = &skb->frame;
    return skb;
}

struct sk_buff *alloc_can_err_skb(struct net_device *dev, struct can_frame **frame)
{
    struct sk_buff *skb = alloc_can_skb(dev, frame);
    skb->frame.can_id = CAN_ERR_FLAG;
    return skb;
}

int netif_receive_skb(struct sk_buff *skb)
{
    if (skb->frame.can_id & CAN_ERR_FLAG) {
        *(skb->frame.data[1] == CAN_ERR_CRTL_RX_OVERFLOW ? &overruns : &errors) += 1;
        return 0;
    }
    int number = skb->frame.data[0];
    ccan_require(number < RECEIVES && skb->frame.can_id == 0x300 && skb->frame.len == 1, "a frame is received that was never sent");
    ccan_require(!received[number]++, "frame %d is received twice", number);
    order[order_count++] = number;
    return 0;
}

int can_put_echo_skb(struct sk_buff *skb, struct net_device *dev, unsigned place, unsigned length)
{
    struct can_priv *can = netdev_priv(dev);
    struct sk_buff *before = atomic_exchange(&can->echoes[place], skb);
    (void)length;
    ccan_require(!before, "frame %u is handed over for an object whose frame %u was not told as sent", skb->number, before->number);
    return 0;
}

unsigned can_get_echo_skb(struct net_device *dev, unsigned place, unsigned *length)
{
    struct can_priv *can = netdev_priv(dev);
    struct sk_buff *skb = atomic_exchange(&can->echoes[place], NULL);
    (void)length;
    ccan_require(skb, "an object without a frame is told as sent");
    told[skb->number]++;
    return 1;
}

/* ---- the threads */

static bool hand_over(int number)
{
    struct sk_buff *skb = &handed_over[number];
    if (queue_stopped)
        return false;
    skb->data = (unsigned char *)&skb->frame;
    skb->number = (u32)number;
    skb->frame.can_id = 0x200;
    skb->frame.len = 1;
    skb->frame.data[0] = (u8)number;
    return device->netdev_ops->ndo_start_xmit(skb, device) == NETDEV_TX_OK;
}

static void send_all(void)
{
    for (int number = BEFORE; number < ALL;) {
        hold_apart(pthread_mutex_lock);
        bool done = hand_over(number);
        hold_apart(pthread_mutex_unlock);
        number += done;
        if (!done)
            ccan_wait();
    }
}

static void serve(void)
{
    struct c_can_priv *priv = netdev_priv(device);
    handler(0, device);
    while (priv->napi.scheduled) {
        hold_apart(pthread_mutex_lock);
        priv->napi.poll(&priv->napi, priv->napi.weight);
        hold_apart(pthread_mutex_unlock);
    }
}

static u32 play(bool offers)
{
    ccan_offer frame = { .id = 0x300, .node = 1, .dlc = 1, .bytes = { (u8)offered } };
    ccan_outcome came;
    must(ccan_round(&chip.bus, &frame, offers, faults && ccan_choose(2) ? CCAN_CRC : CCAN_QUIET, &came));
    faults -= came.kind == CCAN_FAULT;
    if (came.kind == CCAN_SENT) {
        int number = came.frame.bytes[0];
        ccan_require(came.frame.id == 0x200 && number < ALL && !on_bus[number]++, "the chip sends %03x#%02x, which was not handed over",
            (unsigned)came.frame.id, (unsigned)number);
        sent++;
    }
    if (came.kind == CCAN_RECEIVED) {
        ccan_require(came.stored, "no object takes frame %d", offered);
        offered++;
    }
    return came.kind;
}

static void play_all(void)
{
    while (offered < RECEIVES || sent < ALL)
        if (play(offered < RECEIVES) == CCAN_IDLE)
            ccan_wait();
}

/* ---- the beginning and the end */

static void start(void)
{
    must(ccan_open_reset(&chip, 1, OTHER_NODES, 1000, LAYOUT));
    device = alloc_c_can_dev(32);
    struct c_can_priv *priv = netdev_priv(device);
    bool d_can = LAYOUT == CCAN_LAYOUT_D_CAN;
    priv->type = d_can ? BOSCH_D_CAN : BOSCH_C_CAN;
    priv->regs = d_can ? reg_map_d_can : reg_map_c_can;
    priv->read_reg = read_one;
    priv->write_reg = write_one;
    priv->read_reg32 = read_two;
    priv->write_reg32 = write_two;
    priv->can.ctrlmode = CAN_CTRLMODE_BERR_REPORTING;
    priv->can.bittiming = (struct can_bittiming){ .bitrate = 500000, .prop_seg = 6, .phase_seg1 = 7, .phase_seg2 = 2, .sjw = 1, .brp = 1 };
    ccan_require(!register_c_can_dev(device) && !device->netdev_ops->ndo_open(device), "the driver does not open");
    for (int number = 0; number < BEFORE; number++) {
        ccan_require(hand_over(number), "a frame of the beginning is not taken");
        play(false);
        serve();
    }
}

static void check(void)
{
    int got = 0;
    bool in_order = true;
    ccan_require(offered == RECEIVES && sent == ALL, "%d of %d frames were sent, %d of %d offered: the driver stands still", sent, ALL,
        offered, RECEIVES);
    for (int number = 0; number < ALL; number++)
        ccan_require(told[number] == 1, "frame %d is told as sent %d times", number, told[number]);
    for (int number = 0; number < RECEIVES; number++)
        got += received[number];
    for (int i = 0; i < order_count; i++)
        in_order &= order[i] == i;
    ccan_require(got == RECEIVES || overruns, "only %d of %d frames were received, and no loss was told", got, RECEIVES);
    ccan_require(!queue_stopped, "the queue is stopped at the end");
    printf("%d sent, %d received%s%s%s\n", sent - BEFORE, got, in_order ? "" : ", out of order", overruns ? ", overruns told" : "",
        errors ? ", errors told" : "");
}

int main(void)
{
    start();
    ccan_irq("interrupt", 0, serve);
    ccan_thread("sender", send_all);
    ccan_thread("bus", play_all);
    ccan_quiet();
    check();
    return 0;
}
