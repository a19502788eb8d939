/* What run.c and pair.c have in common: the frames, and what shim.h declares that is the same for each device. */
#ifndef COMMON_H
#define COMMON_H
#include <ccan.h>
#include <stdio.h>
#include <stdlib.h>
#include <string.h>
#include <time.h>
#include "shim.h"
#include "c_can.h"

static void must(u32 code, const char *what)
{
    if (code != CCAN_DONE) {
        fprintf(stderr, "%s: %s\n", what, ccan_text(code));
        exit(1);
    }
}

/* ---- the frames. Those of the two sides never have the same identifier. */

static u32 mixed(u32 word)
{
    word = (word ^ word >> 16) * 0x7feb352du;
    word = (word ^ word >> 15) * 0x846ca68bu;
    return word ^ word >> 16;
}

/* The frame of a number: side 0 is the driver's, side 1 the other node's. Its number can be read off it, the low 16 bits from an
 * extended identifier, and else the whole from four bytes. */
static ccan_frame frame_numbered(u32 number, u32 side)
{
    u32 dice = mixed(2 * number + side), priority = dice & 15;
    ccan_frame frame;
    memset(&frame, 0, sizeof frame);
    frame.xtd = dice >> 4 & 1;
    frame.rtr = frame.xtd && (dice >> 5 & 7) == 0;
    if (frame.xtd) {
        frame.id = priority << 25 | side << 24 | (dice >> 8 & 0xff) << 16 | (number & 0xffff);
        frame.dlc = (dice >> 16) % (side ? 16 : 9);
    } else {
        frame.id = priority << 7 | side << 6 | (number & 63);
        frame.dlc = 4 + (dice >> 16) % (side ? 12 : 5);
    }
    for (u32 i = 0; i < 8 && i < frame.dlc && !frame.rtr; i++)
        frame.bytes[i] = (u8)(i < 4 ? number >> 8 * i : dice >> (5 * i - 8));
    return frame;
}

/* The number of a frame, near to another number. */
static u32 number_of(const ccan_frame *frame, u32 near)
{
    if (frame->xtd)
        return near + (u32)(int16_t)((frame->id & 0xffff) - (near & 0xffff));
    return frame->bytes[0] | (u32)frame->bytes[1] << 8 | (u32)frame->bytes[2] << 16 | (u32)frame->bytes[3] << 24;
}

static bool same(const ccan_frame *one, const ccan_frame *other)
{
    return one->id == other->id && one->xtd == other->xtd && one->rtr == other->rtr && one->dlc == other->dlc
        && memcmp(one->bytes, other->bytes, 8) == 0;
}

static u32 length_of(const ccan_frame *frame) { return frame->rtr ? 0 : can_cc_dlc2len(frame->dlc); }

/* ---- what shim.h declares: polls, frames and devices */

void netif_napi_add_weight(struct net_device *dev, struct napi_struct *napi, int (*poll)(struct napi_struct *, int), int weight)
{
    *napi = (struct napi_struct){ dev, poll, weight, false, false };
}

void netif_napi_del(struct napi_struct *napi) { napi->poll = NULL; }
void napi_enable(struct napi_struct *napi) { napi->enabled = true; }
void napi_disable(struct napi_struct *napi) { napi->enabled = false; }

bool napi_schedule(struct napi_struct *napi)
{
    bool anew = napi->enabled && !napi->scheduled;
    if (anew)
        napi->scheduled = true;
    return anew;
}

bool napi_complete_done(struct napi_struct *napi, int done)
{
    (void)done;
    napi->scheduled = false;
    return true;
}

struct net_device *alloc_candev(int size, unsigned echoes)
{
    struct net_device *dev = aligned_alloc(64, sizeof *dev);
    if (!dev || (size_t)size > sizeof dev->driver_data || echoes > ECHOES)
        must(CCAN_NO_MEMORY, "alloc_candev");
    memset(dev, 0, sizeof *dev);
    strcpy(dev->name, "can0");
    return dev;
}

void free_candev(struct net_device *dev) { free(dev); }
int register_candev(struct net_device *dev) { return dev->netdev_ops ? 0 : -EINVAL; }
void unregister_candev(struct net_device *dev) { dev->netdev_ops = NULL; }
int can_change_mtu(struct net_device *dev, int size) { (void)dev, (void)size; return -EINVAL; }

static struct sk_buff *new_skb(struct net_device *dev)
{
    struct sk_buff *skb = calloc(1, sizeof *skb);
    if (!skb)
        must(CCAN_NO_MEMORY, "a frame");
    skb->dev = dev;
    skb->data = (unsigned char *)&skb->frame;
    return skb;
}

struct sk_buff *alloc_can_skb(struct net_device *dev, struct can_frame **frame)
{
    struct sk_buff *skb = new_skb(dev);
    *frame = &skb->frame;
    return skb;
}

struct sk_buff *alloc_can_err_skb(struct net_device *dev, struct can_frame **frame)
{
    struct sk_buff *skb = alloc_can_skb(dev, frame);
    skb->frame.can_id = CAN_ERR_FLAG;
    skb->frame.len = CAN_ERR_DLC;
    return skb;
}

/* Whether a C_CAN's ring has room. Where all its objects are taken and none is told as sent, the driver itself takes one more: it
 * looks at the low bits of head and tail alone, so a ring that is full is then an empty one to it. A D_CAN's ring is counted. */
static bool ring_has_room(struct net_device *device)
{
    struct c_can_priv *priv = netdev_priv(device);
    const u32 tail = __atomic_load_n(&priv->tx.tail, __ATOMIC_RELAXED);
    return priv->type == BOSCH_D_CAN || priv->tx.head - tail < priv->tx.obj_num;
}

/* ---- time */

static double seconds(void)
{
    struct timespec now;
    clock_gettime(CLOCK_MONOTONIC, &now);
    return (double)now.tv_sec + 1e-9 * (double)now.tv_nsec;
}
#endif
