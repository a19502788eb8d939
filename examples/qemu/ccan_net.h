/*
 * The chips of libccan on one can-bus: a network of <ccan_network.h> on
 * QEMU's virtual clock.
 *
 * All of it runs under the big lock, so one thread at a time has all handles
 * of all chips. Each function here calls ccan_meet of the chips itself.
 */
#ifndef HW_CAN_CCAN_NET_H
#define HW_CAN_CCAN_NET_H

#include <ccan_network.h>
#include "net/can_emu.h"
#include "qemu/queue.h"

/*
 * A chip on a network. Its device opens `chip` before it joins, and ends it
 * after it has left; it sets `clock` and `update`. The next `fault_frames`
 * frames that the chip sends are spoiled: it finds the error `fault` in them,
 * an enum ccan_fault.
 */
typedef struct CcanChip CcanChip;
struct CcanChip {
    ccan_chip chip;
    uint32_t clock;                 /* of CAN_CLK, in Hz */
    void (*update)(CcanChip *chip); /* the interrupt line may be another now */
    uint32_t fault;
    uint32_t fault_frames;
    uint32_t place;                 /* in the network */
    QTAILQ_ENTRY(CcanChip) next;
};

typedef struct CcanNet CcanNet;

/* The network of this can-bus, made by the first call, and as long there. */
CcanNet *ccan_net_of(CanBusState *canbus, Error **errp);

/* Joins the network; takes part from the next frame on. */
bool ccan_net_join(CcanNet *net, CcanChip *chip, Error **errp);

/* Leaves the network, also in the middle of a frame. */
void ccan_net_leave(CcanNet *net, CcanChip *chip);

/*
 * Before an access by which a guest may clear Init: the time that has passed
 * until now does not count for the way back from bus off.
 */
void ccan_net_pass(CcanNet *net);

/*
 * After an access by which a guest may have requested a transmission, or
 * cleared Init: a frame begins if the bus is free.
 */
void ccan_net_kick(CcanNet *net);

/*
 * Reports a code of the library that says that something was not done. The
 * calls that a device makes answer no such code while one thread at a time
 * makes them.
 */
void ccan_net_check(uint32_t code, const char *call);

#endif
