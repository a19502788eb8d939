/*
 * QEMU's other devices of a can-bus, as members of a network of
 * <ccan_network.h> that have no chip: can-host-socketcan, sja1000 and others.
 *
 * They have neither time nor arbitration. What one of them sends is here at
 * once, and waits until the network has sent it. What a chip sends they get
 * when the frame ends, and if one of them takes it, it is acknowledged.
 */
#ifndef HW_CAN_CCAN_PEERS_H
#define HW_CAN_CCAN_PEERS_H

#include <ccan_network.h>
#include "migration/vmstate.h"
#include "net/can_emu.h"

enum { CCAN_PEERS_WAITING = 64 };

typedef struct CcanPeers {
    CanBusClientState client;
    void (*arrived)(void *opaque);          /* a frame waits */
    void *opaque;
    ccan_frame waiting[CCAN_PEERS_WAITING]; /* the first of them is sent next */
    uint32_t count;
    bool joined;                            /* has the two places below */
    uint32_t talker;                        /* sends what waits */
    uint32_t listener;                      /* acknowledges */
} CcanPeers;

/* Puts the network's end on the can-bus. */
void ccan_peers_init(CcanPeers *peers, CanBusState *canbus,
                     void (*arrived)(void *opaque), void *opaque);

/* Before a frame may begin: joins the network, with what waits. */
void ccan_peers_join(CcanPeers *peers, ccan_network *network);

/* Before the end of a chip's frame that nothing has broken: hands it out. */
void ccan_peers_hand_out(CcanPeers *peers, ccan_network *network);

/* After the end of a frame, or if none began: leaves the network. */
void ccan_peers_leave(CcanPeers *peers, ccan_network *network);

extern const VMStateDescription vmstate_ccan_peers;

#endif
