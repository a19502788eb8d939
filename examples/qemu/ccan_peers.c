/*
 * QEMU's other devices of a can-bus, as members of a network: see
 * ccan_peers.h.
 *
 * They are two members. One sends, and the other acknowledges: a frame of a
 * device of QEMU counts as sent before it comes here, so that it may need no
 * acknowledgement by a chip. Both join anew for each frame, error active.
 */
#include "qemu/osdep.h"
#include "ccan_net.h"
#include "ccan_peers.h"

static ccan_frame to_ccan(const qemu_can_frame *in)
{
    bool extended = in->can_id & QEMU_CAN_EFF_FLAG;
    ccan_frame out = {
        .id = in->can_id & (extended ? QEMU_CAN_EFF_MASK : QEMU_CAN_SFF_MASK),
        .xtd = extended,
        .rtr = !!(in->can_id & QEMU_CAN_RTR_FLAG),
        .dlc = MIN(in->can_dlc, 8),
    };

    if (!out.rtr) {
        memcpy(out.bytes, in->data, out.dlc);
    }
    return out;
}

static qemu_can_frame to_qemu(const ccan_frame *in)
{
    qemu_can_frame out = {
        .can_id = in->id | (in->xtd ? QEMU_CAN_EFF_FLAG : 0)
                  | (in->rtr ? QEMU_CAN_RTR_FLAG : 0),
        .can_dlc = MIN(in->dlc, 8),
    };

    memcpy(out.data, in->bytes, sizeof(in->bytes));
    return out;
}

static bool is_classic(const qemu_can_frame *frame)
{
    return !(frame->flags & QEMU_CAN_FRMF_TYPE_FD)
           && !(frame->can_id & QEMU_CAN_ERR_FLAG);
}

static bool ccan_peers_can_receive(CanBusClientState *client)
{
    CcanPeers *peers = container_of(client, CcanPeers, client);

    return peers->count < CCAN_PEERS_WAITING;
}

static ssize_t ccan_peers_receive(CanBusClientState *client,
                                  const qemu_can_frame *frames, size_t count)
{
    CcanPeers *peers = container_of(client, CcanPeers, client);

    if (count != 1 || !is_classic(frames)) {
        return 0;
    }
    peers->waiting[peers->count] = to_ccan(frames);
    peers->count++;
    peers->arrived(peers->opaque);
    return 1;
}

static CanBusClientInfo ccan_peers_info = {
    .can_receive = ccan_peers_can_receive,
    .receive = ccan_peers_receive,
};

void ccan_peers_init(CcanPeers *peers, CanBusState *canbus,
                     void (*arrived)(void *opaque), void *opaque)
{
    peers->arrived = arrived;
    peers->opaque = opaque;
    peers->client.info = &ccan_peers_info;
    can_bus_insert_client(canbus, &peers->client);
}

void ccan_peers_join(CcanPeers *peers, ccan_network *network)
{
    ccan_net_check(ccan_network_add_node(network, &peers->talker),
                   "ccan_network_add_node");
    ccan_net_check(ccan_network_add_node(network, &peers->listener),
                   "ccan_network_add_node");
    peers->joined = true;
    if (peers->count) {
        ccan_net_check(ccan_network_offer(network, peers->talker,
                                          &peers->waiting[0]),
                       "ccan_network_offer");
    }
}

void ccan_peers_hand_out(CcanPeers *peers, ccan_network *network)
{
    qemu_can_frame frame = to_qemu(&network->wire.frame);

    if (can_bus_client_send(&peers->client, &frame, 1) <= 0) {
        ccan_peers_leave(peers, network);
    }
}

static void drop_first(CcanPeers *peers)
{
    peers->count--;
    memmove(&peers->waiting[0], &peers->waiting[1],
            peers->count * sizeof(peers->waiting[0]));
}

void ccan_peers_leave(CcanPeers *peers, ccan_network *network)
{
    if (!peers->joined) {
        return;
    }
    if (!network->under_way
        && network->at[peers->talker].ended.event == CCAN_EVENT_SENT) {
        drop_first(peers);
    }
    ccan_net_check(ccan_network_remove(network, peers->talker),
                   "ccan_network_remove");
    ccan_net_check(ccan_network_remove(network, peers->listener),
                   "ccan_network_remove");
    peers->joined = false;
}

static int ccan_frame_post_load(void *opaque, int version)
{
    ccan_frame *frame = opaque;
    uint32_t bits;

    return ccan_frame_bits(frame, &bits) == CCAN_DONE ? 0 : -EINVAL;
}

static const VMStateDescription vmstate_ccan_frame = {
    .name = "ccan-frame",
    .version_id = 1,
    .minimum_version_id = 1,
    .post_load = ccan_frame_post_load,
    .fields = (VMStateField[]) {
        VMSTATE_UINT32(id, ccan_frame),
        VMSTATE_UINT8(xtd, ccan_frame),
        VMSTATE_UINT8(rtr, ccan_frame),
        VMSTATE_UINT8(dlc, ccan_frame),
        VMSTATE_UINT8_ARRAY(bytes, ccan_frame, 8),
        VMSTATE_END_OF_LIST()
    }
};

static int ccan_peers_post_load(void *opaque, int version)
{
    CcanPeers *peers = opaque;

    return peers->count <= CCAN_PEERS_WAITING ? 0 : -EINVAL;
}

const VMStateDescription vmstate_ccan_peers = {
    .name = "ccan-peers",
    .version_id = 1,
    .minimum_version_id = 1,
    .post_load = ccan_peers_post_load,
    .fields = (VMStateField[]) {
        VMSTATE_UINT32(count, CcanPeers),
        VMSTATE_STRUCT_ARRAY(waiting, CcanPeers, CCAN_PEERS_WAITING, 1,
                             vmstate_ccan_frame, ccan_frame),
        VMSTATE_END_OF_LIST()
    }
};
