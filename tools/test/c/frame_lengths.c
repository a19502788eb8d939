/* Tells how many bits each frame has that it reads, one a line: by ccan_frame_bits, and with the macro CANFRAMELEN also by
 * can_frame_length of can-utils, which counts the three bits of the intermission too. tools/test/check_frame_bits writes the
 * frames. */
#include <ccan.h>
#include <stdio.h>
#include <string.h>
#ifdef CANFRAMELEN
#include <canframelen.h>

/* 0 for a remote frame with a length, whose bytes can-utils would take for sent. */
static unsigned length_by_can_utils(const ccan_frame *frame)
{
    struct canfd_frame told;
    if (frame->rtr && frame->dlc)
        return 0;
    memset(&told, 0, sizeof told);
    told.can_id = frame->id | (frame->xtd ? CAN_EFF_FLAG : 0) | (frame->rtr ? CAN_RTR_FLAG : 0);
    told.len = frame->dlc;
    memcpy(told.data, frame->bytes, sizeof frame->bytes);
    return can_frame_length(&told, CFL_EXACT, CAN_MTU);
}
#else
static unsigned length_by_can_utils(const ccan_frame *frame) { (void)frame; return 0; }
#endif

int main(void)
{
    unsigned id, xtd, rtr, dlc;
    unsigned long long data;
    while (scanf("%x %u %u %u %llx", &id, &xtd, &rtr, &dlc, &data) == 5) {
        ccan_frame frame = { id, (uint8_t)xtd, (uint8_t)rtr, (uint8_t)dlc, { 0 } };
        uint32_t bits;
        for (int at = 0; at < 8; at++)
            frame.bytes[at] = (uint8_t)(data >> (56 - 8 * at));
        if (ccan_frame_bits(&frame, &bits) != CCAN_DONE)
            return 1;
        printf("%u %u\n", (unsigned)bits, length_by_can_utils(&frame));
    }
    return 0;
}
