/* The calls of several chips on one bus, with time: this library has one chip and no time, so it does not know them. Each is here
 * to refuse with a word, where a program that calls it would not link without it. */
#include "chip.h"

__attribute__((noreturn)) static void refuse(const char *call)
{
    stop(2, "the program calls %s: the calls of several chips on one bus are not known to this library", call);
}

#define NOT_KNOWN(call, ...) \
    uint32_t call(__VA_ARGS__) { refuse(#call); }

/* Nothing is done with their parameters. */
#pragma GCC diagnostic ignored "-Wunused-parameter"
NOT_KNOWN(ccan_begin, ccan_bus *bus, ccan_member *out)
NOT_KNOWN(ccan_stay, ccan_bus *bus, ccan_member *out)
NOT_KNOWN(ccan_finish, ccan_bus *bus, const ccan_wire *wire, uint32_t place, uint32_t fault, ccan_finished *out)
NOT_KNOWN(ccan_retry_event, ccan_bus *bus, const ccan_finished *lost)
NOT_KNOWN(ccan_decide, const ccan_member *members, size_t count, ccan_wire *out)
NOT_KNOWN(ccan_decide_again, const ccan_wire *start, const ccan_member *members, size_t count, ccan_wire *out)
NOT_KNOWN(ccan_node_begin, const ccan_node *node, uint32_t sends, const ccan_frame *frame, ccan_member *out)
NOT_KNOWN(ccan_node_finish, ccan_node *node, const ccan_wire *wire, uint32_t place, const ccan_member *member, uint32_t *event)
NOT_KNOWN(ccan_node_recessive, ccan_node *node, uint32_t groups)
NOT_KNOWN(ccan_frame_bits, const ccan_frame *frame, uint32_t *out)
NOT_KNOWN(ccan_bit_time, uint16_t bit_timing, uint16_t extension)
