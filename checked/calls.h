/* The calls of ccan.h, one entry for each, with what the checked library checks of it:
 *
 *   CALL(result, name, (parameters), (arguments), pointers)
 *
 * The parameters stand as in ccan.h, and the compiler compares them. `pointers` lists each pointer that the call is given,
 * without commas, the handles and chips first:
 *
 *   HOST(host)            a host's handle, which no other call may use meanwhile (promise 2)
 *   BUS(bus)              the same for a bus's handle
 *   CHIP(chip)            a whole chip: no other call may use one of its handles meanwhile (promise 3)
 *   CHIPS(chips, count)   the same for an array of chips
 *   NOTE(note)            a note, which a handle of another chip may not heed (promise 8)
 *   READS(from, count)    an array that the call reads
 *   WRITES(to, count)     an array that the call writes
 *
 * To add a call of ccan.h, add its entry here: that is all, and tools/build/checked_library refuses to build while an entry is
 * missing. A call may have several handles and chips, of one chip or of several. So a call between two handles has
 * `HOST(host) BUS(bus)`. A pointer of a new kind, such as one to an array of pointers to chips, needs a macro and a kind in
 * argument.h, and a case in enter_argument and in leave_argument of enter.c.
 *
 * This file is included several times, each time with another CALL. */

CALL(uint32_t, ccan_version, (void), (), )

/* ---- the whole chip */
CALL(uint32_t, ccan_open, (ccan_chip *chip, uint32_t profile, uint32_t nodes, uint32_t tries),
    (chip, profile, nodes, tries), CHIP(chip))
CALL(uint32_t, ccan_open_reset, (ccan_chip *chip, uint32_t profile, uint32_t nodes, uint32_t tries, uint32_t layout),
    (chip, profile, nodes, tries, layout), CHIP(chip))
CALL(bool, ccan_is_open, (const ccan_chip *chip), (chip), CHIP(chip))
CALL(uint32_t, ccan_end, (ccan_chip *chip, ccan_final *out), (chip, out), CHIP(chip) WRITES(out, 1))
CALL(uint32_t, ccan_meet, (ccan_chip *chip), (chip), CHIP(chip))
CALL(uint32_t, ccan_save, (ccan_chip *chip, ccan_saved *out), (chip, out), CHIP(chip) WRITES(out, 1))
CALL(uint32_t, ccan_restore, (ccan_chip *chip, const ccan_saved *saved), (chip, saved), CHIP(chip) READS(saved, 1))
CALL(uint32_t, ccan_reset, (ccan_chip *chip), (chip), CHIP(chip))

/* ---- notes */
CALL(uint32_t, ccan_tell, (ccan_host *host, ccan_note *note), (host, note), HOST(host) NOTE(note))
CALL(uint32_t, ccan_bus_tell, (ccan_bus *bus, ccan_note *note), (bus, note), BUS(bus) NOTE(note))
CALL(uint32_t, ccan_heed, (ccan_host *host, ccan_note *note), (host, note), HOST(host) NOTE(note))
CALL(uint32_t, ccan_bus_heed, (ccan_bus *bus, ccan_note *note), (bus, note), BUS(bus) NOTE(note))
CALL(uint32_t, ccan_forget, (ccan_note *note), (note), NOTE(note))

/* ---- registers by their offsets */
CALL(uint32_t, ccan_read16, (ccan_host *host, uint32_t offset, uint16_t *out), (host, offset, out), HOST(host) WRITES(out, 1))
CALL(uint32_t, ccan_write16, (ccan_host *host, uint32_t offset, uint16_t value), (host, offset, value), HOST(host))
CALL(uint32_t, ccan_read8, (ccan_host *host, uint32_t offset, uint8_t *out), (host, offset, out), HOST(host) WRITES(out, 1))
CALL(uint32_t, ccan_write8, (ccan_host *host, uint32_t offset, uint8_t value), (host, offset, value), HOST(host))
CALL(uint32_t, ccan_read32, (ccan_host *host, uint32_t offset, uint32_t *out), (host, offset, out), HOST(host) WRITES(out, 1))
CALL(uint32_t, ccan_write32, (ccan_host *host, uint32_t offset, uint32_t value), (host, offset, value), HOST(host))
CALL(uint32_t, ccan_line, (ccan_host *host, uint32_t *out), (host, out), HOST(host) WRITES(out, 1))
CALL(uint32_t, ccan_bus_read16, (ccan_bus *bus, uint32_t offset, uint16_t *out), (bus, offset, out), BUS(bus) WRITES(out, 1))
CALL(uint32_t, ccan_bus_write16, (ccan_bus *bus, uint32_t offset, uint16_t value), (bus, offset, value), BUS(bus))
CALL(uint32_t, ccan_bus_read8, (ccan_bus *bus, uint32_t offset, uint8_t *out), (bus, offset, out), BUS(bus) WRITES(out, 1))
CALL(uint32_t, ccan_bus_write8, (ccan_bus *bus, uint32_t offset, uint8_t value), (bus, offset, value), BUS(bus))
CALL(uint32_t, ccan_bus_read32, (ccan_bus *bus, uint32_t offset, uint32_t *out), (bus, offset, out), BUS(bus) WRITES(out, 1))
CALL(uint32_t, ccan_bus_write32, (ccan_bus *bus, uint32_t offset, uint32_t value), (bus, offset, value), BUS(bus))
CALL(uint32_t, ccan_bus_line, (ccan_bus *bus, uint32_t *out), (bus, out), BUS(bus) WRITES(out, 1))

/* ---- a host */
CALL(uint32_t, ccan_set, (ccan_host *host, uint32_t reg, uint16_t value), (host, reg, value), HOST(host))
CALL(uint32_t, ccan_get, (ccan_host *host, uint32_t reg, uint16_t *out), (host, reg, out), HOST(host) WRITES(out, 1))
CALL(uint32_t, ccan_request, (ccan_host *host, uint16_t request), (host, request), HOST(host))
CALL(uint32_t, ccan_flags, (ccan_host *host, uint32_t flag, uint64_t *out), (host, flag, out), HOST(host) WRITES(out, 1))
CALL(uint32_t, ccan_interrupt, (ccan_host *host, uint16_t *out), (host, out), HOST(host) WRITES(out, 1))
CALL(uint32_t, ccan_peek, (ccan_host *host, uint32_t object, ccan_record *out), (host, object, out), HOST(host) WRITES(out, 1))
CALL(uint32_t, ccan_until, (ccan_host *host, uint32_t object, uint32_t flag, uint32_t turns, uint32_t *out),
    (host, object, flag, turns, out), HOST(host) WRITES(out, 1))
CALL(uint32_t, ccan_clear_objects, (ccan_host *host), (host), HOST(host))

/* ---- the bus */
CALL(uint32_t, ccan_load, (ccan_bus *bus, ccan_loaded *out), (bus, out), BUS(bus) WRITES(out, 1))
CALL(uint32_t, ccan_round, (ccan_bus *bus, const ccan_offer *offers, size_t count, uint32_t fault, ccan_outcome *out),
    (bus, offers, count, fault, out), BUS(bus) READS(offers, count <= 8 ? count : 0) WRITES(out, 1)) /* more are refused unread */
CALL(uint32_t, ccan_status, (ccan_bus *bus, uint16_t *out), (bus, out), BUS(bus) WRITES(out, 1))
CALL(uint32_t, ccan_counters, (ccan_bus *bus, uint32_t node, ccan_counts *out), (bus, node, out), BUS(bus) WRITES(out, 1))
CALL(uint32_t, ccan_control, (ccan_bus *bus, uint32_t sie, uint32_t eie), (bus, sie, eie), BUS(bus))
CALL(uint32_t, ccan_init, (ccan_bus *bus), (bus), BUS(bus))
CALL(uint32_t, ccan_recessive, (ccan_bus *bus, uint32_t groups, uint32_t *out), (bus, groups, out), BUS(bus) WRITES(out, 1))
CALL(uint32_t, ccan_power_down, (ccan_bus *bus, uint32_t *out), (bus, out), BUS(bus) WRITES(out, 1))
CALL(uint32_t, ccan_loop_back, (ccan_bus *bus, uint32_t on), (bus, on), BUS(bus))
CALL(uint32_t, ccan_bus_interrupt, (ccan_bus *bus, uint16_t *out), (bus, out), BUS(bus) WRITES(out, 1))
CALL(uint32_t, ccan_bus_flags, (ccan_bus *bus, uint32_t flag, uint64_t *out), (bus, flag, out), BUS(bus) WRITES(out, 1))

/* ---- several chips on one bus */
CALL(uint32_t, ccan_begin, (ccan_bus *bus, ccan_member *out), (bus, out), BUS(bus) WRITES(out, 1))
CALL(uint32_t, ccan_stay, (ccan_bus *bus, ccan_member *out), (bus, out), BUS(bus) WRITES(out, 1))
CALL(uint32_t, ccan_finish, (ccan_bus *bus, const ccan_wire *wire, uint32_t place, uint32_t fault, ccan_finished *out),
    (bus, wire, place, fault, out), BUS(bus) READS(wire, 1) WRITES(out, 1))
CALL(uint32_t, ccan_retry_event, (ccan_bus *bus, const ccan_finished *lost), (bus, lost), BUS(bus) READS(lost, 1))
CALL(uint32_t, ccan_decide, (const ccan_member *members, size_t count, ccan_wire *out),
    (members, count, out), READS(members, count <= 32 ? count : 0) WRITES(out, 1)) /* more are refused unread */
CALL(uint32_t, ccan_decide_again, (const ccan_wire *start, const ccan_member *members, size_t count, ccan_wire *out),
    (start, members, count, out), READS(start, 1) READS(members, count <= 32 ? count : 0) WRITES(out, 1))
CALL(uint32_t, ccan_node_begin, (const ccan_node *node, uint32_t sends, const ccan_frame *frame, ccan_member *out),
    (node, sends, frame, out), READS(node, 1) READS(frame, 1) WRITES(out, 1))
CALL(uint32_t, ccan_node_finish,
    (ccan_node *node, const ccan_wire *wire, uint32_t place, const ccan_member *member, uint32_t *event),
    (node, wire, place, member, event), WRITES(node, 1) READS(wire, 1) READS(member, 1) WRITES(event, 1))
CALL(uint32_t, ccan_node_recessive, (ccan_node *node, uint32_t groups), (node, groups), WRITES(node, 1))
CALL(uint32_t, ccan_frame_bits, (const ccan_frame *frame, uint32_t *out), (frame, out), READS(frame, 1) WRITES(out, 1))
CALL(uint32_t, ccan_bit_time, (uint16_t bit_timing, uint16_t extension), (bit_timing, extension), )

#undef CALL
