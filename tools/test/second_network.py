"""A second model of several members on one bus, beside that of a chip (`second_model.py`), after CAN Specification 2.0 (part B,
sections 2 and 3, "Error Detection", "Error Signalling", "Fault Confinement"), ISO 11898-1 and the C_CAN User's Manual 1.2.

It plays each frame bit by bit. Each member drives a bit of its own, the bus is dominant if one of them is, and each member looks at
the bus and finds for itself what is wrong: a bit that it did not send, six equal bits, a wrong check sequence, a bit of fixed form,
a missing acknowledgement. Error flags are bits as others are. So what a frame is to each member is not decided anywhere, it comes
about. Idle time is played bit by bit too. What docs/MODEL.md simplifies is done as it says, and marked "as the model says" here."""
import functools

from frame_bits import arbitration_bits, checked_bits, stuffed, stuffed_part
from second_model import (
    C_CAN, C_CAN_32, CONTROL, COUNTER, D_CAN, EIE, INIT, INTERRUPT, LBACK, LINE, PDR, PORTS, SIE, STATUS, TEST, TEST_REGISTER, UPPER,
    ZERO, Change, Chip, Node, accepts, finished, frame_in, frame_of, host_lines, length, made_frame, number_asked, power_down, ready,
    register_line, shown, started, stored,
)

SILENT_BIT, DAR = 0x08, 0x20
ABSENT, SILENT, ALONE, PASSIVE, ACTIVE, LOOPED = range(6)
IDLE, COLLIDED, BROKEN, FLAGGED, UNHEARD, CARRIED = range(6)
LISTENER, SENDER, DROPPED = range(3)
NOTHING, SENT, RECEIVED, LOOPED_FRAME, ERROR = range(5)
COUNTS_NOTHING, COUNTS_SENT, COUNTS_RECEIVED, SEND_ERROR, NO_ACK, RECEIVE_ERROR = range(6)
FLAWS = {"none": 0, "stuff": 1, "form": 2, "bit1": 3, "bit0": 4, "crc": 5}
STUFF_CODE, FORM_CODE, ACK_CODE, BIT1_CODE, BIT0_CODE, CRC_CODE = range(1, 7)
CODES = {"stuff": STUFF_CODE, "form": FORM_CODE, "bit1": BIT1_CODE, "bit0": BIT0_CODE, "crc": CRC_CODE}
DOMINANT, RECESSIVE = 0, 1
FLAG, DELIMITER, INTERMISSION, SUSPENDED, GROUP = 6, 8, 3, 8, 11
# bits from the start of frame to the data length code
STANDARD_HEAD, EXTENDED_HEAD = 19, 39
# An error in the stuffed part is found so many bits before its end, so that the flag for it lies in that part too. (As the model
# says: behind the arbitration, and behind all bits in which frames of the same arbitration first differ.)
BEFORE_END = 10


def drives(role):
    """Whether a member of this role puts bits on the bus."""
    return role in (PASSIVE, ACTIVE, LOOPED)


def hears(role):
    """Whether it looks at the bus."""
    return role in (SILENT, PASSIVE, ACTIVE)


# ---- the bits of a frame


class Coded:
    """A frame as bits: `bits` from its start to its end, of which `stuffed` are stuffed and `arbitration` belong to the start and
    the arbitration field. `plain` are the bits without stuff bits and check sequence; they decide which of two frames is first."""

    def __init__(self, frame):
        identifier, extended, remote, code, data = frame
        content = () if remote else data[: length(code)]
        self.frame = frame
        self.plain = checked_bits(identifier, extended, remote, code, content)
        self.asks_with = arbitration_bits(identifier, extended, remote)
        self.arbitration = len(stuffed(self.asks_with))
        part = stuffed_part(self.plain)
        self.stuffed = len(part)
        self.bits = part + [RECESSIVE] * 10  # CRC delimiter, ACK slot, ACK delimiter, end of frame


@functools.lru_cache(maxsize=4096)
def coded(frame):
    return Coded(frame)


class Reader:
    """What a member reads off the bus: it takes stuff bits out, and knows by the bits that came where in a frame it is."""

    def __init__(self):
        self.got, self.run, self.behind, self.wanted = [], 0, 0, STANDARD_HEAD

    def learns(self):
        """How many bits without stuff bits there are to the end of the check sequence, as far as that is known by now."""
        is_extended = self.got[13]
        if is_extended and len(self.got) < EXTENDED_HEAD:
            return EXTENDED_HEAD
        head, is_remote = (EXTENDED_HEAD, self.got[32]) if is_extended else (STANDARD_HEAD, self.got[12])
        code = int("".join(map(str, self.got[head - 4 : head])), 2)
        return head + (0 if is_remote else 8 * length(code)) + 15

    def is_stuffed(self):
        """Whether the next bit is of the stuffed part."""
        return len(self.got) < self.wanted or self.run == 5

    def has_wrong_check(self):
        return stuffed_part(self.got[:-15]) != stuffed(self.got)

    def next_is_slot(self):
        return self.behind == 1

    def reads(self, bit):
        """Takes the next bit, and answers the code of an error, or 0."""
        if self.is_stuffed():
            return self.reads_stuffed(bit)
        self.behind += 1
        if self.behind == 2:  # the ACK slot
            return 0
        if bit == DOMINANT and self.behind <= 9:  # all but the last bit of the end of frame
            return FORM_CODE
        return CRC_CODE if self.behind == 3 and self.has_wrong_check() else 0

    def reads_stuffed(self, bit):
        if self.run == 5:
            if bit == self.last:
                return STUFF_CODE
            self.last, self.run = bit, 1
            return 0
        self.run = self.run + 1 if self.got and bit == self.last else 1
        self.last = bit
        self.got.append(bit)
        if len(self.got) in (STANDARD_HEAD, EXTENDED_HEAD) and len(self.got) == self.wanted:
            self.wanted = self.learns()
        return 0


# ---- a member while a frame is sent


class Seat:
    """A member while a frame is sent. `flaw` is the error that it is told to find by itself, and `leaves` says that its host takes
    it off the bus meanwhile (as the model says: before the end of the check sequence)."""

    def __init__(self, role, frame=None, flaw="none", leaves=False):
        self.role, self.flaw, self.leaves, self.misses_ack = role, flaw, leaves, False
        self.coded = coded(frame) if frame else None
        self.sends = self.coded is not None and role != SILENT and role != ABSENT
        self.reader = Reader()
        self.hears, self.drives = hears(role), drives(role)
        self.is_sender = self.sends and self.drives
        self.is_there = role != ABSENT
        self.flag_left = 0      # bits of its error flag that are still to come
        self.code = 0           # of the error that it has found
        self.found_as_sender = self.saw_flag = self.clashed = False

    def drives_at(self, at):
        """The bit that it drives."""
        if not self.is_there or not self.drives:
            return RECESSIVE
        if self.flag_left:
            return DOMINANT if self.role == ACTIVE else RECESSIVE
        if self.code:
            return RECESSIVE
        if self.is_sender:
            return self.coded.bits[at] if at < len(self.coded.bits) else RECESSIVE
        if self.hears and self.reader.next_is_slot() and self.flaw == "none" and not self.reader.has_wrong_check():
            return DOMINANT
        return RECESSIVE

    def drives_flag(self):
        return self.is_there and self.flag_left > 0 and self.role == ACTIVE

    def looks(self, at, bit, bus):
        """Looks at a bit of the bus, and finds what is wrong."""
        if self.leaves and at == bus.early and not bus.collided:
            self.is_there = False
        if not self.is_there or not self.hears:
            return
        if self.flag_left:
            self.flag_left -= 1
            self.saw_flag |= bit == DOMINANT
        if self.code or at >= bus.over:
            return
        seen = self.reader.reads(bit)
        if self.is_sender:
            seen = self.compares(at, bit, bus)
        self.finds(at, seen, bus)

    def compares(self, at, bit, bus):
        """What a sender finds by comparing: it goes on, or has lost the arbitration, or has found an error."""
        mine = self.coded.bits[at]
        if at == self.coded.stuffed + 1:
            return ACK_CODE if bit == RECESSIVE else 0
        if mine == bit:
            return 0
        if mine == RECESSIVE and at < self.coded.arbitration and not bus.flag_is_there:
            self.is_sender = False
            return 0
        if at >= self.coded.stuffed:
            return FORM_CODE  # as the model says: in a field of fixed form the form is wrong
        self.clashed = not bus.flag_is_there
        bus.collided |= self.clashed and self.role == ACTIVE
        return BIT1_CODE if mine == RECESSIVE else BIT0_CODE

    def finds(self, at, seen, bus):
        """Notes an error: one of its own at the place for it, else what it sees. As the model says, one that is told to find an
        error finds it at the latest when another's flag ends the frame."""
        own = CODES[self.flaw] if self.flaw != "none" and not bus.collided and not self.clashed else 0
        if not seen and not (own and at == bus.place_of(self.flaw, self.is_sender)):
            return
        self.code = own or seen
        self.found_as_sender = self.is_sender
        self.misses_ack = not own and seen == ACK_CODE
        self.flag_left = FLAG
        if self.role == ACTIVE:
            bus.first_flag = min(bus.first_flag, at + 1)

    def event(self, bus):
        """What the frame was to it: the event, the code, and what it counts."""
        if self.leaves or self.role == ABSENT:
            return NOTHING, 0, COUNTS_NOTHING
        if not self.hears:
            return (LOOPED_FRAME, 0, COUNTS_SENT) if self.sends else (NOTHING, 0, COUNTS_NOTHING)
        if bus.kind == IDLE:
            return NOTHING, 0, COUNTS_NOTHING
        if not self.code:
            return (SENT, 0, COUNTS_SENT) if self.is_sender else (RECEIVED, 0, COUNTS_RECEIVED)
        if not self.found_as_sender:
            return ERROR, self.code, RECEIVE_ERROR
        # rule 3, exception A: a passive one that misses the acknowledgement, and sees no dominant bit while it sends its flag
        spared = self.misses_ack and (self.role == ACTIVE or not self.saw_flag)
        return ERROR, self.code, NO_ACK if spared else SEND_ERROR


class Wire:
    """One frame on the bus. `parts` say what each member is to it."""

    def __init__(self, seats):
        self.seats, self.collided, self.flag_is_there, self.trace = seats, False, False, []
        self.kind, self.flagged, self.frame, self.parts = IDLE, False, None, [LISTENER] * len(seats)
        self.first_flag = self.over = 1 << 30
        self.early = -1
        senders = [seat for seat in seats if seat.is_sender]
        if not senders:
            return
        self.first = min((seat.coded for seat in senders), key=lambda coded: coded.plain)
        self.early, self.delimiter = self.first.stuffed - BEFORE_END, self.first.stuffed
        self.over = self.delimiter + 10
        if any(seat.role == LOOPED and seat.coded.plain != self.first.plain for seat in senders):
            self.spoil()
        else:
            self.play()
        if self.collided:
            self.collide(senders)

    def place_of(self, flaw, as_sender):
        """At which bit a member finds this error by itself, if it goes on to there."""
        if flaw == "stuff" or as_sender and flaw in ("bit1", "bit0"):
            return self.early
        if flaw == "form" or as_sender:
            return self.delimiter
        return self.delimiter + (1 if flaw in ("bit1", "bit0") else 2)  # its own acknowledgement; behind the ACK delimiter

    def play(self):
        whole = False
        for at in range(self.over + FLAG + 2):
            bit = min(seat.drives_at(at) for seat in self.seats)
            self.flag_is_there = any(seat.drives_flag() for seat in self.seats)
            self.trace.append(bit)
            for seat in self.seats:
                seat.looks(at, bit, self)
            if at == self.delimiter - 1:
                whole = any(seat.is_sender and seat.is_there and not seat.code for seat in self.seats)
        self.settle(whole)

    def settle(self, whole):
        """What was on the bus, by its bits."""
        self.frame = self.first.frame
        self.parts = [
            DROPPED if seat.clashed else SENDER if seat.is_sender else LISTENER for seat in self.seats
        ]
        flagged = self.first_flag < 1 << 30
        if not whole or self.first_flag < self.delimiter:
            self.kind = BROKEN
        elif self.trace[self.delimiter + 1] == DOMINANT:
            self.kind = FLAGGED if flagged else CARRIED
        else:
            self.kind, self.flagged = UNHEARD, flagged

    def spoil(self):
        """A member in loop back mode drives another frame over the first one. As the model says, that is a bit error to those who
        hear and send, with the arbitration of the first one, and a stuff error to all others who hear."""
        self.collided = True
        for seat in self.seats:
            if seat.hears:
                seat.found_as_sender = seat.is_sender and seat.coded.asks_with == self.first.asks_with
                seat.code, seat.misses_ack = BIT1_CODE if seat.found_as_sender else STUFF_CODE, False

    def collide(self, senders):
        self.kind, self.frame = COLLIDED, None
        among = [seat for seat in senders if seat.coded.asks_with == self.first.asks_with]
        self.parts = [SENDER if seat in among else LISTENER for seat in self.seats]

    def recessive_end(self, bits):
        """How many recessive bits stand at the end of what is so many bits long."""
        told = self.trace[:bits]
        return next((count for count, bit in enumerate(reversed(told)) if bit == DOMINANT), len(told))


# ---- the members: chips and plain nodes


class Plain:
    """A node without a chip. It offers a frame until that was sent."""

    def __init__(self):
        self.node, self.frame, self.offered = Node(host=False), None, None

    def begin(self):
        state = self.node.state()
        self.role = {"off": ABSENT, "passive": PASSIVE, "active": ACTIVE}[state]
        self.offered = self.frame if self.role != ABSENT else None
        return self.role, self.offered

    def is_there(self):
        return self.role != ABSENT

    def is_back_after_groups(self):
        return not self.node.is_on()

    def group(self):
        self.node.recessive(1)

    def end(self, event, code, counts, frame):
        count(self.node, counts)
        if event == SENT and self.offered is not None and self.offered is self.frame:
            self.frame = None
        return ""

    def counters(self):
        return f"{self.node.tec} {self.node.rec} {self.node.groups}"


def count(node, counts):
    """What an event is to the error counters."""
    names = {COUNTS_SENT: "sent", COUNTS_RECEIVED: "received", NO_ACK: "no acknowledgement", SEND_ERROR: "sends a fault",
             RECEIVE_ERROR: "sees a fault"}
    if counts != COUNTS_NOTHING:
        node.event(names[counts])


class ChipMember:
    """A chip with its two hosts. What a host does is that of `second_model.py`."""

    def __init__(self, script):
        self.chip = Chip([Node(host=True)], script["chip"])
        self.node, self.records, self.loaded = self.chip.nodes[0], {}, None
        self.objects = 64 if script["profile"] == 2 else 32
        hosts, layout = script["if1"] + script["if2"], script["chip"]["layout"]
        named = {number_asked(line, self.objects, layout) for line in hosts if line["op"] == "transfer"} - {0}
        self.touched = sorted(named | {line["object"] for line in hosts if line["op"] == "until"})
        self.ports = {port: host_lines(script, port, self.objects, self.touched, self.chip) for port in PORTS[:2]}
        self.ends = {}
        for port in PORTS[:2]:
            self.next_line(port)

    def next_line(self, port):
        """Runs a host to where its next line begins, or to its end."""
        try:
            asked = self.ports[port].send(None)
            while asked is not LINE:
                asked = self.ports[port].send(self.answers(asked))
        except StopIteration as stop:
            self.ends[port] = stop.value

    def answers(self, asked):
        """What a look or a change comes to."""
        if not isinstance(asked, Change):
            return self.records.get(asked, ZERO)
        seen = self.records.get(asked.place, ZERO)
        if not asked.fits(seen):
            return ("not now", seen)
        self.records[asked.place] = asked.becomes(seen)
        return ("done", seen, self.records[asked.place])

    def at_once(self, line):
        """A line of the bus's port, on registers."""
        return self.run(register_line(line, "bus", self.chip, self.objects, self.touched))

    def power_down(self):
        """Local power down, if it may come: whether the chip is in it."""
        return self.run(power_down(self.chip, self.touched))

    def run(self, running):
        """What the bus's port does, to its end."""
        try:
            asked = running.send(None)
            while True:
                asked = running.send(self.answers(asked))
        except StopIteration as stop:
            return stop.value

    def role(self):
        if not self.chip.takes_part():
            return ABSENT
        if self.chip.loops():
            return ALONE if self.chip.test & SILENT_BIT else LOOPED
        if self.chip.control & TEST and self.chip.test & SILENT_BIT:
            return SILENT
        return PASSIVE if self.node.state() == "passive" else ACTIVE

    def begin(self):
        """Joins the bus if it may, and chooses what it sends. What was loaded is dropped if it has left the bus meanwhile."""
        takes = self.chip.takes_part()
        self.loaded = self.loaded if takes and not self.chip.gone else None
        self.chip.gone &= not takes
        role = self.role()
        if role in (ABSENT, SILENT):
            self.loaded = None
        elif self.loaded is None:
            self.load()
        self.offered = frame_of(self.loaded[1]) if self.loaded else None
        self.begun = role
        return role, self.offered

    def load(self):
        place = next((place for place in self.touched if ready(self.records.get(place, ZERO))), None)
        if place is None:
            return
        once, record = bool(self.chip.control & DAR), self.records[place]
        self.records[place] = (record[0], record[1], record[2] & ~0x100, record[3]) if once else started(record)
        self.loaded = (place, self.records[place], once)

    def is_there(self):
        """Whether it is still on the bus as it began."""
        if self.chip.gone or not self.chip.takes_part():
            self.loaded = None
            return False
        return self.begun != ABSENT

    def end(self, event, code, counts, frame):
        """The end of a frame: what comes of it at the objects, and then at the controller."""
        object_sent, after, stored_at, stored_record = 0, ZERO, 0, ZERO
        if event in (SENT, LOOPED_FRAME):
            object_sent, record, once = self.loaded
            frame = frame_of(record)
            self.records[object_sent] = finished_once(self.records[object_sent]) if once else finished(self.records[object_sent])
            after = self.records[object_sent]
        if event in (RECEIVED, LOOPED_FRAME):
            stored_at = next((place for place in self.touched if accepts(self.records.get(place, ZERO), frame)), 0)
        if stored_at:
            stored_record = self.records[stored_at] = stored(frame, self.records[stored_at])
        if event != NOTHING:
            self.loaded = None
            count(self.node, counts)
            self.note(event, code)
        return f"{code} {counts} {object_sent} {shown(after)} {stored_at} {shown(stored_record)} "

    def note(self, event, code):
        status = self.chip.status
        if event in (SENT, LOOPED_FRAME):
            status.event("sent")
        if event in (RECEIVED, LOOPED_FRAME):
            status.event("received")
        if event == ERROR:
            status.event("fault", code)

    def is_back_after_groups(self):
        return not self.node.is_on() and not self.chip.control & INIT

    def group(self):
        if not self.node.is_on():
            name = "recovery" if self.node.recovers() else "level"
            self.node.recessive(1)
            self.chip.status.event(name)

    def counters(self):
        return f"{self.node.tec} {self.node.rec} {('active', 'passive', 'off').index(self.node.state())}"


def finished_once(record):
    """The object as the one transmission ends for which it was tried: NewDat 0, and IntPnd if TxIE is 1."""
    control = record[2] & ~0x8000 | (0x2000 if record[2] & 0x800 else 0)
    return (record[0], record[1], control, record[3])


# ---- the bus, with or without time


class Network:
    """The members on one bus. With `timed` the bus has a clock, as `ccan_network.h` has, else a frame follows another."""

    def __init__(self, script):
        self.script, self.timed = script, script["timed"]
        self.members = [ChipMember(each) if "chip" in each else Plain() for each in script["members"]]
        self.flaws, self.was_sender = ["none"] * len(self.members), [False] * len(self.members)
        self.now = self.free = self.recessive = 0
        self.wire, self.under_way, self.texts, self.waits = None, False, [], [False] * len(self.members)

    def run(self):
        """All lines, in their order, and what they come to."""
        places = {}
        for line in self.script["order"]:
            if "port" in line:
                key = (line["member"], line["port"])
                self.members[line["member"]].next_line(line["port"])
                self.texts.append((*key, places.get(key, 0)))
                places[key] = places.get(key, 0) + 1
            elif line["op"] in ("read16", "write16", "line"):
                self.texts.append(f"{line['member']} {self.members[line['member']].at_once(line)}")
            else:
                getattr(self, line["op"])(line)
        for number, member in enumerate(self.members):
            if isinstance(member, ChipMember):
                self.texts += [f"{number} final {place:02} {shown(record)}" for place, record in sorted(member.records.items())
                               if record != ZERO]
        return [text if isinstance(text, str) else self.told_by_host(*text) for text in self.texts]

    def told_by_host(self, member, port, place):
        """What a line of a host came to: hosts tell it when they have ended."""
        return f"{member} {self.members[member].ends[port][place]}"

    # -- what the one who has the bus does

    def offer(self, line):
        self.members[line["member"]].frame = frame_in(line["frame"])

    def withdraw(self, line):
        self.members[line["member"]].frame = None

    def fault(self, line):
        self.flaws[line["member"]] = line["fault"]

    def counters(self, line):
        self.texts.append(f"{line['member']} counters {self.members[line['member']].counters()}")

    def powerdown(self, line):
        """The call for local power down, between frames."""
        if not self.under_way:
            self.texts.append(f"{line['member']} powerdown {int(self.members[line['member']].power_down())}")

    def wait(self, line):
        """So many recessive bits, or groups of them where there is no clock."""
        if self.under_way:
            return
        for _ in range(line["bits"] if self.timed else line["bits"] // GROUP):
            self.idle_bit()

    def idle_bit(self):
        """A recessive bit of idle time, or a group of them where there is no clock. Answers whether a group is over with it."""
        self.now += 1
        self.recessive += 1
        is_over = not self.timed or self.recessive % GROUP == 0
        for member in self.members if is_over else ():
            member.group()
        return is_over

    def start(self, line):
        if self.under_way:
            return
        if not self.timed:
            self.ask()
            self.tell_start()
            return
        while self.now < self.free:
            self.idle_bit()
        while not self.ask():
            if not any(self.waits) and not any(member.is_back_after_groups() for member in self.members):
                self.texts.append("net never")
                return
            while not self.idle_bit() and self.now != self.free + SUSPENDED:
                pass
        self.tell_start()

    def ask(self):
        """Asks all members what they are to the bus, and plays the frame as it is if nothing happens to it. Answers whether there
        is one, also one that a member sends to itself alone. With a clock the bus is idle if there is none."""
        asked = [member.begin() for member in self.members]
        self.waits = [self.timed and role == PASSIVE and sends is not None and self.was_sender[number]
                      and self.now < self.free + SUSPENDED for number, (role, sends) in enumerate(asked)]
        self.begun = [(role, None if waits or role in (ABSENT, SILENT) else sends)
                      for (role, sends), waits in zip(asked, self.waits)]
        wire = Wire([Seat(role, sends) for role, sends in self.begun])
        alone = wire.kind == IDLE and any(role == ALONE and sends for role, sends in self.begun)
        if self.timed and wire.kind == IDLE and not alone:
            self.power_down()
            return False
        self.wire, self.parts, self.under_way, self.began = wire, wire.parts, True, self.now
        self.bits = max((len(coded(sends).bits) for (role, sends), part in zip(self.begun, wire.parts) if sends
                         and (part == SENDER or role == LOOPED or alone)), default=0)
        return True

    def power_down(self):
        """On an idle bus chips that have nothing to send are put into local power down, if their hosts ask for it."""
        for member, waits in zip(self.members, self.waits):
            if isinstance(member, ChipMember) and not waits:
                member.power_down()

    def tell_start(self):
        for number, (role, sends) in enumerate(self.begun):
            self.texts.append(f"{number} member {role} {text_of(sends)}")
        self.tell_wire()
        if self.timed:
            self.texts.append(f"net begins {self.began} {self.bits} {self.began + self.longest(1 << 30)}")

    def tell_wire(self):
        parts = "".join(map(str, self.parts))
        self.texts.append(f"net wire {self.wire.kind} {int(self.wire.flagged)} {text_of(self.wire.frame)} {parts}")

    def finish(self, line):
        if not self.under_way:
            return
        there = [member.is_there() for member in self.members]
        seats = [Seat(role, sends, flaw, role != ABSENT and not stays)
                 for (role, sends), flaw, stays in zip(self.begun, self.flaws, there)]
        self.wire = Wire(seats)
        self.roles = [role if stays else ABSENT for (role, _), stays in zip(self.begun, there)]
        for number, (member, seat) in enumerate(zip(self.members, seats)):
            event, code, counts = seat.event(self.wire)
            told = member.end(event, code, counts, self.wire.frame)
            self.texts.append(f"{number} ended {event} {told}counters {member.counters()}")
            self.was_sender[number] = self.parts[number] != LISTENER
        self.tell_wire()
        self.under_way, self.flaws = False, ["none"] * len(self.members)
        self.waits = [False] * len(self.members)
        if self.timed:
            self.end_of_frame(line["after"])

    # -- time

    def longest(self, passed):
        """How long the frame is, as it is taken if an error flag ends it (ccan_network.h, "ccan_network_finish")."""
        wire = self.wire
        if wire.kind in (BROKEN, COLLIDED):
            return min(passed, self.bits - 10) + 2 * FLAG + DELIMITER
        if wire.kind == FLAGGED:
            return self.bits - 7 + FLAG + 1 + DELIMITER
        if wire.kind == UNHEARD and wire.flagged:
            return self.bits - DELIMITER + FLAG + 1 + DELIMITER
        # six recessive bits behind the ACK slot, and the delimiter
        missed = wire.kind == UNHEARD and any(seat.is_sender and seat.role == PASSIVE and not seat.leaves for seat in wire.seats)
        return self.bits + FLAG if missed else self.bits

    def end_of_frame(self, after):
        passed = min(after, self.longest(1 << 30))
        taken = self.longest(passed)
        ended = self.began + taken
        if self.wire.kind == IDLE:
            for _ in range(taken):
                self.idle_bit()
        else:
            # as ccan_network.h says: from the CRC delimiter on, though the CRC sequence may end with recessive bits too
            exact = self.wire.kind == CARRIED or self.wire.kind == UNHEARD and not self.wire.flagged
            self.recessive = min(self.wire.recessive_end(taken), taken - self.wire.delimiter) if exact else DELIMITER
            groups, self.now = self.recessive // GROUP, ended
            for member in self.members * groups:
                member.group()
        self.free = ended + INTERMISSION
        self.texts.append(f"net ends {ended} {self.free}")


def text_of(frame):
    """A frame as it is printed."""
    if frame is None:
        return "-"
    identifier, extended, remote, code, data = frame
    return f"{identifier:x},{int(extended)},{int(remote)},{code},{bytes(data).hex()}"


# ---- made networks


def made_chip(dice):
    """A chip, as after a reset in one of the layouts or with all registers 0."""
    reset = dice.randrange(3) > 0
    return {"chip": {"layout": dice.choice((C_CAN, C_CAN_32, D_CAN, D_CAN)) if reset else C_CAN, "reset": reset},
            "profile": dice.choice((1, 2)), "if1": [], "if2": []}


def made_object(dice):
    """A transfer that makes an object one that receives or sends, with few identifiers, so that frames meet."""
    sets = {
        "cmask": dice.choice(("00f3", "00f3", "00b3", "00f7")),
        "arb2": dice.choice(("848c", "a48c", "a48c", "a488", "a490", "c48c", "e48c", "8000")),
        "ctrl": dice.choice(("1488", "1488", "0181", "0188", "0582", "8d81", "2d82", "1381", "9408", "0b88")),
        "dataa1": f"{dice.randrange(3):02x}11",
    }
    if dice.randrange(2):
        sets["mask2"] = dice.choice(("0000", "1ff0", "1ffc", "9ffc"))
    return {"op": "transfer", "request": dice.choice(("0001", "0002", "0003")), "set": sets}


def made_request(dice):
    """A transfer that requests a transmission, or reads an object and clears its flags."""
    cmask = dice.choice(("0087", "0084", "0084", "0082", "007f", "007b", "000c"))
    return {"op": "transfer", "request": dice.choice(("0001", "0002", "0003")),
            "set": {"cmask": cmask, "datab2": f"{dice.randrange(4):04x}"}}


def made_offer(dice):
    """A frame of a node: often one that precedes those of chips."""
    frame = made_frame(dice, 0)
    if "xtd" not in frame:
        frame["id"] = dice.choice((0x0FF, 0x0FF, 0x121, 0x122, 0x123, 0x123, 0x124, 0x523))
    return frame


class Maker:
    """Makes a network, line by line."""

    def __init__(self, dice):
        self.dice, self.order = dice, []
        kinds = [True] + [dice.randrange(5) > 1 for _ in range(dice.choice((1, 1, 2, 2, 3, 4)))]
        dice.shuffle(kinds)
        self.members = [made_chip(dice) if is_chip else {} for is_chip in kinds]
        self.chips = [number for number, member in enumerate(self.members) if member]
        self.nodes = [number for number, member in enumerate(self.members) if not member]
        self.d_cans = [number for number in self.chips if self.members[number]["chip"]["layout"] == D_CAN]

    def net(self, op, **more):
        self.order.append({"op": op, **more})

    def host(self, member, line):
        port = self.dice.choice(PORTS[:2])
        self.members[member][port].append(line)
        self.order.append({"member": member, "port": port})

    def write(self, member, offset, value):
        self.net("write16", member=member, offset=offset, value=value)

    def mode(self, member):
        """Gives a chip its control bits, and by Test a role."""
        dice = self.dice
        control = dice.choice((0, 0, 0, DAR, EIE | SIE, 2)) | TEST
        self.write(member, CONTROL, control)
        self.write(member, TEST_REGISTER, dice.choice((0, 0, 0, 0, 0, 0, 0, SILENT_BIT, LBACK, LBACK | SILENT_BIT)))

    def offer(self):
        if self.nodes:
            self.net("offer", member=self.dice.choice(self.nodes), frame=made_offer(self.dice))

    def flaw(self, member=None):
        member = self.dice.randrange(len(self.members)) if member is None else member
        self.net("fault", member=member, fault=self.dice.choice(sorted(FLAWS)))

    def look(self):
        """What a driver reads."""
        for member in self.chips:
            for offset in self.dice.sample((STATUS, COUNTER, INTERRUPT, CONTROL, TEST_REGISTER, 0x80, 0x90, 0xA0), 3):
                self.net("read16", member=member, offset=offset)
            self.net("line", member=member)

    def meanwhile(self):
        """What hosts do while a frame is under way."""
        member = self.dice.choice(self.chips)
        kind = self.dice.randrange(12)
        if kind < 4:
            self.host(member, made_request(self.dice))
        elif kind == 4:
            self.write(member, CONTROL, INIT)
            if self.dice.randrange(2):
                self.write(member, CONTROL, 0)
        elif kind == 5:
            self.write(member, CONTROL, 0x8001)
        elif kind == 6:
            self.mode(member)
        elif kind in (7, 8):
            self.offer()
        elif kind == 9 and self.nodes:
            self.net("withdraw", member=self.dice.choice(self.nodes))

    def frame(self):
        for _ in range(self.dice.randrange(3)):
            self.host(self.dice.choice(self.chips), made_request(self.dice))
        if self.dice.randrange(2):
            self.offer()
        if self.dice.randrange(6) == 0:
            self.flaw()
        self.net("start")
        if self.dice.randrange(3) == 0:
            self.meanwhile()
        for _ in range(self.dice.choice((0, 0, 0, 1, 2))):
            self.flaw()
        self.net("finish", after=self.dice.choice((500, 500, self.dice.randrange(1, 130))))

    def storm(self):
        """One member is told to find the same error in many frames, so that counters move far."""
        member, flaw = self.dice.randrange(len(self.members)), self.dice.choice(("bit0", "bit0", "stuff", "form", "crc", "none"))
        if member in self.chips:
            self.host(member, made_request(self.dice))
        for _ in range(self.dice.choice((4, 17, 17, 33))):
            self.sends_and_finds(member, flaw)
            if self.dice.randrange(4) == 0:
                self.net("wait", bits=self.dice.choice((2, 3, 10, 11)))

    def recover(self):
        """Hosts bring their chips back, and time passes."""
        for member in self.chips:
            if self.dice.randrange(4):
                self.write(member, CONTROL, self.dice.choice((0, TEST, DAR, SIE | EIE)))
        self.net("wait", bits=self.dice.choice((3, 11, 30, 200, 1397, 1408, 1500)))

    def lonely(self):
        """A member that is error passive sends alone, while another one is on its way back from bus off."""
        passive, off = self.dice.sample(range(len(self.members)), 2)
        if set(self.nodes) - {passive, off}:
            return
        for member in self.chips:
            self.write(member, CONTROL, 0 if member in (passive, off) else INIT)
            if member in (passive, off):
                self.host(member, made_request(self.dice))
        for member, times in ((passive, 16), (off, 32)):
            for _ in range(times):
                self.sends_and_finds(member, "bit0")
        if off in self.chips:
            self.write(off, CONTROL, 0)
        else:
            self.net("withdraw", member=off)
        for _ in range(8):
            self.sends_and_finds(passive, "none")
            self.net("wait", bits=self.dice.randrange(1, 30))

    def sleep(self):
        """A host asks for local power down of a D_CAN, perhaps with a frame that is still to be sent, and wakes it again."""
        member = self.dice.choice(self.d_cans)
        if self.dice.randrange(3):
            self.write(member, CONTROL, self.dice.choice((0, 0, DAR)))
        if self.dice.randrange(2):
            self.host(member, made_request(self.dice))
        self.write(member, UPPER, PDR)
        for _ in range(self.dice.choice((0, 1, 2, 3))):
            self.dice.choice((self.frame, lambda: self.net("powerdown", member=member)))()
        for offset in (UPPER, STATUS, CONTROL):
            self.net("read16", member=member, offset=offset)
        if self.dice.randrange(4):
            self.write(member, UPPER, 0)
        if self.dice.randrange(4):
            self.write(member, CONTROL, 0)

    def sends_and_finds(self, member, flaw):
        """A frame, in which this member is told to find an error."""
        if member in self.nodes:
            self.net("offer", member=member, frame=made_offer(self.dice))
        self.net("start")
        self.net("fault", member=member, fault=flaw)
        self.net("finish", after=500)

    def block(self):
        kind = self.dice.randrange(19)
        if kind >= 17 and self.d_cans:
            self.sleep()
        elif kind < 9:
            for _ in range(self.dice.choice((1, 2, 3))):
                self.frame()
        elif kind < 11:
            self.storm()
        elif kind == 11:
            self.recover()
        elif kind == 12:
            self.mode(self.dice.choice(self.chips))
        elif kind == 13:
            self.net("wait", bits=self.dice.choice((1, 2, 8, 11, 50)))
        elif kind == 14:
            self.host(self.dice.choice(self.chips), made_object(self.dice))
        elif kind == 15 and self.dice.randrange(2):
            self.lonely()
        else:
            self.look()


def made_network(dice):
    """A network of two to five members, with what their hosts and the bus do in one order."""
    maker = Maker(dice)
    for member in maker.chips:
        maker.write(member, CONTROL, 0)
        for _ in range(dice.choice((1, 2, 3))):
            maker.host(member, made_object(dice))
        if dice.randrange(3) == 0:
            maker.mode(member)
    for _ in range(dice.choice((4, 6, 8))):
        maker.block()
    maker.look()
    return {"timed": dice.randrange(2), "members": maker.members, "order": maker.order}
