"""The header ``include/ccan.h``, one to one, over ctypes.

Everything here has the name and the meaning that it has in the header: its structs, its numbers, the texts of its codes and its
functions. The pythonic layer stands above, in ``_chip.py``. At import the library is loaded, its version is compared with that of
this file, and the layout of each struct with the asserts of the header.
"""
from __future__ import annotations

import ctypes
import enum
import os
import pathlib
import sys
from ctypes import POINTER, c_bool, c_size_t, c_uint8, c_uint16, c_uint32, c_uint64, c_void_p
from typing import Any, Dict, List, Tuple, Type

#: The version of the header that this file mirrors: ten thousand times the first number, a hundred times the second, and the
#: third.
VERSION = 500

#: The soname of the library.
SONAME = "libccan.so.0"


# ---- what a call answers


class Code(enum.IntEnum):
    """What a call answers (``enum ccan_code``)."""

    DONE = 0
    CLOSED = 1
    BUSY = 2
    SPENT = 3
    NO_MEMORY = 4
    SHARED = 5
    PROFILE_RANGE = 6
    NODES_RANGE = 7
    TRIES_RANGE = 9
    REGISTER_RANGE = 10
    OBJECT_RANGE = 11
    FLAG_RANGE = 12
    TURNS_RANGE = 13
    NODE_RANGE = 14
    GROUPS_RANGE = 15
    FRAMES_RANGE = 16
    FRAME_RANGE = 17
    FAULT_RANGE = 18
    SENDERS = 19
    OFFSET_RANGE = 20
    OTHER_INTERFACE = 21
    LAYOUT_RANGE = 22
    NO_SAVED_CHIP = 23
    NO_CHIP = 24
    UNTOLD = 25
    MEMBERS_RANGE = 26
    MEMBER_RANGE = 27
    WIRE_RANGE = 28
    PLACE_RANGE = 29
    EVENT_RANGE = 30
    COUNTERS_RANGE = 31


#: The texts of ``ccan_text``, by the numbers of the codes.
TEXTS: Tuple[str, ...] = (
    "done", "the handle is closed", "each try was lost to a change of another port",
    "the port has made all the changes that it can", "out of memory", "somebody else holds the memory",
    "the profile is out of range", "the number of nodes is out of range", "no code",
    "the number of tries is out of range", "no such register", "no such object", "no such flag",
    "the number of turns is out of range", "no such node", "the number of groups is out of range",
    "too many frames", "an identifier or a length is out of range", "no such fault",
    "a sender is none of the other nodes, or sends twice", "no register begins at this offset",
    "the register is of another port's interface", "no such layout", "these bytes are no saved chip",
    "no chip can be as these bytes say", "the note is empty", "the number of members is out of range",
    "a member is out of range", "what is on the bus is out of range", "no such place", "no such event",
    "error counters are out of range",
)  # fmt: skip


def ccan_text(code: int) -> str:
    """The text of a code; for another number ``no code``."""
    return TEXTS[code] if 0 <= code < len(TEXTS) else "no code"


# ---- the other numbers


class Layout(enum.IntEnum):
    """How the registers lie, in bytes from where the chip begins (``enum ccan_layout``)."""

    C_CAN = 0  #: side by side, at the offsets of :class:`Offset`
    C_CAN_32 = 1  #: each at twice that offset, alone in a word of 32 bits
    D_CAN = 2  #: the halves of the registers of 32 bits of a D_CAN


class Offset(enum.IntEnum):
    """Where the registers of ``Layout.C_CAN`` begin, in bytes (``enum ccan_offset``).

    ``Layout.C_CAN_32`` has each at twice this.
    """

    CONTROL = 0x00
    STATUS = 0x02
    ERROR_COUNTER = 0x04
    BIT_TIMING = 0x06
    INTERRUPT = 0x08
    TEST = 0x0A
    BRP_EXTENSION = 0x0C
    IF1_COMMAND_REQUEST = 0x10
    IF1_COMMAND_MASK = 0x12
    IF1_MASK_1 = 0x14
    IF1_MASK_2 = 0x16
    IF1_ARBITRATION_1 = 0x18
    IF1_ARBITRATION_2 = 0x1A
    IF1_MESSAGE_CONTROL = 0x1C
    IF1_DATA_A1 = 0x1E
    IF1_DATA_A2 = 0x20
    IF1_DATA_B1 = 0x22
    IF1_DATA_B2 = 0x24
    IF2_COMMAND_REQUEST = 0x40
    IF2_COMMAND_MASK = 0x42
    IF2_MASK_1 = 0x44
    IF2_MASK_2 = 0x46
    IF2_ARBITRATION_1 = 0x48
    IF2_ARBITRATION_2 = 0x4A
    IF2_MESSAGE_CONTROL = 0x4C
    IF2_DATA_A1 = 0x4E
    IF2_DATA_A2 = 0x50
    IF2_DATA_B1 = 0x52
    IF2_DATA_B2 = 0x54
    TRANSMISSION_REQUEST_1 = 0x80
    TRANSMISSION_REQUEST_2 = 0x82
    TRANSMISSION_REQUEST_3 = 0x84
    TRANSMISSION_REQUEST_4 = 0x86
    NEW_DATA_1 = 0x90
    NEW_DATA_2 = 0x92
    NEW_DATA_3 = 0x94
    NEW_DATA_4 = 0x96
    INTERRUPT_PENDING_1 = 0xA0
    INTERRUPT_PENDING_2 = 0xA2
    INTERRUPT_PENDING_3 = 0xA4
    INTERRUPT_PENDING_4 = 0xA6
    MESSAGE_VALID_1 = 0xB0
    MESSAGE_VALID_2 = 0xB2
    MESSAGE_VALID_3 = 0xB4
    MESSAGE_VALID_4 = 0xB6


class Register(enum.IntEnum):
    """The registers of an interface, IF1 or IF2 (``enum ccan_register``)."""

    CMASK = 0
    MASK1 = 1
    MASK2 = 2
    ARB1 = 3
    ARB2 = 4
    CTRL = 5
    DATAA1 = 6
    DATAA2 = 7
    DATAB1 = 8
    DATAB2 = 9


class Flag(enum.IntEnum):
    """A flag of the message objects (``enum ccan_flag``)."""

    NEWDAT = 0
    MSGLST = 1
    INTPND = 2
    TXRQST = 3
    MSGVAL = 4


class LoadKind(enum.IntEnum):
    """What came of a load (``enum ccan_load_kind``)."""

    NOTHING = 0
    LOADED = 1
    HELD = 2
    BUSY = 3
    SPENT = 4


class Fault(enum.IntEnum):
    """What spoils the frame that wins (``enum ccan_fault``). These are not the last error codes that Status then shows."""

    QUIET = 0  #: nothing
    STUFF = 1
    FORM = 2
    BIT1 = 3
    BIT0 = 4
    CRC = 5


class RoundKind(enum.IntEnum):
    """What came of a round (``enum ccan_round_kind``)."""

    IDLE = 0  #: no frame contended
    SENT = 1  #: the controller's frame was sent, and its object finished
    RECEIVED = 2  #: another node's frame was sent; an object has stored it, or none takes it
    PASSED = 3  #: another node's frame was sent, and the controller took no part: it is off, or Init is 1
    COLLISION = 4  #: two or more frames with the same bits of arbitration were sent
    NO_ACK = 5  #: no other node is on, so nobody acknowledged the frame
    FAULT = 6  #: the fault spoiled the frame
    LOOPED = 7  #: in loop back mode the controller sent to itself
    ROUND_BUSY = 8  #: a change of an object was given up, each try being lost to another port
    ROUND_SPENT = 9  #: a change of an object was given up, the bus having made all the changes that it can


class Step(enum.IntEnum):
    """The step of a round that was refused (``enum ccan_step``)."""

    NONE = 0
    LOAD = 1  #: the start of the object to be sent: no frame was on the bus
    FINISH = 2  #: the finish of the object that was sent
    STORE = 3  #: the store of the frame that was received
    EVENT = 4  #: the round's event at the controller: its error counters and Status don't have the frame


class State(enum.IntEnum):
    """What a node's error counters make it (``enum ccan_state``)."""

    ACTIVE = 0
    PASSIVE = 1
    OFF = 2


class Role(enum.IntEnum):
    """What a member does on a bus of several chips (``enum ccan_role``)."""

    ABSENT = 0  #: nothing: Init is 1, it is bus off, or it has left since the start
    SILENT = 1  #: it listens, and sends recessive bits alone
    ALONE = 2  #: loop back mode with Silent: it hears itself and nobody else, and nobody sees its bits
    PASSIVE = 3  #: it takes part and is error passive
    ACTIVE = 4  #: it takes part and is error active
    LOOPED = 5  #: loop back mode without Silent: it hears itself and nobody else, and its frames are on the bus


class WireKind(enum.IntEnum):
    """What is on a bus of several chips while one frame is sent (``enum ccan_wire_kind``)."""

    IDLE = 0  #: nobody sends
    COLLIDED = 1  #: frames with the same bits of arbitration, and an error flag ends them all
    BROKEN = 2  #: the frame ends before the end of its CRC sequence
    FLAGGED = 3  #: an error flag ends it, in the ACK slot or behind it
    UNHEARD = 4  #: nobody acknowledges it
    CARRIED = 5  #: it is acknowledged, and no error flag of dominant bits ends it


class Part(enum.IntEnum):
    """What a member is to the frame on the bus (``enum ccan_part``)."""

    LISTENER = 0
    SENDER = 1
    DROPPED = 2  #: it sent another frame with the same bits of arbitration, and dropped out


class Event(enum.IntEnum):
    """What a frame was to a chip or a node (``enum ccan_event``)."""

    NONE = 0
    SENT = 1
    RECEIVED = 2
    LOOPED = 3
    ERROR = 4


class Counting(enum.IntEnum):
    """What an event is to the error counters (``enum ccan_counting``)."""

    NOTHING = 0
    SENT = 1
    RECEIVED = 2
    SEND_ERROR = 3
    NO_ACK = 4
    RECEIVE_ERROR = 5


#: The node of no frame.
NO_NODE = 255


# ---- the structs


class ccan_host(ctypes.Structure):
    """A host's handle."""

    _fields_ = [("ccan_private_full", c_bool), ("ccan_private_at", c_void_p)]


class ccan_bus(ctypes.Structure):
    """The bus's handle."""

    _fields_ = [("ccan_private_full", c_bool), ("ccan_private_at", c_void_p)]


class ccan_note(ctypes.Structure):
    """What a handle has told another; the package, whose chips are each used by one thread, makes none."""

    _fields_ = [("ccan_private_full", c_bool), ("ccan_private_at", c_void_p)]


class ccan_chip(ctypes.Structure):
    """A chip. One that is made here is closed, as ``CCAN_CHIP_CLOSED``: all zero."""

    _fields_ = [
        ("if1", ccan_host),
        ("ccan_private_apart", c_uint64 * 14),
        ("if2", ccan_host),
        ("ccan_private_apart_too", c_uint64 * 14),
        ("bus", ccan_bus),
    ]


class ccan_record(ctypes.Structure):
    """The record of a message object, by the bits of its registers."""

    _fields_ = [("masks", c_uint32), ("arbitration", c_uint32), ("control", c_uint16), ("bytes", c_uint8 * 8)]


class ccan_final(ctypes.Structure):
    """The records that the history of a chip leaves."""

    _fields_ = [("objects", c_uint32), ("records", ccan_record * 64)]


class ccan_saved(ctypes.Structure):
    """A chip as bytes."""

    _fields_ = [("bytes", c_uint8 * 1672)]


class ccan_frame(ctypes.Structure):
    """A frame that was on the bus."""

    _fields_ = [("id", c_uint32), ("xtd", c_uint8), ("rtr", c_uint8), ("dlc", c_uint8), ("bytes", c_uint8 * 8)]


class ccan_loaded(ctypes.Structure):
    """What came of a load."""

    _fields_ = [("kind", c_uint32), ("object", c_uint32), ("held", ccan_record), ("frame", ccan_frame)]


class ccan_offer(ctypes.Structure):
    """What another node sends."""

    _fields_ = [
        ("id", c_uint32),
        ("node", c_uint8),
        ("xtd", c_uint8),
        ("rtr", c_uint8),
        ("dlc", c_uint8),
        ("bytes", c_uint8 * 8),
    ]


class ccan_outcome(ctypes.Structure):
    """What came of a round."""

    _fields_ = [
        ("kind", c_uint32),
        ("object", c_uint32),
        ("finished", ccan_record),
        ("stored", c_uint32),
        ("stored_record", ccan_record),
        ("loaded", c_uint32),
        ("refused", c_uint32),
        ("winner", c_uint32),
        ("frame", ccan_frame),
    ]


class ccan_counts(ctypes.Structure):
    """The error counters of a node."""

    _fields_ = [("tec", c_uint32), ("rec", c_uint32), ("state", c_uint32)]


class ccan_member(ctypes.Structure):
    """A member of a bus of several chips while one frame is sent."""

    _fields_ = [("role", c_uint32), ("fault", c_uint32), ("sends", c_uint32), ("frame", ccan_frame)]


class ccan_wire(ctypes.Structure):
    """What is on a bus of several chips while one frame is sent."""

    _fields_ = [("kind", c_uint32), ("flagged", c_uint32), ("frame", ccan_frame), ("part", c_uint8 * 32)]


class ccan_finished(ctypes.Structure):
    """What a frame was to a chip on a bus of several."""

    _fields_ = [
        ("event", c_uint32),
        ("code", c_uint32),
        ("counts", c_uint32),
        ("object", c_uint32),
        ("finished", ccan_record),
        ("stored", c_uint32),
        ("stored_record", ccan_record),
        ("refused", c_uint32),
    ]


class ccan_node(ctypes.Structure):
    """A node without a chip: its error counters."""

    _fields_ = [("tec", c_uint32), ("rec", c_uint32), ("groups", c_uint32)]


#: The layout that the asserts of the header hold: the size of each struct, and where fields begin.
LAYOUT: Dict[Type[ctypes.Structure], Tuple[int, Dict[str, int]]] = {
    ccan_host: (16, {"ccan_private_at": 8}),
    ccan_bus: (16, {"ccan_private_at": 8}),
    ccan_note: (16, {"ccan_private_at": 8}),
    ccan_chip: (272, {"if2": 128, "bus": 256}),
    ccan_record: (20, {"arbitration": 4, "control": 8, "bytes": 10}),
    ccan_final: (1284, {"records": 4}),
    ccan_saved: (1672, {}),
    ccan_loaded: (44, {"object": 4, "held": 8, "frame": 28}),
    ccan_offer: (16, {"node": 4, "xtd": 5, "rtr": 6, "dlc": 7, "bytes": 8}),
    ccan_frame: (16, {"xtd": 4, "rtr": 5, "dlc": 6, "bytes": 7}),
    ccan_outcome: (
        80,
        {"object": 4, "finished": 8, "stored": 28, "stored_record": 32, "loaded": 52, "refused": 56, "winner": 60, "frame": 64},
    ),
    ccan_counts: (12, {"rec": 4, "state": 8}),
    ccan_member: (28, {"fault": 4, "sends": 8, "frame": 12}),
    ccan_wire: (56, {"flagged": 4, "frame": 8, "part": 24}),
    ccan_finished: (
        64,
        {"code": 4, "counts": 8, "object": 12, "finished": 16, "stored": 36, "stored_record": 40, "refused": 60},
    ),
    ccan_node: (12, {"rec": 4, "groups": 8}),
}


# ---- the functions

_host, _bus, _chip = POINTER(ccan_host), POINTER(ccan_bus), POINTER(ccan_chip)
_u8, _u16, _u32, _u64 = POINTER(c_uint8), POINTER(c_uint16), POINTER(c_uint32), POINTER(c_uint64)

#: The types of the arguments of each function that answers a code.
CALLS: Dict[str, List[Any]] = {
    "ccan_open": [_chip, c_uint32, c_uint32, c_uint32],
    "ccan_open_reset": [_chip, c_uint32, c_uint32, c_uint32, c_uint32],
    "ccan_end": [_chip, POINTER(ccan_final)],
    "ccan_meet": [_chip],
    "ccan_tell": [_host, POINTER(ccan_note)],
    "ccan_bus_tell": [_bus, POINTER(ccan_note)],
    "ccan_heed": [_host, POINTER(ccan_note)],
    "ccan_bus_heed": [_bus, POINTER(ccan_note)],
    "ccan_forget": [POINTER(ccan_note)],
    "ccan_save": [_chip, POINTER(ccan_saved)],
    "ccan_restore": [_chip, POINTER(ccan_saved)],
    "ccan_reset": [_chip],
    "ccan_read16": [_host, c_uint32, _u16],
    "ccan_write16": [_host, c_uint32, c_uint16],
    "ccan_read8": [_host, c_uint32, _u8],
    "ccan_write8": [_host, c_uint32, c_uint8],
    "ccan_read32": [_host, c_uint32, _u32],
    "ccan_write32": [_host, c_uint32, c_uint32],
    "ccan_line": [_host, _u32],
    "ccan_bus_read16": [_bus, c_uint32, _u16],
    "ccan_bus_write16": [_bus, c_uint32, c_uint16],
    "ccan_bus_read8": [_bus, c_uint32, _u8],
    "ccan_bus_write8": [_bus, c_uint32, c_uint8],
    "ccan_bus_read32": [_bus, c_uint32, _u32],
    "ccan_bus_write32": [_bus, c_uint32, c_uint32],
    "ccan_bus_line": [_bus, _u32],
    "ccan_set": [_host, c_uint32, c_uint16],
    "ccan_get": [_host, c_uint32, _u16],
    "ccan_request": [_host, c_uint16],
    "ccan_clear_objects": [_host],
    "ccan_flags": [_host, c_uint32, _u64],
    "ccan_interrupt": [_host, _u16],
    "ccan_peek": [_host, c_uint32, POINTER(ccan_record)],
    "ccan_until": [_host, c_uint32, c_uint32, c_uint32, _u32],
    "ccan_load": [_bus, POINTER(ccan_loaded)],
    "ccan_round": [_bus, POINTER(ccan_offer), c_size_t, c_uint32, POINTER(ccan_outcome)],
    "ccan_status": [_bus, _u16],
    "ccan_counters": [_bus, c_uint32, POINTER(ccan_counts)],
    "ccan_control": [_bus, c_uint32, c_uint32],
    "ccan_init": [_bus],
    "ccan_recessive": [_bus, c_uint32, _u32],
    "ccan_power_down": [_bus, _u32],
    "ccan_loop_back": [_bus, c_uint32],
    "ccan_bus_interrupt": [_bus, _u16],
    "ccan_bus_flags": [_bus, c_uint32, _u64],
    "ccan_begin": [_bus, POINTER(ccan_member)],
    "ccan_stay": [_bus, POINTER(ccan_member)],
    "ccan_finish": [_bus, POINTER(ccan_wire), c_uint32, c_uint32, POINTER(ccan_finished)],
    "ccan_retry_event": [_bus, POINTER(ccan_finished)],
    "ccan_decide": [POINTER(ccan_member), c_size_t, POINTER(ccan_wire)],
    "ccan_decide_again": [POINTER(ccan_wire), POINTER(ccan_member), c_size_t, POINTER(ccan_wire)],
    "ccan_node_begin": [POINTER(ccan_node), c_uint32, POINTER(ccan_frame), POINTER(ccan_member)],
    "ccan_node_finish": [POINTER(ccan_node), POINTER(ccan_wire), c_uint32, POINTER(ccan_member), _u32],
    "ccan_node_recessive": [POINTER(ccan_node), c_uint32],
    "ccan_frame_bits": [POINTER(ccan_frame), _u32],
}


def places() -> List[str]:
    """Where the library is looked for, in this order.

    ``CCAN_LIBRARY`` of the environment is the only place where it is set; else the folder of this package, and then the
    folders of the system's loader.
    """
    named = os.environ.get("CCAN_LIBRARY")
    if named:
        return [named]
    beside = pathlib.Path(__file__).resolve().parent / SONAME
    return [str(beside), SONAME] if beside.exists() else [SONAME]


def _loaded() -> ctypes.CDLL:
    told = []
    for place in places():
        try:
            return ctypes.CDLL(place)
        except OSError as error:
            told.append(str(error))
    raise ImportError(
        f"the library {SONAME} was not found: {'; '.join(told)}. Set CCAN_LIBRARY to its path, or LD_LIBRARY_PATH to its folder."
    )


def _check_layout() -> None:
    for struct, (size, offsets) in LAYOUT.items():
        found = (ctypes.sizeof(struct), {name: getattr(struct, name).offset for name in offsets})
        if found != (size, offsets):
            raise ImportError(f"{struct.__name__} does not lie here as it does in the library, which is for Linux on x86-64")


def _check_version(found: int) -> None:
    """The second number changes where a call does; the third may be larger."""
    if found // 100 != VERSION // 100 or found < VERSION:
        raise ImportError(f"the library is of version {found}, and this package is for {VERSION} to {VERSION // 100 * 100 + 99}")


def load() -> ctypes.CDLL:
    """Loads the library, checks it, and gives its functions their types."""
    if not sys.platform.startswith("linux"):
        raise ImportError("the library is built for Linux on x86-64")
    _check_layout()
    library = _loaded()
    library.ccan_version.argtypes, library.ccan_version.restype = [], c_uint32
    _check_version(library.ccan_version())
    library.ccan_is_open.argtypes, library.ccan_is_open.restype = [_chip], c_bool
    library.ccan_bit_time.argtypes, library.ccan_bit_time.restype = [c_uint16, c_uint16], c_uint32
    for name, arguments in CALLS.items():
        function = getattr(library, name)
        function.argtypes, function.restype = arguments, c_uint32
    return library


#: The library, loaded and checked.
lib = load()
