"""The ports of a chip: the hosts at IF1 and IF2, and the bus."""
from __future__ import annotations

import ctypes
from typing import Any, Tuple, Union

from . import _library as header
from ._errors import BusyError, SpentError, check, error_of
from ._frames import Frames, offers_of, unsigned
from ._library import Fault, Flag, Register, State, lib
from ._outcomes import Counts, Loaded, Outcome, counts_of, loaded_of, outcome_of
from ._records import Record, record_of
from ._rules import Rules


def register_named(name: Union[str, Register]) -> Register:
    """The register of a name, in upper or lower case, as ``CMASK`` or ``cmask``.

    Raises
    ------
    KeyError
        Where no register has this name.
    """
    if isinstance(name, Register):
        return name
    try:
        return Register[str(name).upper()]
    except KeyError:
        raise KeyError(f"{name!r} is no register; they are {', '.join(each.name for each in Register)}") from None


def objects_in(word: int) -> Tuple[int, ...]:
    """The numbers of the objects whose bit is 1 in a word of flags."""
    return tuple(place + 1 for place in range(64) if word >> place & 1)


class Port:
    """What all three ports have: the registers by their offsets, the interrupt line, and the flags of all objects.

    Each call may raise :class:`ClosedError` and :class:`ThreadUseError`.
    """

    _prefix = "ccan_"

    def __init__(self, name: str, handle: ctypes.Structure, rules: Rules) -> None:
        self._name = name
        self._at = ctypes.pointer(handle)
        self._rules = rules

    def __repr__(self) -> str:
        return f"<{type(self).__name__} {self._name}>"

    def _answered(self, call: str, *arguments: Any) -> int:
        with self._rules.at(self._name, call):
            code: int = getattr(lib, call)(self._at, *arguments)
        return code

    def _call(self, call: str, *arguments: Any) -> None:
        check(self._answered(call, *arguments), call)

    def _number(self, call: str, kind: Any, *arguments: Any) -> int:
        out = kind()
        self._call(call, *arguments, ctypes.byref(out))
        value: int = out.value
        return value

    def read16(self, offset: int) -> int:
        """Reads the register of 16 bits at an offset of the chip's layout.

        A read of Status clears the pending status interrupts, and on a D_CAN also TxOk, RxOk and the last error code. There it
        shows PDA too, and 0x02 is the upper half of Control, with PDR at bit 8.

        Raises
        ------
        OffsetError
            Where no register begins there.
        OtherInterfaceError
            Where it is of an interface, and this port is not that of it.
        BusyError
            Of Status: nothing was read or cleared.
        """
        return self._number(self._prefix + "read16", ctypes.c_uint16, unsigned(offset, 32, "offset"))

    def write16(self, offset: int, value: int) -> None:
        """Writes the register of 16 bits at an offset of the chip's layout. Reserved bits are dropped.

        Raises
        ------
        OffsetError, OtherInterfaceError
            As with :meth:`read16`.
        BusyError, SpentError
            Nothing was changed.
        """
        self._call(self._prefix + "write16", unsigned(offset, 32, "offset"), unsigned(value, 16, "value"))

    def read8(self, offset: int) -> int:
        """Reads the byte at an offset, by :meth:`read16` of its register: bits 7 to 0 where that begins, 15 to 8 at the next one.

        So a read of either byte of Status clears what a read of Status clears.
        """
        return self._number(self._prefix + "read8", ctypes.c_uint8, unsigned(offset, 32, "offset"))

    def write8(self, offset: int, value: int) -> None:
        """Writes the byte at an offset, and leaves the other byte of its register.

        The lower byte of Command Request makes the transfer, and the upper byte does nothing. Of Control, Status, Test and BRP
        Extension the upper byte has nothing to write, except SWR of a D_CAN, which resets the chip if Init is 1. PDR of a D_CAN is
        bit 0 of the byte at 0x03. A write of a byte of Bit Timing is a look and then a write: what another port writes in between is lost.
        """
        self._call(self._prefix + "write8", unsigned(offset, 32, "offset"), unsigned(value, 8, "value"))

    def read32(self, offset: int) -> int:
        """Reads the word of 32 bits at an offset, a multiple of 4: the lower half first.

        Two of a flag, and Control and BTR of a D_CAN, are read at one moment.
        """
        return self._number(self._prefix + "read32", ctypes.c_uint32, unsigned(offset, 32, "offset"))

    def write32(self, offset: int, value: int) -> None:
        """Writes the word of 32 bits at an offset, a multiple of 4: the upper half first.

        Control and BTR of a D_CAN are written at one moment.
        """
        self._call(self._prefix + "write32", unsigned(offset, 32, "offset"), unsigned(value, 32, "value"))

    def line(self) -> bool:
        """Whether the part pulls its interrupt line: IE is 1 and the Interrupt register is not 0."""
        return self._number(self._prefix + "line", ctypes.c_uint32) != 0

    def interrupt(self) -> int:
        """The interrupt value, 16 bits.

        At a host it is the first object with IntPnd, or 0. At the bus it is the Interrupt register, which also shows 0x8000, the
        status interrupt.
        """
        return self._number(self._prefix + "interrupt", ctypes.c_uint16)

    def flags(self, flag: Flag) -> int:
        """A flag of all objects at one moment, that of object k in bit k - 1."""
        return self._number(self._prefix + "flags", ctypes.c_uint64, unsigned(flag, 32, "flag"))

    def objects_with(self, flag: Flag) -> Tuple[int, ...]:
        """The numbers of the objects that have a flag, at one moment, in rising order."""
        return objects_in(self.flags(flag))


class HostPort(Port):
    """A host behind IF1 or IF2.

    The interface registers are its items, by their names: ``chip.if1["CMASK"] = 0x00f3`` writes Command Mask, and no transfer
    happens. Reserved bits are dropped, and read 0.
    """

    def __getitem__(self, name: Union[str, Register]) -> int:
        return self._number("ccan_get", ctypes.c_uint16, register_named(name))

    def __setitem__(self, name: Union[str, Register], value: int) -> None:
        self._call("ccan_set", register_named(name), unsigned(value, 16, str(name)))

    def request(self, request: int) -> None:
        """Writes Command Request: makes the transfer that Command Mask says, and returns when it is over.

        Parameters
        ----------
        request : int
            16 bits, of which the low six name the object; 0 is the last one.

        Raises
        ------
        BusyError, SpentError
            No change was made, and the registers are as they were.
        """
        self._call("ccan_request", unsigned(request, 16, "request"))

    def clear_objects(self) -> None:
        """Makes each message object one of zeros, as the initialisation of the message RAM of a D_CAN does.

        The interface registers have no part in it.

        Raises
        ------
        BusyError, SpentError
            An object was refused: those before it are of zeros, and it and those behind it were not changed.
        """
        self._call("ccan_clear_objects")

    def transfer(self, request: int, **registers: int) -> Record:
        """Sets registers, makes a transfer, and reads the registers, as a line ``transfer`` of a script does.

        Parameters
        ----------
        request : int
            As with :meth:`request`.
        **registers : int
            What to set before, as ``cmask=0x00f3``.

        Returns
        -------
        Record
            What the interface registers hold afterwards.
        """
        for name, value in registers.items():
            self[name] = value
        self.request(request)
        return self.registers()

    def registers(self) -> Record:
        """What the interface registers show as a record, Command Mask aside."""
        low = [self[name] for name in ("MASK1", "ARB1", "DATAA1", "DATAA2", "DATAB1", "DATAB2")]
        data = b"".join(half.to_bytes(2, "little") for half in low[2:])
        return Record(self["MASK2"] << 16 | low[0], self["ARB2"] << 16 | low[1], self["CTRL"], data)

    def peek(self, object: int) -> Record:
        """One look at an object, 1 to the last. The interface registers have no part in it, and nothing is changed."""
        record = header.ccan_record()
        self._call("ccan_peek", unsigned(object, 32, "object"), ctypes.byref(record))
        return record_of(record)

    def until(self, object: int, flag: Flag, turns: int = 1) -> bool:
        """Looks at an object until it shows a flag, 1 to 1000000 times at most: whether a look did."""
        numbers = (unsigned(object, 32, "object"), unsigned(flag, 32, "flag"), unsigned(turns, 32, "turns"))
        return self._number("ccan_until", ctypes.c_uint32, *numbers) != 0


class BusPort(Port):
    """The bus, with the controller and the other nodes on it."""

    _prefix = "ccan_bus_"

    def load(self) -> Loaded:
        """Chooses the object to send, and starts it, where none is loaded.

        Raises
        ------
        BusyError, SpentError
            The object of its ``outcome`` was not started.
        """
        out = header.ccan_loaded()
        code = self._answered("ccan_load", ctypes.byref(out))
        self._check_step(code, "ccan_load", loaded_of(out))
        return loaded_of(out)

    def round(self, frames: Frames = (), fault: Fault = Fault.QUIET) -> Outcome:
        """Plays a round: the controller's frame and those of other nodes contend, and one goes over the bus or is spoiled.

        Parameters
        ----------
        frames : Frame, sequence of Frame, or mapping of int to Frame
            What other nodes send: one frame is of node 1; those of a sequence are of nodes 1, 2 and so on; a mapping names the
            node of each. At most 8.
        fault : Fault
            What spoils the frame that wins.

        Raises
        ------
        ArgumentError
            Where there are too many frames, or a node is none of the other nodes.
        BusyError, SpentError
            A step was given up. ``outcome`` of the error is what came of the round, and ``outcome.refused`` the step.
        """
        offers, count = offers_of(frames)
        out = header.ccan_outcome()
        code = self._answered("ccan_round", offers, count, unsigned(fault, 32, "fault"), ctypes.byref(out))
        self._check_step(code, "ccan_round", outcome_of(out) if code in (header.Code.BUSY, header.Code.SPENT) else None)
        return outcome_of(out)

    def _check_step(self, code: int, call: str, outcome: Union[Loaded, Outcome, None]) -> None:
        """Raises the exception of a code; that of a step that was given up has what came of the call."""
        error = error_of(code, call)
        if isinstance(error, (BusyError, SpentError)):
            error.outcome = outcome
        if error is not None:
            raise error

    def status(self) -> int:
        """The Status register, as it is read on a C_CAN. No status interrupt is then pending."""
        return self._number("ccan_status", ctypes.c_uint16)

    def counters(self, node: int = 0) -> Counts:
        """The error counters of a node; node 0 is the controller."""
        out = header.ccan_counts()
        self._call("ccan_counters", unsigned(node, 32, "node"), ctypes.byref(out))
        return counts_of(out)

    def control(self, sie: bool, eie: bool) -> None:
        """Sets SIE and EIE of Control in one step, and leaves its other bits."""
        self._call("ccan_control", int(sie), int(eie))

    def init(self) -> None:
        """Clears Init in one step, and leaves the other bits of Control: from then on the controller takes part."""
        self._call("ccan_init")

    def recessive(self, groups: int = 1) -> State:
        """Lets 1 to 10000 groups of eleven recessive bits pass, and gives the controller's state."""
        return State(self._number("ccan_recessive", ctypes.c_uint32, unsigned(groups, 32, "groups")))

    def power_down(self) -> bool:
        """Lets a D_CAN enter local power down, if PDR asks for it and no object has TxRqst: whether it is in it.

        To be called when the bus is idle; while a frame is under way it makes no step and answers False. Init is then 1, and PDA
        of Status reads 1. A host wakes the chip by clearing PDR and then Init.

        Raises
        ------
        BusyError
            Init was not set.
        """
        return self._number("ccan_power_down", ctypes.c_uint32) != 0

    def loop_back(self, on: bool) -> None:
        """Sets loop back mode on or off."""
        self._call("ccan_loop_back", int(on))
