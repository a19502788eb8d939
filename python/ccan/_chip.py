"""A chip, from its opening to its end."""
from __future__ import annotations

import ctypes
import warnings
from types import TracebackType
from typing import Any, NoReturn, Optional, Tuple, Type

from . import _library as header
from ._errors import ArgumentError, ClosedError, SavedChipError, check
from ._frames import unsigned
from ._library import Code, Layout, lib
from ._ports import BusPort, HostPort
from ._records import Record, record_of
from ._rules import BUS, IF1, IF2, Rules

#: How many message objects a chip has, by its profile.
PROFILES = {32: 1, 64: 2}

#: How many bytes a saved chip has.
SAVED_LENGTH = ctypes.sizeof(header.ccan_saved)


class Chip:
    """A Bosch C_CAN controller: a message RAM and registers, with the ports IF1, IF2 and the bus.

    It opens as a part is after its reset: Init is 1. It takes part once a write of Control, or ``chip.bus.init()``, has cleared
    Init. A ``with`` block closes it at its end.

    Parameters
    ----------
    objects : int
        How many message objects it has, 32 or 64.
    other_nodes : int
        How many other nodes are on the bus, 0 to 8. Each acknowledges frames, and may send in a round.
    tries : int
        How often a change may be tried before it is busy, 1 to 1000.
    layout : Layout
        Where the registers lie.
    zeroed : bool
        Whether all registers open as zero, Init too, so that it takes part at once. The layout is then ``Layout.C_CAN``.
    concurrent : bool
        False: one thread uses the chip, and its calls run in their order. True: each port may be used by a thread of its own, at
        the same time and without a lock.

    Raises
    ------
    ArgumentError
        Where a number is out of its range.
    OutOfMemoryError
        Where there is no memory.

    Attributes
    ----------
    if1, if2 : HostPort
        The hosts behind IF1 and IF2.
    bus : BusPort
        The bus.
    """

    if1: HostPort
    if2: HostPort
    bus: BusPort

    def __init__(
        self,
        objects: int = 32,
        other_nodes: int = 1,
        tries: int = 1000,
        layout: Layout = Layout.C_CAN,
        *,
        zeroed: bool = False,
        concurrent: bool = False,
    ) -> None:
        self._prepare(concurrent)
        if objects not in PROFILES:
            raise ArgumentError(Code.PROFILE_RANGE, "ccan_open_reset", f"objects is {objects}, and has to be 32 or 64")
        if zeroed and layout != Layout.C_CAN:
            raise ArgumentError(Code.LAYOUT_RANGE, "ccan_open", "a chip that opens as zero has the layout C_CAN")
        numbers = (PROFILES[objects], unsigned(other_nodes, 32, "other_nodes"), unsigned(tries, 32, "tries"))
        if zeroed:
            self._whole("ccan_open", *numbers)
        else:
            self._whole("ccan_open_reset", *numbers, unsigned(layout, 32, "layout"))
        self._objects, self._other_nodes, self._tries, self._layout = objects, other_nodes, tries, Layout(layout)

    def _prepare(self, concurrent: bool) -> None:
        self._memory = header.ccan_chip()
        self._at = ctypes.pointer(self._memory)
        self._rules = Rules(concurrent, self._meet)
        self.if1 = HostPort(IF1, self._memory.if1, self._rules)
        self.if2 = HostPort(IF2, self._memory.if2, self._rules)
        self.bus = BusPort(BUS, self._memory.bus, self._rules)

    def _whole(self, call: str, *arguments: Any) -> None:
        with self._rules.whole(call):
            code = getattr(lib, call)(self._at, *arguments)
        check(code, call)

    @property
    def objects(self) -> int:
        """How many message objects the chip has."""
        return self._objects

    @property
    def other_nodes(self) -> int:
        """How many other nodes are on the bus."""
        return self._other_nodes

    @property
    def tries(self) -> int:
        """How often a change may be tried."""
        return self._tries

    @property
    def layout(self) -> Layout:
        """Where the registers lie."""
        return self._layout

    @property
    def concurrent(self) -> bool:
        """Whether each port may be used by a thread of its own."""
        return self._rules.concurrent

    @property
    def is_open(self) -> bool:
        """Whether the chip is open."""
        with self._rules.whole("ccan_is_open"):
            return bool(lib.ccan_is_open(self._at))

    # ---- saving, restoring and resetting

    def save(self) -> bytes:
        """The chip as 1672 bytes, by the format in docs/REGISTERS.md, "A saved chip". Nothing is changed."""
        out = header.ccan_saved()
        self._whole("ccan_save", ctypes.byref(out))
        return bytes(out.bytes)

    @classmethod
    def restore(cls, saved: bytes, *, concurrent: bool = False) -> Chip:
        """Opens a chip as the saved one was. The other nodes begin anew, error active, and no frame is loaded.

        Raises
        ------
        SavedChipError
            Where the bytes are no saved chip, or no chip can be as they say.
        OutOfMemoryError
            Where there is no memory.
        """
        chip = cls.__new__(cls)
        chip._prepare(concurrent)
        chip.go_back(saved)
        return chip

    def go_back(self, saved: bytes) -> None:
        """Goes back to a saved chip in this one's place, all of it or nothing. It raises what :meth:`restore` does."""
        if len(saved) != SAVED_LENGTH:
            raise SavedChipError(Code.NO_SAVED_CHIP, "ccan_restore", f"{len(saved)} bytes, and a saved chip has {SAVED_LENGTH}")
        bytes_of = header.ccan_saved.from_buffer_copy(saved)
        self._whole("ccan_restore", ctypes.byref(bytes_of))
        self._objects, layout, self._tries, self._other_nodes = (
            int.from_bytes(saved[at : at + 8], "little") for at in (16, 24, 32, 40)
        )
        self._layout = Layout(layout)

    def reset(self) -> None:
        """Resets the chip in its place, as the reset of a part does.

        The registers have their reset values. MsgVal, NewDat, IntPnd and TxRqst of each message object become 0, and what was
        loaded is dropped. The rest of the message objects stays, and so do the error counters of the other nodes.
        """
        self._whole("ccan_reset")

    def _meet(self) -> None:
        check(lib.ccan_meet(self._at), "ccan_meet")

    def meet(self) -> None:
        """Shows each port what the others have seen: the next call on each goes on from all that was done on the three.

        A chip of one thread does so by itself wherever it is needed.
        """
        with self._rules.whole("ccan_meet"):
            self._meet()

    # ---- the end

    def end(self) -> Tuple[Record, ...]:
        """Ends the chip, frees its memory, and gives the records that its history leaves, object k at k - 1."""
        out = header.ccan_final()
        self._whole("ccan_end", ctypes.byref(out))
        return tuple(record_of(record) for record in out.records[: out.objects])

    def close(self) -> None:
        """Ends the chip, where it is open."""
        try:
            self.end()
        except ClosedError:
            pass

    def __enter__(self) -> Chip:
        return self

    def __exit__(
        self, kind: Optional[Type[BaseException]], error: Optional[BaseException], traceback: Optional[TracebackType]
    ) -> None:
        self.close()

    def __del__(self) -> None:
        memory = getattr(self, "_at", None)
        if memory is not None and lib.ccan_is_open(memory):
            warnings.warn(f"{self!r} was not closed", ResourceWarning, source=self)
            lib.ccan_end(memory, ctypes.byref(header.ccan_final()))

    def __reduce__(self) -> NoReturn:
        raise TypeError("a chip is neither copied nor pickled; save() gives it as bytes")
