"""A Bosch C_CAN controller for tests of drivers, over a library in which every function is proved.

:class:`Chip` is the controller, with two hosts and a bus. :func:`outcomes`, :func:`explain` and :func:`check` ask the program
``ccan-lab`` about scripts. With python-can, ``can.Bus(interface="ccan")`` is another node on a chip's bus. docs/PYTHON.md is the
guide. What is proved is the library; this package is not.
"""
from __future__ import annotations

from ._bits import CommandMask, Control, LastError, MessageControl, Status
from ._chip import Chip
from ._errors import (
    ArgumentError,
    BusyError,
    CcanError,
    ClosedError,
    OffsetError,
    OtherInterfaceError,
    OutOfMemoryError,
    SavedChipError,
    SharedError,
    SpentError,
    ThreadUseError,
)
from ._frames import Frame
from ._lab import (
    Finding,
    LabError,
    LabMemoryError,
    LabNotFoundError,
    LabStreamError,
    LabUsageError,
    NoSuchOutcomeError,
    NotAsAskedError,
    OtherTextError,
    ScriptError,
    ScriptOutcomes,
    ScriptWarningsError,
    TooManyStatesError,
    can_come,
    candump,
    check,
    draw,
    explain,
    explain_text,
    findings_in,
    never_comes,
    outcomes,
    outcomes_data,
    outcomes_text,
)
from ._library import Code, Fault, Flag, Layout, LoadKind, Offset, Register, RoundKind, State, Step
from ._outcomes import Counts, Loaded, Outcome
from ._ports import BusPort, HostPort, Port, objects_in
from ._records import Record

__version__ = "0.5.0"

__all__ = [
    "ArgumentError", "BusPort", "BusyError", "CcanError", "Chip", "ClosedError", "Code", "CommandMask", "Control", "Counts",
    "Fault", "Finding", "Flag", "Frame", "HostPort", "LabError", "LabMemoryError", "LabNotFoundError", "LabStreamError",
    "LabUsageError", "LastError", "Layout", "LoadKind", "Loaded", "MessageControl", "NoSuchOutcomeError", "NotAsAskedError",
    "Offset", "OffsetError", "OtherInterfaceError", "OtherTextError", "OutOfMemoryError", "Outcome", "Port", "Record",
    "Register", "RoundKind", "SavedChipError", "ScriptError", "ScriptOutcomes", "ScriptWarningsError", "SharedError",
    "SpentError", "State", "Status", "Step", "ThreadUseError", "TooManyStatesError", "can_come", "candump", "check", "draw",
    "explain", "explain_text", "findings_in", "never_comes", "objects_in", "outcomes", "outcomes_data", "outcomes_text",
]  # fmt: skip
