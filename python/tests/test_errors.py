"""Each exception of a call, by a call that raises it."""
from __future__ import annotations

from typing import Any, Callable, Dict, List

import pytest

import ccan
from ccan import Code, Flag, Frame, Layout

#: What is called on a chip of 32 objects with two other nodes, and the code.
REFUSED: Dict[str, Any] = {
    "no register begins": (lambda chip: chip.if1.read16(0x0E), Code.OFFSET_RANGE, ccan.OffsetError),
    "an odd offset": (lambda chip: chip.if1.write16(0x01, 0), Code.OFFSET_RANGE, ccan.OffsetError),
    "no byte": (lambda chip: chip.bus.read8(0x0F), Code.OFFSET_RANGE, ccan.OffsetError),
    "no multiple of four": (lambda chip: chip.if1.read32(0x02), Code.OFFSET_RANGE, ccan.OffsetError),
    "objects above 32": (lambda chip: chip.bus.read16(0x94), Code.OFFSET_RANGE, ccan.OffsetError),
    "another interface": (lambda chip: chip.if1.read16(0x42), Code.OTHER_INTERFACE, ccan.OtherInterfaceError),
    "a byte of another interface": (lambda chip: chip.if1.write8(0x41, 0), Code.OTHER_INTERFACE, ccan.OtherInterfaceError),
    "an interface at the bus": (lambda chip: chip.bus.write16(0x12, 0), Code.OTHER_INTERFACE, ccan.OtherInterfaceError),
    "object 0": (lambda chip: chip.if1.peek(0), Code.OBJECT_RANGE, ccan.ArgumentError),
    "object 33": (lambda chip: chip.if1.until(33, Flag.NEWDAT), Code.OBJECT_RANGE, ccan.ArgumentError),
    "flag 5": (lambda chip: chip.if1.flags(5), Code.FLAG_RANGE, ccan.ArgumentError),
    "flag 5 at the bus": (lambda chip: chip.bus.flags(5), Code.FLAG_RANGE, ccan.ArgumentError),
    "no turns": (lambda chip: chip.if1.until(1, Flag.NEWDAT, 0), Code.TURNS_RANGE, ccan.ArgumentError),
    "too many turns": (lambda chip: chip.if1.until(1, Flag.NEWDAT, 1000001), Code.TURNS_RANGE, ccan.ArgumentError),
    "node 3": (lambda chip: chip.bus.counters(3), Code.NODE_RANGE, ccan.ArgumentError),
    "no groups": (lambda chip: chip.bus.recessive(0), Code.GROUPS_RANGE, ccan.ArgumentError),
    "nine frames": (lambda chip: chip.bus.round([Frame(1)] * 9), Code.FRAMES_RANGE, ccan.ArgumentError),
    "fault 6": (lambda chip: chip.bus.round((), 6), Code.FAULT_RANGE, ccan.ArgumentError),
    "node 3 sends": (lambda chip: chip.bus.round({3: Frame(1)}), Code.SENDERS, ccan.ArgumentError),
    "node 0 sends": (lambda chip: chip.bus.round({0: Frame(1)}), Code.SENDERS, ccan.ArgumentError),
    "too few bytes": (lambda chip: chip.go_back(bytes(1671)), Code.NO_SAVED_CHIP, ccan.SavedChipError),
    "other bytes": (lambda chip: chip.go_back(bytes(1672)), Code.NO_SAVED_CHIP, ccan.SavedChipError),
}


@pytest.mark.parametrize("name", REFUSED)
def test_refused(name: str, chip: ccan.Chip) -> None:
    call, code, kind = REFUSED[name]
    with pytest.raises(kind) as caught:
        call(chip)
    assert caught.value.code is code
    assert isinstance(caught.value, ValueError)


OPENINGS: Dict[str, Any] = {
    "33 objects": (dict(objects=33), Code.PROFILE_RANGE),
    "nine nodes": (dict(other_nodes=9), Code.NODES_RANGE),
    "no tries": (dict(tries=0), Code.TRIES_RANGE),
    "too many tries": (dict(tries=1001, zeroed=True), Code.TRIES_RANGE),
    "layout 3": (dict(layout=3), Code.LAYOUT_RANGE),
    "a layout of a chip of zeros": (dict(layout=Layout.D_CAN, zeroed=True), Code.LAYOUT_RANGE),
}


@pytest.mark.parametrize("name", OPENINGS)
def test_refused_openings(name: str) -> None:
    settings, code = OPENINGS[name]
    with pytest.raises(ccan.ArgumentError) as caught:
        ccan.Chip(**settings)
    assert caught.value.code is code


def test_the_texts_are_those_of_the_header(chip: ccan.Chip) -> None:
    with pytest.raises(ccan.OffsetError) as caught:
        chip.if1.read16(0x0E)
    assert str(caught.value) == "ccan_read16: no register begins at this offset"
    assert caught.value.call == "ccan_read16"


def test_bytes_of_a_chip_that_can_not_be(chip: ccan.Chip) -> None:
    """Groups of recessive bits count, in bits 17 to 23 of the controller's word, though the controller is on."""
    saved = bytearray(chip.save())
    saved[48 + 2] |= 1 << 1
    with pytest.raises(ccan.SavedChipError) as caught:
        ccan.Chip.restore(bytes(saved))
    assert caught.value.code is Code.NO_CHIP


def test_a_closed_chip() -> None:
    chip = ccan.Chip()
    chip.close()
    chip.close()
    assert not chip.is_open
    calls: List[Callable[[], object]] = [
        chip.end, chip.meet, chip.save, chip.reset, chip.bus.round, chip.bus.load, chip.if1.line,
        lambda: chip.if1["CMASK"], lambda: chip.if2.request(1), lambda: chip.if1.read16(0x0E), chip.bus.init,
    ]  # fmt: skip
    for call in calls:
        with pytest.raises(ccan.ClosedError, match="the handle is closed"):
            call()


#: Numbers that a parameter of C would cut off, in each place that takes one.
TOO_LARGE: Dict[str, Any] = {
    "offset": lambda chip: chip.if1.read16(1 << 32),
    "negative": lambda chip: chip.if1.read16(-1),
    "value": lambda chip: chip.if1.write16(0, 0x10000),
    "a byte": lambda chip: chip.if1.write8(0, 0x100),
    "a word": lambda chip: chip.bus.write32(0, 1 << 32),
    "register": lambda chip: chip.if1.__setitem__("CMASK", 0x10000),
    "request": lambda chip: chip.if1.request(0x10000),
    "object": lambda chip: chip.if1.peek((1 << 32) + 1),
    "turns": lambda chip: chip.if1.until(1, Flag.NEWDAT, (1 << 32) + 1),
    "node": lambda chip: chip.bus.round({257: Frame(1)}),
    "groups": lambda chip: chip.bus.recessive((1 << 32) + 1),
}


@pytest.mark.parametrize("name", TOO_LARGE)
def test_no_number_is_cut_off(name: str, chip: ccan.Chip) -> None:
    with pytest.raises(ValueError, match="has to be a number of"):
        TOO_LARGE[name](chip)


def test_a_fraction_is_no_number(chip: ccan.Chip) -> None:
    value: Any = 1.0
    with pytest.raises(TypeError):
        chip.if1.write16(0, value)


@pytest.mark.parametrize(
    "arguments",
    [
        dict(arbitration_id=0x800),
        dict(arbitration_id=-1),
        dict(arbitration_id=1 << 29, is_extended_id=True),
        dict(arbitration_id=1, data=bytes(9)),
        dict(arbitration_id=1, dlc=16),
        dict(arbitration_id=1, data=b"\x01", dlc=2),
        dict(arbitration_id=1, data=b"\x01", is_remote_frame=True),
    ],
)
def test_what_is_no_frame(arguments: Any) -> None:
    with pytest.raises(ValueError):
        Frame(**arguments)


class Answering:
    """Stands for the library: each call answers one code, and writes no output."""

    def __init__(self, code: Code) -> None:
        self._code = code

    def __getattr__(self, name: str) -> Callable[..., int]:
        return lambda *arguments: int(self._code)


@pytest.mark.parametrize(
    "code, kind",
    [
        (Code.BUSY, ccan.BusyError),
        (Code.SPENT, ccan.SpentError),
        (Code.SHARED, ccan.SharedError),
        (Code.NO_MEMORY, ccan.OutOfMemoryError),
    ],
)
def test_codes_that_no_test_can_bring_about(code: Code, kind: Any, chip: ccan.Chip, monkeypatch: pytest.MonkeyPatch) -> None:
    monkeypatch.setattr("ccan._ports.lib", Answering(code))
    with pytest.raises(kind) as caught:
        chip.if1.request(1)
    assert caught.value.code is code
    steps: List[Callable[[], object]] = [chip.bus.round, chip.bus.load]
    for step in steps:
        with pytest.raises(kind) as caught:
            step()
        assert (getattr(caught.value, "outcome", None) is not None) == (code in (Code.BUSY, Code.SPENT))


def test_a_memory_error_is_one_of_python() -> None:
    assert issubclass(ccan.OutOfMemoryError, MemoryError)
