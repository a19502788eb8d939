"""A chip from its opening to its end.

Values are those of docs/REGISTERS.md ("Registers by offset", "A saved chip") and of examples/.
"""
from __future__ import annotations

import copy
import gc
import pickle
import resource
import warnings
from typing import Callable, List

import pytest

import ccan
from ccan import Flag, Frame, Layout, Offset, RoundKind, State

#: Reset values of C_CAN side by side: the register, its offset, and what it reads.
RESET = [
    ("Control", 0x00, 0x0001),
    ("Status", 0x02, 0x0000),
    ("Error Counter", 0x04, 0x0000),
    ("Bit Timing", 0x06, 0x2301),
    ("Interrupt", 0x08, 0x0000),
    ("Test", 0x0A, 0x0080),  # Rx, the level of the bus: recessive
    ("BRP Extension", 0x0C, 0x0000),
    ("Command Request", 0x10, 0x0001),
    ("Command Mask", 0x12, 0x0000),
    ("Mask 1", 0x14, 0xFFFF),
    ("Mask 2", 0x16, 0xDFFF),
    ("Arbitration 2", 0x1A, 0x0000),
    ("New Data 1", 0x90, 0x0000),
]


def receive_0x123(port: ccan.HostPort, object: int) -> None:
    """An object that takes the identifier 0x123, as in examples/receive_fifo.json."""
    port.transfer(object, cmask=0x00F3, arb2=0x848C, ctrl=0x0488)


@pytest.mark.parametrize("name, offset, value", RESET)
def test_it_opens_as_after_a_reset(name: str, offset: int, value: int) -> None:
    with ccan.Chip() as chip:
        assert chip.if1.read16(offset) == value, name


def test_it_opens_as_zero(chip: ccan.Chip) -> None:
    assert chip.if1.read16(Offset.CONTROL) == 0
    assert chip.if1["MASK2"] == 0
    assert chip.if2.read16(Offset.IF2_COMMAND_REQUEST) == 1


def test_what_a_chip_says_of_itself() -> None:
    with ccan.Chip(64, 3, 7, Layout.D_CAN, concurrent=True) as chip:
        assert (chip.objects, chip.other_nodes, chip.tries, chip.layout) == (64, 3, 7, Layout.D_CAN)
        assert chip.concurrent and chip.is_open
        assert repr(chip.if1) == "<HostPort if1>"


def test_the_first_message(chip: ccan.Chip) -> None:
    record = chip.if1.transfer(
        1, cmask=0x00F3, arb2=0xA48C, ctrl=0x0088, dataa1=0x2211, dataa2=0x4433, datab1=0x6655, datab2=0x8877
    )
    assert (record.arbitration, record.masks, record.control) == (0xA48C0000, 0, 0x0088)
    assert record.data.hex() == "1122334455667788"
    assert (record.id, record.dlc) == (0x123, 8)
    assert record.valid and record.dir and record.eob and not record.xtd
    assert chip.if2.peek(1) == record


def test_all_objects_are_cleared(chip: ccan.Chip) -> None:
    receive_0x123(chip.if1, 5)
    chip.if2.clear_objects()
    assert chip.if1.peek(5) == ccan.Record()
    assert chip.if1["ARB2"] == 0x848C


def test_registers_by_name_and_by_offset(chip: ccan.Chip) -> None:
    chip.if1["cmask"] = 0xFFF3
    assert chip.if1[ccan.Register.CMASK] == chip.if1.read16(Offset.IF1_COMMAND_MASK) == 0x00F3
    chip.if1.write16(Offset.IF1_ARBITRATION_2, 0x848C)
    assert chip.if1["ARB2"] == 0x848C
    with pytest.raises(KeyError, match="'CMD' is no register; they are CMASK, MASK1"):
        chip.if1["CMD"]
    with pytest.raises(KeyError):
        list(chip.if1)  # type: ignore[call-overload]


def test_a_record_decodes_each_bit() -> None:
    record = ccan.Record(0xC0000001, 0xE0000123, 0xFF8F)
    assert (record.id, record.mask, record.dlc) == (0x123, 1, 15)
    names = "valid xtd dir mxtd mdir newdat msglst intpnd umask txie rxie rmten txrqst eob"
    assert all(getattr(record, name) for name in names.split())
    assert not any(getattr(ccan.Record(), name) for name in names.split())
    assert ccan.Record(0x1FFC0000).mask == 0x7FF


def test_words_of_32_bits() -> None:
    """The D_CAN of examples/c/device.c, whose last line of output these values are."""
    with ccan.Chip(other_nodes=2, layout=Layout.D_CAN) as chip:
        chip.if1.write32(0x108, 0x848C0000)
        chip.if1.write32(0x10C, 0x0482)
        chip.if1.write32(0x100, 0x00F30001)
        chip.if1.write32(0x000, 0x000A)
        chip.bus.round(Frame(0x123, bytes([0x11, 0x22])))
        assert chip.bus.read32(0x010) == 1
        chip.if1.write32(0x100, 0x007F0001)
        assert (chip.if1.read32(0x110), chip.if1.read32(0x004), chip.if1.read32(0x004)) == (0x2211, 0x10, 0x07)
        chip.bus.write32(0x000, 0x0003)
        # A D_CAN reads 5 in bits 10 to 13 of Control (PMD: parity off).
        assert chip.bus.read16(0x000) == 0x1403


def test_local_power_down() -> None:
    """PDR is bit 24 of Control and PDA bit 10 of Error and Status (AM335x manual, chapter DCAN). What is requested is sent first."""
    with ccan.Chip(other_nodes=1, layout=Layout.D_CAN) as chip:
        chip.if1.write32(0x000, ccan.Control.PDR)
        chip.if1.transfer(1, cmask=0x00F3, arb2=0xA400, ctrl=0x0181)
        assert not chip.bus.power_down()
        assert chip.bus.round().kind is RoundKind.SENT
        assert chip.if1.read16(0x004) & ccan.Status.PDA == 0
        assert chip.bus.power_down()
        assert chip.if1.read32(0x000) == ccan.Control.PDR | ccan.Control.INIT | 0x1400
        assert chip.if1.read16(0x004) & ccan.Status.PDA == 0x0400
        assert chip.bus.round(Frame(0x123)).kind is RoundKind.NO_ACK
        chip.if1.write16(0x002, 0)
        assert chip.if1.read16(0x004) & ccan.Status.PDA == 0
        chip.if1.write16(0x000, 0)
        assert not chip.bus.power_down()
        assert chip.bus.round(Frame(0x123)).kind is RoundKind.RECEIVED


def test_a_c_can_has_no_power_down(chip: ccan.Chip) -> None:
    assert not chip.bus.power_down()


def test_bytes() -> None:
    """Values of the register table: Bit Timing is 0x2301 after a reset, and is written while Init and CCE are 1."""
    with ccan.Chip() as chip:
        assert (chip.if1.read8(Offset.BIT_TIMING), chip.bus.read8(Offset.BIT_TIMING + 1)) == (0x01, 0x23)
        chip.if1.write8(Offset.CONTROL, 0x41)
        chip.bus.write8(Offset.BIT_TIMING + 1, 0x1C)
        assert chip.if1.read16(Offset.BIT_TIMING) == 0x1C01
        chip.if1.write8(Offset.IF1_COMMAND_REQUEST + 1, 5)
        assert chip.if1.read8(Offset.IF1_COMMAND_REQUEST) == 1
        chip.if1.write8(Offset.IF1_COMMAND_REQUEST, 5)
        assert chip.if1.read8(Offset.IF1_COMMAND_REQUEST) == 5


def test_interrupts_flags_and_the_line(chip: ccan.Chip) -> None:
    receive_0x123(chip.if1, 5)
    assert not chip.if2.line()
    chip.bus.write16(Offset.CONTROL, ccan.Control.IE)
    outcome = chip.bus.round(Frame(0x123, b"\x11"))
    assert (outcome.kind, outcome.stored, outcome.winner) == (RoundKind.RECEIVED, 5, 1)
    assert chip.if1.line() and chip.bus.line()
    assert chip.if1.interrupt() == chip.bus.interrupt() == 5
    assert chip.if2.flags(Flag.NEWDAT) == chip.bus.flags(Flag.NEWDAT) == 0x10
    assert chip.if2.objects_with(Flag.INTPND) == (5,)
    assert chip.if2.until(5, Flag.NEWDAT) and not chip.if2.until(5, Flag.MSGLST, 10)
    chip.if1.transfer(5, cmask=0x007F)
    assert chip.if1.interrupt() == 0 and not chip.if1.line()
    assert ccan.objects_in(1 << 63 | 1) == (1, 64)


def test_the_status_interrupt_comes_first(chip: ccan.Chip) -> None:
    """As examples/interrupt_service.json, by the registers."""
    chip.bus.control(sie=True, eie=False)
    chip.bus.round(Frame(0x200, b"\x01\x02"))
    assert chip.if1.read16(Offset.INTERRUPT) == 0x8000
    assert chip.bus.status() == ccan.Status.RXOK
    assert chip.bus.interrupt() == 0


def test_frames_of_nodes(chip: ccan.Chip) -> None:
    """The lower identifier wins (CAN Specification 2.0, "Arbitration")."""
    high, low = Frame(0x200, b"\x02"), Frame(0x100, b"\x01")
    assert chip.bus.round([high, low]).winner == 2
    outcome = chip.bus.round({2: high})
    assert (outcome.winner, outcome.frame) == (2, high)
    assert chip.bus.round([low, low]).kind is RoundKind.COLLISION
    idle = chip.bus.round()
    assert (idle.kind, idle.winner, idle.frame, idle.object) == (RoundKind.IDLE, None, None, None)


def test_frames_of_each_kind_go_over_the_bus(chip: ccan.Chip) -> None:
    for frame in [
        Frame(0x7FF, bytes(range(8)), dlc=15),
        Frame(0x123, is_remote_frame=True, dlc=4),
        Frame(0x1FFFFFFF, b"\xff", is_extended_id=True),
    ]:
        assert chip.bus.round(frame).frame == frame


def test_a_frame_of_the_chip(chip: ccan.Chip) -> None:
    chip.if1.transfer(2, cmask=0x00F3, arb2=0xA400, ctrl=0x0982, dataa1=0x4433)
    outcome = chip.bus.round(fault=ccan.Fault.BIT1)
    assert (outcome.kind, outcome.loaded, outcome.finished) == (RoundKind.FAULT, 2, None)
    assert chip.bus.counters() == ccan.Counts(8, 0, State.ACTIVE)
    assert chip.bus.counters(1) == ccan.Counts(0, 1, State.ACTIVE)
    outcome = chip.bus.round()
    assert (outcome.kind, outcome.object, outcome.winner) == (RoundKind.SENT, 2, 0)
    assert outcome.frame == Frame(0x100, b"\x33\x44")
    assert outcome.finished is not None and outcome.finished.intpnd and not outcome.finished.txrqst
    assert outcome.refused is ccan.Step.NONE


def test_loop_back(chip: ccan.Chip) -> None:
    """As examples/loop_back.json: object 1 is sent and finished, and object 2 stores it."""
    chip.if1.transfer(2, cmask=0x00F3, arb2=0x848C, ctrl=0x0088)
    chip.if1.transfer(1, arb2=0xA48C, ctrl=0x0188, dataa1=0x2211)
    chip.bus.loop_back(True)
    outcome = chip.bus.round()
    assert (outcome.kind, outcome.object, outcome.stored, outcome.winner) == (RoundKind.LOOPED, 1, 2, 0)
    assert outcome.finished is not None and outcome.finished.control == 0x0088
    assert outcome.stored_record is not None and outcome.stored_record.data[:2] == b"\x11\x22"


def test_a_load_has_the_frame_that_is_to_be_sent(chip: ccan.Chip) -> None:
    chip.if1.transfer(5, cmask=0x00F3, arb2=0xA48C, ctrl=0x0182, dataa1=0x2211)
    loaded, held = chip.bus.load(), chip.bus.load()
    assert (loaded.kind, held.kind) == (ccan.LoadKind.LOADED, ccan.LoadKind.HELD)
    for load in loaded, held:
        assert load.object == 5 and load.held is not None and load.held.control == 0x0182
        assert load.frame == Frame(0x123, b"\x11\x22")


def test_a_chip_with_init_takes_no_part() -> None:
    with ccan.Chip() as chip:
        receive_0x123(chip.if1, 1)
        assert chip.bus.load().kind is ccan.LoadKind.NOTHING
        chip.bus.init()
        assert chip.bus.round(Frame(0x123)).stored == 1


def test_a_saved_chip_has_the_bytes_of_its_format(chip: ccan.Chip) -> None:
    chip.if1.transfer(3, cmask=0x00F3, arb2=0xA48C, ctrl=0x0088, dataa1=0x2211, dataa2=0x4433, datab1=0x6655, datab2=0x8877)
    saved = chip.save()
    assert len(saved) == 1672 and saved[:8] == b"ccansave"
    assert [int.from_bytes(saved[at : at + 8], "little") for at in (8, 16, 24, 32, 40)] == [2, 32, 0, 1000, 2]
    object3 = [int.from_bytes(saved[at : at + 8], "little") for at in range(136 + 48, 136 + 72, 8)]
    assert object3 == [0x00000000A48C0000, 0x0000000000000088, 0x8877665544332211]


def test_a_chip_comes_back_from_its_bytes() -> None:
    with ccan.Chip(64, 2, 9, Layout.C_CAN_32, concurrent=True) as chip:
        receive_0x123(chip.if2, 64)
        saved = chip.save()
    with ccan.Chip.restore(saved) as again:
        assert (again.objects, again.other_nodes, again.tries, again.layout) == (64, 2, 9, Layout.C_CAN_32)
        assert not again.concurrent
        assert again.if1.peek(64).id == 0x123
        assert again.save() == saved


def test_a_chip_goes_back_in_its_place(chip: ccan.Chip) -> None:
    saved, port = chip.save(), chip.if1
    receive_0x123(port, 1)
    chip.go_back(saved)
    assert port.peek(1) == ccan.Record()


def test_a_reset_clears_four_flags_of_the_message_objects(chip: ccan.Chip) -> None:
    chip.if1.transfer(1, cmask=0x00F3, arb2=0xA48C, ctrl=0xE588)
    assert chip.if1.peek(1).valid
    chip.reset()
    assert chip.if1.read16(Offset.CONTROL) == 1 and chip.if1["MASK1"] == 0xFFFF
    record = chip.if1.peek(1)
    assert (record.valid, record.id, record.control) == (False, 0x123, 0x4488)


def test_a_chip_of_one_thread_meets_by_itself(chip: ccan.Chip) -> None:
    receive_0x123(chip.if1, 1)
    chip.if2.transfer(1, cmask=0x0073)
    assert chip.if2["ARB2"] == 0x848C


def test_meet(shared: ccan.Chip) -> None:
    receive_0x123(shared.if1, 1)
    shared.meet()
    shared.if2.transfer(1, cmask=0x0073)
    assert shared.if2["ARB2"] == 0x848C


def test_the_end_gives_the_records() -> None:
    chip = ccan.Chip(64)
    receive_0x123(chip.if1, 0)
    records = chip.end()
    assert len(records) == 64
    assert [number for number, record in enumerate(records, start=1) if record != ccan.Record()] == [64]


def test_a_chip_that_is_not_closed_is_told_of() -> None:
    with pytest.warns(ResourceWarning, match="was not closed"):
        ccan.Chip()
        gc.collect()


def test_a_chip_that_is_not_closed_gives_its_memory_back() -> None:
    """A chip has more than 16 KiB, so that 3,000 of them would have 48 MiB."""
    with warnings.catch_warnings():
        warnings.simplefilter("ignore", ResourceWarning)
        before = resource.getrusage(resource.RUSAGE_SELF).ru_maxrss
        for _ in range(3000):
            ccan.Chip()
        gc.collect()
    assert resource.getrusage(resource.RUSAGE_SELF).ru_maxrss - before < 16 * 1024


def test_a_chip_is_neither_copied_nor_pickled(chip: ccan.Chip) -> None:
    refusing: List[Callable[[object], object]] = [copy.copy, copy.deepcopy, pickle.dumps]
    for refused in refusing:
        with pytest.raises(TypeError, match="save\\(\\) gives it as bytes"):
            refused(chip)
