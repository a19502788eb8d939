"""The interface of python-can: buses of it are other nodes of a chip."""
from __future__ import annotations

import gc
import time
from typing import Any, Callable, Iterator, List, Optional

import pytest

import ccan
from ccan import Fault, Frame, RoundKind, Step

can = pytest.importorskip("can")

from can.bus import BusState  # noqa: E402

from ccan.can_interface import CcanBus  # noqa: E402

SIGNAL = can.Message(arbitration_id=0x123, data=b"\x11\x22", is_extended_id=False)


@pytest.fixture
def bus(shared: ccan.Chip) -> Iterator[CcanBus]:
    """Node 1 of a chip with two other nodes, whose object 1 takes 0x123."""
    shared.if1.transfer(1, cmask=0x00F3, arb2=0x848C, ctrl=0x0488)
    with CcanBus("bench", chip=shared) as opened:
        yield opened


def sends(chip: ccan.Chip, object: int, identifier: int, data: bytes) -> None:
    """Has the chip send a standard frame of at most two bytes."""
    value = int.from_bytes(data, "little")
    control = 0x0180 | len(data)
    chip.if2.transfer(object, cmask=0x00F3, arb2=0xA000 | identifier << 2, ctrl=control, dataa1=value)


def test_python_can_finds_the_interface() -> None:
    with can.Bus(interface="ccan", channel="bench") as bus:
        assert isinstance(bus, CcanBus)
        assert str(bus) == "ccan channel bench, node 1"
        assert (bus.chip.objects, bus.chip.other_nodes) == (32, 8)
        chip = bus.chip
    assert not chip.is_open


def test_a_message_is_received_by_the_chip(bus: CcanBus) -> None:
    bus.send(SIGNAL)
    assert bus.chip.if1.objects_with(ccan.Flag.NEWDAT) == ()
    outcome = bus.step()
    assert (outcome.kind, outcome.stored, outcome.winner) == (RoundKind.RECEIVED, 1, bus.node)
    assert bus.chip.if1.peek(1).data[:2] == b"\x11\x22"
    assert bus.recv(0) is None


def test_a_frame_of_the_chip_is_received(bus: CcanBus) -> None:
    assert bus.settle() == 0 and bus.rounds == 1
    sends(bus.chip, 2, 0x100, b"\x33\x44")
    assert bus.settle() == 1
    message = bus.recv(0)
    assert message is not None
    expected = can.Message(1.0, 0x100, is_extended_id=False, data=b"\x33\x44", channel="bench")
    assert message.equals(expected, timestamp_delta=0.0)


def test_the_loser_is_sent_in_the_next_round(bus: CcanBus) -> None:
    sends(bus.chip, 2, 0x100, b"\x01")
    bus.send(SIGNAL)
    assert bus.step().winner == 0
    assert bus.step().winner == bus.node
    assert bus.step().kind is RoundKind.IDLE


def test_buses_of_a_channel_hear_one_another(bus: CcanBus) -> None:
    with can.Bus(interface="ccan", channel="bench", receive_own_messages=True) as other:
        assert other.node == 2 and other.chip is bus.chip
        other.send(SIGNAL)
        bus.step()
        for each, is_rx in ((bus, True), (other, False)):
            message = each.recv(0)
            assert message is not None and message.equals(
                can.Message(0.0, 0x123, False, data=b"\x11\x22", channel="bench", is_rx=is_rx), timestamp_delta=0.0
            )


def test_frames_wait_in_their_order(bus: CcanBus) -> None:
    for number in (3, 1, 2):
        bus.send(can.Message(arbitration_id=number, is_extended_id=False))
    assert [bus.step().frame for _ in range(3)] == [Frame(3), Frame(1), Frame(2)]


def test_flush(bus: CcanBus) -> None:
    bus.send(SIGNAL)
    bus.flush_tx_buffer()
    assert bus.step().kind is RoundKind.IDLE


def test_filters(bus: CcanBus) -> None:
    filters: Any = [{"can_id": 0x100, "can_mask": 0x7F0, "extended": False}]
    bus.set_filters(filters)
    for object, identifier in ((2, 0x105), (3, 0x110), (4, 0x106)):
        sends(bus.chip, object, identifier, b"")
    assert bus.settle() == 3
    received = [bus.recv(0), bus.recv(0)]
    assert [message and message.arbitration_id for message in received] == [0x105, 0x106]
    assert bus.recv(0) is None


#: Error frames of SocketCAN (linux/can/error.h): the class in the identifier, and bytes 2 and 3.
ERRORS = {
    Fault.STUFF: (0x08, 0x04, 0x00),
    Fault.FORM: (0x08, 0x02, 0x00),
    Fault.BIT1: (0x08, 0x10, 0x00),
    Fault.BIT0: (0x08, 0x08, 0x00),
    Fault.CRC: (0x08, 0x00, 0x08),
}


def error_of(bus: CcanBus) -> Optional[List[int]]:
    message = bus.recv(0)
    if message is None or not message.is_error_frame:
        return None
    assert message.dlc == 8 and message.channel == "bench"
    return [message.arbitration_id, message.data[2], message.data[3]]


@pytest.mark.parametrize("fault", ERRORS)
def test_a_fault_gives_an_error_frame(fault: Fault, bus: CcanBus) -> None:
    bus.set_filters([{"can_id": 0x100, "can_mask": 0x7FF}])
    bus.send(SIGNAL)
    assert bus.step(fault).kind is RoundKind.FAULT
    assert error_of(bus) == list(ERRORS[fault])
    assert bus.step().kind is RoundKind.RECEIVED


def test_other_error_frames(bus: CcanBus) -> None:
    with CcanBus("bench", error_frames=False) as other:
        bus.send(SIGNAL)
        other.send(SIGNAL)
        assert bus.step().kind is RoundKind.COLLISION
        assert error_of(bus) == [0x08, 0x10, 0x00]
        assert other.recv(0) is None


def test_nobody_acknowledges() -> None:
    with ccan.Chip(other_nodes=1) as chip, CcanBus("bench", chip=chip) as bus:
        bus.send(SIGNAL)
        assert bus.step().kind is RoundKind.NO_ACK
        assert error_of(bus) == [0x20, 0x00, 0x00]


def given_up(step: Step, winner: Optional[int], frame: Optional[Frame]) -> ccan.BusyError:
    """What a round raises in which a step was given up."""
    error = ccan.BusyError(ccan.Code.BUSY, "ccan_round")
    error.outcome = ccan.Outcome(RoundKind.ROUND_BUSY, 1, None, None, None, None, step, winner, frame)
    return error


#: The step that was given up, whose frame was on the bus, and whether the other bus receives it.
GIVEN_UP = [(Step.LOAD, None, False), (Step.FINISH, 0, True), (Step.STORE, 1, True), (Step.STORE, 0, False)]


@pytest.mark.parametrize("step, winner, is_heard", GIVEN_UP)
def test_a_step_that_was_given_up(
    step: Step, winner: Optional[int], is_heard: bool, bus: CcanBus, monkeypatch: pytest.MonkeyPatch
) -> None:
    frame = None if winner is None else Frame.from_message(SIGNAL)

    def play(*arguments: object) -> ccan.Outcome:
        raise given_up(step, winner, frame)

    with CcanBus("bench") as other:
        bus.send(SIGNAL)
        monkeypatch.setattr(bus.chip.bus, "round", play)
        assert bus.step().refused is step
        assert (other.recv(0) is not None) == is_heard
        monkeypatch.undo()
        assert (bus.step().kind is RoundKind.IDLE) == (winner == 1)


def test_loop_back_stays_in_the_chip(bus: CcanBus) -> None:
    bus.chip.bus.loop_back(True)
    sends(bus.chip, 2, 0x123, b"\x01")
    bus.send(SIGNAL)
    assert bus.step().kind is RoundKind.LOOPED
    assert bus.recv(0) is None
    bus.chip.bus.loop_back(False)
    assert bus.step().winner == bus.node


def test_a_node_goes_bus_off(bus: CcanBus) -> None:
    """TEC rises by 8 for each frame that it sent with an error; from 128 it is passive, from 256 off (CAN 2.0)."""
    bus.send(SIGNAL)
    states = []
    for _ in range(32):
        bus.step(Fault.BIT1)
        states.append(bus.state)
    assert states == [BusState.ACTIVE] * 15 + [BusState.PASSIVE] * 16 + [BusState.ERROR]
    assert bus.step().kind is RoundKind.IDLE
    assert len([None for _ in range(40) if bus.recv(0) is not None]) == 32
    with CcanBus("bench") as other:
        other.send(SIGNAL)
        assert bus.step().winner == other.node
        assert bus.recv(0) is None
    with pytest.raises(NotImplementedError):
        bus.state = BusState.ACTIVE


def test_a_length_code_above_eight(bus: CcanBus) -> None:
    message = Frame(0x1, bytes(8), dlc=12).to_message()
    assert (message.dlc, message.data) == (8, bytearray(8))
    assert Frame.from_message(message) == Frame(0x1, bytes(8))


def test_messages_and_frames() -> None:
    for frame in (Frame(0x7FF, b"\x01"), Frame(0x1ABCDEF0, is_extended_id=True), Frame(1, is_remote_frame=True, dlc=3)):
        assert Frame.from_message(frame.to_message()) == frame


@pytest.mark.parametrize(
    "message", [can.Message(is_fd=True), can.Message(is_error_frame=True), can.Message(arbitration_id=1 << 29)]
)
def test_what_is_not_sent(message: object, bus: CcanBus) -> None:
    with pytest.raises(can.CanOperationError, match="no frame to send"):
        bus.send(message)  # type: ignore[arg-type]


def test_a_channel_has_one_chip_and_a_chip_one_channel(bus: CcanBus) -> None:
    with ccan.Chip() as chip, pytest.raises(can.CanInitializationError, match="has another chip"):
        CcanBus("bench", chip=chip)
    with pytest.raises(can.CanInitializationError, match="on another channel"):
        CcanBus("other", chip=bus.chip)
    with CcanBus("bench"), pytest.raises(can.CanInitializationError, match="has 2 other nodes, and a bus of channel 'bench'"):
        CcanBus("bench")


def test_channels_that_could_be_opened(bus: CcanBus) -> None:
    configs = can.detect_available_configs("ccan")
    assert {"interface": "ccan", "channel": "bench"} in configs and len(configs) == 2


def test_a_bus_that_is_shut_down(shared: ccan.Chip) -> None:
    bus = CcanBus("bench", chip=shared)
    bus.shutdown()
    bus.shutdown()
    calls: List[Callable[[], object]] = [bus.step, lambda: bus.recv(0), lambda: bus.send(SIGNAL)]
    for call in calls:
        with pytest.raises(can.CanOperationError, match="the bus is shut down"):
            call()
    assert shared.is_open


def test_a_chip_that_is_never_idle(bus: CcanBus) -> None:
    bus.send(SIGNAL)
    with pytest.raises(can.CanTimeoutError, match="not idle after 1 rounds"):
        bus.settle(1)


# ---- a thread that plays the rounds


def test_a_thread_plays_the_rounds(shared: ccan.Chip) -> None:
    with CcanBus("bench", chip=shared, period=0.001) as bus:
        sends(shared, 2, 0x100, b"\x05")
        message = bus.recv(300)
        assert message is not None and message.arbitration_id == 0x100


def test_notifier_and_periodic_messages(shared: ccan.Chip) -> None:
    """A node sends each 5 ms, the chip stores it, and a notifier hears what the chip sends."""
    shared.if1.transfer(1, cmask=0x00F3, arb2=0x848C, ctrl=0x0488)
    with CcanBus("bench", chip=shared, period="0.001") as bus:  # type: ignore[arg-type]
        heard: List[object] = []
        notifier = can.Notifier(bus, [heard.append], timeout=0.1)
        bus.send_periodic(SIGNAL, 0.005)
        deadline = time.monotonic() + 300
        while not shared.if1.until(1, ccan.Flag.NEWDAT) and time.monotonic() < deadline:
            time.sleep(0.001)
        assert shared.if1.peek(1).data[:2] == b"\x11\x22"
        sends(shared, 2, 0x100, b"\x05")
        while not heard and time.monotonic() < deadline:
            time.sleep(0.001)
        notifier.stop()
    assert [message.arbitration_id for message in heard] == [0x100]  # type: ignore[attr-defined]


def test_a_thread_needs_a_concurrent_chip(chip: ccan.Chip) -> None:
    with pytest.raises(can.CanInitializationError, match="concurrent=True"):
        CcanBus("bench", chip=chip, period=0.001)
    with CcanBus("bench", chip=chip) as bus:
        assert bus.node == 1


def test_rounds_that_end_are_told(shared: ccan.Chip) -> None:
    with CcanBus("bench", chip=shared, period=0.001) as bus:
        while bus.rounds == 0:
            time.sleep(0.001)
        while True:
            try:
                shared.close()
                break
            except ccan.ThreadUseError:
                pass
        with pytest.raises(can.CanOperationError, match="the rounds ended"):
            bus.recv(300)
        with pytest.raises(can.CanOperationError, match="the rounds ended"):
            bus.send(SIGNAL)


def test_nothing_is_left_behind() -> None:
    from ccan import _can_channel

    gc.collect()
    assert _can_channel.names() == []
