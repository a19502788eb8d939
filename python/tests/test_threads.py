"""The thread rules, and two hosts and the bus in three Python threads."""
from __future__ import annotations

import signal
import threading
import time
from typing import Any, Callable, List, Type, TypeVar

import pytest

import ccan
from ccan import Flag, Frame, RoundKind

Answer = TypeVar("Answer")

#: How often each host makes a transfer in the stress tests.
TURNS = 5000


def in_thread(call: Callable[[], object]) -> List[BaseException]:
    """What a call raised in a thread of its own."""
    raised: List[BaseException] = []

    def run() -> None:
        try:
            call()
        except BaseException as error:
            raised.append(error)

    thread = threading.Thread(target=run, name="another")
    thread.start()
    thread.join()
    return raised


def all_at_once(*runs: Callable[[], object]) -> None:
    """Runs each in a thread of its own, and raises what the first raised that did."""
    raised: List[BaseException] = []

    def guarded(run: Callable[[], object]) -> None:
        try:
            run()
        except BaseException as error:
            raised.append(error)

    threads = [threading.Thread(target=guarded, args=(run,)) for run in runs]
    for thread in threads:
        thread.start()
    for thread in threads:
        thread.join()
    if raised:
        raise raised[0]


def again(call: Callable[..., Answer], *arguments: Any) -> Answer:
    """Makes a call until it isn't busy."""
    while True:
        try:
            return call(*arguments)
        except ccan.BusyError:
            pass


def wait_until(holds: Callable[[], bool]) -> None:
    """Waits until something holds, ten minutes at most: the machine may be busy."""
    end = time.monotonic() + 600
    while not holds():
        assert time.monotonic() < end
        time.sleep(0)


# ---- the rules


def test_a_chip_of_one_thread_is_of_that_thread(chip: ccan.Chip) -> None:
    calls: List[Callable[[], object]] = [chip.if1.line, chip.bus.round, chip.save, chip.close]
    for call in calls:
        (error,) = in_thread(call)
        assert isinstance(error, ccan.ThreadUseError)
        assert "used by the thread 'MainThread' that opened it, and this is 'another'; open it with concurrent=True" in str(error)
    assert chip.is_open


def test_a_concurrent_chip_goes_from_thread_to_thread(shared: ccan.Chip) -> None:
    assert in_thread(lambda: shared.if1.transfer(1, cmask=0x00F3, arb2=0x848C)) == []
    assert shared.if1.peek(1).id == 0x123


def held(chip: ccan.Chip, port: str, call: Callable[[], object], kind: Type[BaseException], match: str) -> None:
    """Makes a call while another thread is in one at a port."""
    entered, leave = threading.Event(), threading.Event()

    def hold() -> None:
        with chip._rules.at(port, "ccan_until"):
            entered.set()
            leave.wait()

    thread = threading.Thread(target=hold)
    thread.start()
    entered.wait()
    try:
        with pytest.raises(kind, match=match):
            call()
    finally:
        leave.set()
        thread.join()


@pytest.mark.parametrize("port", ["if1", "if2", "bus"])
def test_a_port_is_in_one_call_at_a_time(port: str, shared: ccan.Chip) -> None:
    held(shared, port, getattr(shared, port).line, ccan.ThreadUseError, f"{port} is in another call")
    assert not getattr(shared, port).line()


def test_other_ports_may_be_in_calls(shared: ccan.Chip) -> None:
    with shared._rules.at("if1", "ccan_until"):
        assert not shared.if2.line() and not shared.bus.line()


@pytest.mark.parametrize("name", ["save", "reset", "meet", "end", "close"])
def test_the_whole_chip_is_in_one_call_at_a_time(name: str, shared: ccan.Chip) -> None:
    held(shared, "if2", getattr(shared, name), ccan.ThreadUseError, "if2 is in another call")
    assert shared.is_open and not shared.if1.line()


def test_two_threads_at_one_port(shared: ccan.Chip) -> None:
    """A wait of a million looks is under way, and a second call at the same port meets it."""
    over = threading.Event()

    def wait() -> None:
        while not over.is_set():
            try:
                shared.if1.until(1, Flag.NEWDAT, 1000000)
            except ccan.ThreadUseError:
                pass  # the other thread was first

    thread = threading.Thread(target=wait)
    thread.start()
    try:
        with pytest.raises(ccan.ThreadUseError):
            while True:
                shared.if1.line()
    finally:
        over.set()
        thread.join()


def test_a_signal_handler_is_refused_within_a_call(chip: ccan.Chip) -> None:
    raised: List[BaseException] = []

    def handle(number: int, frame: object) -> None:
        try:
            chip.if1.line()
        except ccan.ThreadUseError as error:
            raised.append(error)

    before = signal.signal(signal.SIGUSR1, handle)
    try:
        with chip._rules.at("if1", "ccan_line"):
            signal.raise_signal(signal.SIGUSR1)
    finally:
        signal.signal(signal.SIGUSR1, before)
    assert len(raised) == 1


# ---- three threads at once


def test_two_hosts_write_one_object() -> None:
    """Each write has one number in all data registers, so a read that has two is torn. With one try a write may be busy."""
    shared = ccan.Chip(tries=1, zeroed=True, concurrent=True)

    def write(port: ccan.HostPort, first: int) -> None:
        port["CMASK"] = 0x00F3
        port["ARB2"], port["CTRL"] = 0xA48C, 0x0088
        for number in range(first, 2 * TURNS, 2):
            for name in ("DATAA1", "DATAA2", "DATAB1", "DATAB2"):
                port[name] = number
            again(port.request, 1)
            data = port.peek(1).data
            assert data == data[:2] * 4

    all_at_once(lambda: write(shared.if1, 0), lambda: write(shared.if2, 1))
    assert int.from_bytes(shared.end()[0].data[:2], "little") in (2 * TURNS - 2, 2 * TURNS - 1)


def test_each_host_has_its_own_object_while_the_bus_plays(shared: ccan.Chip) -> None:
    over = threading.Event()

    def count(port: ccan.HostPort, object: int) -> None:
        port.transfer(object, cmask=0x00F3, arb2=0xA400 + 4 * object, ctrl=0x0082)
        for number in range(1, TURNS + 1):
            assert port.peek(object).data[:2] == (number - 1).to_bytes(2, "little")
            port["CMASK"], port["DATAA1"] = 0x0082, number
            again(port.request, object)

    def play() -> None:
        while not over.is_set():
            shared.bus.round(Frame(0x7FF))

    bus = threading.Thread(target=play)
    bus.start()
    try:
        all_at_once(lambda: count(shared.if1, 1), lambda: count(shared.if2, 2))
    finally:
        over.set()
        bus.join()
    records = shared.end()
    assert [records[at].data[:2] for at in (0, 1)] == [TURNS.to_bytes(2, "little")] * 2


def test_a_driver_in_three_threads(shared: ccan.Chip) -> None:
    """As examples/c/driver.c: IF2 sends numbered frames, IF1 receives others by the line, and the bus is in a third thread."""
    frames = 200
    taken: List[int] = []
    served: List[int] = []
    on_bus: List[int] = []
    shared.if1.transfer(5, cmask=0x00F3, arb2=0x848C, ctrl=0x0482)
    shared.if1.transfer(2, cmask=0x00F3, arb2=0xA400, ctrl=0x0882)
    shared.bus.write16(0x00, ccan.Control.IE)

    def drive() -> None:
        for number in range(frames):
            shared.if2["CMASK"], shared.if2["DATAA1"] = 0x0087, number
            again(shared.if2.request, 2)
            wait_until(lambda: len(served) > number)

    def serve() -> None:
        while len(taken) < frames or len(served) < frames:
            wait_until(shared.if1.line)
            cause = shared.if1.read16(0x08)
            shared.if1["CMASK"] = 0x007F
            again(shared.if1.request, cause)
            if cause == 5:
                assert not shared.if1["CTRL"] & ccan.MessageControl.MSGLST
                taken.append(shared.if1["DATAA1"])
            else:
                served.append(cause)

    def play() -> None:
        offered = 0
        while len(on_bus) < frames or len(taken) < frames:
            ready = offered < frames and offered == len(taken)
            outcome = shared.bus.round(Frame(0x123, offered.to_bytes(2, "little")) if ready else ())
            if outcome.kind is RoundKind.RECEIVED:
                offered += 1
            if outcome.kind is RoundKind.SENT and outcome.frame is not None:
                on_bus.append(int.from_bytes(outcome.frame.data, "little"))

    all_at_once(drive, serve, play)
    assert on_bus == taken == list(range(frames))
    assert served == [2] * frames
