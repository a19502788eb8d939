"""Channels of the interface of python-can: the chips whose other nodes bus objects stand for."""
from __future__ import annotations

import collections
import queue
import threading
from typing import Any, Deque, Dict, List, Optional, Tuple

from can.exceptions import CanInitializationError
from can.message import Message

from ._chip import Chip
from ._errors import BusyError, SpentError
from ._frames import Frame
from ._library import Fault, RoundKind, State, Step
from ._outcomes import Outcome

#: What the first byte of an error frame of SocketCAN is about (linux/can/error.h): the protocol, or a missing acknowledgement.
_ERR_PROT, _ERR_ACK = 0x08, 0x20

#: The third and fourth byte of an error frame, by the fault: its kind, and where it was.
_FAULT_BYTES = {
    Fault.QUIET: (0x00, 0x00),
    Fault.STUFF: (0x04, 0x00),
    Fault.FORM: (0x02, 0x00),
    Fault.BIT1: (0x10, 0x00),
    Fault.BIT0: (0x08, 0x00),
    Fault.CRC: (0x00, 0x08),
}

def _went_over(outcome: Outcome) -> bool:
    """Whether a frame went over the bus without a fault.

    A frame of the chip's that it was to store itself did not: that is loop back.
    """
    if outcome.kind in (RoundKind.ROUND_BUSY, RoundKind.ROUND_SPENT):
        return outcome.refused is Step.FINISH or (outcome.refused is Step.STORE and outcome.winner != 0)
    return outcome.kind in (RoundKind.SENT, RoundKind.RECEIVED, RoundKind.PASSED)


def _error_frame(outcome: Outcome, fault: Fault, timestamp: float) -> Optional[Message]:
    """The error frame of a round, as SocketCAN has it; none where there was no error. A collision is an error in bit 1."""
    if outcome.kind is RoundKind.NO_ACK:
        about, details = _ERR_ACK, (0x00, 0x00)
    elif outcome.kind is RoundKind.FAULT:
        about, details = _ERR_PROT, _FAULT_BYTES[fault]
    elif outcome.kind is RoundKind.COLLISION:
        about, details = _ERR_PROT, _FAULT_BYTES[Fault.BIT1]
    else:
        return None
    data = bytes([0, 0, *details, 0, 0, 0, 0])
    return Message(timestamp=timestamp, arbitration_id=about, is_extended_id=False, is_error_frame=True, dlc=8, data=data)


class Node:
    """One of a chip's other nodes: what it has to send, and what it received. None there wakes whoever waits."""

    def __init__(self, number: int, receives_own: bool, receives_errors: bool) -> None:
        self.number = number
        self.receives_own = receives_own
        self.receives_errors = receives_errors
        self.to_send: Deque[Frame] = collections.deque()
        self.received: queue.SimpleQueue[Optional[Message]] = queue.SimpleQueue()


class Channel:
    """A chip with those of its other nodes that bus objects stand for."""

    def __init__(self, name: Any, chip: Optional[Chip]) -> None:
        self.name = name
        self.owns_chip = chip is None
        self.chip = Chip(other_nodes=8, concurrent=True) if chip is None else chip
        self.nodes: Dict[int, Node] = {}
        self.rounds = 0
        self.failure: Optional[Exception] = None
        self.lock = threading.RLock()
        self._pump: Optional[threading.Thread] = None
        self._stopping = threading.Event()

    def join(self, receives_own: bool, receives_errors: bool) -> Node:
        """A node that no bus object stands for yet."""
        with self.lock:
            free = [number for number in range(1, self.chip.other_nodes + 1) if number not in self.nodes]
            if not free:
                raise CanInitializationError(
                    f"the chip has {self.chip.other_nodes} other nodes, and a bus of channel {self.name!r} stands for each"
                )
            node = Node(free[0], receives_own, receives_errors)
            self.nodes[node.number] = node
            return node

    def leave(self, node: Node) -> None:
        """The node sends and receives nothing from now on; a call that waits for it is woken."""
        with self.lock:
            del self.nodes[node.number]
        node.received.put(None)

    def play(self, fault: Fault) -> Outcome:
        """Plays a round with the first frame of each node, and hands out what came of it."""
        with self.lock:
            offers = {number: node.to_send[0] for number, node in self.nodes.items() if node.to_send}
            listening = [node for node in self.nodes.values() if self.chip.bus.counters(node.number).state is not State.OFF]
            outcome = self._round(offers, fault)
            self._deliver(outcome, fault, listening)
            self.rounds += 1
        return outcome

    def _round(self, offers: Dict[int, Frame], fault: Fault) -> Outcome:
        """The round. One in which a step was given up is told by its outcome."""
        try:
            return self.chip.bus.round(offers, fault)
        except (BusyError, SpentError) as error:
            if not isinstance(error.outcome, Outcome):
                raise
            return error.outcome

    def _deliver(self, outcome: Outcome, fault: Fault, listening: List[Node]) -> None:
        timestamp = float(self.rounds)
        if outcome.frame is not None and _went_over(outcome):
            if outcome.winner:
                self.nodes[outcome.winner].to_send.popleft()
            for node in listening:
                is_own = node.number == outcome.winner
                if node.receives_own or not is_own:
                    node.received.put(outcome.frame.to_message(timestamp, self.name, not is_own))
            return
        for node in listening:
            error = _error_frame(outcome, fault, timestamp)
            if error is not None and node.receives_errors:
                error.channel = self.name
                node.received.put(error)

    # ---- the thread that plays rounds

    def start(self, period: float) -> None:
        """Starts the thread, where none runs."""
        if not self.chip.concurrent:
            raise CanInitializationError("a thread plays the rounds only of a chip that was opened with concurrent=True")
        with self.lock:
            if self._pump is None:
                self._pump = threading.Thread(target=self._run, args=(period,), name=f"rounds of {self.name}", daemon=True)
                self._pump.start()

    def _run(self, period: float) -> None:
        try:
            while not self._stopping.wait(period):
                self.play(Fault.QUIET)
        except Exception as error:  # told to whoever sends or receives next
            with self.lock:
                self.failure = error
                for node in self.nodes.values():
                    node.received.put(None)

    def close(self) -> None:
        """Stops the thread, and closes a chip that nobody else gave."""
        self._stopping.set()
        if self._pump is not None:
            self._pump.join()
        if self.owns_chip:
            self.chip.close()


_channels: Dict[Any, Channel] = {}
_channels_lock = threading.RLock()


def _channel_of(name: Any, chip: Optional[Chip]) -> Channel:
    """The channel of a name, which is made where there is none."""
    channel = _channels.get(name)
    if channel is None:
        if chip is not None and any(each.chip is chip for each in _channels.values()):
            raise CanInitializationError("this chip is on another channel")
        channel = _channels[name] = Channel(name, chip)
    elif chip is not None and channel.chip is not chip:
        raise CanInitializationError(f"channel {name!r} has another chip")
    return channel


def _drop_unused(channel: Channel) -> None:
    if not channel.nodes:
        del _channels[channel.name]
        channel.close()


def join(
    name: Any, chip: Optional[Chip], receives_own: bool, receives_errors: bool, period: Optional[float]
) -> Tuple[Channel, Node]:
    """Joins the channel of a name as a node of it."""
    with _channels_lock:
        channel = _channel_of(name, chip)
        try:
            if period is not None:
                channel.start(period)
            return channel, channel.join(receives_own, receives_errors)
        finally:
            _drop_unused(channel)


def leave(channel: Channel, node: Node) -> None:
    """Leaves a channel, which ends with its last node."""
    with _channels_lock:
        channel.leave(node)
        _drop_unused(channel)


def names() -> List[Any]:
    """The names of the channels that there are."""
    with _channels_lock:
        return list(_channels)
