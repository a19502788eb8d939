"""An interface of python-can: ``can.Bus(interface="ccan", channel=...)`` is another node on the bus of a chip.

A channel is a chip within this process, by a name. Each bus object of the channel is one of the chip's other nodes. So programs
of python-can exchange frames with the chip, and with one another. A round is one frame on the bus. Somebody has to play them:

- by hand, which is the default: :meth:`CcanBus.step` plays one, and a test is the same each time;
- by a thread: with ``period=0.001`` a round is played each millisecond, as long as a bus of the channel is open.
"""
from __future__ import annotations

import queue
import random
import time
from typing import Any, List, Optional, Tuple

from can.bus import BusABC, BusState
from can.exceptions import CanOperationError, CanTimeoutError
from can.message import Message
from can.typechecking import AutoDetectedConfig

from . import _can_channel as channels
from ._chip import Chip
from ._frames import Frame
from ._library import Fault, RoundKind, State
from ._outcomes import Outcome

_STATES = {State.ACTIVE: BusState.ACTIVE, State.PASSIVE: BusState.PASSIVE, State.OFF: BusState.ERROR}


class CcanBus(BusABC):
    """A node on the bus of a chip.

    Parameters
    ----------
    channel : any
        The name of the channel. Buses of one name, in one process, are nodes of one chip.
    chip : Chip, optional
        The chip of the channel. Left out, it is that of the channel, if there is one. Else a new chip opens, as after its reset,
        with 32 objects, 8 other nodes and ``concurrent=True``, and it is closed with the last bus of the channel.
    receive_own_messages : bool
        Whether this bus also receives what it sent, with ``is_rx`` False.
    error_frames : bool
        Whether a round with a fault, a collision or no acknowledgement gives an error frame, as SocketCAN has it. Filters don't
        count for it.
    period : float, optional
        Seconds between the rounds that a thread plays. A channel has one such thread, with the period of its first bus that has
        one. Left out, this bus starts no thread, and :meth:`step` plays rounds.
    **kwargs : any
        ``can_filters``, and what other interfaces take; a bit rate means nothing here.

    Raises
    ------
    can.CanInitializationError
        Where each of the chip's other nodes has a bus, the channel has another chip, or the chip is on another channel. Also
        where `period` is given, and the chip was not opened with ``concurrent=True``.
    """

    def __init__(
        self,
        channel: Any = "ccan",
        *,
        chip: Optional[Chip] = None,
        receive_own_messages: bool = False,
        error_frames: bool = True,
        period: Optional[float] = None,
        **kwargs: Any,
    ) -> None:
        self._is_open = False
        seconds = None if period is None else float(period)
        self._channel, self._node = channels.join(channel, chip, receive_own_messages, error_frames, seconds)
        self._is_open = True
        self.channel_info = f"ccan channel {channel}, node {self._node.number}"
        super().__init__(channel=channel, **kwargs)

    @property
    def chip(self) -> Chip:
        """The chip on whose bus this node is."""
        return self._channel.chip

    @property
    def node(self) -> int:
        """The number of this node, from 1."""
        return self._node.number

    @property
    def rounds(self) -> int:
        """How many rounds were played on the channel. The timestamp of a message is this number before its round."""
        return self._channel.rounds

    def step(self, fault: Fault = Fault.QUIET) -> Outcome:
        """Plays one round: the first frame that each node has to send, and the chip's own, contend.

        The frame that wins is delivered to each bus of the channel whose node is not off. One that loses, is spoiled or is not
        acknowledged is sent again in the next round. Each thread may call it, one after the other.

        Parameters
        ----------
        fault : Fault
            What spoils the frame that wins.
        """
        self._check_open()
        return self._channel.play(fault)

    def settle(self, most: int = 1000) -> int:
        """Plays rounds until no frame is on the bus, and gives how many had one.

        Parameters
        ----------
        most : int
            The most rounds to play.

        Raises
        ------
        can.CanTimeoutError
            Where there is still a frame after so many rounds.
        """
        for played in range(most):
            if self.step().kind is RoundKind.IDLE:
                return played
        raise CanTimeoutError(f"the bus is not idle after {most} rounds")

    def send(self, msg: Message, timeout: Optional[float] = None) -> None:
        """Has the node send a frame, behind those that it has to send already. It goes on the bus in a later round.

        Parameters
        ----------
        msg : can.Message
            A frame of classical CAN.
        timeout : float, optional
            Means nothing: the frames that wait have no bound.

        Raises
        ------
        can.CanOperationError
            Where the bus is shut down, or `msg` is no frame of classical CAN.
        """
        self._check_open()
        try:
            frame = Frame.from_message(msg)
        except ValueError as error:
            raise CanOperationError(f"no frame to send: {error}") from error
        with self._channel.lock:
            self._node.to_send.append(frame)

    def _recv_internal(self, timeout: Optional[float]) -> Tuple[Optional[Message], bool]:
        """A message that the filters let through, and that they were asked. Error frames pass them."""
        end = None if timeout is None else time.monotonic() + timeout
        while True:
            self._check_open()
            try:
                message = self._node.received.get(timeout=None if end is None else max(end - time.monotonic(), 0))
            except queue.Empty:
                return None, False
            if message is not None and (message.is_error_frame or self._matches_filters(message)):
                return message, True

    def flush_tx_buffer(self) -> None:
        """Drops the frames that this node has still to send."""
        with self._channel.lock:
            self._node.to_send.clear()

    @property
    def state(self) -> BusState:
        """What the error counters of this node make it. ``BusState.ERROR`` is bus off."""
        with self._channel.lock:
            return _STATES[self.chip.bus.counters(self.node).state]

    @state.setter
    def state(self, new_state: BusState) -> None:
        raise NotImplementedError("the state of a node follows from its error counters")

    def _check_open(self) -> None:
        if not self._is_open:
            raise CanOperationError("the bus is shut down")
        if self._channel.failure is not None:
            raise CanOperationError(f"the rounds ended: {self._channel.failure}") from self._channel.failure

    def shutdown(self) -> None:
        """Leaves the channel. The last bus of a channel stops its thread, and closes a chip that was opened for it."""
        super().shutdown()
        if self._is_open:
            self._is_open = False
            channels.leave(self._channel, self._node)

    @staticmethod
    def _detect_available_configs() -> List[AutoDetectedConfig]:
        """The channels that have a bus, and one that has none."""
        names = channels.names()
        new = "ccan"
        while new in names:
            new = f"ccan-{random.randint(0, 9999)}"
        return [AutoDetectedConfig(interface="ccan", channel=name) for name in [*names, new]]
