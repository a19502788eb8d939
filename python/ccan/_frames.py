"""Frames of classical CAN, and those that other nodes offer in a round."""
from __future__ import annotations

import dataclasses
import operator
from typing import TYPE_CHECKING, Any, Mapping, Sequence, Tuple, Union

from . import _library as header

if TYPE_CHECKING:
    from can.message import Message


def unsigned(value: int, bits: int, name: str) -> int:
    """A whole number that a parameter of C can hold, so that nothing of it is cut off."""
    number = operator.index(value)
    if not 0 <= number < 1 << bits:
        raise ValueError(f"{name} is {number}, and has to be a number of {bits} bits without a sign")
    return number


@dataclasses.dataclass(frozen=True)
class Frame:
    """A frame of classical CAN.

    Parameters
    ----------
    arbitration_id : int
        The identifier, of 11 bits, or of 29 where it is extended.
    data : bytes
        At most eight bytes. A remote frame has none.
    is_extended_id : bool
        Whether the identifier is extended. False if left out; a ``can.Message`` has True there.
    is_remote_frame : bool
        Whether it is a remote frame.
    dlc : int
        The data length code, 0 to 15. Left out, it is the number of bytes in `data`. From 8 on it means eight bytes.

    Raises
    ------
    ValueError
        Where a number is out of its range, or `data` has not as many bytes as `dlc` says.
    """

    arbitration_id: int
    data: bytes = b""
    is_extended_id: bool = False
    is_remote_frame: bool = False
    dlc: int = -1

    def __post_init__(self) -> None:
        data = bytes(self.data)
        values = {
            "data": data,
            "dlc": unsigned(len(data) if self.dlc == -1 else self.dlc, 4, "dlc"),
            "arbitration_id": unsigned(self.arbitration_id, 29 if self.is_extended_id else 11, "arbitration_id"),
        }
        for name, value in values.items():
            object.__setattr__(self, name, value)
        length = 0 if self.is_remote_frame else min(self.dlc, 8)
        if len(self.data) != length:
            raise ValueError(f"data has {len(self.data)} bytes, and this frame has {length}")

    @classmethod
    def from_message(cls, message: Message) -> Frame:
        """The frame of a message of python-can.

        Raises
        ------
        ValueError
            Where it is an error frame or a frame of CAN FD, or its numbers are those of no frame.
        """
        if message.is_error_frame or message.is_fd:
            raise ValueError("an error frame or a frame of CAN FD is no frame of classical CAN")
        data = b"" if message.is_remote_frame else bytes(message.data)
        return cls(message.arbitration_id, data, message.is_extended_id, message.is_remote_frame, message.dlc)

    def to_message(self, timestamp: float = 0.0, channel: Union[str, int, None] = None, is_rx: bool = True) -> Message:
        """The message of python-can that this frame is.

        A data length code above 8 becomes 8 there, since a ``can.Message`` of classical CAN has none above it.
        """
        from can.message import Message

        return Message(
            timestamp=timestamp,
            arbitration_id=self.arbitration_id,
            is_extended_id=self.is_extended_id,
            is_remote_frame=self.is_remote_frame,
            channel=channel,
            dlc=min(self.dlc, 8),
            data=self.data,
            is_rx=is_rx,
        )


#: The frames of a round: one of node 1; those of nodes 1, 2 and so on; or those of the nodes that are named.
Frames = Union[Frame, Sequence[Frame], Mapping[int, Frame]]


def _by_node(frames: Frames) -> Mapping[int, Frame]:
    if isinstance(frames, Frame):
        return {1: frames}
    if isinstance(frames, Mapping):
        return frames
    return dict(enumerate(frames, start=1))


def offers_of(frames: Frames) -> Tuple[Any, int]:
    """The offers of a round, and how many there are. The array has a place more, since it may not be null."""
    by_node = _by_node(frames)
    offers = (header.ccan_offer * (len(by_node) + 1))()
    for offer, (node, frame) in zip(offers, by_node.items()):
        offer.id, offer.node = frame.arbitration_id, unsigned(node, 8, "a node")
        offer.xtd, offer.rtr, offer.dlc = frame.is_extended_id, frame.is_remote_frame, frame.dlc
        offer.bytes[: len(frame.data)] = frame.data
    return offers, len(by_node)


def frame_of(frame: Any) -> Frame:
    """The frame of a ``ccan_frame``."""
    length = 0 if frame.rtr else min(frame.dlc, 8)
    return Frame(frame.id, bytes(frame.bytes[:length]), bool(frame.xtd), bool(frame.rtr), frame.dlc)
