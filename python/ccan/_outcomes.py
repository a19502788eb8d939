"""What calls on the bus answer."""
from __future__ import annotations

import dataclasses
from typing import Any, Optional

from ._frames import Frame, frame_of
from ._library import NO_NODE, LoadKind, RoundKind, State, Step
from ._records import Record, record_of


@dataclasses.dataclass(frozen=True)
class Loaded:
    """What came of a load.

    Attributes
    ----------
    kind : LoadKind
        What came of it.
    object : int or None
        The object, none with ``LoadKind.NOTHING``.
    held : Record or None
        Its record after the start, with ``LoadKind.LOADED`` and ``LoadKind.HELD``.
    frame : Frame or None
        The frame that is to be sent of it, with the same kinds.
    """

    kind: LoadKind
    object: Optional[int]
    held: Optional[Record]
    frame: Optional[Frame]


@dataclasses.dataclass(frozen=True)
class Outcome:
    """What came of a round.

    Attributes
    ----------
    kind : RoundKind
        What came of it.
    object : int or None
        The object that was sent, or at which a step was given up.
    finished : Record or None
        The record of that object after the finish, where it was finished.
    stored : int or None
        The object that stored the frame.
    stored_record : Record or None
        Its record after the store.
    loaded : int or None
        The object that this round loaded itself; none where an earlier load did, or none is loaded.
    refused : Step
        The step that was given up, ``Step.NONE`` where all were made.
    winner : int or None
        The node whose frame was on the bus, 0 the controller; none where no single frame was.
    frame : Frame or None
        That frame.
    """

    kind: RoundKind
    object: Optional[int]
    finished: Optional[Record]
    stored: Optional[int]
    stored_record: Optional[Record]
    loaded: Optional[int]
    refused: Step
    winner: Optional[int]
    frame: Optional[Frame]


@dataclasses.dataclass(frozen=True)
class Counts:
    """The error counters of a node.

    Attributes
    ----------
    tec : int
        The transmit error counter, 0 to 263.
    rec : int
        The receive error counter, 0 to 255.
    state : State
        What they make the node.
    """

    tec: int
    rec: int
    state: State


def loaded_of(loaded: Any) -> Loaded:
    """What a ``ccan_loaded`` says."""
    kind = LoadKind(loaded.kind)
    is_loaded = kind in (LoadKind.LOADED, LoadKind.HELD)
    return Loaded(
        kind=kind,
        object=loaded.object or None,
        held=record_of(loaded.held) if is_loaded else None,
        frame=frame_of(loaded.frame) if is_loaded else None,
    )


def outcome_of(outcome: Any) -> Outcome:
    """What a ``ccan_outcome`` says.

    An object was finished where it was sent, and in loop back mode also where the store behind it was refused.
    """
    kind, refused = RoundKind(outcome.kind), Step(outcome.refused)
    is_own = outcome.winner == 0
    finished = kind in (RoundKind.SENT, RoundKind.LOOPED) or (is_own and refused is Step.STORE)
    on_bus = outcome.winner != NO_NODE
    return Outcome(
        kind=kind,
        object=outcome.object or None,
        finished=record_of(outcome.finished) if finished else None,
        stored=outcome.stored or None,
        stored_record=record_of(outcome.stored_record) if outcome.stored else None,
        loaded=outcome.loaded or None,
        refused=refused,
        winner=outcome.winner if on_bus else None,
        frame=frame_of(outcome.frame) if on_bus else None,
    )


def counts_of(counts: Any) -> Counts:
    """What a ``ccan_counts`` says."""
    return Counts(counts.tec, counts.rec, State(counts.state))
