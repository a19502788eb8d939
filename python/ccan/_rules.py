"""The thread rules of a chip, which the header asks C to keep."""
from __future__ import annotations

import contextlib
import threading
from typing import Callable, Iterator, Optional

from ._errors import ThreadUseError

#: The ports of a chip.
IF1, IF2, BUS = "if1", "if2", "bus"


class Rules:
    """Keeps the thread rules of one chip: a call that breaks them raises :class:`ThreadUseError` and is not made.

    A chip of one thread takes calls of the thread that opened it. Before a call at another port than the last one its ports meet,
    so that all calls run in their order. A concurrent chip takes calls of any threads: one at each port at a time, and one on the
    whole chip only while no port is in a call.

    The locks here are taken and released round each call. So the calls of different threads on one handle are ordered, as the
    header asks.
    """

    def __init__(self, concurrent: bool, meet: Callable[[], None]) -> None:
        self.concurrent = concurrent
        self._owner = threading.current_thread()
        self._meet = meet
        self._last: Optional[str] = None
        self._in_call = {port: threading.Lock() for port in (IF1, IF2, BUS)}

    def _check_owner(self) -> None:
        if not self.concurrent and threading.current_thread() is not self._owner:
            raise ThreadUseError(
                f"this chip is used by the thread {self._owner.name!r} that opened it, and this is "
                f"{threading.current_thread().name!r}; open it with concurrent=True to use each port by a thread of its own"
            )

    def _take(self, port: str, call: str) -> None:
        if not self._in_call[port].acquire(blocking=False):
            raise ThreadUseError(
                f"{call}: {port} is in another call; each port is in one call at a time, and so is the whole chip"
            )

    @contextlib.contextmanager
    def at(self, port: str, call: str) -> Iterator[None]:
        """A call at one port."""
        self._check_owner()
        if not self.concurrent and self._last not in (None, port):
            with self.whole("ccan_meet"):
                self._meet()
        self._take(port, call)
        try:
            self._last = port
            yield
        finally:
            self._in_call[port].release()

    @contextlib.contextmanager
    def whole(self, call: str) -> Iterator[None]:
        """A call on the whole chip."""
        self._check_owner()
        with contextlib.ExitStack() as taken:
            for port, lock in self._in_call.items():
                self._take(port, call)
                taken.callback(lock.release)
            yield
