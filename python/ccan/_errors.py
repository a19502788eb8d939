"""The exceptions of the package, and which of them each code of the library is."""
from __future__ import annotations

from typing import TYPE_CHECKING, Dict, Optional, Type, Union

from ._library import Code, ccan_text

if TYPE_CHECKING:
    from ._outcomes import Loaded, Outcome


class CcanError(Exception):
    """A call that the library refused.

    Attributes
    ----------
    code : Code
        What the library answered.
    call : str
        The name of the call in the header.
    """

    def __init__(self, code: Code, call: str, detail: str = "") -> None:
        super().__init__(f"{call}: {ccan_text(code)}" + (f": {detail}" if detail else ""))
        self.code = code
        self.call = call


class ClosedError(CcanError):
    """The chip is closed."""


class BusyError(CcanError):
    """Each try of a change was lost to a change of another port.

    It never comes where no other port changes the same object, or the controller, meanwhile. Except at a round and a load nothing
    was changed, and the call may be made again.

    Attributes
    ----------
    outcome : Outcome or Loaded or None
        What came of the round, or of the load. A frame may have been on the bus all the same.
    """

    outcome: Union[Outcome, Loaded, None] = None


class SpentError(CcanError):
    """The port has made all the changes that it can, 2^47 - 1.

    Attributes
    ----------
    outcome : Outcome or Loaded or None
        As with :class:`BusyError`.
    """

    outcome: Union[Outcome, Loaded, None] = None


class OutOfMemoryError(CcanError, MemoryError):
    """The library got no memory for a chip."""


class SharedError(CcanError):
    """Somebody else holds the memory of the chip: the promises of the header were broken."""


class ArgumentError(CcanError, ValueError):
    """A number that the library does not take. ``code`` says which."""


class OffsetError(ArgumentError):
    """No register of the chip's layout begins at this offset."""


class OtherInterfaceError(ArgumentError):
    """The register is of IF1 or IF2, and this port is not that of it."""


class SavedChipError(CcanError, ValueError):
    """The bytes are no saved chip, or one that no chip can be."""


class ThreadUseError(RuntimeError):
    """A call that the thread rules of the chip do not allow. It was not made."""


_BY_CODE: Dict[Code, Type[CcanError]] = {
    Code.CLOSED: ClosedError,
    Code.BUSY: BusyError,
    Code.SPENT: SpentError,
    Code.NO_MEMORY: OutOfMemoryError,
    Code.SHARED: SharedError,
    Code.OFFSET_RANGE: OffsetError,
    Code.OTHER_INTERFACE: OtherInterfaceError,
    Code.NO_SAVED_CHIP: SavedChipError,
    Code.NO_CHIP: SavedChipError,
}


def error_of(code: int, call: str, detail: str = "") -> Optional[CcanError]:
    """The exception of a code, none where the call is done."""
    if code == Code.DONE:
        return None
    return _BY_CODE.get(Code(code), ArgumentError)(Code(code), call, detail)


def check(code: int, call: str, detail: str = "") -> None:
    """Raises the exception of a code, where it has one."""
    error = error_of(code, call, detail)
    if error is not None:
        raise error
