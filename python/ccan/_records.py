"""What a message object holds."""
from __future__ import annotations

import dataclasses
from typing import Any


@dataclasses.dataclass(frozen=True)
class Record:
    """What a message object holds, by the bits of its registers (C_CAN User's Manual 1.2, section 3.3.4).

    The properties have the names of ``ccan-lab explain --json``.

    Attributes
    ----------
    masks : int
        Mask 2 above Mask 1, 32 bits: MXtd 31, MDir 30, Msk28 to Msk0 in bits 28 to 0.
    arbitration : int
        Arbitration 2 above Arbitration 1, 32 bits: MsgVal 31, Xtd 30, Dir 29, ID28 to ID0 in bits 28 to 0.
    control : int
        Message Control, 16 bits: NewDat 15, MsgLst 14, IntPnd 13, UMask 12, TxIE 11, RxIE 10, RmtEn 9, TxRqst 8, EoB 7, the data
        length code in bits 3 to 0.
    data : bytes
        Eight bytes, byte 0 first.
    """

    masks: int = 0
    arbitration: int = 0
    control: int = 0
    data: bytes = bytes(8)

    def _bit(self, place: int) -> bool:
        return bool(self.control >> place & 1)

    @property
    def valid(self) -> bool:
        """MsgVal: the object takes part."""
        return bool(self.arbitration >> 31 & 1)

    @property
    def xtd(self) -> bool:
        """Xtd: the identifier is extended."""
        return bool(self.arbitration >> 30 & 1)

    @property
    def dir(self) -> bool:
        """Dir: the object transmits."""
        return bool(self.arbitration >> 29 & 1)

    @property
    def id(self) -> int:
        """The identifier: ID28 to ID0 where it is extended, else ID28 to ID18."""
        return self.arbitration & 0x1FFFFFFF if self.xtd else self.arbitration >> 18 & 0x7FF

    @property
    def mask(self) -> int:
        """The mask at the places of the identifier."""
        return self.masks & 0x1FFFFFFF if self.xtd else self.masks >> 18 & 0x7FF

    @property
    def mxtd(self) -> bool:
        """MXtd: Xtd is compared."""
        return bool(self.masks >> 31 & 1)

    @property
    def mdir(self) -> bool:
        """MDir: Dir is compared."""
        return bool(self.masks >> 30 & 1)

    @property
    def newdat(self) -> bool:
        """NewDat: a frame was stored, or a host wrote data, since it was cleared."""
        return self._bit(15)

    @property
    def msglst(self) -> bool:
        """MsgLst: a frame was stored over one that nobody had read."""
        return self._bit(14)

    @property
    def intpnd(self) -> bool:
        """IntPnd: the object has an interrupt pending."""
        return self._bit(13)

    @property
    def umask(self) -> bool:
        """UMask: the mask counts."""
        return self._bit(12)

    @property
    def txie(self) -> bool:
        """TxIE: the end of a transmission sets IntPnd."""
        return self._bit(11)

    @property
    def rxie(self) -> bool:
        """RxIE: a stored frame sets IntPnd."""
        return self._bit(10)

    @property
    def rmten(self) -> bool:
        """RmtEn: a remote frame sets TxRqst."""
        return self._bit(9)

    @property
    def txrqst(self) -> bool:
        """TxRqst: a transmission is requested."""
        return self._bit(8)

    @property
    def eob(self) -> bool:
        """EoB: the object is the last of its FIFO buffer, or stands alone."""
        return self._bit(7)

    @property
    def dlc(self) -> int:
        """The data length code, 0 to 15."""
        return self.control & 15


def record_of(record: Any) -> Record:
    """The record of a ``ccan_record``."""
    return Record(record.masks, record.arbitration, record.control, bytes(record.bytes))
