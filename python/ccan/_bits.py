"""The bits of the registers, by the names of the C_CAN User's Manual 1.2, section 3."""
from __future__ import annotations

import enum


class Control(enum.IntFlag):
    """The CAN Control register, at offset 0x00."""

    INIT = 1 << 0  #: the controller takes no part
    IE = 1 << 1  #: the interrupt line is enabled
    SIE = 1 << 2  #: status interrupts of transfers and errors are shown
    EIE = 1 << 3  #: status interrupts of changes of BOff and EWarn are shown
    DAR = 1 << 5  #: stored, and not heeded here
    CCE = 1 << 6  #: with Init, Bit Timing and BRP Extension may be written
    TEST = 1 << 7  #: the Test register may be written, and counts
    PDR = 1 << 24  #: of a D_CAN, in the word of 32 bits: local power down is asked for


class Status(enum.IntFlag):
    """The Status register, at offset 0x02 of a C_CAN. Its bits 2 to 0 are a :class:`LastError`."""

    TXOK = 1 << 3  #: a frame was sent
    RXOK = 1 << 4  #: a frame was received
    EPASS = 1 << 5  #: an error counter is at least 128
    EWARN = 1 << 6  #: an error counter is at least 96
    BOFF = 1 << 7  #: the controller is bus off
    PDA = 1 << 10  #: of a D_CAN: it is in local power down


class LastError(enum.IntEnum):
    """The last error code, in bits 2 to 0 of the Status register."""

    NONE = 0
    STUFF = 1
    FORM = 2
    ACK = 3
    BIT1 = 4
    BIT0 = 5
    CRC = 6
    UNCHANGED = 7  #: what a driver writes there, to see whether an event came since


class CommandMask(enum.IntFlag):
    """The Command Mask register: what a transfer moves, and in which direction."""

    DATA_B = 1 << 0  #: data bytes 4 to 7
    DATA_A = 1 << 1  #: data bytes 0 to 3
    TXRQST_NEWDAT = 1 << 2  #: a write sets TxRqst, a read clears NewDat
    CLR_INT_PND = 1 << 3  #: a read clears IntPnd
    CONTROL = 1 << 4  #: Message Control
    ARB = 1 << 5  #: identifier, Dir, Xtd and MsgVal
    MASK = 1 << 6  #: mask, MDir and MXtd
    WRITE = 1 << 7  #: from the registers to the object, else the other way


class MessageControl(enum.IntFlag):
    """The Message Control register. Its bits 3 to 0 are the data length code."""

    EOB = 1 << 7  #: the last object of a FIFO buffer, or one alone
    TXRQST = 1 << 8
    RMTEN = 1 << 9
    RXIE = 1 << 10
    TXIE = 1 << 11
    UMASK = 1 << 12
    INTPND = 1 << 13
    MSGLST = 1 << 14
    NEWDAT = 1 << 15
