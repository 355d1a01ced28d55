"""Names of include/qsm.h, an answer, and the checks of arguments."""

from __future__ import annotations

import operator
from enum import IntEnum, IntFlag
from typing import NamedTuple, Union

Bytes = Union[bytes, bytearray, memoryview]


class Refusal(IntEnum):
    """Why an access was refused, why a trace stopped, why a tool gives nothing."""

    ANSWERED = 0
    MISSHAPEN = 1
    UNMAPPED = 2
    UNMODELLED = 3
    GUARDED = 4
    UNKNOWN_KIND = 5
    CUT_RECORD = 6
    NO_ROOM = 7
    NO_EDITION = 8
    NOT_YOURS = 9
    CLOCK_LIMIT = 10
    NO_PLAN = 11


class Offset(IntEnum):
    """Offsets of the registers from the module's base. RECEIVE and TRANSMIT are 16 words each, COMMANDS 16 bytes."""

    QSMCR = 0x00
    QILR = 0x04
    QIVR = 0x05
    SCCR0 = 0x08
    SCCR1 = 0x0A
    SCSR = 0x0C
    SCDR = 0x0E
    PORTQS = 0x15
    PQSPAR = 0x16
    DDRQS = 0x17
    SPCR0 = 0x18
    SPCR1 = 0x1A
    SPCR2 = 0x1C
    SPCR3 = 0x1E
    SPSR = 0x1F
    RECEIVE = 0x100
    TRANSMIT = 0x120
    COMMANDS = 0x140


class Sccr1(IntFlag):
    """SCCR1: transmitter and receiver on."""

    TE = 0x0008
    RE = 0x0004


class Scsr(IntFlag):
    """The flags of SCSR."""

    TDRE = 0x0100
    TC = 0x0080
    RDRF = 0x0040
    RAF = 0x0020
    IDLE = 0x0010
    OR = 0x0008
    NF = 0x0004
    FE = 0x0002
    PF = 0x0001


class Pin(IntFlag):
    """Pins, as bits of `pins`, `levels` and `mask`."""

    MISO = 0x01
    MOSI = 0x02
    SCK = 0x04
    PCS0 = 0x08
    PCS1 = 0x10
    PCS2 = 0x20
    PCS3 = 0x40
    TXD = 0x80


class Field(IntFlag):
    """Fields of an answer in a log, as `compare` adds them up and `judge` names them."""

    KIND = 1
    REFUSAL = 2
    VALUE = 4
    LEVELS = 8
    MASK = 16
    LEVEL = 32
    VECTOR = 64
    CLOCK = 128


class Cause(IntEnum):
    """The first cause to drop a line."""

    FE = 1
    PF = 2
    NF = 3
    LENGTH = 4
    OR = 5


class Answer(NamedTuple):
    """The answer to a call: what it gives, and the module's pins and request after it."""

    refusal: Refusal
    value: int
    levels: int
    mask: int
    level: int
    vector: int
    clock: int

    def record(self) -> bytes:
        """The answer as a log has it, 18 bytes."""
        head = bytes([0x11, self.refusal]) + self.value.to_bytes(4, "big")
        return head + bytes([self.levels, self.mask, self.level, self.vector]) + self.clock.to_bytes(8, "big")


class Counts(NamedTuple):
    """Frames taken since the last reset, the lost ones with them, and those that were lost. A count stays at 2^32 - 1."""

    taken: int
    lost: int


def number(name: str, value: int, low: int, high: int) -> int:
    """A number that an argument can have; ValueError otherwise, TypeError where it is no whole number."""
    n = operator.index(value)
    if not low <= n <= high:
        raise ValueError(f"{name} is {n}, not from {low} to {high}")
    return n


def bits(name: str, value: int, count: int) -> int:
    """A number of so many bits."""
    return number(name, value, 0, 2**count - 1)


def truth(name: str, value: bool) -> bool:
    """A truth value, or 0 or 1."""
    return bool(bits(name, value, 1))


def octets(value: Bytes) -> bytes:
    """Bytes as they are handed to C."""
    return value if isinstance(value, bytes) else bytes(memoryview(value))
