"""Tools of include/qsm.h: logs compared and judged, lines gathered, editions kept, traces indexed."""

from __future__ import annotations

import ctypes
from ctypes import Structure
from typing import NamedTuple, Optional, Union

from . import library as c_library
from .names import Bytes, Cause, Field, Refusal, bits, number, octets


class Compared(NamedTuple):
    """Two logs compared: for each differing answer its number, from 0, and its differing fields; whose log goes on past the other's end
    (the first's where neither does), from which byte, and for how many. A refusal leaves all of that empty."""

    differing: list[tuple[int, Field]]
    second: bool
    start: int
    length: int
    refusal: Refusal


def compare(first: Bytes, second: Bytes, room: Optional[int] = None) -> Compared:
    """Compares two logs of one kind. With `room`, more differing answers than half so many numbers hold are refused NO_ROOM."""
    a, b = octets(first), octets(second)
    enough = 2 * (min(len(a), len(b)) // 10)
    numbers = enough if room is None else min(enough, bits("room", room, 64))
    list_ = (ctypes.c_uint64 * max(numbers, 1))()
    c = c_library.functions.qsm_compare(a, len(a), b, len(b), list_, numbers)
    differing = [(list_[2 * k], Field(list_[2 * k + 1])) for k in range(c.count)]
    return Compared(differing, c.second, c.start, c.length, Refusal(c.refusal))


class Judgement(NamedTuple):
    """The first wrong answer of a log and its first field that differs, 0 and 0 if it is accepted; and why the trace stopped."""

    number: int
    field: Field
    stop: Refusal

    @property
    def accepted(self) -> bool:
        """Whether the log is what the module gives, byte for byte."""
        return self.field == 0


def judge(trace: Bytes, log: Bytes) -> Judgement:
    """Judges a log of a trace beside a module after reset."""
    a, b = octets(trace), octets(log)
    c = c_library.functions.qsm_judge(a, len(a), b, len(b))
    return Judgement(c.number, Field(c.field), Refusal(c.stop))


class Noise(NamedTuple):
    """The noise figures of a line's words, its newline's among them."""

    total: int
    worst: int


class Line(NamedTuple):
    """A line handed over: its number, from 0 over all lines that ended, its characters and its noise."""

    number: int
    text: bytes
    noise: Noise


class Dropped(NamedTuple):
    """A line dropped, the first cause and its noise."""

    number: int
    cause: Cause
    noise: Noise


class Gathered(NamedTuple):
    """What came of a trace, in order, and why it stopped: UNMODELLED is an access that touches SCSR or SCDR."""

    lines: list[Union[Line, Dropped]]
    stop: Refusal


_LINES_ROOM = 128
_LINES_LINE = 1
_LINES_DROP = 2


def lines(trace: Bytes, period: int) -> Gathered:
    """The lines of a trace that is replayed with a poll after every so many clocks, from 1 to 65,535."""
    given, clocks = octets(trace), number("period", period, 1, 65535)
    state = c_library.functions.qsm_lines_new()
    room = ctypes.create_string_buffer(_LINES_ROOM)
    gathered: list[Union[Line, Dropped]] = []
    while True:
        c = c_library.functions.qsm_lines_next(state, given, len(given), clocks, room, _LINES_ROOM)
        state = c.state
        noise = Noise(state.noise.last.total, state.noise.last.worst)
        if c.kind == _LINES_LINE:
            gathered.append(Line(c.number, room.raw[: c.length], noise))
        elif c.kind == _LINES_DROP:
            gathered.append(Dropped(c.number, Cause(c.cause), noise))
        else:
            return Gathered(gathered, Refusal(c.refusal))


class Edition(NamedTuple):
    """An edition's number, 1 to 65,535, and the register settings that it has."""

    number: int
    sccr0: int
    sccr1: int
    spcr0: int
    spcr1: int


def _edition(value: int) -> int:
    return number("edition", value, 1, 65535)


class Editions:
    """Register settings by edition, in a buffer of so many bytes of which some are in use: those of a file of the program `editions`."""

    ROOM = 64 * 11
    """Enough for all records that there can be."""

    def __init__(self, saved: Bytes = b"", room: int = ROOM) -> None:
        used = octets(saved)
        size = number("room", room, 0, 2**20)
        if len(used) > size:
            raise ValueError(f"{len(used)} bytes in use, and room for {size}")
        self._size = size
        self._used = len(used)
        self._buffer = ctypes.create_string_buffer(used, max(size, 1)) if used else ctypes.create_string_buffer(max(size, 1))

    def saved(self) -> bytes:
        """The bytes in use."""
        return self._buffer.raw[: self._used]

    def _changed(self, c: Structure) -> Refusal:
        self._used = c.used
        return Refusal(c.refusal)

    def add(self, edition: Edition) -> Refusal:
        """Adds an edition above all that were added before."""
        rest = [bits(name, value, 16) for name, value in zip(edition._fields[1:], edition[1:])]
        c = c_library.Edition(_edition(edition.number), *rest)
        return self._changed(c_library.functions.qsm_editions_add(self._buffer, self._size, self._used, c))

    def withdraw(self, edition: int) -> Refusal:
        """Withdraws one."""
        return self._changed(c_library.functions.qsm_editions_withdraw(self._buffer, self._size, self._used, _edition(edition)))

    def _given(self, c: Structure) -> Union[Edition, Refusal]:
        e = c.edition
        return Edition(e.number, e.sccr0, e.sccr1, e.spcr0, e.spcr1) if c.refusal == Refusal.ANSWERED else Refusal(c.refusal)

    def get(self, edition: int) -> Union[Edition, Refusal]:
        """The edition of a number, if it is not withdrawn."""
        return self._given(c_library.functions.qsm_editions_get(self._buffer, self._size, self._used, _edition(edition)))

    def newest(self) -> Union[Edition, Refusal]:
        """The largest that is not withdrawn."""
        return self._given(c_library.functions.qsm_editions_newest(self._buffer, self._size, self._used))


class Mark(NamedTuple):
    """Where a record starts, in bytes, and how many resets came before it."""

    place: int
    resets: int


class Indexed(NamedTuple):
    """Records of a trace up to a stop, where they end, the resets among them, the stop, and a refusal of the index: NO_ROOM."""

    records: int
    place: int
    resets: int
    stop: Refusal
    refusal: Refusal


class Found(NamedTuple):
    """Where a record starts, the resets before it, and how many records were walked over to it; UNMAPPED where there is no such record."""

    place: int
    resets: int
    walked: int
    refusal: Refusal


class Index:
    """Marks of a trace, one for every 256 records, at most so many: 4,096 serve 1,048,576 records."""

    SPACING = 256
    MARKS = 4096

    def __init__(self, room: int = MARKS) -> None:
        self._room = 2 * number("room", room, 0, 2**20)
        self._count = 0
        self._list = (ctypes.c_uint64 * max(self._room, 1))()

    @property
    def marks(self) -> list[Mark]:
        """The marks of records 0, 256, 512 and so on."""
        return [Mark(self._list[2 * k], self._list[2 * k + 1]) for k in range(self._count)]

    def _indexed(self, c: Structure) -> Indexed:
        if c.refusal == Refusal.ANSWERED:
            self._count = c.marks
        return Indexed(c.records, c.place, c.resets, Refusal(c.stop), Refusal(c.refusal))

    def build(self, trace: Bytes) -> Indexed:
        """Marks a trace afresh."""
        given = octets(trace)
        return self._indexed(c_library.functions.qsm_index_build(given, len(given), self._list, self._room))

    def extend(self, trace: Bytes) -> Indexed:
        """Goes on from the last mark, in a trace of which the one marked is a beginning."""
        given = octets(trace)
        return self._indexed(c_library.functions.qsm_index_extend(given, len(given), self._list, self._room, self._count))

    def find(self, trace: Bytes, record: int) -> Found:
        """Finds a record, numbered from 0, by marks of the trace or of a beginning of it; by others the answer has no meaning."""
        given, wanted = octets(trace), bits("record", record, 64)
        c = c_library.functions.qsm_index_find(given, len(given), self._list, self._room, self._count, wanted)
        return Found(c.place, c.resets, c.walked, Refusal(c.refusal))
