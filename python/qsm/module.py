"""A module that a host keeps; a trace played on one; a module whose queue two drivers share."""

from __future__ import annotations

import binascii
import ctypes
from collections.abc import Iterator
from ctypes import Structure
from typing import Any, NamedTuple, Optional, TypeVar

from . import library as c_library
from .names import Answer, Bytes, Counts, Refusal, bits, octets, truth

VERSION = c_library.VERSION
"""The version of a module's state, which saved bytes belong to: QSM_VERSION of the header."""

ANSWER_LENGTH = 18
"""Bytes of an answer in a log."""

_PIECE = 65536 * ANSWER_LENGTH


def _answer(c: Structure) -> Answer:
    return Answer(Refusal(c.refusal), c.value, c.levels, c.mask, c.level, c.vector, c.clock)


def _access(supervisor: bool, width: int, offset: int) -> tuple[bool, int, int]:
    return truth("supervisor", supervisor), bits("width", width, 8), bits("offset", offset, 16)


def _levels(pins: int, rxd: bool) -> tuple[int, bool]:
    return bits("pins", pins, 8), truth("rxd", rxd)


def _leaves(form: Any, at: int = 0) -> Iterator[tuple[int, int, bool]]:
    """The fields of a struct that are no structs: place, bytes, and whether it is a bool. What lies between them is padding."""
    for name, kind in form._fields_:
        field = getattr(form, name)
        if issubclass(kind, Structure):
            yield from _leaves(kind, at + field.offset)
        else:
            yield at + field.offset, field.size, kind is ctypes.c_bool


class _Kept:
    """A struct that is kept from call to call, saved and restored."""

    _form: type[Structure]
    _name: bytes
    _state: Structure

    def save(self) -> bytes:
        """The state as bytes, the same for the same state, with its version and a checksum. They belong to this version, on x86-64."""
        state = bytes(self._state)
        fields = bytearray(len(state))
        for place, size, _ in _leaves(self._form):
            fields[place : place + size] = state[place : place + size]
        body = self._name + VERSION.to_bytes(4, "big") + fields
        return body + binascii.crc32(body).to_bytes(4, "big")

    def restore(self, saved: Bytes) -> None:
        """Takes up a saved state. ValueError, and the state is as it was, where the bytes are of another version, damaged, or no saved state."""
        given = octets(saved)
        name, version, body, crc = given[:4], given[4:8], given[8:-4], given[-4:]
        if len(given) < 12 or name != self._name:
            raise ValueError(f"no saved {type(self).__name__}")
        if int.from_bytes(version, "big") != VERSION:
            raise ValueError(f"saved by version {int.from_bytes(version, 'big')}, and this is version {VERSION}")
        if len(body) != ctypes.sizeof(self._form) or binascii.crc32(given[:-4]).to_bytes(4, "big") != crc:
            raise ValueError("the saved bytes are damaged")
        if any(body[place] > 1 for place, _, truth_value in _leaves(self._form) if truth_value):
            raise ValueError("the saved bytes are no state of a module")
        self._state = self._form.from_buffer_copy(body)

    def __copy__(self: _Self) -> _Self:
        other = type(self)()
        other._state = self._form.from_buffer_copy(self._state)
        return other

    def __deepcopy__(self: _Self, memo: dict[int, object]) -> _Self:
        return self.__copy__()

    def __getstate__(self) -> bytes:
        return self.save()

    def __setstate__(self, saved: bytes) -> None:
        self.restore(saved)


_Self = TypeVar("_Self", bound=_Kept)


class Module(_Kept):
    """A module, fresh from reset."""

    _form = c_library.Qsm
    _name = b"QSM "

    def __init__(self) -> None:
        self._state = c_library.functions.qsm_new()

    def reset(self) -> Answer:
        """Reset."""
        return _answer(c_library.functions.qsm_reset(self._state))

    def hold(self, clocks: int, rxd: bool = True, pins: int = 0xFF) -> Answer:
        """Time passes: RXD has its level and the input pins have theirs for 0 to 4,294,967,295 system clocks. CLOCK_LIMIT, where the clocks since
        reset would pass 2^64 - 1."""
        count = bits("clocks", clocks, 32)
        return _answer(c_library.functions.qsm_hold(self._state, *_levels(pins, rxd), count))

    def read(self, offset: int, width: int = 2, supervisor: bool = True) -> Answer:
        """A read of 1, 2 or 4 bytes; another width is refused, as MISSHAPEN."""
        return _answer(c_library.functions.qsm_read(self._state, *_access(supervisor, width, offset)))

    def write(self, offset: int, value: int, width: int = 2, supervisor: bool = True) -> Answer:
        """A write of 1, 2 or 4 bytes, of which the value is the low end."""
        data = bits("value", value, 32)
        return _answer(c_library.functions.qsm_write(self._state, *_access(supervisor, width, offset), data))

    def peek(self, offset: int, width: int = 2, supervisor: bool = True) -> Answer:
        """What a read would give, with none of its effects: it is made on a copy."""
        return self.__copy__().read(offset, width, supervisor)

    def noise(self) -> int:
        """The noise figure of the word in SCDR: how many samples disagreed in its frame."""
        return int(c_library.functions.qsm_noise(self._state))

    def counts(self) -> Counts:
        """The account of characters since the last reset."""
        return Counts(c_library.functions.qsm_taken(self._state), c_library.functions.qsm_lost(self._state))

    def until_change(self, rxd: bool = True, pins: int = 0xFF) -> int:
        """The least number of clocks at these levels after which pins or request show something else; 0 if they never will."""
        return int(c_library.functions.qsm_until_change(self._state, *_levels(pins, rxd)))


class Played(NamedTuple):
    """A module after the records answered, their log, their bytes in the trace, and why it stopped: ANSWERED at the trace's end."""

    module: Module
    log: bytes
    read: int
    stop: Refusal


def play(trace: Bytes, module: Optional[Module] = None, room: Optional[int] = None) -> Played:
    """Plays a trace from a module's state on, or on one fresh from reset; the one given stays as it is. With `room`, of so many bytes, a log
    that would be longer stops the trace with NO_ROOM."""
    given = octets(trace)
    left = None if room is None else bits("room", room, 63)
    start = ctypes.cast(ctypes.c_char_p(given), ctypes.c_void_p).value or 0
    played = Module()
    if module is not None:
        played._state = type(module._state).from_buffer_copy(module._state)
    pieces: list[bytes] = []
    read = 0
    while True:
        piece = min(_PIECE, ANSWER_LENGTH * (len(given) - read))
        if left is not None:
            piece = min(piece, left)
        log = ctypes.create_string_buffer(max(piece, 1))
        c = c_library.functions.qsm_play(played._state, start + read, len(given) - read, log, piece)
        played._state = c.state
        read += c.read
        pieces.append(log.raw[: c.written])
        left = None if left is None else left - c.written
        if c.stop != Refusal.NO_ROOM or piece < _PIECE:
            return Played(played, b"".join(pieces), read, Refusal(c.stop))


class Drivers(_Kept):
    """A module whose queue two drivers share, the axis driver and the spindle driver, before its first reset. A driver is named by `spindle`."""

    _form = c_library.Drivers
    _name = b"QSMD"

    def __init__(self) -> None:
        self._state = c_library.functions.qsm_drivers_new()

    @property
    def split(self) -> int:
        """The spindle driver's first entry; 0 before the first reset."""
        return int(self._state.split)

    @property
    def holder(self) -> int:
        """Who holds the claim: 1 the axis driver, 2 the spindle driver, 0 nobody."""
        return int(self._state.holder)

    def reset(self, split: int) -> Answer:
        """Reset. The first fixes the split, from 1 to 15; another number is NOT_YOURS. Later resets keep it, whatever they name."""
        return _answer(c_library.functions.qsm_drivers_reset(self._state, bits("split", split, 8)))

    def hold(self, clocks: int, rxd: bool = True, pins: int = 0xFF) -> Answer:
        """As of a Module."""
        count = bits("clocks", clocks, 32)
        return _answer(c_library.functions.qsm_drivers_hold(self._state, *_levels(pins, rxd), count))

    def host_read(self, offset: int, width: int = 2, supervisor: bool = True) -> Answer:
        """The host's read, of all of the module."""
        return _answer(c_library.functions.qsm_drivers_host_read(self._state, *_access(supervisor, width, offset)))

    def host_write(self, offset: int, value: int, width: int = 2, supervisor: bool = True) -> Answer:
        """The host's write."""
        data = bits("value", value, 32)
        return _answer(c_library.functions.qsm_drivers_host_write(self._state, *_access(supervisor, width, offset), data))

    def read(self, spindle: bool, offset: int, width: int = 2, supervisor: bool = True) -> Answer:
        """A driver's read: NOT_YOURS where it may not make it."""
        who = truth("spindle", spindle)
        return _answer(c_library.functions.qsm_drivers_read(self._state, who, *_access(supervisor, width, offset)))

    def write(self, spindle: bool, offset: int, value: int, width: int = 2, supervisor: bool = True) -> Answer:
        """A driver's write: NOT_YOURS where it may not make it."""
        who, data = truth("spindle", spindle), bits("value", value, 32)
        return _answer(c_library.functions.qsm_drivers_write(self._state, who, *_access(supervisor, width, offset), data))

    def claim(self, spindle: bool) -> Answer:
        """A driver claims the queue."""
        return _answer(c_library.functions.qsm_drivers_claim(self._state, truth("spindle", spindle)))

    def release(self, spindle: bool) -> Answer:
        """A driver gives the queue back."""
        return _answer(c_library.functions.qsm_drivers_release(self._state, truth("spindle", spindle)))
