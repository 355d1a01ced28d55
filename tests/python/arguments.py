"""Arguments that are out of range, and saved bytes of another version: each is refused before anything is called, and nothing changes."""

from __future__ import annotations

import binascii
import unittest
from collections.abc import Callable
from typing import Any

import qsm

POINT = qsm.SetPoint(3, 8, 0x5A)
EDITION = qsm.Edition(1, 4, 0x0C, 0x8104, 0x0404)
PLAN = qsm.plan([POINT], 1000)
assert PLAN is not None

BYTE, WORD, LONG, TWO, LARGE = (0, 255), (0, 65535), (0, 2**32 - 1), (0, 1), (0, 2**64 - 1)

MODULE: list[tuple[Callable[..., Any], dict[str, tuple[int, int]]]] = [
    (qsm.Module.hold, {"clocks": LONG, "rxd": TWO, "pins": BYTE}),
    (qsm.Module.read, {"offset": WORD, "width": BYTE, "supervisor": TWO}),
    (qsm.Module.write, {"offset": WORD, "value": LONG, "width": BYTE, "supervisor": TWO}),
    (qsm.Module.until_change, {"rxd": TWO, "pins": BYTE}),
]
DRIVERS: list[tuple[Callable[..., Any], dict[str, tuple[int, int]]]] = [
    (qsm.Drivers.reset, {"split": BYTE}),
    (qsm.Drivers.hold, {"clocks": LONG, "rxd": TWO, "pins": BYTE}),
    (qsm.Drivers.host_read, {"offset": WORD, "width": BYTE, "supervisor": TWO}),
    (qsm.Drivers.host_write, {"offset": WORD, "value": LONG, "width": BYTE, "supervisor": TWO}),
    (qsm.Drivers.read, {"spindle": TWO, "offset": WORD, "width": BYTE, "supervisor": TWO}),
    (qsm.Drivers.write, {"spindle": TWO, "offset": WORD, "value": LONG, "width": BYTE, "supervisor": TWO}),
    (qsm.Drivers.claim, {"spindle": TWO}),
    (qsm.Drivers.release, {"spindle": TWO}),
]


def replaced(row: Any, field: str, value: int) -> Any:
    return row._replace(**{field: value})


class Arguments(unittest.TestCase):
    def wrong(self, call: Callable[[int], Any], low: int, high: int, name: str) -> None:
        """A call takes both ends of a range, and neither what is past them nor what is no whole number."""
        with self.subTest(argument=name):
            for value in (low, high):
                call(value)
            for value in (low - 1, high + 1, low - 2**64, high + 2**64, -(2**63)):
                self.assertRaises(ValueError, call, value)
            for other in (1.0, "1", None, b"\1"):
                self.assertRaises(TypeError, call, other)

    def methods(self, kept: Any, rows: list[tuple[Callable[..., Any], dict[str, tuple[int, int]]]]) -> None:
        for method, ranges in rows:
            self.assertEqual(set(method.__annotations__) - {"return"}, set(ranges))
            for name, (low, high) in ranges.items():
                others = {other: pair[0] for other, pair in ranges.items() if other != name}

                def call(value: int) -> Any:
                    return method(kept, **others, **{name: value})

                self.wrong(call, low, high, f"{method.__qualname__}: {name}")
                state = kept.save()
                for value in (low - 1, high + 1):
                    self.assertRaises(ValueError, call, value)
                self.assertEqual(kept.save(), state)

    def test_module(self) -> None:
        self.methods(qsm.Module(), MODULE)

    def test_drivers(self) -> None:
        self.methods(qsm.Drivers(), DRIVERS)

    def test_tools(self) -> None:
        index = qsm.Index()
        index.build(b"\1")

        def given(n: Any) -> Any:
            """None is no room, and allowed."""
            return "" if n is None else n

        ranges: list[tuple[str, Callable[[int], Any], tuple[int, int]]] = [
            ("play: room", lambda n: qsm.play(b"\1", room=given(n)), (0, 2**63 - 1)),
            ("compare: room", lambda n: qsm.compare(b"", b"", given(n)), LARGE),
            ("lines: period", lambda n: qsm.lines(b"\1", n), (1, 65535)),
            ("Index: room", lambda n: qsm.Index(n), (0, 2**20)),
            ("find: record", lambda n: index.find(b"\1", n), LARGE),
            ("Editions: room", lambda n: qsm.Editions(room=n), (0, 2**20)),
            ("withdraw", lambda n: qsm.Editions().withdraw(n), (1, 65535)),
            ("get", lambda n: qsm.Editions().get(n), (1, 65535)),
            ("plan: window", lambda n: qsm.plan([POINT], n), LARGE),
            ("plan_accepts: window", lambda n: qsm.plan_accepts([POINT], n, PLAN), LARGE),
        ]
        for name, call, (low, high) in ranges:
            self.wrong(call, low, high, name)
        self.assertRaises(ValueError, qsm.Editions, b"12", 1)

    def test_rows(self) -> None:
        """The fields of an edition, of a set-point and of a plan."""
        for field in EDITION._fields:
            pair = (1, 65535) if field == "number" else WORD
            self.wrong(lambda n: qsm.Editions().add(replaced(EDITION, field, n)), *pair, f"Edition: {field}")
        for field, pair in {"select": (0, 15), "bits": (8, 16), "word": BYTE}.items():
            self.wrong(lambda n: qsm.plan([replaced(POINT, field, n)], 1000), *pair, f"SetPoint: {field}")
        for field, pair in {"clock": LARGE, "spcr0": WORD, "spcr1": WORD, "spcr2": WORD, "first": BYTE, "last": BYTE}.items():
            self.wrong(lambda n: qsm.plan_writes(replaced(PLAN, field, n)), *pair, f"Plan: {field}")
        self.wrong(lambda n: qsm.plan_writes(replaced(PLAN, "entries", ((n, 0),))), *BYTE, "Plan: command")
        self.wrong(lambda n: qsm.plan_writes(replaced(PLAN, "entries", ((0, n),))), *WORD, "Plan: word")
        self.assertRaises(ValueError, qsm.plan, [], 1000)
        self.assertRaises(ValueError, qsm.plan, [POINT] * 17, 1000)
        self.assertRaises(ValueError, qsm.plan_writes, replaced(PLAN, "entries", ((0, 0),) * 17))

    def test_bytes(self) -> None:
        """A trace or a log is bytes, and not a number of them."""
        for other in (5, "01", None, [1]):
            for call in (qsm.play, lambda t: qsm.compare(t, b""), lambda t: qsm.judge(b"", t), lambda t: qsm.lines(t, 1), qsm.Index().build):
                self.assertRaises(TypeError, call, other)


def sealed(body: bytes) -> bytes:
    return body + binascii.crc32(body).to_bytes(4, "big")


class Saved(unittest.TestCase):
    def test_refused(self) -> None:
        """Saved bytes of another version, of another kind, damaged in any byte, cut or longer, or with a bool that is neither 0 nor 1."""
        for kept, other in ((qsm.Module(), qsm.Drivers()), (qsm.Drivers(), qsm.Module())):
            saved = kept.save()
            kept.restore(saved)
            kept.hold(99)
            now = kept.save()
            body = saved[:-4]
            wrong = [b"", b"QSM ", saved[:-1], saved + b"\0", other.save(), sealed(body[:8]), sealed(body + b"\0")]
            wrong += [sealed(body[:4] + version.to_bytes(4, "big") + body[8:]) for version in (0, qsm.VERSION - 1, qsm.VERSION + 1, 2**32 - 1)]
            wrong += [saved[:k] + bytes([saved[k] ^ 0x55]) + saved[k + 1 :] for k in range(len(saved))]
            wrong.append(sealed(body[:18] + b"\2" + body[19:]))
            for bytes_ in wrong:
                self.assertRaises(ValueError, kept.restore, bytes_)
                self.assertEqual(kept.save(), now)
            self.assertRaises(TypeError, kept.restore, 188)
