"""python/qsm.py on the recorded inputs: what each tool gives is what their files have, and a log is what `replay` writes."""

from __future__ import annotations

import os
import subprocess
import unittest
from collections.abc import Iterator
from pathlib import Path

import qsm

TESTS = Path(__file__).resolve().parents[1]
OF_02 = TESTS / "vectors-02"
BIN = Path(os.environ.get("QSM_BIN", TESTS.parent / "target" / "bin"))
LENGTHS = {1: 1, 2: 5, 3: 4, 4: 8, 5: 7}


def traces() -> list[Path]:
    return sorted([*TESTS.glob("vectors/*/*.trace"), *OF_02.glob("play/*.trace")])


def records(trace: bytes) -> Iterator[bytes]:
    """The records of a trace, up to the first of unknown kind or cut by the end."""
    at = 0
    while at < len(trace) and trace[at] in LENGTHS and at + LENGTHS[trace[at]] <= len(trace):
        yield trace[at : at + LENGTHS[trace[at]]]
        at += LENGTHS[trace[at]]


def act(module: qsm.Module, record: bytes) -> qsm.Answer:
    """A record by the module's calls."""
    kind, numbers = record[0], [int.from_bytes(record[a:b], "big") for a, b in ((2, 4), (4, 8), (3, 5), (3, 7))]
    if kind == 1:
        return module.reset()
    if kind in (2, 5):
        return module.hold(numbers[2] if kind == 2 else numbers[3], rxd=record[2] != 0, pins=record[1])
    width, supervisor = record[1] & 0x7F, record[1] >= 0x80
    if kind == 3:
        return module.read(numbers[0], width, supervisor)
    return module.write(numbers[0], numbers[1], width, supervisor)


class Played(unittest.TestCase):
    def test_logs(self) -> None:
        """Played whole, in too little room, from half of it on, and call by call; beside `replay` and the recorded log."""
        self.assertGreater(len(traces()), 100)
        for path in traces():
            trace, log = path.read_bytes(), path.with_suffix(".log").read_bytes()
            with self.subTest(trace=path.name):
                whole = qsm.play(trace)
                self.assertEqual(whole.log, log)
                self.assertEqual(subprocess.run([BIN / "replay", path], capture_output=True, check=True).stdout, log)
                answers = len(log) // qsm.ANSWER_LENGTH
                first = qsm.play(trace, room=answers // 2 * qsm.ANSWER_LENGTH)
                self.assertEqual(first.stop, qsm.Refusal.NO_ROOM if answers // 2 < answers else whole.stop)
                second = qsm.play(trace[first.read :], first.module)
                self.assertEqual((first.log + second.log, first.read + second.read), (log, whole.read))
                self.assertEqual((second.module.save(), second.stop), (whole.module.save(), whole.stop))
                self.assertTrue(qsm.judge(trace, log).accepted)

    def test_calls(self) -> None:
        """A module by its calls, saved and restored halfway."""
        for path in traces():
            log = path.with_suffix(".log").read_bytes()
            with self.subTest(trace=path.name):
                module, got = qsm.Module(), b""
                for k, record in enumerate(records(path.read_bytes())):
                    if k % 50 == 25:
                        other = qsm.Module()
                        other.restore(module.save())
                        module = other
                    got += act(module, record).record()
                self.assertEqual(got[: len(log)], log)

    def test_long(self) -> None:
        """A log of more than one piece, from other kinds of bytes too."""
        trace = bytes([1]) * 200000
        log = qsm.play(bytearray(trace)).log
        self.assertEqual(log, qsm.play(memoryview(trace)).log)
        self.assertEqual(log, qsm.Module().reset().record() * 200000)
        self.assertEqual(qsm.play(trace, room=65536 * 18).stop, qsm.Refusal.NO_ROOM)
        self.assertEqual(qsm.play(b"").log, b"")

    def test_figures(self) -> None:
        for path in sorted(OF_02.glob("figures/*.trace")):
            module, got = qsm.Module(), ""
            for record in records(path.read_bytes()):
                act(module, record)
                got += f"{module.noise()} {module.counts().taken} {module.counts().lost}\n"
            self.assertEqual(got, path.with_suffix(".out").read_text(), path.name)

    def test_until_change(self) -> None:
        """The clock of the next change, looked for hold by hold."""
        for path in traces()[::9]:
            module = qsm.play(path.read_bytes()).module
            clocks = module.until_change(rxd=False)
            before = module.hold(0, rxd=False)
            shown = before[2:6]
            if clocks > 1:
                self.assertEqual(module.hold(clocks - 1, rxd=False)[2:6], shown)
            if clocks:
                self.assertNotEqual(module.hold(1, rxd=False)[2:6], shown)
            else:
                self.assertEqual(module.hold(1000000, rxd=False)[2:6], shown)


def text(refusal: qsm.Refusal, otherwise: str) -> str:
    return f"refusal {refusal:d}\n" if refusal else otherwise


class Tools(unittest.TestCase):
    def check(self, group: str, given: str, got: str, path: Path) -> None:
        self.assertEqual(got, path.with_suffix(".out").read_text(), f"{group}/{path.name}: {given}")

    def test_compare(self) -> None:
        for path in sorted(OF_02.glob("compare/*.a")):
            room = int(path.with_suffix(".args").read_text())
            c = qsm.compare(path.read_bytes(), path.with_suffix(".b").read_bytes(), room)
            lines = "".join(f"{n} {int(fields)}\n" for n, fields in c.differing)
            longer = "second" if c.second else "first"
            self.check("compare", str(room), text(c.refusal, f"{lines}count {len(c.differing)}\nsurplus {longer} {c.start} {c.length}\n"), path)

    def test_judge(self) -> None:
        for path in sorted(OF_02.glob("judge/*.trace")):
            j = qsm.judge(path.read_bytes(), path.with_suffix(".log").read_bytes())
            verdict = "accepted" if j.accepted else f"wrong {j.number} {str(j.field.name).lower()}"
            self.check("judge", "", verdict + ("\nend\n" if j.stop == 0 else f"\nstop {j.stop:d}\n"), path)

    def test_lines(self) -> None:
        names = {qsm.Cause.LENGTH: "length"}
        for path in sorted(OF_02.glob("lines/*.trace")):
            period, room = map(int, path.with_suffix(".args").read_text().split())
            if not 1 <= period <= 65535:
                self.assertEqual(path.with_suffix(".out").read_text(), "refusal 1\n")
                self.assertRaises(ValueError, qsm.lines, path.read_bytes(), period)
                continue
            if room < 128:  # the room is the module's own
                continue
            gathered, got = qsm.lines(path.read_bytes(), period), ""
            for line in gathered.lines:
                if isinstance(line, qsm.Line):
                    got += f"line {line.number} {line.text.hex() or '-'}\n"
                else:
                    got += f"drop {line.number} {names.get(line.cause, line.cause.name)}\n"
            self.check("lines", str(period), got + ("end\n" if gathered.stop == 0 else f"stop {gathered.stop:d}\n"), path)

    def test_index(self) -> None:
        for path in sorted(OF_02.glob("index/*.trace")):
            trace, index = path.read_bytes(), qsm.Index(int(path.with_suffix(".args").read_text()))
            part = index.build(trace[: len(trace) // 2])
            r = index.extend(trace) if part.refusal == 0 else index.build(trace)
            lines = "".join(f"mark {m.place} {m.resets}\n" for m in index.marks)
            self.check("index", "", text(r.refusal, f"{lines}records {r.records}\n"), path)

    def test_find(self) -> None:
        for path in sorted(OF_02.glob("find/*.trace")):
            trace, index = path.read_bytes(), qsm.Index()
            index.build(trace)
            f = index.find(trace, int(path.with_suffix(".args").read_text()))
            self.check("find", "", text(f.refusal, f"at {f.place} {f.resets}\n"), path)
