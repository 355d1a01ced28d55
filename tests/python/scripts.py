"""python/qsm.py on the recorded scripts: editions, two drivers, plans."""

from __future__ import annotations

import unittest
from collections.abc import Iterator
from pathlib import Path
from typing import Optional, Union

import qsm

OF_02 = Path(__file__).resolve().parents[1] / "vectors-02"


def told(given: Union[qsm.Edition, qsm.Refusal]) -> str:
    if isinstance(given, qsm.Edition):
        return f"edition {given.number} " + " ".join(f"{register:04x}" for register in given[1:])
    return f"refusal {given:d}"


def called(e: qsm.Editions, words: list[str]) -> str:
    """A call of a script, as its line. A number that no edition has is not called, and was refused."""
    try:
        if words[0] == "add":
            refusal = e.add(qsm.Edition(int(words[1]), *(int(w, 16) for w in words[2:])))
        elif words[0] == "withdraw":
            refusal = e.withdraw(int(words[1]))
        else:
            return told(e.get(int(words[1])) if words[0] == "get" else e.newest())
    except ValueError:
        return "refusal"
    return f"refusal {refusal:d}" if refusal else f"ok {len(e.saved())}"


def editions(script: str, lines: list[str]) -> Iterator[tuple[str, str]]:
    """Lines as they came and as they are recorded."""
    e: Optional[qsm.Editions] = qsm.Editions(room=0)
    for words in map(str.split, script.splitlines()):
        if words[0] == "size":
            e = qsm.Editions(room=int(words[1]))
        elif words[0] == "load":
            used, buffer = int(words[1]), b"" if words[2] == "-" else bytes.fromhex(words[2])
            e = qsm.Editions(buffer[:used], len(buffer)) if used <= len(buffer) else None
        else:
            want = lines.pop(0)
            if e is None:
                continue
            if words[0] == "dump":
                used, _, hex_ = want.partition(" ")[0], "", want.split()[1]
                yield f"{len(e.saved())} {e.saved().hex()}", f"{used} {'' if hex_ == '-' else hex_[: 2 * int(used)]}"
            else:
                got = called(e, words)
                yield got, "refusal" if got == "refusal" and want.startswith("refusal") else want


def driven(d: qsm.Drivers, words: list[str]) -> qsm.Answer:
    """An event of a script."""
    if words[0] == "reset":
        return d.reset(min(int(words[1]), 255))
    if words[0] == "hold":
        return d.hold(int(words[3]), rxd=int(words[2], 16) != 0, pins=int(words[1], 16))
    if words[1] in ("claim", "release"):
        return (d.claim if words[1] == "claim" else d.release)(words[0] == "spindle")
    width, offset = int(words[2], 16), int(words[3], 16)
    access = {"width": width & 0x7F, "supervisor": width >= 0x80}
    if words[0] == "host":
        return d.host_read(offset, **access) if words[1] == "read" else d.host_write(offset, int(words[4], 16), **access)
    spindle = words[0] == "spindle"
    return d.read(spindle, offset, **access) if words[1] == "read" else d.write(spindle, offset, int(words[4], 16), **access)


def asked(script: str) -> tuple[list[qsm.SetPoint], int, Optional[qsm.Plan]]:
    """Set-points, a window, and a plan, if there is one."""
    lines = [line.split() for line in script.splitlines() if line]
    window = next((int(words[1]) for words in lines if words[0] == "window"), 0)
    points = [qsm.SetPoint(int(w[1]), int(w[2]), int(w[3], 16)) for w in lines if w[0] == "set"]
    entries = tuple((int(w[1], 16), int(w[2], 16)) for w in lines if w[0] == "entry")
    plans = [qsm.Plan(int(w[6]), *(int(r, 16) for r in w[3:6]), int(w[1]), int(w[2]), entries) for w in lines if w[0] == "plan"]
    return points, window, plans[0] if plans else None


def runs(plan: qsm.Plan) -> bool:
    """Whether the plan, loaded into a module, raises SPIF at its clock and not before."""
    module = qsm.Module()
    module.write(qsm.Offset.PQSPAR, 0x7A7E)
    loaded = all(module.write(put.offset, put.value, put.width).refusal == 0 for put in qsm.plan_writes(plan))
    module.hold(plan.clock - 1, pins=0)
    early = module.read(qsm.Offset.SPSR, 1).value & 0x80
    module.hold(1, pins=0)
    return loaded and not early and module.read(qsm.Offset.SPSR, 1).value & 0x80 != 0


class Scripts(unittest.TestCase):
    def test_editions(self) -> None:
        for path in sorted(OF_02.glob("editions/*.in")):
            for got, want in editions(path.read_text(), path.with_suffix(".out").read_text().splitlines()):
                self.assertEqual(got, want, path.name)

    def test_drivers(self) -> None:
        for path in sorted(OF_02.glob("drivers/*.in")):
            d, got = qsm.Drivers(), ""
            for k, line in enumerate(path.read_text().splitlines()):
                if k % 20 == 10:
                    other = qsm.Drivers()
                    other.restore(d.save())
                    d = other
                got += driven(d, line.split()).record().hex() + "\n"
            self.assertEqual(got, path.with_suffix(".out").read_text(), path.name)

    def test_plan(self) -> None:
        """Set-points out of range raise ValueError, and were refused. A plan is accepted, and runs as it says."""
        for path in sorted(OF_02.glob("plan/*.in")):
            points, window, _ = asked(path.read_text())
            try:
                plan = qsm.plan(points, window)
            except ValueError:
                plan = None
            self.assertEqual("refusal 11\n" if plan is None else "plan\n", path.with_suffix(".out").read_text(), path.name)
            if plan is not None:
                self.assertTrue(qsm.plan_accepts(points, window, plan) and runs(plan), path.name)

    def test_check(self) -> None:
        for path in sorted(OF_02.glob("check/*.in")):
            points, window, plan = asked(path.read_text())
            assert plan is not None
            try:
                accepted = qsm.plan_accepts(points, window, plan)
            except ValueError:
                accepted = False
            self.assertEqual("accepted\n" if accepted else "rejected\n", path.with_suffix(".out").read_text(), path.name)
            self.assertTrue(not accepted or runs(plan), path.name)
