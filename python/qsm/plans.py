"""Plans of the queue."""

from __future__ import annotations

from collections.abc import Sequence
from ctypes import Structure
from typing import NamedTuple, Optional

from . import library as c_library
from .names import Refusal, bits, number


class SetPoint(NamedTuple):
    """Chip select, 0 to 15; bits, 8 to 16; and a word that they hold."""

    select: int
    bits: int
    word: int


class Plan(NamedTuple):
    """A plan of the queue: the clock of its last edge, registers, first and last entry, and for each entry its command and word."""

    clock: int
    spcr0: int
    spcr1: int
    spcr2: int
    first: int
    last: int
    entries: tuple[tuple[int, int], ...]


class Put(NamedTuple):
    """A write for the host to make as supervisor."""

    width: int
    offset: int
    value: int


def _points(points: Sequence[SetPoint]) -> Structure:
    number("the number of set-points", len(points), 1, 16)
    c = c_library.SetPoints(len(points))
    for k, point in enumerate(points):
        c.selects[k] = bits("select", point.select, 4)
        c.bits[k] = number("bits", point.bits, 8, 16)
        c.words[k] = bits("word", point.word, point.bits)
    return c


def _plan(plan: Plan) -> Structure:
    number("the number of entries", len(plan.entries), 0, 16)
    registers = [bits(name, value, 16) for name, value in zip(plan._fields[1:4], plan[1:4])]
    c = c_library.QueuePlan(bits("clock", plan.clock, 64), *registers, len(plan.entries), bits("first", plan.first, 8), bits("last", plan.last, 8))
    for k, (command, word) in enumerate(plan.entries):
        c.commands[k], c.words[k] = bits("command", command, 8), bits("word", word, 16)
    return c


def plan(points: Sequence[SetPoint], window: int) -> Optional[Plan]:
    """The quickest plan that sends 1 to 16 set-points within a window of system clocks; None where there is none at all."""
    c = c_library.functions.qsm_plan(_points(points), bits("window", window, 64))
    if c.refusal != Refusal.ANSWERED:
        return None
    p = c.plan
    return Plan(p.clock, p.spcr0, p.spcr1, p.spcr2, p.first, p.last, tuple((p.commands[k], p.words[k]) for k in range(p.count)))


def plan_accepts(points: Sequence[SetPoint], window: int, plan: Plan) -> bool:
    """Whether a plan, whoever made it, carries these set-points within this window."""
    return bool(c_library.functions.qsm_plan_accepts(_points(points), bits("window", window, 64), _plan(plan)))


def plan_writes(plan: Plan) -> list[Put]:
    """The writes that load a plan, in order; the last, of SPCR1, starts the queue."""
    c = _plan(plan)
    writes = (c_library.functions.qsm_plan_write(c, k) for k in range(c_library.functions.qsm_plan_writes(c)))
    return [Put(w.width, w.offset, w.value) for w in writes]
