"""Motorola's queued serial module (QSM), over the proved library.

    >>> import qsm
    >>> card = qsm.Module()
    >>> card.write(qsm.Offset.SCCR1, qsm.Sccr1.TE | qsm.Sccr1.RE)
    Answer(refusal=<Refusal.ANSWERED: 0>, value=0, levels=128, mask=128, level=0, vector=0, clock=0)
    >>> card.hold(1344).clock
    1344

Names, refusals and meanings are those of include/qsm.h. What a call can't do is told by its refusal, as the module itself tells it. A number
that an argument can't have raises ValueError before anything is called, and a value of another type TypeError. One Module is not to be used by
two threads at once; different ones may be, each by its own. `copy.copy`, `pickle`, `save` and `restore` keep a state.
"""

from __future__ import annotations

from .module import ANSWER_LENGTH, VERSION, Drivers, Module, Played, play
from .names import Answer, Cause, Counts, Field, Offset, Pin, Refusal, Sccr1, Scsr
from .plans import Plan, Put, SetPoint, plan, plan_accepts, plan_writes
from .tools import Compared, Dropped, Edition, Editions, Found, Gathered, Index, Indexed, Judgement, Line, Mark, Noise, compare, judge, lines

__all__ = [
    "ANSWER_LENGTH", "VERSION", "Answer", "Cause", "Compared", "Counts", "Drivers", "Dropped", "Edition", "Editions", "Field", "Found", "Gathered",
    "Index", "Indexed", "Judgement", "Line", "Mark", "Module", "Noise", "Offset", "Pin", "Plan", "Played", "Put", "Refusal", "Sccr1", "Scsr", "SetPoint",
    "compare", "judge", "lines", "plan", "plan_accepts", "plan_writes", "play",
]
