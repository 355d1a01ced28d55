"""The structs and functions of include/qsm.h, for the package qsm: use that. Nothing here checks a number; the package does before it calls."""

from __future__ import annotations

import ctypes
import os
from ctypes import POINTER, Structure, c_bool, c_char_p, c_size_t, c_uint8, c_uint16, c_uint32, c_uint64, c_void_p
from pathlib import Path
from typing import Any

VERSION = 5
"""QSM_VERSION of the header that these structs are those of."""

FORMS: dict[str, type[Structure]] = {}
"""Each struct by its name in the header."""


def _struct(name: str, *fields: tuple[str, Any]) -> type[Structure]:
    """A struct of the header: its name there, and its fields in order."""
    form = type(name, (Structure,), {"_fields_": list(fields)})
    FORMS[name] = form
    return form


def _fields(form: Any, names: str) -> list[tuple[str, Any]]:
    """Fields of one type."""
    return [(name, form) for name in names.split()]


Answer = _struct(
    "qsm_answer",
    *_fields(c_uint8, "refusal"), *_fields(c_uint32, "value"), *_fields(c_uint8, "levels mask level vector"), *_fields(c_uint64, "clock"),
)
Flags = _struct("qsm_flags", *_fields(c_uint16, "bits"))
Status = _struct("qsm_status", *_fields(Flags, "flags seen"))
Framer = _struct(
    "qsm_framer",
    *_fields(c_bool, "framing starting"), *_fields(c_uint8, "left rt"), *_fields(c_bool, "first second"), *_fields(c_uint8, "noise"),
    *_fields(c_bool, "moved"), *_fields(c_uint16, "shift"),
)
Receiver = _struct(
    "qsm_receiver",
    *_fields(Framer, "framer"), *_fields(c_uint16, "scdr"), *_fields(c_uint8, "noise"), *_fields(c_bool, "since last1 last2 last3"),
    *_fields(c_uint8, "idle"), *_fields(c_bool, "asleep"),
)
Transmitter = _struct(
    "qsm_transmitter", *_fields(c_bool, "preamble"), *_fields(c_uint8, "left"), *_fields(c_uint16, "shift scdr")
)
Account = _struct("qsm_account", *_fields(c_uint32, "taken lost"))
Sci = _struct(
    "qsm_sci",
    *_fields(c_uint16, "sccr0 sccr1 prescaler"), *_fields(Status, "status"), *_fields(Receiver, "receiver"),
    *_fields(Transmitter, "transmitter"), *_fields(Account, "account"),
)
Registers = _struct("qsm_registers", *_fields(c_uint8, "spcr3"), *_fields(c_uint16, "spcr0 spcr1 spcr2"))
SpsrFlags = _struct("qsm_spsr_flags", *_fields(c_bool, "spif modf halta"))
Spsr = _struct("qsm_spsr", *_fields(SpsrFlags, "flags seen"), *_fields(c_uint8, "cptqp"))
Ram = _struct("qsm_ram", *_fields(c_uint16 * 16, "receive transmit"), *_fields(c_uint8 * 16, "commands"))
Next = _struct("qsm_next", *_fields(c_uint16, "working"), *_fields(c_uint8, "pointer"), *_fields(c_bool, "pending"))
Entry = _struct(
    "qsm_entry",
    *_fields(c_uint16, "word"), *_fields(c_uint8, "command"), *_fields(c_bool, "playing delaying halted"), *_fields(c_uint16, "left"),
    *_fields(c_uint8, "edges"), *_fields(c_bool, "mosi"), *_fields(c_uint16, "collected"), *_fields(c_bool, "selecting"),
)
Qspi = _struct(
    "qsm_qspi",
    *_fields(Registers, "registers"), *_fields(Spsr, "spsr"), *_fields(Ram, "ram"), *_fields(Next, "next"), *_fields(Entry, "entry"),
)
Qsm = _struct(
    "qsm",
    *_fields(Sci, "sci"), *_fields(Qspi, "qspi"), *_fields(c_uint16, "qsmcr"), *_fields(c_uint8, "qilr qivr portqs pqspar ddrqs inputs"),
    *_fields(c_uint64, "clock"),
)
Played = _struct("qsm_played", *_fields(Qsm, "state"), *_fields(c_size_t, "read written"), *_fields(c_uint8, "stop"))
Compared = _struct(
    "qsm_compared", *_fields(c_uint64, "count"), *_fields(c_uint8, "refusal"), *_fields(c_bool, "second"), *_fields(c_size_t, "start length")
)
Judgement = _struct("qsm_judgement", *_fields(c_uint64, "number"), *_fields(c_uint8, "field stop"))
Edition = _struct("qsm_edition", *_fields(c_uint16, "number sccr0 sccr1 spcr0 spcr1"))
Changed = _struct("qsm_editions_changed", *_fields(c_size_t, "used"), *_fields(c_uint8, "refusal"))
Given = _struct("qsm_editions_given", *_fields(Edition, "edition"), *_fields(c_uint8, "refusal"))
SetPoints = _struct(
    "qsm_set_points", *_fields(c_uint8, "count"), *_fields(c_uint8 * 16, "selects bits"), *_fields(c_uint16 * 16, "words")
)
QueuePlan = _struct(
    "qsm_queue_plan",
    *_fields(c_uint64, "clock"), *_fields(c_uint16, "spcr0 spcr1 spcr2"), *_fields(c_uint8, "count first last"),
    *_fields(c_uint8 * 16, "commands"), *_fields(c_uint16 * 16, "words"),
)
Planned = _struct("qsm_planned", *_fields(QueuePlan, "plan"), *_fields(c_uint8, "refusal"))
PlanPut = _struct("qsm_plan_put", *_fields(c_uint32, "value"), *_fields(c_uint16, "offset"), *_fields(c_uint8, "width"))
Line = _struct("qsm_line", *_fields(c_uint64, "number"), *_fields(c_uint8, "cause count"), *_fields(c_uint8 * 128, "characters"))
NoiseSum = _struct("qsm_noise_sum", *_fields(c_uint64, "total"), *_fields(c_uint8, "worst"))
NoiseSums = _struct("qsm_noise_sums", *_fields(NoiseSum, "line last"))
Lines = _struct(
    "qsm_lines",
    *_fields(c_size_t, "at"), *_fields(c_uint32, "left"), *_fields(c_uint16, "since"), *_fields(c_uint8, "pins"), *_fields(c_bool, "rxd"),
    *_fields(Line, "line"), *_fields(NoiseSums, "noise"), *_fields(Qsm, "device"),
)
LinesTold = _struct(
    "qsm_lines_told", *_fields(Lines, "state"), *_fields(c_uint64, "number"), *_fields(c_uint8, "kind length cause refusal")
)
Drivers = _struct("qsm_drivers", *_fields(Qsm, "qsm"), *_fields(c_uint8, "split holder"))
Indexed = _struct(
    "qsm_indexed", *_fields(c_size_t, "marks"), *_fields(c_uint64, "records place resets"), *_fields(c_uint8, "stop refusal")
)
Found = _struct("qsm_found", *_fields(c_uint64, "place resets walked"), *_fields(c_uint8, "refusal"))

_BYTES = c_void_p
_MODULE = POINTER(Qsm)
_DRIVERS = POINTER(Drivers)
_ACCESS = [c_bool, c_uint8, c_uint16]
_BUFFER = [_BYTES, c_size_t, c_size_t]

FUNCTIONS: dict[str, tuple[Any, list[Any]]] = {
    "qsm_version": (c_uint32, []),
    "qsm_new": (Qsm, []),
    "qsm_reset": (Answer, [_MODULE]),
    "qsm_hold": (Answer, [_MODULE, c_uint8, c_bool, c_uint32]),
    "qsm_read": (Answer, [_MODULE, *_ACCESS]),
    "qsm_write": (Answer, [_MODULE, *_ACCESS, c_uint32]),
    "qsm_noise": (c_uint8, [_MODULE]),
    "qsm_taken": (c_uint32, [_MODULE]),
    "qsm_lost": (c_uint32, [_MODULE]),
    "qsm_until_change": (c_uint64, [Qsm, c_uint8, c_bool]),
    "qsm_play": (Played, [Qsm, _BYTES, c_size_t, _BYTES, c_size_t]),
    "qsm_compare": (Compared, [c_char_p, c_size_t, c_char_p, c_size_t, POINTER(c_uint64), c_size_t]),
    "qsm_judge": (Judgement, [c_char_p, c_size_t, c_char_p, c_size_t]),
    "qsm_editions_add": (Changed, [*_BUFFER, Edition]),
    "qsm_editions_withdraw": (Changed, [*_BUFFER, c_uint16]),
    "qsm_editions_get": (Given, [*_BUFFER, c_uint16]),
    "qsm_editions_newest": (Given, _BUFFER),
    "qsm_plan": (Planned, [SetPoints, c_uint64]),
    "qsm_plan_accepts": (c_bool, [SetPoints, c_uint64, QueuePlan]),
    "qsm_plan_writes": (c_uint16, [QueuePlan]),
    "qsm_plan_write": (PlanPut, [QueuePlan, c_uint16]),
    "qsm_lines_new": (Lines, []),
    "qsm_lines_next": (LinesTold, [Lines, c_char_p, c_size_t, c_uint32, _BYTES, c_size_t]),
    "qsm_index_build": (Indexed, [c_char_p, c_size_t, POINTER(c_uint64), c_size_t]),
    "qsm_index_extend": (Indexed, [c_char_p, c_size_t, POINTER(c_uint64), c_size_t, c_size_t]),
    "qsm_index_find": (Found, [c_char_p, c_size_t, POINTER(c_uint64), c_size_t, c_size_t, c_uint64]),
    "qsm_drivers_new": (Drivers, []),
    "qsm_drivers_reset": (Answer, [_DRIVERS, c_uint8]),
    "qsm_drivers_hold": (Answer, [_DRIVERS, c_uint8, c_bool, c_uint32]),
    "qsm_drivers_host_read": (Answer, [_DRIVERS, *_ACCESS]),
    "qsm_drivers_host_write": (Answer, [_DRIVERS, *_ACCESS, c_uint32]),
    "qsm_drivers_read": (Answer, [_DRIVERS, c_bool, *_ACCESS]),
    "qsm_drivers_write": (Answer, [_DRIVERS, c_bool, *_ACCESS, c_uint32]),
    "qsm_drivers_claim": (Answer, [_DRIVERS, c_bool]),
    "qsm_drivers_release": (Answer, [_DRIVERS, c_bool]),
}
"""Each function of the header: what it gives, and what it takes."""


def _path() -> Path:
    """The shared object: QSM_LIBRARY where it is set, else one beside this file, as installed, else the one that python/build makes."""
    if named := os.environ.get("QSM_LIBRARY"):
        return Path(named)
    here = Path(__file__).resolve().parent
    beside = here / "libqsm.so"
    return beside if beside.exists() else here.parents[1] / "target" / "python" / "libqsm.so"


def load() -> ctypes.CDLL:
    """The library, with its functions' types. ImportError where it is not there, or of another version."""
    path = _path()
    if not path.exists():
        raise ImportError(f"{path} is not there: python/build makes it, and QSM_LIBRARY names another")
    library = ctypes.CDLL(str(path))
    for name, (gives, takes) in FUNCTIONS.items():
        function = getattr(library, name)
        function.restype, function.argtypes = gives, takes
    version = library.qsm_version()
    if version != VERSION:
        raise ImportError(f"{path} has version {version} of the module's struct, and this is for {VERSION}")
    return library


functions = load()
