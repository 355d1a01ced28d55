"""The clauses of the users' rules that a log can show, each with a trace that tries it. Numbers and words are those of docs/TRACEABILITY.md."""
from . import refusals, registers, flags, receiver, transmitter, queue, pins, records, examples  # noqa: F401  (in the table's order)
from .builder import CLAUSES, UNSEEN  # noqa: F401
