"""Modules copied, pickled, peeked at and used by many threads at once."""

from __future__ import annotations

import copy
import pickle
import unittest
from concurrent.futures import ThreadPoolExecutor

import qsm


def running() -> qsm.Module:
    """A module with the receiver on and a word in SCDR."""
    card = qsm.Module()
    card.write(qsm.Offset.SCCR0, 1)
    card.write(qsm.Offset.SCCR1, qsm.Sccr1.TE | qsm.Sccr1.RE)
    card.hold(64)
    card.hold(32, rxd=False)
    card.hold(320)
    return card


def session(seed: int) -> tuple[bytes, list[qsm.Answer]]:
    """A module of its own: random holds and reads, its answers, and its state at the end."""
    card, number, answers = running(), seed, []
    for _ in range(400):
        number = (number * 1103515245 + 12345) % (1 << 31)
        if number >> 20 & 1:
            answers.append(card.hold(number >> 8 & 0xFF, rxd=bool(number >> 16 & 1)))
        else:
            answers.append(card.read(qsm.Offset.SCSR, 4))
    return card.save(), answers


class States(unittest.TestCase):
    def test_copies(self) -> None:
        for kept in (running(), qsm.Drivers()):
            for other in (copy.copy(kept), copy.deepcopy(kept), pickle.loads(pickle.dumps(kept))):
                self.assertIs(type(other), type(kept))
                self.assertEqual(other.save(), kept.save())
                before = kept.save()
                other.hold(5, rxd=False)
                self.assertEqual(kept.save(), before)
                self.assertNotEqual(other.save(), before)

    def test_damaged_pickle(self) -> None:
        card = running()
        other = qsm.Module()
        with self.assertRaises(ValueError):
            other.__setstate__(card.save()[:-1])
        self.assertEqual(other.save(), qsm.Module().save())

    def test_peek(self) -> None:
        card = running()
        before = card.save()
        shown = card.peek(qsm.Offset.SCSR, 4)
        self.assertEqual(card.save(), before)
        self.assertEqual(card.peek(qsm.Offset.SCSR, 4), shown)
        self.assertEqual(card.read(qsm.Offset.SCSR, 4), shown)
        self.assertNotEqual(card.peek(qsm.Offset.SCSR), shown)
        self.assertEqual(card.peek(qsm.Offset.SCSR, 3).refusal, qsm.Refusal.MISSHAPEN)
        with self.assertRaises(ValueError):
            card.peek(-1)

    def test_threads(self) -> None:
        """Many modules by many threads, each by its own."""
        alone = [session(seed) for seed in range(24)]
        with ThreadPoolExecutor(8) as threads:
            self.assertEqual(list(threads.map(session, range(24))), alone)


if __name__ == "__main__":
    unittest.main()
