"""The protocol in all interleavings of small cases, and mistakes that are inserted into the scripts, each of which is found.

`python3 -m tests.shards.test_model FAULTS` explores the cases with more faults.
"""

from __future__ import annotations

import importlib.util
import signal
import sys
import unittest
from collections.abc import Sequence
from typing import TYPE_CHECKING

from tests.common import SECONDS, TimedTest

if TYPE_CHECKING:
    from tests.shards.model.explorer import Process

_WHY = None if importlib.util.find_spec("lupa") else "python3-lupa is missing"


def case(name: str) -> Sequence[Process]:
    """The processes of a case."""
    from tests.shards.model.cases import aborter, client, mover, sharing, worker

    def served() -> list[Process]:
        # Shard 0 with two of its tenants, since a customer that returns has another number there.
        return [worker(0, "w0", 0), worker(0, "w0", 0, tenant=1), worker(1, "w1", 0)]

    if name == "calls":
        # A client, and two workers who take the lease from each other; the first call may be skipped.
        return [client(2), worker(0, "a", 2, b"call 1"), worker(0, "b", 2, b"call 1")]
    if name == "calls that wait":
        # Two workers, which write the replies to one call while those to the call before are being written.
        return [worker(0, "a", 2), worker(0, "b", 2)]
    if name == "sessions":
        # Two processes of one session, each of which may die, or be late.
        return sharing()
    calls = 1 if name.startswith("one call") else 2
    if name.endswith("moves"):
        # A client, a mover who may die, and another one.
        return [client(calls), *served(), mover(True), mover(False)]
    # The move is taken back meanwhile.
    return [client(calls), *served(), mover(True), aborter()]


def explore(name: str, faults: int, mistake: str | None = None) -> int:
    """Explores a case with so many faults of the network, and returns the number of its states."""
    from tests.shards.model.cases import begun, calls_are_known, mutated, replies_are_right
    from tests.shards.model.explorer import Explorer

    invariant = calls_are_known if name == "sessions" else replies_are_right
    explorer = Explorer(case(name), invariant, faults, mutated(mistake) if mistake else None)
    waits = name == "calls that wait"
    return explorer.run(begun(held=name != "calls" and not waits, waiting=3 if waits else 0))


@unittest.skipIf(_WHY is not None, _WHY or "")
class Model(TimedTest):
    def test_all_interleavings(self) -> None:
        for name, faults, least in (("calls", 1, 20_000), ("calls that wait", 1, 10_000), ("moves", 0, 4_000), ("one call moves", 1, 10_000), ("aborts", 0, 5_000), ("sessions", 3, 300)):
            # Each case has the time limit of a test.
            signal.alarm(SECONDS)
            self.assertGreater(explore(name, faults), least, name)

    def test_mistakes_are_found(self) -> None:
        from tests.shards.model.explorer import Broken

        for mistake, name, faults, sentence in (
            ("no token is compared", "calls", 0, "calls are answered"),
            ("a reply passes the one before it", "calls that wait", 0, "replies to .*, and entries"),
            ("a reply without its id", "calls", 0, "replies to .*, and entries"),
            ("a seat is given before the old one is taken", "moves", 0, "calls are answered"),
            ("the old seat is not taken", "moves", 0, "calls are answered"),
            ("a call is not remembered", "calls", 1, "a call is taken twice"),
            ("a session is not fenced", "sessions", 0, "were taken, and the session has"),
            ("a seat that is closed is arrived at", "one call aborts", 1, "a call is taken twice|calls are answered"),
        ):
            signal.alarm(SECONDS)
            with self.subTest(mistake), self.assertRaisesRegex(Broken, sentence):
                explore(name, faults, mistake)


if __name__ == "__main__":
    for each in ("calls", "moves", "aborts", "sessions"):
        print(f"{each}: {explore(each, int(sys.argv[1])):,} states", flush=True)
