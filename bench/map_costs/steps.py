"""The longest single step: the slowest frame while a map is filled, while keys are added again to the full map, and when that fills the
map's table anew.
"""

from __future__ import annotations

import heapq
import os
import random
import statistics
import subprocess
import time
from collections.abc import Iterator
from dataclasses import dataclass, replace

from map_costs.commands import DELETE, created, on_map, update
from map_costs.costs import Counts, scratch
from map_costs.hosts import Host
from map_costs.keys import Keys, Seed, crowd, random_keys
from measure import Count
from profiles import FILLS_ANEW, calls_of

# Keys that are added again: random ones, those of a crowded group, and colliding ones, each of which takes long. Rounds over which the
# least time of a frame is taken, and how many of the slowest frames are counted.
PUT_BACK, PUT_BACK_CROWDED, PUT_BACK_COLLIDING, ROUNDS, COUNTED = 300_000, 30_000, 12_000, 7, 3


@dataclass(frozen=True)
class Step:
    """A frame, counted from 0; its time and the frames' median in seconds, its machine instructions, and how often a table is filled anew
    in all frames.
    """

    frame: int
    seconds: float
    median: float
    instructions: int | None
    fills: int | None = None


def frames_of(keys: Keys, again: Keys, put_back: int) -> list[bytes]:
    """These keys fill a map, and so many of some of them are deleted and put back."""
    pairs = {key: (on_map(DELETE, key), update(key)) for key in again}
    drawn = random.Random(len(keys)).choices(again, k=put_back)
    return [created(keys), *map(update, keys), *(frame for key in drawn for frame in pairs[key])]


def timed(host: Host, frames: list[bytes]) -> Iterator[float]:
    """The time from each frame to its reply, over two pipes."""
    with subprocess.Popen(
        host.command, stdin=subprocess.PIPE, stdout=subprocess.PIPE, stderr=subprocess.DEVNULL, env=host.environment
    ) as process:
        assert process.stdin and process.stdout
        to, back = process.stdin.fileno(), process.stdout.fileno()
        for frame in frames:
            begin = time.perf_counter()
            os.write(to, frame)
            os.read(back, 4096)
            yield time.perf_counter() - begin


def least_times(host: Host, frames: list[bytes]) -> list[float]:
    rounds = [list(timed(host, frames)) for _ in range(ROUNDS)]
    return [min(taken) for taken in zip(*rounds, strict=True)]


def longest(
    count: Count | None, host: Host, frames: list[bytes], first: int, end: int, took: list[float], counted_frames: int = 1
) -> Step:
    """The slowest of the frames from the first up to the end; of the slowest few, if instructions are counted, that with the most."""
    slowest = heapq.nlargest(counted_frames if count else 1, range(first, end), key=took.__getitem__)
    counted = {at: instructions(count, host, frames, at) if count else 0 for at in slowest}
    at = max(counted, key=counted.__getitem__)
    return Step(at, took[at], statistics.median(took[first:end]), counted[at] if count else None)


def instructions(count: Count, host: Host, frames: list[bytes], at: int) -> int:
    """Those of a frame: of the stream that ends with it, less that which ends before it."""
    with scratch() as files:
        counts, upto = Counts(count, files), [b"".join(frames[:at]), b"".join(frames[: at + 1])]
        counts.look_at([(host, stream) for stream in upto])
        before, behind = (counts.known[host, files.of(stream)] for stream in upto)
        return behind - before


def fills_anew(host: Host, frames: list[bytes]) -> int | None:
    with scratch() as files:
        return calls_of(FILLS_ANEW, host.command, files.of(b"".join(frames)), host.environment)


def longest_steps(count: Count | None, host: Host, keys: Keys, put_back: int) -> Iterator[tuple[str, Step]]:
    """While the map is filled, and after that."""
    frames = frames_of(keys, keys, put_back)
    took = least_times(host, frames)
    full = 1 + len(keys)
    yield "fill", longest(count, host, frames, 1, full, took)
    # colliding keys take too long to count more
    counted_frames = COUNTED if put_back == PUT_BACK else 1
    step = longest(count, host, frames, full, len(frames), took, counted_frames)
    yield "put back", replace(step, fills=fills_anew(host, frames) if put_back == PUT_BACK else None)


def swept(count: Count | None, host: Host, seed: Seed, size: int, entries: int) -> tuple[str, Step]:
    """The step that fills the table anew, which has random keys and a crowd in one group, that is put back again and again."""
    again = crowd(seed, size, entries)
    keys = [*again, *random_keys(size, entries)[len(again) :]]
    frames = frames_of(keys, again, PUT_BACK_CROWDED)
    return "sweep", longest(count, host, frames, 1 + len(keys), len(frames), least_times(host, frames))
