"""Explores all interleavings of processes that call Redis, each call one step.

A process is a state machine: its local state determines the calls that it may make next, and the reply determines its next state. At each
call the network may lose the reply, or keep the call and deliver it later, or the process may die, together as often as the case allows.
States that were seen are not explored again.
"""

from __future__ import annotations

import marshal
from collections.abc import Callable, Iterable, Sequence
from dataclasses import dataclass
from typing import Any, NamedTuple

from bpfhost.shards.connection import Script
from bpfhost.shards.errors import NoScript, RedisError
from tests.shards.simulator.server import Scripts, Sorted, Store, Stream

Words = tuple[object, ...]
Local = tuple[Any, ...]


@dataclass(frozen=True)
class Step:
    """A call, and the process's next state for each reply; None for a reply with nothing new, after which it calls again."""

    words: Words
    then: Callable[[Any], Local | None]


@dataclass(frozen=True)
class Process:
    """A process: a state machine for the explorer.

    It has its first state, the calls of each state, whether a state is its end, its state after it dies, if it can die, and whether it
    has died as often as the case allows, so that others may wait for it for ever.
    """

    begin: Local
    steps: Callable[[Local], Sequence[Step]]
    is_done: Callable[[Local], bool] = lambda _local: False
    dies: Callable[[Local], Local] | None = None
    is_lossy: bool = True
    is_spent: Callable[[Local], bool] = lambda _local: False


class State(NamedTuple):
    """The keys of Redis, the processes, delayed calls, and the number of faults that are left."""

    keys: bytes
    locals: tuple[Local, ...]
    late: tuple[Words, ...]
    faults: int


class Label(NamedTuple):
    """What leads to a state: whose call, its words, its reply in a tuple if there is one, and what else becomes of it."""

    whose: int | str
    words: Words
    answer: tuple[Any] | None = None
    fate: str = ""

    def __str__(self) -> str:
        return f"{self.whose}: {_shown(self.words)}{f' -> {self.answer[0]!r}' if self.answer else ''}{self.fate}"


class Broken(AssertionError):
    """A forbidden state, with the steps that lead to it."""


class Explorer:
    """The states of a case."""

    def __init__(
        self, processes: Sequence[Process], invariant: Callable[[dict[bytes, Any]], None], faults: int, mutations: dict[str, str] | None = None
    ) -> None:
        """`mutations` are the texts of scripts that replace others, to check that their mistakes are found."""
        self._processes, self._invariant, self._faults = processes, invariant, faults
        self._mutations = mutations or {}
        self._scripts, self._store = Scripts(), Store()
        self._known: dict[tuple[bytes, Words], tuple[bytes, Any]] = {}
        # The calls of each state of a process, and the keys that are not forbidden.
        self._steps: dict[tuple[int, Local], Sequence[Step]] = {}
        self._allowed: set[bytes] = set()
        self._came: dict[State, tuple[State, Label] | None] = {}

    def run(self, keys: dict[bytes, Any]) -> int:
        """Explores all states, and returns their number. Raises Broken if the invariant does not hold, or no process can go on."""
        first = State(_frozen(keys), tuple(process.begin for process in self._processes), (), self._faults)
        self._came = {first: None}
        waiting = [first]
        while waiting:
            state = waiting.pop()
            goes_on = False
            for label, after in self._after(state):
                goes_on = True
                if after not in self._came:
                    self._came[after] = state, label
                    self._check(after)
                    waiting.append(after)
            if not goes_on and self._is_stuck(state):
                raise Broken(f"nothing goes on: {state.locals}\n{self._trace(state)}")
        return len(self._came)

    def _is_stuck(self, state: State) -> bool:
        both = list(zip(self._processes, state.locals))
        return not any(process.is_spent(local) for process, local in both) and not all(process.is_done(local) for process, local in both)

    def _check(self, state: State) -> None:
        if state.keys in self._allowed:
            return
        try:
            self._invariant(_thawed(state.keys))
        except AssertionError as error:
            raise Broken(f"{error}\n{self._trace(state)}") from None
        self._allowed.add(state.keys)

    def _trace(self, state: State) -> str:
        labels: list[Label] = []
        at = self._came[state]
        while at:
            labels.append(at[1])
            at = self._came[at[0]]
        return "\n".join(map(str, reversed(labels)))

    def _after(self, state: State) -> Iterable[tuple[Label, State]]:
        """The next states, except for the same one again."""
        for at, words in enumerate(state.late):
            keys, _ = self._called(state.keys, words)
            yield Label("late", words), State(keys, state.locals, state.late[:at] + state.late[at + 1 :], state.faults)
        for number, process in enumerate(self._processes):
            for step in self._steps_of(number, state.locals[number]):
                yield from self._stepped(state, number, process, step)

    def _steps_of(self, number: int, local: Local) -> Sequence[Step]:
        known = self._steps.get((number, local))
        if known is None:
            known = self._steps[number, local] = self._processes[number].steps(local)
        return known

    def _stepped(self, state: State, number: int, process: Process, step: Step) -> Iterable[tuple[Label, State]]:
        local = state.locals[number]
        keys, answer = self._called(state.keys, step.words)
        after = step.then(answer)
        if after is not None and (after != local or keys != state.keys):
            yield Label(number, step.words, (answer,)), self._with(state, number, after, keys)
        if not state.faults or not process.is_lossy:
            return
        fewer = State(state.keys, state.locals, state.late, state.faults - 1)
        # The reply is lost: the process calls again, or dies. Or the call is delayed, and comes later.
        again = process.dies(local) if process.dies else local
        if keys != state.keys:
            yield Label(number, step.words, (answer,), ", and the answer is lost"), self._with(fewer, number, again, keys)
        if len(state.late) < 2:
            on_the_way = State(state.keys, state.locals, tuple(sorted((*state.late, step.words), key=repr)), state.faults - 1)
            yield Label(number, step.words, None, " comes later"), self._with(on_the_way, number, again, state.keys)

    @staticmethod
    def _with(state: State, number: int, local: Local, keys: bytes) -> State:
        return State(keys, state.locals[:number] + (local,) + state.locals[number + 1 :], state.late, state.faults)

    def _called(self, keys: bytes, words: Words) -> tuple[bytes, Any]:
        """What a call makes of the keys, and its reply; an error of a script is no reply."""
        known = self._known.get((keys, words))
        if known is None:
            self._store.keys = _thawed(keys)
            # Each entry has its own id, in whichever stream it is.
            streams = [stream for stream in self._store.keys.values() if isinstance(stream, Stream)]
            self._store.milliseconds = 1000 + sum(stream.added for stream in streams)
            try:
                answer = self._do(words)
            except NoScript:
                raise
            except RedisError as error:
                answer = error.args[0]
            known = self._known[keys, words] = _frozen(self._store.keys), answer
        return known

    def _do(self, words: Words) -> Any:
        if isinstance(words[0], Script):
            text = self._mutations.get(words[0].text, words[0].text)
            keys, arguments = words[1], words[2]
            assert isinstance(keys, tuple) and isinstance(arguments, tuple)
            return self._scripts.run(self._store, ["EVAL", text, len(keys), *keys, *arguments])
        return self._store.do(words)


def _frozen(keys: dict[bytes, Any]) -> bytes:
    """The keys as bytes, the same bytes for the same keys."""
    plain: list[tuple[bytes, object]] = []
    for name in sorted(keys):
        value = keys[name]
        if isinstance(value, Stream):
            plain.append((name, ("stream", list(value.entries.items()), value.last, value.added)))
        elif isinstance(value, Sorted):
            plain.append((name, ("sorted", sorted(value.items()))))
        else:
            plain.append((name, ("hash", list(value.items())) if isinstance(value, dict) else ("text", value)))
    # This version knows no references, so equal keys are equal bytes.
    return marshal.dumps(plain, 2)


def _thawed(frozen: bytes) -> dict[bytes, Any]:
    """The keys of these bytes."""
    keys: dict[bytes, Any] = {}
    for name, (kind, value, *rest) in marshal.loads(frozen):
        if kind == "stream":
            keys[name] = Stream()
            keys[name].entries = dict(value)
            keys[name].last, keys[name].added = rest
        else:
            keys[name] = value if kind == "text" else Sorted(value) if kind == "sorted" else dict(value)
    return keys


def _shown(words: Words) -> str:
    if isinstance(words[0], Script):
        name = words[0].text.strip().splitlines()[1][:60]
        return f"[{name}..] {words[1]} {words[2]}"
    return " ".join(map(str, words))
