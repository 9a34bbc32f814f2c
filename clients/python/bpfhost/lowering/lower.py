"""Writes programs of objects in a form that the host accepts: the same program, laid out as another compiler might do."""

from __future__ import annotations

from collections import Counter
from collections.abc import Callable, Sequence
from dataclasses import dataclass, replace
from functools import cached_property

from bpfhost.lowering.checker import check
from bpfhost.lowering.code import Function, functions_of
from bpfhost.lowering.copies import Accepted, with_copies
from bpfhost.lowering.equal import with_moves
from bpfhost.lowering.errors import Cycle, LoweringError
from bpfhost.lowering.frames import Frames, frames_of
from bpfhost.lowering.graph import EQUAL, INDEX, KNOWN, ZERO, Block, Graph, Origin, Written, in_order, without_empty, written
from bpfhost.lowering.indexing import with_trees
from bpfhost.lowering.inlining import inlined
from bpfhost.lowering.instructions import decoded
from bpfhost.lowering.known import with_known
from bpfhost.lowering.loops import unrolled
from bpfhost.lowering.scratch import room_of, with_scratch
from bpfhost.lowering.sequences import COMPARED, EXCHANGED, FETCHED, PACKET, has_sequences, kind_of
from bpfhost.lowering.zeroing import with_zeros
from bpfhost.numbers import MOST_SLOTS
from bpfhost.objects.model import MapSlot, ObjectFile, ObjectProgram, SourceLine
from bpfhost.slots import WIDE_LOAD

Refusal = tuple[int, int]
# A step, what it changes in a sentence, and its graph.
_Added = tuple[str, str, dict[int, Block]]
Ask = Callable[[ObjectProgram], Refusal | None]

# The words for the sequences of each kind.
_NO_OTHER = "since runs follow one another"
_SEQUENCES = {
    PACKET: ("legacy load of the packet is a call", "legacy loads of the packet are calls", "of bpf_skb_load_bytes"),
    FETCHED: ("atomic operation that fetches is", "atomic operations that fetch are", f"a load, the operation and a store, {_NO_OTHER}"),
    EXCHANGED: ("atomic exchange is", "atomic exchanges are", f"a load and a store, {_NO_OTHER}"),
    COMPARED: (
        "atomic compare-and-exchange is", "atomic compare-and-exchanges are", f"a load, a comparison and a store, {_NO_OTHER}",
    ),
}  # fmt: skip

# A jump to an earlier slot, and an unreachable instruction.
_BACKWARD, _UNREACHED = 2, 4
# Reasons that another form may avoid: facts lost where edges meet, and the order of blocks (docs/VERIFIER.md, "Reasons").
_CURABLE = frozenset((_BACKWARD, _UNREACHED, *range(20, 37)))
# Reasons for which something is added: a pointer that is moved, ranges of numbers, bytes of the stack that nothing wrote, the context.
_POINTER_MOVED, _UNWRITTEN, _CONTEXT = 23, 27, 31
_OF_RANGES = (23, 24, 25, 29, 35)
_SCRATCH, _SCRATCHES = "scratch", ("access to skb->cb is", "accesses to skb->cb are")
_DECIDED = ("comparison of one outcome says", "comparisons of one outcome say")
_ACCESSES = ("access to the stack with an index is", "accesses to the stack with an index are")


@dataclass(frozen=True)
class Lowered:
    """A program in a form that is accepted; or, if there is none, in the plainest form, with the reason for its rejection.

    `program` is loaded as any other. `changes` describes what was changed, in a sentence each, by the steps in `steps`; both are empty if
    nothing was. `origins` has for each slot the place that it comes from, in a frame of `frames`; both are empty if the program is as it
    was.
    """

    declared: ObjectProgram
    program: ObjectProgram
    refused: Refusal | None
    changes: tuple[str, ...] = ()
    origins: tuple[Origin, ...] = ()
    frames: Frames = ()
    functions: tuple[Function, ...] = ()
    steps: tuple[str, ...] = ()

    def place(self, slot: int) -> str:
        """What to print for a slot besides its line: the slot that it comes from, which copy it is, and the calls that lead there."""
        if not 0 <= slot < len(self.origins):
            return ""
        origin = self.origins[slot]
        frame = self.frames[origin.frame]
        told = f"slot {origin.slot} of {self.functions[frame.function].declared.name} as compiled"
        copy, count = self._copies[slot]
        told += f", copy {copy} of {count}" if count > 1 else ""
        while frame.caller is not None:
            caller = self.frames[frame.caller]
            told += f", called at {self.functions[caller.function].where(frame.call)}"
            frame = caller
        return told

    def copy_of(self, slot: int) -> tuple[int, int]:
        """Which copy of its instruction a slot is, from 1, and how many there are."""
        return self._copies[slot] if 0 <= slot < len(self.origins) else (1, 1)

    def is_added(self, slot: int) -> bool:
        """Whether a slot is only in the form: a jump, or what is added before an instruction."""
        return 0 <= slot < len(self.origins) and (self._keys[slot][1] or bool(self.origins[slot].added))

    @cached_property
    def _copies(self) -> list[tuple[int, int]]:
        counts, seen = Counter(self._keys), Counter[tuple[Origin, bool]]()
        found = []
        for key in self._keys:
            seen[key] += 1
            found.append((seen[key], counts[key]))
        return found

    @cached_property
    def _keys(self) -> list[tuple[Origin, bool]]:
        """The origins; a jump that was added has that of its target, and does not count as a copy of it."""
        gotos = {slot for slot, found in decoded(self.program.slots).items() if found.is_goto}
        return [(origin, slot in gotos) for slot, origin in enumerate(self.origins)]


def as_is(program: ObjectProgram, refused: Refusal | None = None) -> Lowered:
    """A program that is taken as it is."""
    return Lowered(program, program, refused)


def lower(object_file: ObjectFile, program: ObjectProgram, ask: Ask) -> Lowered:
    """The accepted form with the fewest changes; `ask` returns the verdict on a form.

    Each form, except the program as it is, has passed the checker. Raises LoweringError if calls can't be inlined, if loops can't be
    unrolled, or if a jump leads out of the program.
    """
    refused = None
    if not program.calls and not has_sequences(program.slots):
        refused = ask(program)
        if refused is None or refused[1] not in _CURABLE:
            return as_is(program, refused)
    return _Lowering(object_file, program, ask, refused).lowered()


class _Lowering:
    """The steps on one program."""

    def __init__(self, object_file: ObjectFile, program: ObjectProgram, ask: Ask, refused: Refusal | None) -> None:
        self._program = program
        self._ask_verdict = ask
        self._refused = refused
        self._maps = object_file.maps
        self._functions = functions_of(object_file, program)
        self._frames = frames_of(self._functions)
        # The text on each change, by the names of the steps: calls, loops, order, copies.
        self._changes: dict[str, str] = {}

    def lowered(self) -> Lowered:
        """The form, after the steps in their order."""
        graph = without_empty(inlined(self._functions, self._frames))
        self._tell_calls()
        self._tell_sequences()
        graph = self._without_loops(graph)
        plain = written(graph)
        if len(plain.origins) > MOST_SLOTS:
            has = f"{self._program.name} has {len(plain.origins):,} slots in this form"
            raise LoweringError(f"{has}, and a program has {MOST_SLOTS:,} at most")
        self._tell_order(plain)
        refused = self._ask(plain)
        if refused is None or refused[1] not in _CURABLE:
            return self._form(plain, refused)
        first = refused
        graph, form, refused = self._with_additions(graph, plain, refused)
        if refused is None:
            return self._form(form, None)
        accepted = with_copies(graph, refused, self._ask) or self._copied_with_moves(graph, refused)
        if accepted is None:
            for step in (_SCRATCH, INDEX, EQUAL, KNOWN, ZERO):
                self._changes.pop(step, None)
            return self._refusal(plain, first)
        more = len(accepted.written.origins) - len(form.origins)
        copies = f"{_counted(accepted.copies, 'copy', 'copies')}, {more} slots more"
        self._changes["copies"] = f"blocks with several incoming edges are copied for each edge: {copies}"
        return self._form(accepted.written, None)

    def _with_additions(self, graph: dict[int, Block], form: Written, refused: Refusal) -> tuple[dict[int, Block], Written, Refusal | None]:
        """The graph with what is added for the reasons that the verifier gives, as long as each addition changes its verdict."""
        additions = [self._scratched, self._indexed, self._moved, self._known, self._zeroed]
        now: Refusal | None = refused
        while additions and now is not None:
            reason, place = now[1], form.origins[now[0]]
            for add in additions:
                added = add(graph, reason)
                if added is None:
                    continue
                step, text, more = added
                longer = written(more)
                verdict = self._ask(longer) if len(longer.origins) <= MOST_SLOTS else now
                if verdict is None or (verdict[1], longer.origins[verdict[0]]) != (reason, place):
                    self._changes[step] = text
                    graph, form, now = more, longer, verdict
                    additions.remove(add)
                    break
            else:
                break
        return graph, form, now

    def _copied_with_moves(self, graph: dict[int, Block], refused: Refusal) -> Accepted | None:
        """A form with copies of blocks in which moves follow comparisons too."""
        def write(each: Graph) -> Written:
            return written(with_moves(each) or each)

        if refused[1] not in _OF_RANGES or EQUAL in self._changes:
            return None
        verdict = self._ask(write(graph))
        accepted = None if verdict is None else with_copies(graph, verdict, self._ask, write)
        if accepted is not None:
            self._changes[EQUAL] = _moves_in(accepted.written.origins)
        return accepted

    def _scratched(self, graph: dict[int, Block], reason: int) -> _Added | None:
        room = room_of([self._functions[frame.function] for frame in self._frames], self._frames)
        found = with_scratch(graph, room) if reason == _CONTEXT else None
        if found is None:
            return None
        return _SCRATCH, f"{_counted(found[1], *_SCRATCHES)} in words of the stack, which begin as 0", found[0]

    def _indexed(self, graph: dict[int, Block], reason: int) -> _Added | None:
        found = with_trees(graph) if reason == _POINTER_MOVED else None
        if found is None:
            return None
        return INDEX, f"{_counted(found[1], *_ACCESSES)} comparisons of the index, with an access for each of its numbers", found[0]

    def _moved(self, graph: dict[int, Block], reason: int) -> _Added | None:
        found = with_moves(graph) if reason in _OF_RANGES else None
        if found is None:
            return None
        return EQUAL, _moves_in([step.origin for block in found.values() for step in block.steps]), found

    def _known(self, graph: dict[int, Block], reason: int) -> _Added | None:
        found = with_known(graph) if reason in _OF_RANGES else None
        if found is None:
            return None
        return KNOWN, f"{_counted(found[1], *_DECIDED)} what is known of a number from the stack or from a signed comparison", found[0]

    def _zeroed(self, graph: dict[int, Block], reason: int) -> _Added | None:
        found = with_zeros(graph, self._maps) if reason == _UNWRITTEN else None
        if found is None:
            return None
        words = _counted(found[1], "word", "words")
        return ZERO, f"{words} of the stack with bytes that are read before they are written begin as 0", found[0]

    def _without_loops(self, graph: dict[int, Block]) -> dict[int, Block]:
        try:
            in_order(graph)
            return graph
        except Cycle:
            found = without_empty(unrolled(graph, self._where))
        before, after = (sum(block.slots for block in each.values()) for each in (graph, found))
        self._changes["loops"] = f"loops are unrolled: {after} slots of {before}"
        return found

    def _tell_calls(self) -> None:
        count = len(self._frames) - 1
        if count:
            names = sorted({self._functions[frame.function].declared.name for frame in self._frames[1:]})
            saved = sum(len(frame.saved) for frame in self._frames)
            what = f", which save {_counted(saved, 'register', 'registers')}" if saved else ""
            self._changes["calls"] = f"{_counted(count, 'call is', 'calls are')} inlined, of {', '.join(names)}{what}"

    def _tell_sequences(self) -> None:
        counts = Counter(kind_of(function.instructions[slot]) for function in self._in_frames() for slot in function.spares)
        for kind, (one, several, what) in _SEQUENCES.items():
            if counts[kind]:
                self._changes[kind] = f"{_counted(counts[kind], one, several)} {what}"

    def _in_frames(self) -> list[Function]:
        """The functions that the program consists of, each once."""
        return [self._functions[number] for number in sorted({frame.function for frame in self._frames})]

    def _refusal(self, plain: Written, refused: Refusal) -> Lowered:
        """The refusal to report for a program without an accepted form: that of the original, unless it is about the order of blocks."""
        if self._refused is not None and self._refused[1] not in (_BACKWARD, _UNREACHED):
            return as_is(self._program, self._refused)
        return self._form(plain, refused)

    def _tell_order(self, plain: Written) -> None:
        if self._changes or plain.slots == self._functions[0].linked:
            return
        reached = {origin.slot for origin in plain.origins}
        is_less = any(slot not in reached for slot, found in self._functions[0].instructions.items() if not found.is_goto)
        what = " and unreachable ones are left out" if is_less else ""
        self._changes["order"] = f"blocks are put in topological order{what}"

    def _where(self, origin: Origin) -> str:
        return self._functions[self._frames[origin.frame].function].where(origin.slot)

    def _ask(self, form: Written) -> Refusal | None:
        return self._ask_verdict(self._as_program(form))

    def _form(self, form: Written, refused: Refusal | None) -> Lowered:
        """The form of the program, after it has passed the checker."""
        check(self._functions, self._frames, form.slots, form.origins)
        if not self._changes and form.slots == self._functions[0].linked:
            return as_is(self._program, refused)
        told, steps = tuple(self._changes.values()), tuple(self._changes)
        return Lowered(self._program, self._as_program(form), refused, told, form.origins, self._frames, self._functions, steps)

    def _as_program(self, form: Written) -> ObjectProgram:
        """A form as a program of the object, with its lines and the slots of its maps."""
        map_slots = tuple(MapSlot(slot, number) for slot, number in _maps(form.slots))
        return replace(self._program, slots=form.slots, map_slots=map_slots, lines=self._lines(form.origins), calls=())

    def _lines(self, origins: Sequence[Origin]) -> tuple[SourceLine, ...]:
        """The line of each slot, if it differs from that of the slot before."""
        found: list[SourceLine] = []
        last: SourceLine | None = None
        for slot, origin in enumerate(origins):
            line = self._functions[self._frames[origin.frame].function].declared.line_of(origin.slot)
            if line is not None and line is not last:
                if last is None or _text_of(line) != _text_of(last):
                    found.append(replace(line, slot=slot))
                last = line
        return tuple(found)


def _text_of(line: SourceLine) -> tuple[str, int, int, str]:
    """What a line has besides its slot."""
    return line.file, line.line, line.column, line.text


def _moves_in(origins: Sequence[Origin]) -> str:
    """The words for the moves between registers that hold the same number."""
    count = sum(origin.added == EQUAL for origin in origins)
    return f"{_counted(count, 'move follows', 'moves follow')} a comparison, to a register that holds the same number"


def _maps(slots: bytes) -> list[tuple[int, int]]:
    """The slots that name maps, with the maps' numbers in the object."""
    loads = [(slot, found) for slot, found in decoded(slots).items() if found.opcode == WIDE_LOAD and found.src in (1, 2)]
    return [(slot, found.constant) for slot, found in loads]


def _counted(count: int, one: str, several: str) -> str:
    return f"{count} {one if count == 1 else several}"
