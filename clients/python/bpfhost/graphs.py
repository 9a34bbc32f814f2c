"""Control-flow graphs of the verifier, for Graphviz, with the lines of the source.

`verifier_log --dot` writes blocks of instructions, with the verdict below the rejected instruction (docs/VERIFIER.md). This module adds to
each block the lines of the source that it comes from, and the names of maps and helpers; it leaves out the middle of a long block.
"""

from __future__ import annotations

import re
from collections.abc import Callable, Iterator, Mapping, Sequence

from bpfhost.refusals import line_with_names, told_with_names

_BLOCK = re.compile(r'(\s*block_\d+ \[label=")((?:[^"\\]|\\.)*)(".*)')
# How many instructions of a long block are shown at each end.
_ENDS = 2


def annotated(graph: str, source: Callable[[int], str], maps: Mapping[int, str]) -> str:
    """A graph with the line of the source of each slot, if it has one, the names of maps by their descriptors, and long blocks folded."""
    return "".join(f"{_block(line, source, maps)}\n" for line in graph.splitlines())


def _block(line: str, source: Callable[[int], str], maps: Mapping[int, str]) -> str:
    """A line of a graph; if it is a block, with its lines of the source."""
    found = _BLOCK.fullmatch(line)
    if found is None:
        return told_with_names(line, maps)
    *lines, rest = found[2].split("\\l")
    shown: list[str] = []
    last = ""
    for instruction in _folded(_instructions(lines)):
        slot = _slot(instruction[0])
        of_slot = last if slot is None else source(slot) or last
        if of_slot != last:
            shown.append(_escaped(of_slot))
        last = of_slot
        shown += (line_with_names(each, maps) for each in instruction)
    return found[1] + "\\l".join([*shown, rest]) + found[3]


def _instructions(lines: Sequence[str]) -> list[list[str]]:
    """The lines of each instruction: its own, and those of the verdict if it is refused."""
    found: list[list[str]] = []
    for line in lines:
        if _slot(line) is None and found:
            found[-1].append(line)
        else:
            found.append([line])
    return found


def _folded(instructions: Sequence[list[str]]) -> Iterator[list[str]]:
    """The instructions of a block; for a long one, those at its ends and the rejected one, with the number of those left out between them."""
    count = len(instructions)
    is_shown = [at < _ENDS or at >= count - _ENDS or len(lines) > 1 for at, lines in enumerate(instructions)]
    at = 0
    while at < count:
        end = next(each for each in range(at, count) if is_shown[each])
        # A single instruction takes no more room than the line that would replace it.
        if end - at > 1:
            yield [f"... {end - at} more"]
            at = end
        yield instructions[at]
        at += 1


def _slot(line: str) -> int | None:
    number = line.partition(": ")[0]
    return int(number) if number.isdecimal() else None


def _escaped(text: str) -> str:
    """A text as a label has it."""
    return text.replace("\\", "\\\\").replace('"', '\\"')
