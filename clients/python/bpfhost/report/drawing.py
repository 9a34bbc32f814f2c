"""The graph of a report as a picture (SVG): boxes one below the other in the order of their slots, and edges in lanes next to them.

An edge that is taken has another colour than one that is not, and each has its label next to its beginning. An edge to the next box goes
straight down. The colours are those of the page, for light and dark.
"""

from __future__ import annotations

from collections.abc import Mapping, Sequence
from dataclasses import dataclass
from html import escape

from bpfhost.report.blocks import BasicBlock
from bpfhost.report.folding import Box, Edge, shown_slots

_LINE, _HEAD, _GAP, _PAD = 17, 22, 30, 8
_CHARACTER = 7.3
_LONGEST, _SHORTEST = 60, 26
_LANE = 13


@dataclass(frozen=True)
class Content:
    """What the boxes say: the text of each slot, the slot that is rejected, and how many packets went through each block."""

    texts: Mapping[int, str]
    refused: int | None
    counts: Mapping[int, int] | None
    packets: int


@dataclass(frozen=True)
class _Placed:
    """A box with its lines and its upper and lower end."""

    box: Box
    head: str
    count: int | None
    lines: tuple[tuple[str, bool], ...]
    top: int

    @property
    def first(self) -> int:
        """The upper end of the first line, below the head and the count."""
        return self.top + _HEAD + (0 if self.count is None else _LINE)

    @property
    def bottom(self) -> int:
        """The lower end."""
        return self.first + _LINE * len(self.lines) + _PAD


def drawn(blocks: Sequence[BasicBlock], boxes: Sequence[Box], edges: Sequence[Edge], content: Content) -> str:
    """The picture."""
    placed: list[_Placed] = []
    for box in boxes:
        placed.append(_placed(blocks, box, content, placed[-1].bottom + _GAP if placed else 2))
    longest = max(len(text) for each in placed for text in (each.head, *(line for line, _ in each.lines)))
    width = round(_CHARACTER * min(max(longest, _SHORTEST), _LONGEST)) + 2 * _PAD
    lanes = _lanes([edge for edge in edges if edge.end != edge.begin + 1])
    labels = {edge: _words(edge, placed, blocks) for edge in edges}
    first_lane = width + round(_CHARACTER * max((len(labels[edge]) for edge in lanes), default=0)) + 2 * _PAD
    right = first_lane + _LANE * (max(lanes.values(), default=-1) + 1)
    parts = [_box(each, width, content) for each in placed]
    for edge in edges:
        at = first_lane + _LANE * lanes[edge] if edge in lanes else None
        parts.append(_edge(edge, placed, width, at, labels[edge]))
    height = placed[-1].bottom + 4
    marks = "".join(_arrow(kind) for kind in ("taken", "else"))
    inside = "\n".join(parts)
    size = f'width="{right}" height="{height}" viewBox="0 0 {right} {height}"'
    return f'<svg class="graph" role="img" aria-label="graph of blocks" {size}>\n<defs>{marks}</defs>\n{inside}\n</svg>'


def _placed(blocks: Sequence[BasicBlock], box: Box, content: Content, top: int) -> _Placed:
    block = blocks[box.blocks[0]]
    kept = [] if content.refused is None else [content.refused]
    lines = tuple(
        (f"{each}: {content.texts.get(each, '')}", each == content.refused) if isinstance(each, int) else (each, False)
        for each in shown_slots(block, kept)
    )
    head = f"slots {block.slots[0]} to {block.slots[-1]}" if len(block.slots) > 1 else f"slot {block.slots[0]}"
    if box.is_folded:
        head = f"copies {box.first_copy} to {box.copies}, as {head}"
    elif box.copies > 1:
        head += f", copy {box.first_copy} of {box.copies}"
    counts = content.counts
    known = None if counts is None or any(each not in counts for each in box.blocks) else sum(counts[each] for each in box.blocks)
    return _Placed(box, head, known, lines, top)


def _box(placed: _Placed, width: int, content: Content) -> str:
    kinds = "box folded" if placed.box.is_folded else "box"
    kinds += " refused" if any(is_refused for _, is_refused in placed.lines) else ""
    parts = [f'<g class="{kinds}"><rect x="1" y="{placed.top}" width="{width}" height="{placed.bottom - placed.top}" rx="5"/>']
    if placed.count is not None:
        share = placed.count / content.packets / len(placed.box.blocks) if content.packets else 0
        bar = f'<rect class="share" x="1" y="{placed.top}" width="{round(width * min(share, 1), 1)}" height="4"/>'
        words = f'<text class="count" x="{_PAD + 1}" y="{placed.top + 17 + _LINE}">{_packets(placed.count)}</text>'
        parts.append(bar + words)
    parts.append(f'<text class="head" x="{_PAD + 1}" y="{placed.top + 17}">{escape(placed.head)}</text>')
    for at, (line, is_refused) in enumerate(placed.lines):
        text = line if len(line) <= _LONGEST else f"{line[: _LONGEST - 1]}…"
        kind = ' class="refused"' if is_refused else ""
        parts.append(f'<text{kind} x="{_PAD + 1}" y="{placed.first + _LINE * at + 12}">{escape(text)}</text>')
    return "".join(parts) + "</g>"


def _packets(count: int) -> str:
    return "1 packet" if count == 1 else f"{count:,} packets"


def _lanes(edges: Sequence[Edge]) -> dict[Edge, int]:
    """A lane for each edge, so that edges side by side have different ones; short edges are closest to the boxes."""
    lanes: list[list[tuple[int, int]]] = []
    found: dict[Edge, int] = {}
    for edge in sorted(edges, key=lambda edge: abs(edge.end - edge.begin)):
        low, high = sorted((edge.begin, edge.end))
        lane = next((at for at, taken in enumerate(lanes) if all(high < a or b < low for a, b in taken)), len(lanes))
        if lane == len(lanes):
            lanes.append([])
        lanes[lane].append((low, high))
        found[edge] = lane
    return found


def _words(edge: Edge, placed: Sequence[_Placed], blocks: Sequence[BasicBlock]) -> str:
    """The label of an edge: when it is followed, and the slot that it leads to."""
    begin, end = placed[edge.begin].box, placed[edge.end].box
    block = blocks[begin.blocks[-1] if edge.end < edge.begin else begin.blocks[0]]
    word = "if" if edge.is_taken else "else" if block.taken is not None else "then"
    return f"{word} {blocks[end.blocks[0]].slots[0]}"


def _edge(edge: Edge, placed: Sequence[_Placed], width: int, x: int | None, label: str) -> str:
    """An edge, whose lane is at `x`, or that goes straight down."""
    begin, end = placed[edge.begin], placed[edge.end]
    kind = "taken" if edge.is_taken else "else"
    if x is None:
        x, middle = width // 2, (begin.bottom + end.top) // 2
        path = f"M{x} {begin.bottom} V{end.top - 2}"
        return _line(kind, path) + _label(kind, x + 6, middle + 4, label)
    leave, arrive = begin.bottom - (14 if edge.is_taken else 5), end.top + 8
    path = f"M{width + 1} {leave} H{x} V{arrive} H{width + 3}"
    return _line(kind, path) + _label(kind, width + 6, leave - 4 if edge.is_taken else leave + 12, label)


def _line(kind: str, path: str) -> str:
    return f'<path class="edge {kind}" d="{path}" marker-end="url(#{kind})"/>'


def _label(kind: str, x: int, y: int, label: str) -> str:
    return f'<text class="label {kind}" x="{x}" y="{y}">{escape(label)}</text>'


def _arrow(kind: str) -> str:
    shape = f'<path class="arrow {kind}" d="M0 0 L8 4 L0 8 z"/>'
    return f'<marker id="{kind}" viewBox="0 0 8 8" refX="7" refY="4" markerWidth="7" markerHeight="7" orient="auto">{shape}</marker>'
