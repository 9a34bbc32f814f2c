"""The page of a report: HTML without scripts, which is read from top to bottom: verdict, lines, graph, and what a capture gave."""

from __future__ import annotations

from collections.abc import Iterator, Mapping, Sequence
from dataclasses import replace
from html import escape

from bpfhost.numbers import MapType
from bpfhost.objects import ObjectFile, ObjectMap, SourceLine
from bpfhost.report.drawing import Content, drawn
from bpfhost.report.folding import boxes_of, edges_of
from bpfhost.report.gathering import Gathered, Ran
from bpfhost.report.style import STYLE

# The most entries of a map, results, and rows of a line that the page has.
_MOST_ENTRIES, _MOST_RESULTS, _MOST_ROWS = 100, 20, 400
_NO_LINE = ("", 0)


def page(found: Gathered) -> str:
    """The page, as text."""
    parts = [
        "<!DOCTYPE html>",
        '<html lang="en"><head><meta charset="utf-8"><meta name="viewport" content="width=device-width, initial-scale=1">',
        f"<title>{escape(found.title)}</title><style>{STYLE}</style></head><body>",
        f"<h1>{escape(found.title)}</h1>",
        *_verdict(found),
        *_capture(found),
        *_lines(found),
        *_graph(found),
        "</body></html>",
    ]
    return "\n".join(parts) + "\n"


def _verdict(found: Gathered) -> Iterator[str]:
    lowered = found.lowered
    slots = len(lowered.program.slots) // 8
    if found.refused is None:
        how = "accepted in another form" if lowered.changes else "accepted"
        yield f'<p class="verdict"><strong>{how}</strong>, with {slots:,} slots</p>'
    else:
        yield f'<p class="verdict bad"><strong>refused</strong>: {escape(found.refused)}</p>'
    changes = [*found.object_file.changes, *lowered.changes]
    if changes:
        yield f"<ul>{''.join(f'<li>{escape(change)}</li>' for change in changes)}</ul>"
    if found.object_file.path != found.title:
        yield f'<p class="soft">{escape(found.object_file.path)}, section {escape(lowered.program.section)}</p>'


# Lines.


def _lines(found: Gathered) -> Iterator[str]:
    program = found.lowered.program
    groups: dict[tuple[str, int], list[int]] = {}
    shown: dict[tuple[str, int], SourceLine] = {}
    for slot in found.texts:
        line = program.line_of(slot)
        key = _NO_LINE if line is None else (line.file, line.line)
        groups.setdefault(key, []).append(slot)
        if line is not None:
            shown.setdefault(key, line)
    yield "<h2>Lines</h2>"
    known = _FACTS if found.facts else _NO_FACTS
    names = _short_names([line.path for line in shown.values() if line.file != found.object_file.path])
    sources = ", ".join(escape(name) for name, short in sorted(names.items()) if short != name)
    places = f" Sources: {sources}." if sources else ""
    yield f'<p class="soft">{known} Numbers of slots are absolute.{places}</p>'
    sizes = {file: sum(len(slots) for (of, _), slots in groups.items() if of == file) for file, _ in groups}
    for key in sorted(groups, key=lambda key: (-sizes[key[0]], key)):
        line = shown.get(key)
        yield _line(found, line, groups[key], "no line of the source" if line is None else _place(line, names))


def _short_names(files: Sequence[str]) -> dict[str, str]:
    """For each path of a source its last part, if no other path ends like that."""
    last = {file: file.rpartition("/")[2] for file in files}
    return {file: short if list(last.values()).count(short) == 1 else file for file, short in last.items()}


def _place(line: SourceLine, names: Mapping[str, str]) -> str:
    """A line by the short name of its file; nothing for an instruction of a filter, whose text has its number."""
    return str(replace(line, file=names[line.path], text="")) if line.path in names else ""


_FACTS = (
    "What is known is next to the instruction before which it holds: each row has what is new there. "
    "After “to 9:” is what is new at slot 9 if the run jumps there."
)
_NO_FACTS = "What is known before each instruction is left out: the program verifier_log, if it is there, says it of programs without loops."


def _line(found: Gathered, line: SourceLine | None, slots: Sequence[int], place: str) -> str:
    refused = found.lowered.refused
    is_bad = refused is not None and refused[0] in slots
    code = "" if line is None else f"<code>{escape(line.text.strip())}</code>"
    at = f"{escape(place)}, {_ranges(slots)}" if place else _ranges(slots)
    head = f'<summary>{code} <span class="at">{at}</span></summary>'
    why = f'<p class="why">{escape(_reason(found.refused or ""))}</p>' if is_bad else ""
    rows = "".join(_row(found, slot) for slot in slots[:_MOST_ROWS])
    more = f'<p class="soft">and {len(slots) - _MOST_ROWS:,} more instructions</p>' if len(slots) > _MOST_ROWS else ""
    table = f'<table class="lines"><tr><th class=number>slot</th><th>instruction</th><th>known before it</th></tr>{rows}</table>'
    kinds = ' class="bad" open' if is_bad else ""
    return f'<details{kinds}>{head}{why}<div class="scroll">{table}</div>{more}</details>'


def _reason(refused: str) -> str:
    """The sentence of a rejection without the line, which is `LINE (slot 4: WORDS, reason 29): NEED; FIX`."""
    return f"slot {refused.rpartition(' (slot ')[2].replace('): ', ': ', 1)}"


def _row(found: Gathered, slot: int) -> str:
    refused = found.lowered.refused
    kind = ' class="bad"' if refused is not None and refused[0] == slot else ""
    copy, count = found.lowered.copy_of(slot)
    facts = found.facts.get(slot, "") + (f" (copy {copy} of {count})" if count > 1 else "")
    return f"<tr{kind}><td class=number>{slot}</td><td class=code>{escape(found.texts[slot])}</td><td>{escape(facts.strip())}</td></tr>"


def _ranges(slots: Sequence[int]) -> str:
    """Slots in words: the first ones as ranges, and how many ranges more there are."""
    ranges: list[list[int]] = []
    for slot in slots:
        if ranges and slot <= ranges[-1][1] + 2:
            ranges[-1][1] = slot
        else:
            ranges.append([slot, slot])
    words = [f"{a} to {b}" if b > a else str(a) for a, b in ranges[:3]]
    more = f" and {len(ranges) - 3} more places" if len(ranges) > 3 else ""
    return f"slot{'s' if len(slots) > 1 else ''} {', '.join(words)}{more}"


# The graph.


def _graph(found: Gathered) -> Iterator[str]:
    boxes = boxes_of(found.blocks, found.lowered)
    edges = edges_of(found.blocks, boxes)
    refused = None if found.lowered.refused is None else found.lowered.refused[0]
    ran = found.ran
    content = Content(found.texts, refused, ran.counts if ran else None, ran.outcome.packets if ran else 0)
    yield "<h2>Blocks</h2>"
    folded = " Copies 2 to n of a block are one box with a dashed frame." if any(box.is_folded for box in boxes) else ""
    counted = "" if ran is None else _counted(len(found.blocks), len(ran.counts))
    legend = '<span class="taken">taken, as “if 12”</span> and <span class="else">not taken, as “else 8”</span>'
    yield f'<p class="soft legend">Edges are {legend}, with the slot that they lead to.{folded}{counted}</p>'
    yield f'<div class="scroll">{drawn(found.blocks, boxes, edges, content)}</div>'


def _counted(blocks: int, counted: int) -> str:
    """What the page says of the numbers of packets in the boxes."""
    share = " The bar of a box is the share of the packets that went through it." if counted else ""
    missing = blocks - counted
    return f"{share} {_NOT_COUNTED.format(_many(missing, 'block'))}" if missing else share


_NOT_COUNTED = "There is no number of packets for {}: a copy of the program that counts has no room for the instructions."


def _many(count: int, what: str) -> str:
    return f"{count:,} {what}{'' if count == 1 else 's'}"


# The capture.


def _capture(found: Gathered) -> Iterator[str]:
    ran = found.ran
    if ran is None:
        return
    outcome = ran.outcome
    yield f"<h2>{escape(ran.capture)}</h2>"
    fault = f" {escape(str(outcome.fault))}" if outcome.fault else ""
    yield f"<p>{_many(outcome.packets, 'packet')}, {outcome.accepted:,} kept, with {_many(outcome.bytes_kept, 'byte')}.{fault}</p>"
    yield from _results(ran)
    for declared, entries in ran.maps:
        yield from _map(found.object_file, declared, entries)


def _results(ran: Ran) -> Iterator[str]:
    results = ran.outcome.results.most_common()
    most = max((count for _, count in results), default=1)
    rows = "".join(
        f'<tr><td class=number>{result:,}</td><td class=number>{count:,}</td><td><span class="bar" style="width: {100 * count / most:.1f}%"></span></td></tr>'
        for result, count in results[:_MOST_RESULTS]
    )
    yield f'<table class="bars"><tr><th class=number>result</th><th class=number>packets</th><th></th></tr>{rows}</table>'
    if len(results) > _MOST_RESULTS:
        yield f'<p class="soft">and {len(results) - _MOST_RESULTS:,} other results</p>'


def _map(object_file: ObjectFile, declared: ObjectMap, entries: Sequence[tuple[bytes, bytes]]) -> Iterator[str]:
    is_array = declared.map_type is MapType.ARRAY
    shown = [(key, value) for key, value in entries if not is_array or any(value)]
    kind = "array" if is_array else "hash"
    yield f"<h2>Map {escape(declared.name)}</h2>"
    left = f"; {len(entries) - len(shown):,} elements are zero" if len(shown) < len(entries) else ""
    yield f'<p class="soft">{kind}, {len(shown):,} of at most {declared.max_entries:,} entries{left}</p>'
    if shown:
        rows = "".join(f"<tr><td class=code>{escape(key)}</td><td class=code>{escape(value)}</td></tr>" for key, value in
                       (_entry(object_file, declared, *each) for each in shown[:_MOST_ENTRIES]))
        yield f'<div class="scroll"><table><tr><th>key</th><th>value</th></tr>{rows}</table></div>'
    if len(shown) > _MOST_ENTRIES:
        yield f'<p class="soft">and {len(shown) - _MOST_ENTRIES:,} more entries</p>'


def _entry(object_file: ObjectFile, declared: ObjectMap, key: bytes, value: bytes) -> tuple[str, str]:
    is_array = declared.map_type is MapType.ARRAY
    name = str(int.from_bytes(key, "little")) if is_array else _shown(object_file, declared.key_type, key)
    return name, _shown(object_file, declared.value_type, value)


def _shown(object_file: ObjectFile, type_id: int | None, data: bytes) -> str:
    return data.hex() if object_file.types is None or type_id is None else object_file.types.show(type_id, data)
