"""tools/exchanges [BPFHOST]

Plays the exchanges of the pages (those at the top of the repository and in docs/): sends the frames to the program of the build, or to the
given one, and compares each reply with the page, byte for byte. If the frames are of several tenants, it also sends the frames of each tenant
separately, and the replies have to be the same.

An exchange is a table with the columns Frame and Reply, or two blocks of one section: the frames, and then the replies. Bytes are hex
digits. In a table they are in `code`, and a frame may have several parts with "and" between them: hex digits, "40 zero bytes", "the
slots below". "the same frame" is that of the row above. The slots below a table are a program's text and then `code`; the text is
assembled and compared with them. In a block each line begins with its hex digits, which end before two blanks.

The status is 1 if a reply differs, or if a page has frames in another form; it is 2 if there is no program.
"""

from __future__ import annotations

import re
import subprocess
import sys
from collections.abc import Iterator
from dataclasses import dataclass
from pathlib import Path

TOP = Path(__file__).resolve().parent.parent
# The beginning of a frame or a reply as pages write it: length, tenant, command.
HEAD = re.compile(r"\b[0-9a-f]{8} [0-9a-f]{4} [0-9a-f]{4}\b")
BYTES = re.compile(r"(?:[0-9a-f]{2})+(?: (?:[0-9a-f]{2})+)*")
SLOTS = re.compile(r"`([0-9a-f]{16}(?:\s[0-9a-f]{16})*)`")
COLUMNS = ("Frame", "Reply")
MOST_TENANTS = 64


class Unreadable(Exception):
    """Frames of a page in a form that this script does not know."""

    def __init__(self, line: int, why: str) -> None:
        super().__init__(f"{line}: {why}")


@dataclass(frozen=True)
class Block:
    """Consecutive lines of a page, with their numbers; the kind is heading, table, text (indented or fenced) or prose."""

    kind: str
    lines: list[tuple[int, str]]

    def has_frames(self) -> bool:
        return any(HEAD.search(line) for _, line in self.lines) or (self.kind == "table" and set(COLUMNS) <= set(cells(self.lines[0][1])))


@dataclass(frozen=True)
class Piece:
    """A frame or a reply, with its length field, and the line on which it begins."""

    line: int
    octets: bytes

    @property
    def tenant(self) -> int:
        return int.from_bytes(self.octets[4:6], "little")


@dataclass(frozen=True)
class Listing:
    """A program's text and its slots, as a page has both."""

    line: int
    text: str
    slots: bytes


@dataclass(frozen=True)
class Exchange:
    frames: list[Piece]
    replies: list[Piece]
    listing: Listing | None = None


# ---- pages


def cells(row: str) -> list[str]:
    return [cell.strip() for cell in row.strip().strip("|").split("|")]


def kind_of(line: str) -> str:
    for kind, begins in (("heading", r"#"), ("text", r" {4}"), ("table", r" *\|")):
        if re.match(begins, line):
            return kind
    return "prose" if line else ""


def blocks_of(page: str) -> Iterator[Block]:
    block, is_fenced = Block("", []), False
    for number, line in enumerate(page.splitlines(), 1):
        is_border = line.startswith("```")
        is_fenced ^= is_border
        kind = "" if is_border else "text" if is_fenced else kind_of(line)
        if kind != block.kind:
            yield block
            block = Block(kind, [])
        block.lines.append((number, line))
    yield block


def read_hex(line: int, digits: str) -> bytes:
    if not BYTES.fullmatch(digits):
        raise Unreadable(line, f"these are no bytes as hex digits: {digits}")
    return bytes.fromhex(digits)


def is_whole(octets: bytes) -> bool:
    return len(octets) >= 4 and int.from_bytes(octets[:4], "little") == len(octets) - 4


def split(octets: bytes) -> list[bytes]:
    """Consecutive frames or replies; if the last is not whole, it is the rest."""
    found = []
    while octets:
        end = 4 + int.from_bytes(octets[:4], "little")
        found.append(octets[:end])
        octets = octets[end:]
    return found


def pieces_of(block: Block) -> list[Piece]:
    """The frames or the replies of a block."""
    octets, lines = b"", list[int]()
    for number, line in block.lines:
        more = read_hex(number, line.strip().partition("  ")[0])
        octets += more
        lines += [number] * len(more)
    found = list[Piece]()
    for piece in split(octets):
        found.append(Piece(lines[sum(len(before.octets) for before in found)], piece))
        if not is_whole(piece):
            raise Unreadable(found[-1].line, "the block ends inside a frame or a reply")
    return found


def listing_below(line: int, below: list[Block]) -> Listing:
    text = next((block for block in below if block.kind == "text"), None)
    for block in below:
        slots = SLOTS.search("\n".join(words for _, words in block.lines))
        if block.kind == "prose" and slots and text:
            return Listing(text.lines[0][0], "\n".join(words for _, words in text.lines) + "\n", bytes.fromhex(slots[1]))
    raise Unreadable(line, "no text with its slots stands below")


def frame_in(line: int, cell: str, above: bytes, slots: bytes) -> bytes:
    """The bytes of a cell of the column Frame."""
    found = b""
    for part in cell.split(" and "):
        if part == "the same frame":
            found += above
        elif part == "the slots below":
            found += slots
        elif zeros := re.fullmatch(r"(\d+) zero bytes", part):
            found += bytes(int(zeros[1]))
        else:
            found += read_hex(line, part.strip("`"))
    return found


def table_exchange(table: Block, below: list[Block]) -> Exchange:
    (first, head), rows = table.lines[0], table.lines[2:]
    columns = cells(head)
    if not set(COLUMNS) <= set(columns) or not rows:
        raise Unreadable(first, f"a table of frames without the columns {' and '.join(COLUMNS)}, or without rows")
    listing = listing_below(first, below) if any("the slots below" in row for _, row in rows) else None
    pieces: dict[str, list[Piece]] = {column: [] for column in COLUMNS}
    for number, row in rows:
        cell_of = dict(zip(columns, cells(row)))
        above = pieces["Frame"][-1].octets if pieces["Frame"] else b""
        pieces["Frame"].append(Piece(number, frame_in(number, cell_of["Frame"], above, listing.slots if listing else b"")))
        pieces["Reply"].append(Piece(number, read_hex(number, cell_of.get("Reply", "").strip("`"))))
        for column in COLUMNS:
            if not is_whole(pieces[column][-1].octets):
                raise Unreadable(number, f"{column}: its length field is not the number of the bytes behind it")
    return Exchange(pieces["Frame"], pieces["Reply"], listing)


def section_exchanges(section: list[Block]) -> Iterator[Exchange]:
    texts = list[Block]()
    for at, block in enumerate(section):
        if block.kind == "table" and block.has_frames():
            yield table_exchange(block, section[at + 1:])
        elif block.kind == "text" and block.has_frames():
            texts.append(block)
    if len(texts) % 2:
        raise Unreadable(texts[-1].lines[0][0], "a block of frames without a block of replies")
    for frames, replies in zip(texts[::2], texts[1::2]):
        yield Exchange(pieces_of(frames), pieces_of(replies))


def exchanges_of(page: str) -> list[Exchange]:
    found, section = list[Exchange](), list[Block]()
    for block in [*blocks_of(page), Block("heading", [])]:
        if block.kind == "heading":
            found += section_exchanges(section)
            section = []
        else:
            section.append(block)
    return found


# ---- the program


def spelled(octets: bytes) -> str:
    """A reply as pages write it."""
    digits = octets.hex()
    fields = [digits[:8], digits[8:12], digits[12:16], *(digits[at:at + 8] for at in range(16, len(digits), 8))]
    return " ".join(filter(None, fields)) or "nothing"


def differences(program: str, tenants: int, frames: list[Piece], replies: list[Piece], where: str) -> list[str]:
    """The differences between the program's replies and the page."""
    call, stream = [program, "serve", "--tenants", str(tenants)], b"".join(frame.octets for frame in frames)
    told = split(subprocess.run(call, input=stream, stdout=subprocess.PIPE, timeout=60).stdout)
    missing = [Piece(replies[-1].line, b"")] * (len(told) - len(replies))
    told += [b""] * (len(replies) - len(told))
    return [f"{reply.line}: {where} the reply is {spelled(answer)}, and the page has {spelled(reply.octets)}"
            for reply, answer in zip([*replies, *missing], told) if answer != reply.octets]


def wrong_slots(program: str, listing: Listing) -> list[str]:
    lines = subprocess.run([program, "asm"], input=listing.text.encode(), stdout=subprocess.PIPE, timeout=60).stdout.decode().split()
    if lines == listing.slots.hex(" ", -8).split():
        return []
    return [f"{listing.line}: the text's slots are {' '.join(lines) or 'none'}, and the page has {listing.slots.hex(' ', -8)}"]


def play(program: str, exchange: Exchange) -> list[str]:
    numbers = sorted({frame.tenant for frame in exchange.frames})
    tenants = min(numbers[-1] + 1, MOST_TENANTS)
    wrong = differences(program, tenants, exchange.frames, exchange.replies, "in this stream")
    for number in [] if wrong or len(numbers) == 1 else numbers:
        own = [pair for pair in zip(exchange.frames, exchange.replies) if pair[0].tenant == number]
        wrong += differences(program, tenants, [frame for frame, _ in own], [reply for _, reply in own], f"where tenant {number} is alone")
    return wrong + (wrong_slots(program, exchange.listing) if exchange.listing else [])


def play_page(program: str, page: str) -> tuple[list[str], int, int]:
    """What is wrong on a page, by its line; and how many exchanges and frames were played."""
    try:
        found = exchanges_of(page)
    except Unreadable as fault:
        return [str(fault)], 0, 0
    wrong = [line for exchange in found for line in play(program, exchange)]
    return wrong, len(found), sum(len(exchange.frames) for exchange in found)


def main(words: list[str]) -> int:
    if len(words) > 1:
        print("usage: tools/exchanges [BPFHOST]", file=sys.stderr)
        return 2
    found = subprocess.run([TOP / "tools/built-program", "exchanges", *words], stdout=subprocess.PIPE, text=True)
    if found.returncode:
        return 2
    wrong, exchanges, frames = list[str](), 0, 0
    for page in sorted([*TOP.glob("*.md"), *TOP.glob("docs/*.md")]):
        told, more, sent = play_page(found.stdout.strip(), page.read_text())
        wrong += [f"{page.relative_to(TOP)}:{line}" for line in told]
        exchanges, frames = exchanges + more, frames + sent
    print(*(f"exchanges: {line}" for line in wrong), f"exchanges: {exchanges} of the pages were played, with {frames} frames: "
          + (f"{len(wrong)} faults" if wrong else "all as the pages say" if exchanges else "no page has one"), sep="\n")
    return bool(wrong) or not exchanges
