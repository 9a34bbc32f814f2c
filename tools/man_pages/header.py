"""The page of the library: libbpfhost(3), of the texts of bpfhost.h."""

from __future__ import annotations

import re
from collections.abc import Iterator
from dataclasses import dataclass

from man_pages import roff

# Functions of the header that are parts of others: a caller needs none of them.
PARTS = frozenset("""
    bpfhost_are_apart bpfhost_pair_code bpfhost_bytes_at bpfhost_frame_code bpfhost_may_empty bpfhost_context_at bpfhost_context_words
    bpfhost_packets_code bpfhost_run_code bpfhost_frame_begin bpfhost_may_copy bpfhost_frame_of_key bpfhost_word_of bpfhost_are_beside
    bpfhost_are_disjoint bpfhost_is_beside_lent bpfhost_is_frame_right bpfhost_copy bpfhost_handle_by_pairs bpfhost_handle_lent_by_pairs
    bpfhost_ask_by_pairs bpfhost_are_packets_beside bpfhost_are_written_beside bpfhost_is_run_right bpfhost_run_by_pairs bpfhost_are_scattered_beside
    bpfhost_is_scattered_right bpfhost_scattered_by_pairs
""".split())
COMMENT = re.compile(r"/\* (.*?)\s*\*/", re.S)
NAME = re.compile(r"\b(bpfhost_\w+)\(")


@dataclass(frozen=True)
class Item:
    """A piece of the header between two blank lines: its comment, and the code below it."""

    comment: str
    code: str

    @property
    def is_section(self) -> bool:
        return self.comment.startswith("---- ")

    @property
    def name(self) -> str | None:
        """The name of a function."""
        found = NAME.search(self.code.partition("\n{")[0]) if self.code.startswith("static inline") else None
        return found[1] if found else None


def _text(comment: str) -> str:
    return re.sub(r"(?m)^ \* ?", "", comment)


def items(header: str) -> Iterator[Item]:
    body = header.partition("/* ---- ")[1:]
    for piece in re.split(r"\n\n(?=\S)", "".join(body)):
        found = COMMENT.match(piece)
        yield Item(_text(found[1]), piece[found.end():].strip("\n")) if found else Item("", piece.strip("\n"))


def _introduction(header: str) -> str:
    """The comment at the top: paragraphs and a list."""
    found = COMMENT.match(header)
    text = _text(found[1]) if found else ""
    blocks = roff.blocks_of(re.sub(r"(?m)^  (- |  )", lambda match: match[1].replace("  ", ""), text).replace("tests:\n", "tests:\n\n"))
    return "".join(map(roff.shown, blocks))


def _constants(code: str) -> str:
    """Numbers with their comments: lines of an enum, or of #define."""
    lines = re.findall(r"(?:^#define |^ +|[{,] )(BPFHOST_\w+)(?: =)? (\(?-?\d+\)?)(?:,? */\* (.*?) \*/)?", code, re.M)
    return "".join(roff.tagged(f"**{name}**, {number}", words) for name, number, words in lines)


def _below(comment: str) -> str:
    """What a comment says, below the code."""
    return f".RS 4\n{roff.paragraph(comment)}.RE\n" if comment else ""


def _item(item: Item) -> str:
    if item.is_section:
        title, _, text = re.sub(r"\s+", " ", item.comment.removeprefix("---- ")).partition(". ")
        return roff.heading(title.partition(":")[0].rstrip(".")) + (roff.paragraph(text) if text else "") + _item(Item("", item.code))
    if item.name:
        # Further lines are below the first argument.
        before = re.match(r"static inline (BPFHOST_\w+ )?", item.code)
        words = before[0] if before else ""
        prototype = item.code.partition("\n{")[0].removeprefix(words).replace(f"\n{' ' * len(words)}", "\n")
        return roff.example(f"{prototype};") + _below(item.comment)
    if item.code.startswith("typedef"):
        return roff.example(item.code) + _below(item.comment)
    return _constants(item.code) or (roff.example(item.code) if item.code else "")


def libbpfhost(header: str, release: roff.Release) -> str:
    """The page of the library."""
    kept = [item for item in items(header) if item.name not in PARTS and not item.comment.startswith("The proved functions")]
    return roff.page("libbpfhost", 3, "an eBPF host in user space, as a library for C and C++", release, [
        roff.heading("Synopsis"), ".B #include <bpfhost.h>\n", roff.example("cc FILE.c $(pkg-config --cflags --libs bpfhost)"),
        roff.heading("Description"), _introduction(header), *map(_item, kept),
        roff.heading("See also"), roff.paragraph("**bpfhost**(1), **bpf**(2)"),
    ])
