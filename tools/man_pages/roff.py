"""Man pages as roff, by the macros of man(7): text with `code`, *emphasis*, **weight** and links, and the blocks of the repository's pages."""

from __future__ import annotations

import re
import textwrap
from collections.abc import Callable, Iterator, Sequence
from dataclasses import dataclass

INLINE = re.compile(r"`(?P<code>[^`]+)`|\*\*(?P<bold>[^*]+)\*\*|(?<![\w*])\*(?=\S)(?P<italic>[^*]+)(?<=\S)\*(?![\w*])|!?\[(?P<link>[^\]]*)\]\([^)]*\)")
# The longest line of a page's source.
WIDTH = 80
SENTENCE_END = re.compile(r"(?<=[.!?])\s+(?=[^a-z])")
Row = Sequence[str]


def plain(text: str) -> str:
    """Text without markup."""
    return text.replace("\\", "\\e")


def literal(text: str) -> str:
    """Text to be typed, in ASCII."""
    return plain(text).replace("-", "\\-").replace("^", "\\(ha").replace("~", "\\(ti")


def _font(match: re.Match[str]) -> str:
    if match["code"]:
        return f"\\fB{literal(match['code'])}\\fR"
    if match["bold"]:
        return f"\\fB{plain(match['bold'])}\\fR"
    return f"\\fI{plain(match['italic'])}\\fR" if match["italic"] else inline(match["link"] or "")


def inline(text: str) -> str:
    """A paragraph of a page as roff."""
    parts, at = [], 0
    for match in INLINE.finditer(text):
        parts += [plain(text[at:match.start()]), _font(match)]
        at = match.end()
    joined = "".join([*parts, plain(text[at:])])
    return plain_lines(textwrap.wrap(joined, WIDTH, break_long_words=False, break_on_hyphens=False))


def plain_lines(lines: Sequence[str]) -> str:
    """Lines of text, none of which is a request."""
    return "\n".join(re.sub(r"^([.'])", r"\\&\1", line) for line in lines)


def paragraph(text: str) -> str:
    return f".PP\n{inline(text)}\n"


def heading(text: str) -> str:
    return f".SH {literal(text).upper()}\n"


def tagged(tag: str, text: str) -> str:
    """A tag, followed by its meaning."""
    return f".TP\n{inline(tag)}\n{inline(text) or chr(92) + '&'}\n"


def example(lines: str) -> str:
    return f".PP\n.RS 4\n.EX\n{plain_lines(literal(lines.rstrip()).splitlines())}\n.EE\n.RE\n"


@dataclass(frozen=True)
class Release:
    """The header and the footer of a page: the version, and its day."""

    version: str
    day: str


def page(name: str, part: int, what: str, release: Release, pieces: Sequence[str]) -> str:
    """A whole page: its head, and sections."""
    head = f""".\\" Made by tools/man.
.TH {name.upper()} {part} {release.day} "bpfhost {release.version}" "bpfhost"
.SH NAME
{name} \\- {plain(what)}
"""
    # A section begins a paragraph by itself.
    return head + re.sub(r"(?m)^(\.SH .*\n)\.PP\n", r"\1", "".join(pieces))


# ---- pages of the repository


@dataclass(frozen=True)
class Block:
    """A paragraph, a table, a list or an example of a page; the lines of a table's rows are its cells."""

    kind: str
    text: str

    def rows(self) -> list[list[str]]:
        """The rows of a table, the head first."""
        lines = [line for line in self.text.splitlines() if not re.fullmatch(r"[|\- :]+", line)]
        cells = [re.split(r"(?<!\\)\|", line.strip().removeprefix("|").removesuffix("|")) for line in lines]
        return [[cell.strip().replace("\\|", "|") for cell in row] for row in cells]


def _kind(text: str) -> str:
    if text.startswith("    "):
        return "example"
    return "table" if text.startswith("|") else "list" if text.startswith("- ") else "paragraph"


def blocks_of(section: str) -> Iterator[Block]:
    """The blocks of a section, without its pictures."""
    without = re.sub(r":\n\n!\[.*\n", ".\n", section)
    for text in re.split(r"\n\n+", without.strip("\n")):
        if text:
            yield Block(_kind(text), text)


def section_of(page: str, title: str) -> str:
    """The text below a heading of the second level, or below the first heading if the title is empty."""
    begin = rf"^## {re.escape(title)}\n" if title else r"\A# [^\n]*\n"
    found = re.search(begin + r"(.*?)(?=^## |\Z)", page, re.M | re.S)
    if found is None:
        raise ValueError(f"there is no section {title}")
    return found[1]


def table(rows: Sequence[Row], text_of: Callable[[Row], str] = lambda row: row[1]) -> str:
    return "".join(tagged(row[0], text_of(row)) for row in rows)


def shown(block: Block) -> str:
    """A block as roff. Sentences about the repository itself are left out."""
    if block.kind == "example":
        return example(re.sub(r"(?m)^ {4}", "", block.text))
    if block.kind == "table":
        return table(block.rows()[1:])
    if block.kind == "list":
        return "".join(f".IP \\(bu 2\n{inline(text)}\n" for text in re.split(r"(?m)^- ", block.text)[1:])
    kept = [one for one in SENTENCE_END.split(re.sub(r"\s+", " ", block.text)) if not re.search(r"crates/|README", one)]
    return paragraph(" ".join(kept)) if kept else ""
