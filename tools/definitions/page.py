"""The pages that show the definitions: the quotations and counts of docs/TRUST.md, and the tables of docs/DEFINITIONS.md.

Names, files and lines are generated. What is written by hand stays: headings, the last column, the order of rows, and everything between
the tables.
"""

from __future__ import annotations

import re
from dataclasses import dataclass, field
from pathlib import Path

from definitions.sources import CRATES, DEFINES, TOP, Name, Place, file_of
from definitions.tiers import Tier, lines_of, of_kit, of_verifier, read_for_no_fault

TRUST = TOP / "docs/TRUST.md"
DEFINITIONS = TOP / "docs/DEFINITIONS.md"
ROW = re.compile(r"\| *(?:\[`([\w/]+\.\w+)`\]\(.*?\))? *\| *\d* *\| (`.*?`) \| (.*) \|")
TABLE_HEAD = ["| File | Lines | Definitions | In the field's words |", "|---|---|---|---|"]
QUOTED = re.compile(r"(<!-- quoted: ([\w/.]+) (\w+(?: \w+)*) -->\n```\w*\n)(.*?)(^```$)", re.M | re.S)


def filled(page: str, mark: str, text: str) -> str:
    """The page with this text between a mark and the next end, if it has that mark."""
    between = re.compile(rf"(<!-- {mark} -->\n).*?(^<!-- end -->$)", re.M | re.S)
    return between.sub(lambda match: match[1] + text + match[2], page)


@dataclass
class Row:
    """A row of a table: some names of a file, and what they are in the field's terms."""

    place: Place
    names: list[str]
    words: str


@dataclass
class Section:
    """A part of a page: lines of text, followed by a table, if it has one."""

    text: list[str] = field(default_factory=list)
    rows: list[Row] = field(default_factory=list)


def sections_of(lines: list[str]) -> list[Section]:
    found, place = [Section()], None
    for line in lines:
        row = ROW.fullmatch(line)
        if row:
            place = Place(*row[1].split("/", 1)) if row[1] else place
            if place is None:
                raise ValueError(f"the row names no file: {line}")
            found[-1].rows.append(Row(place, re.findall(r"`(\w+)`", row[2]), row[3]))
        elif line not in TABLE_HEAD:
            if found[-1].rows and line:
                found.append(Section())
            found[-1].text.append(line)
    return found


def head_comment(place: Place) -> str:
    """The first sentence of a file's head."""
    head = re.match(r"(?:--.*\n|//!.*\n)*", place.file.read_text())
    words = re.sub(r"\n?(?:--|//!) ?", " ", head[0] if head else "").strip()
    return words.partition(". ")[0].rstrip(".") or "TO BE WRITTEN"


def fill(sections: list[Section], tier: Tier) -> None:
    """Assigns to each row the names of its file that the tier has; a new name goes after the one before it in its file."""
    rows = [row for section in sections for row in section.rows]
    for place in tier.files:
        in_source = [word for word in file_of(place).texts if Name(place, word) in tier.names]
        own = [row for row in rows if row.place == place]
        if not own:
            own = [Row(place, [], head_comment(place))]
            sections[-1].rows += own
        for row in own:
            row.names = [word for word in row.names if word in in_source]
        last = own[0]
        for word in in_source:
            holder = next((row for row in own if word in row.names), None)
            if holder is None:
                last.names.append(word)
            last = holder or last
    for section in sections:
        section.rows = [row for row in section.rows if row.place in tier.files and row.names]


def shown(section: Section) -> list[str]:
    text, before = [*section.text], None
    while section.rows and text and not text[-1]:
        text.pop()
    if not section.rows:
        return text
    text += ["", *TABLE_HEAD]
    for row in section.rows:
        file = f"[`{row.place}`](../crates/{row.place})" if row.place != before else ""
        count = lines_of(frozenset(Name(row.place, word) for word in row.names))
        text.append(f"| {file} | {count} | {', '.join(f'`{word}`' for word in row.names)} | {row.words} |")
        before = row.place
    return [*text, ""]


def verifier_table(tier: Tier) -> str:
    rows = [f"| `{crate}` | {', '.join(f'`{word}`' for word in words)} |" for crate, words in of_verifier(tier).items()]
    return "\n".join(["| Crate | Definitions of it |", "|---|---|", *rows]) + "\n"


def definitions_page(found: list[Tier], page: str) -> str:
    """docs/DEFINITIONS.md with its tables: below each heading of a tier, those of the tier."""
    parts = re.split(r"^(?=##? )", page, flags=re.M)
    made = []
    for part in parts:
        tier = next((tier for tier in found if part.startswith(f"## {tier.title}\n")), None)
        if tier:
            sections = sections_of(part.rstrip("\n").split("\n"))
            fill(sections, tier)
            part = "\n".join(line for section in sections for line in shown(section)).rstrip("\n") + "\n\n"
            stops = ", ".join(f"`{stop.word}`" for stop in sorted(tier.stops, key=lambda stop: stop.word))
            part = filled(filled(part, "stops", f"{stops}\n"), "of the verifier", verifier_table(tier))
        made.append(part)
    missing = [tier.title for tier in found if not any(part.startswith(f"## {tier.title}\n") for part in parts)]
    if missing:
        raise ValueError(f"docs/DEFINITIONS.md has no heading {missing[0]!r}")
    return filled("".join(made).rstrip("\n") + "\n", "of the kit", kit_table())


def kit_table() -> str:
    rows = [f"| {file} | {', '.join(f'`{word}`' for word in sorted(words))} |" for file, words in sorted(of_kit().items())]
    return "\n".join(["| File of the kit | Names |", "|---|---|", *rows]).replace("||", "\\|\\|") + "\n"


def quotation(path: str, word: str) -> str:
    """A definition, or a function with its contract, as it is in its file."""
    lines = (CRATES / path).read_text().splitlines()
    begins = re.compile(rf" *(?:pub )?(?:fn|trait|struct) {word}\b" if path.endswith(".rt") else "")
    at = next((at for at, line in enumerate(lines) if path.endswith(".rt") and begins.match(line)
               or (found := DEFINES.match(line)) and found[1] == word), None)
    if at is None:
        raise ValueError(f"docs/TRUST.md quotes {word}, which crates/{path} does not have")
    end = next((end for end in range(at, len(lines)) if lines[end].strip() in ("", "{")), len(lines))
    return "\n".join(lines[at:end]) + "\n"


def quoted(page: str) -> list[Name]:
    """The definitions and functions that a page quotes."""
    return [Name(Place(*path.split("/", 1)), word) for _, path, words, _, _ in QUOTED.findall(page) for word in words.split()]


def count_row(claim: str, section: str, names: frozenset[Name]) -> str:
    anchor = section.lower().replace(" ", "-")
    return f"| [{claim}]({DEFINITIONS.name}#{anchor}) | {len({name.place for name in names})} | {len(names)} | {lines_of(names)} |"


def counts(found: list[Tier]) -> str:
    """The table of the tiers, and what is read for "no test run faults"."""
    rows = ["| To believe | Files | Definitions | Lines |", "|---|---|---|---|"]
    for tier in found:
        rows.append(count_row(tier.title.removeprefix("For "), tier.title, tier.names))
        if tier.title == "For which programs are accepted":
            rows.append(count_row("that no test run faults, of the rows above", "For what is replied", read_for_no_fault()))
    return "\n".join(rows) + "\n"


def trust_page(found: list[Tier], page: str) -> str:
    """docs/TRUST.md with its quotations and counts."""
    page = QUOTED.sub(lambda match: match[1] + "\n".join(quotation(match[2], word) for word in match[3].split()) + match[5], page)
    return filled(page, "counted", counts(found))


def pages(found: list[Tier]) -> dict[Path, str]:
    """The two pages as they should be."""
    return {TRUST: trust_page(found, TRUST.read_text()), DEFINITIONS: definitions_page(found, DEFINITIONS.read_text())}
