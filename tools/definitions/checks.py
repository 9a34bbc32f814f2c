"""What docs/TRUST.md says of its quotations, and the tables do not show."""

from __future__ import annotations

import re

from definitions.page import quotation, quoted
from definitions.sources import Name, Place, file_of
from definitions.tiers import LAWS, roots

MOST_COLUMNS, MOST_WORDS, MOST_DEFINITIONS, MOST_LINES = 100, 3000, 17, 60
# What a clause of `handle` calls the names of `Handles`.
IN_CONTRACT = {"frame.now": "frame", "reply.new": "reply", "self.old.states": "before", "self.new.states": "after"}
# Quoted definitions that still have a longer line. An entry that is not needed is a fault.
STILL_LONG: set[str] = set()


def too_long(page: str) -> list[str]:
    """Quotations with a line that is too long, and entries of STILL_LONG that are not needed."""
    found = {each.word for each in quoted(page) if any(len(line) > MOST_COLUMNS for line in quotation(str(each.place), each.word).splitlines())}
    return [f"the quoted {word} has a line of more than {MOST_COLUMNS} columns" for word in sorted(found - STILL_LONG)] + [
        f"the quoted {word} has no long line any more: take it out of tools/definitions/checks.py" for word in sorted(STILL_LONG - found)]


def too_much(page: str, first: frozenset[Name], lines: int) -> list[str]:
    """The bounds of the page, and of what the first theorem needs."""
    sizes = ((len(page.split()), MOST_WORDS, "docs/TRUST.md has {} words"), (len(first), MOST_DEFINITIONS, "the first theorem needs {} definitions"),
             (lines, MOST_LINES, "the definitions of the first theorem have {} lines"))
    return [f"{text.format(size)}, and {most} are the most" for size, most, text in sizes if size > most]


def not_quoted(page: str, first: frozenset[Name]) -> list[str]:
    """Definitions of the first theorem that the page does not quote."""
    return [f"docs/TRUST.md does not quote {name}, which the first theorem needs" for name in sorted(first - set(quoted(page)))]


def plain(text: str) -> str:
    for word, other in IN_CONTRACT.items():
        text = text.replace(word, other)
    return re.sub(r"\s+", " ", text).strip()


def clauses(contract: str) -> dict[str, str]:
    return {clause: plain(text) for clause, text in re.findall(r"ensures (\w+) \{(.*?)\}\s*(?=ensures|\Z)", contract, re.S)}


def broken_promises() -> list[str]:
    """Fields of `Handles` that `Host::handle` does not promise in the same words."""
    record = file_of(Place("host_core", "specs/Handled.antt")).texts["Handles"][0]
    promised = clauses(file_of(Place("host_core", "src/host.rt")).texts["handle"][0])
    return [f"Host::handle does not promise the field {field} of Handles"
            for field, text in re.findall(r"^pub (\w+) : (.*(?:\n(?!pub ).*)*)", record, re.M) if promised.get(field) != plain(text)]


def unproved() -> list[str]:
    """Statements that are read for a claim, and are not the contract of a law."""
    laws = (Place("host_core", "src/laws.rt")).file.read_text()
    return [f"no function in crates/host_core/src/laws.rt has the contract {each.word}" for each in roots()
            if str(each.place) == LAWS and not re.search(rf"pub fn \w+\(\)\n    ensures {{ {each.word} }}\n", laws)]
