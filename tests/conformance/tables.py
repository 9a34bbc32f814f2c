"""The tables of tests/conformance/README.md that depend only on the sources."""

from __future__ import annotations

from collections import Counter, defaultdict

from conformance.cases import SHOWS, counts, lines, slots_of, vectors
from conformance.instructions import INSTRUCTIONS, Instruction, Key, key_of

GROUPS = {"base": "base32, base64", "divmul32": "divmul32", "divmul64": "divmul64", "atomic32": "atomic32", "atomic64": "atomic64", "packet": "packet"}


def cell(each: Instruction) -> str:
    """The instruction as a table's cell."""
    return each.text.replace("|", "\\|")


def groups() -> str:
    """How much of each group is implemented, and how many of its instructions have a case of each kind."""
    rows = [f"| Group | Instructions | Here | {' | '.join(SHOWS)} |", "|---|---|---|" + "---|" * len(SHOWS)]
    for group, name in GROUPS.items():
        of_group = [each for each in INSTRUCTIONS if each.group == group]
        here = [each for each in of_group if each.is_here]
        shown = [str(sum(1 for each in here if found[each.key])) for found in counts().values()]
        rows.append(f"| {name} | {len(of_group)} | {len(here)} | {' | '.join(shown if here else [''] * len(shown))} |")
    return "\n".join(rows) + "\n"


def by_opcode() -> str:
    rows = [f"| Opcode | Instruction | {' | '.join(SHOWS)} |", "|---|---|" + "---|" * len(SHOWS)]
    for each in sorted((each for each in INSTRUCTIONS if each.is_here), key=lambda each: each.key):
        shown = [str(found[each.key]) for found in counts().values()]
        rows.append(f"| {each.key} | `{cell(each)}` | {' | '.join(shown)} |")
    return "\n".join(rows) + "\n"


def refused() -> Counter[Key]:
    """The instructions of the RFC that are not implemented, and how many cases of the codec each has."""
    found: Counter[Key] = Counter()
    for rest in lines("cases_texts", "codec"):
        if slots := slots_of(rest):
            found[key_of(slots[0])] += 1
    return found


def left_out() -> str:
    """A row for the instructions of one opcode with as many cases."""
    found = refused()
    named = defaultdict[tuple[str, str, int], list[str]](list)
    for each in INSTRUCTIONS:
        if not each.is_here:
            named[str(each.key), GROUPS[each.group], found[each.key]].append(cell(each))
    rows = ["| Opcode | Instructions | Group | Cases of the codec that refuse each |", "|---|---|---|---|"]
    rows += [f"| {opcode} | {'; '.join(texts)} | {group} | {count} |" for (opcode, group, count), texts in named.items()]
    return "\n".join(rows) + "\n"


def known_answers() -> str:
    """The operators and comparisons by their numbers of equations."""
    found = vectors()
    named = defaultdict[tuple[int, int], list[str]](list)
    for name in sorted({name for name, _ in found}):
        named[found[name, "64"], found[name, "32"]].append(f"`{name}`")
    rows = ["| 64 bits | 32 bits | Operators and comparisons |", "|---|---|---|"]
    rows += [f"| {wide} | {narrow or ''} | {', '.join(names)} |" for (wide, narrow), names in sorted(named.items())]
    return "\n".join(rows) + "\n"


COUNTED = {"groups": groups, "opcodes": by_opcode, "left out": left_out, "known answers": known_answers}
