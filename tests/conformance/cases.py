"""The worked cases of the test crates: the slots and the texts in their lines, and the instructions in these."""

from __future__ import annotations

import re
from collections import Counter
from collections.abc import Iterator
from functools import cache
from pathlib import Path

from conformance.instructions import BY_KEY, Key, key_of, key_of_text

TOP = Path(__file__).resolve().parents[2]
CRATES = TOP / "crates"
# What a case shows of an instruction: the file, and the first words of the lines that show it.
SHOWS = {
    "Codec": ("cases_texts", ("codec", "dis")),
    "Text": ("cases_texts", ("round", "asm")),
    "Verdict": ("cases_verdicts", ("verify", "start", "maps")),
    "Run": ("cases_frames", ("load", "slots")),
}


def lines(crate: str, *words: str) -> Iterator[str]:
    """The lines of a crate's cases that begin with one of these words, without it."""
    for line in (CRATES / crate / "stdin").read_text().splitlines():
        word, _, rest = line.partition(" ")
        if word in words:
            yield rest


def slots_of(text: str) -> list[bytes]:
    """The slots of hex digits; of copies, one."""
    digits = re.sub(r"\{\d+\*|[^0-9a-fA-F]", "", text)
    return [bytes.fromhex(digits[at:at + 16]) for at in range(0, len(digits) - 15, 16)]


def keys_of_slots(text: str) -> set[Key]:
    """The instructions in slots; the second slot of a wide load is not one."""
    found, is_second = set(), False
    for slot in slots_of(text):
        if not is_second and (key := key_of(slot)) in BY_KEY:
            found.add(key)
        is_second = not is_second and slot[0] == 0x18
    return found


def text_lines(text: str) -> list[str]:
    """The lines of a program's text on one line; for `{COUNT*PART}`, the part once."""
    text = re.sub(r"\{\d+\*|\}", ";", text)
    text = re.sub(r"\\x[0-9a-fA-F]{2}", " ", text)
    return [line.strip() for line in text.split(";") if line.strip()]


def keys_of_line(rest: str) -> set[Key]:
    words = rest.split()
    if words and all(re.fullmatch(r"[0-9a-fA-F]{2,}|\{\d+\*[0-9a-fA-F]+\}", word) for word in words[1:] or words):
        return keys_of_slots(" ".join(words[1:] if len(words[0]) < 4 else words))
    texts = text_lines(re.sub(r"^\d+ ", "", rest))
    return {key for line in texts if (key := key_of_text(line))}


@cache
def counts() -> dict[str, Counter[Key]]:
    """How many cases have each instruction, by what the case shows."""
    found = {}
    for what, (crate, words) in SHOWS.items():
        found[what] = Counter(key for rest in lines(crate, *words) for key in keys_of_line(rest))
    return found


def vectors() -> Counter[tuple[str, str]]:
    """How many known answers each operator's and each comparison's equation has, by its width."""
    text = (CRATES / "words/proofs/Vectors.antt").read_text()
    found = Counter((name, width) for width, name in re.findall(r": operate (64|32) (?:\(Binary )?(\w+)\b", text))
    found.update((name, width) for width, name in re.findall(r": compares (64|32) (\w+) ", text))
    found.update((f"byte order, {kind.lower()}", "64") for kind in re.findall(r": byte_order \(?(\w+)", text))
    return found
