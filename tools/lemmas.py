"""Files of proofs without a head comment, which says what they show and how; and public lemmas whose statement is said nowhere in words:
neither in a comment above them, nor by their names."""

from __future__ import annotations

import re
from collections.abc import Iterator, Mapping
from pathlib import Path

CRATES = Path(__file__).resolve().parent.parent / "crates"
PUBLIC = re.compile(r"\s*pub (?:(?:unfoldable|abbrev|opaque) )*([A-Za-z_][\w-]*)\s*:(?!:)")
# The files that the toolchain names have lemmas of one function, which it names too.
OF_TOOLCHAIN = ("Answers.antt", "Invariants.antt", "Measures.antt", "Lib.antt")
# A name is a sentence if it has so many words, and one of them is such a verb.
LEAST_WORDS = 3
VERBS = frozenset(
    "accept accepts admit admits agree agrees are associate begin begins change changes comes commute commutes cover covers do does end "
    "ends find finds fit fits follow follows give gives has have hold holds is keep keeps lie lies make makes means meet meets read reads "
    "refine refines return returns show shows simulate simulates stay stays take takes was".split()
)


def is_sentence(name: str) -> bool:
    """Whether a name says by itself what holds, as `deletes_keep_simulation`."""
    words = re.split("[_-]", name)
    return len(words) >= LEAST_WORDS and not VERBS.isdisjoint(words)


def silent(text: str) -> Iterator[tuple[int, str]]:
    """The public lemmas of a file of proofs whose statement is said nowhere, with their lines."""
    before = ""
    for number, line in enumerate(text.splitlines(), 1):
        found = PUBLIC.match(line)
        if found and not before.startswith("--") and not is_sentence(found[1]):
            yield number, found[1]
        before = line.strip()


def faults(texts: Mapping[str, str]) -> list[str]:
    """The faults of files of proofs, by their names."""
    return [f"{name}:{number}: nothing says in words what `{lemma}` states: a comment above it does"
            for name, text in texts.items() for number, lemma in silent(text)]


def headless(texts: Mapping[str, str]) -> list[str]:
    """The faults of files of proofs that begin with no comment, by their names. Files that only list others need none."""
    return [f"{name}: its head says what it shows, and how" for name, text in texts.items()
            if not name.endswith("/Lib.antt") and not text.startswith("-- ")]


def checked() -> list[str]:
    """What is wrong in this repository."""
    texts = {f"crates/{path.relative_to(CRATES)}": path.read_text() for path in sorted(CRATES.glob("*/proofs/**/*.antt"))}
    return headless(texts) + faults({name: text for name, text in texts.items() if Path(name).name not in OF_TOOLCHAIN})
