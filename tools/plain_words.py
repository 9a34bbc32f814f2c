"""Words that make a page slow to read, and how many of them each page may have.

plain_comments.py bounds them in docstrings and comments, and plain_names.py some of them in names of code.
"""

from __future__ import annotations

import re
from collections import Counter
from collections.abc import Iterable

# Each word with what to write instead.
PLAIN = {
    "where": "if, when; or the place by its name",
    "alone": "only",
    "stand": "is, has",
    "told": "says, returns, prints",
    "behind": "after",
    "says so": "prints a notice",
    "answer": "returns, replies with",
    "want": "needs",
    "whoever": "who",
    "beside": "next to, besides",
}
# The forms that count, if a word has more than one.
FORMS = {
    "where": "where|wherever",
    "stand": "stands?|stood|standing",
    "told": "told|tells?|telling",
    "says so": "says? so|said so",
    "answer": "answers?|answered|answering",
    "want": "wants?|wanted|wanting",
}


def patterns(plain: Iterable[str], forms: dict[str, str]) -> dict[str, re.Pattern[str]]:
    """What finds each of these words, in each of its forms."""
    return {name: re.compile(rf"\b(?:{forms.get(name, name)})\b", re.I) for name in plain}


WORD = patterns(PLAIN, FORMS)
# What is not prose: blocks of code, code in a sentence, and the target of a link.
NO_PROSE = re.compile(r"^(```|~~~).*?^\1$|^(?: {4}|\t)[^\n]*$|`[^`\n]*`|\]\([^)\s]*\)", re.M | re.S)
# The most of these words, in all, that a page may have. A page that is not listed may have none.
MOST: dict[str, int] = {
    "README.md": 1,
    "tests/conformance/README.md": 8,
    "clients/python/DECISIONS.md": 1,
    "clients/python/FILTERS.md": 1,
    "clients/python/README.md": 1,
    "clients/rust/DECISIONS.md": 1,
    "clients/rust/README.md": 1,
    "docs/CHANGING.md": 1,
    "docs/DEBUGGING.md": 1,
    "docs/EMBEDDING.md": 2,
    "docs/GUIDE.md": 2,
    "docs/SCALING.md": 3,
    "docs/TRUST.md": 2,
}


def count(text: str, words: dict[str, re.Pattern[str]] = WORD) -> Counter[str]:
    """How often the prose of a page has each of the words."""
    prose = NO_PROSE.sub(" ", text)
    return Counter({name: found for name, pattern in words.items() if (found := len(pattern.findall(prose)))})


def bounds(pages: Iterable[tuple[str, str]]) -> str:
    """The lines of `MOST` for pages with these names and texts, as they are now."""
    counts = ((page, count(text).total()) for page, text in pages)
    return "".join(f'    "{page}": {total},\n' for page, total in counts if total)


def too_many(page: str, text: str) -> list[str]:
    """The fault of a page that has more of these words than it may have."""
    found = count(text)
    if found.total() <= (most := MOST.get(page, 0)):
        return []
    words = ", ".join(f"{number} '{name}' ({PLAIN[name]})" for name, number in found.most_common())
    return [f"{page}: {found.total()} slow words, and {most} are the most: {words}"]
