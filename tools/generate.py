"""tools/generate --check | --write

Writes the texts and the numbers that pages and clients share to their places, each between two marks: the reasons of refused programs, the
errors, the limits, the commands, and the codes of the library. The numbers and the verifier's reasons are read from the crates, the other
texts from tools/generating/texts.toml. --check changes nothing, and fails if a place has something else, or if a number of the header has
no place here.
"""

from __future__ import annotations

import re
import sys
from pathlib import Path

from generating.crates import SourceError
from generating.places import HEADER, PLACES, Place
from generating.shared import Shared, shared_of

TOP = Path(__file__).resolve().parent.parent
NUMBER = re.compile(r"\b(BPFHOST_[A-Z]\w*) = -?\d+|^#define (BPFHOST_\w+) \(?-?\d+\)?", re.M)


def written(top: Path, shared: Shared, places: list[Place] = PLACES) -> tuple[dict[str, str], list[str]]:
    """What the files should be, by their names, and which marks are missing."""
    texts, missing = dict[str, str](), list[str]()
    for place in places:
        text = texts.setdefault(place.file, (top / place.file).read_text())
        new = place.written(text, shared)
        if new is None:
            missing.append(f"{place.file} does not have the marks of '{place.name}', or has them twice")
        else:
            texts[place.file] = new
    return texts, missing


def by_hand(header: str) -> list[str]:
    """The numbers of the header outside the marks. tools/version writes those of the version; BPFHOST_ROOM, the states of a host in debug builds
    and the styles of a log are only the header's."""
    rest = re.sub(r"/\* (.*): written by tools/generate \*/\n(?:.*\n)*? */\* end of \1 \*/", "", header)
    names = [one or other for one, other in NUMBER.findall(rest)]
    own = ("BPFHOST_VERSION_", "BPFHOST_ROOM", "BPFHOST_MADE", "BPFHOST_FREED", "BPFHOST_LOG_")
    return [f"{HEADER} has {name} outside the marks" for name in names if not name.startswith(own)]


def main(words: list[str]) -> int:
    if words not in (["--check"], ["--write"]):
        print(__doc__, file=sys.stderr)
        return 2
    try:
        texts, wrong = written(TOP, shared_of(TOP))
    except SourceError as error:
        print(f"generate: {error}")
        return 1
    wrong += by_hand(texts[HEADER])
    changed = [file for file, text in texts.items() if (TOP / file).read_text() != text]
    if words == ["--check"]:
        wrong += [f"{file} is not what the crates and texts.toml say: tools/generate --write" for file in changed]
    else:
        for file in changed:
            (TOP / file).write_text(texts[file])
    print("".join(f"generate: {line}\n" for line in wrong), end="")
    return bool(wrong)
