"""tools/version [--set NUMBER]

The version of this repository is in the file VERSION: three numbers with points between them. Each other place that has it, or some of its
numbers, is compared, and the status is 1 if one has another version or none. --set writes the number to all of them except those that are
written by hand: the entries of changes, and the library's soname. docs/RELEASING.md says what may change in which version. The status is 1
also if an entry of debian/changelog has no later date than the entry before it, which lintian rejects.
"""

from __future__ import annotations

import re
import sys
from dataclasses import dataclass
from email.utils import parsedate_to_datetime
from itertools import pairwise
from pathlib import Path

TOP = Path(__file__).resolve().parent.parent
NUMBER = re.compile(r"(0|[1-9]\d*)\.(0|[1-9]\d*)\.(0|[1-9]\d*)")


@dataclass(frozen=True)
class Place:
    """A file that has the version, or some of its numbers: what the first group of the pattern finds has to be of the form."""

    file: str
    pattern: str
    form: str = "{0}.{1}.{2}"
    is_by_hand: bool = False

    def wanted(self, version: str) -> str:
        return self.form.format(*version.split("."))

    def found(self, text: str) -> re.Match[str] | None:
        return re.search(self.pattern, text, re.M)


HEADER = "clients/c/include/bpfhost.h"
PLACES = [
    Place("README.md", r"^This is version (\S+):"),
    *(Place(HEADER, rf"^#define BPFHOST_VERSION_{name} (\S+)$", form) for name, form in (("MAJOR", "{0}"), ("MINOR", "{1}"), ("PATCH", "{2}"))),
    Place(HEADER, r'^#define BPFHOST_VERSION "(.*)"$'),
    Place(HEADER, r'^/\* The version as text: "(.*)"\. \*/$'),
    *(Place("crates/bpfhost_c/src/version.rt", rf"^const {name}: u32 = (\d+);$", form) for name, form in (("MAJOR", "{0}"), ("MINOR", "{1}"), ("PATCH", "{2}"))),
    Place("clients/python/bpfhost/library.py", r'^VERSION = "(.*)"$', "{0}.{1}"),
    Place("clients/python/bpfhost/__init__.py", r'^__version__ = "(.*)"$'),
    Place("clients/rust/Cargo.toml", r'^version = "(.*)"$'),
    Place("clients/rust/Cargo.toml", r'^bpfhost-sys = .*version = "=(.*)" }$'),
    Place("clients/rust/bpfhost-sys/Cargo.toml", r'^version = "(.*)"$'),
    Place("clients/rust/Cargo.lock", r'^name = "bpfhost"\nversion = "(.*)"$'),
    Place("clients/rust/Cargo.lock", r'^name = "bpfhost-sys"\nversion = "(.*)"$'),
    Place("crates/log_text/src/arguments.rt", r'\.version\("(.*)"\)'),
    Place("crates/cases_logs/stdout", r"^  verifier_log (\d\S*)$"),
    Place("CHANGELOG.md", r"^## (\d\S*)", is_by_hand=True),
    Place("debian/changelog", r"^bpfhost \((\S+)\)", is_by_hand=True),
    Place("debian/control", r"^Package: libbpfhost(\d\S*)$", "{0}.{1}", is_by_hand=True),
    Place("docs/RELEASING.md", r"^- \*soname\.\* `libbpfhost\.so\.(\S+)`", "{0}.{1}", is_by_hand=True),
]


def wrong_places(version: str) -> list[str]:
    wrong = []
    for place in PLACES:
        found = place.found((TOP / place.file).read_text())
        if found is None or found[1] != place.wanted(version):
            wrong.append(f"{place.file} has {found[1] if found else 'no version'} in place of {place.wanted(version)}")
    return wrong


def wrong_dates(changes: str) -> list[str]:
    """The entries, the latest first, of which one has no later date than the next."""
    entries = re.findall(r"^bpfhost \((\S+)\)[^\0]*?^ -- .*>  (.*)$", changes, re.M)
    return [f"debian/changelog dates {later} no later than {earlier}" for (later, day), (earlier, before) in pairwise(entries)
            if parsedate_to_datetime(day) <= parsedate_to_datetime(before)]


def write(version: str) -> None:
    (TOP / "VERSION").write_text(f"{version}\n")
    for place in PLACES:
        text = (TOP / place.file).read_text()
        found = None if place.is_by_hand else place.found(text)
        if found:
            (TOP / place.file).write_text(text[:found.start(1)] + place.wanted(version) + text[found.end(1):])


def main(words: list[str]) -> int:
    if words and (len(words) != 2 or words[0] != "--set" or not NUMBER.fullmatch(words[1])):
        print(__doc__, file=sys.stderr)
        return 2
    if words:
        write(words[1])
    version = (TOP / "VERSION").read_text().strip()
    wrong = wrong_places(version) if NUMBER.fullmatch(version) else [f"VERSION has {version}, which is no three numbers"]
    wrong += wrong_dates((TOP / "debian/changelog").read_text())
    print("".join(f"version: {line}\n" for line in wrong), end="")
    return bool(wrong)
