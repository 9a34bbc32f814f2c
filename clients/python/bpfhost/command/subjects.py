"""What the arguments are about: an object, or filters as tcpdump has them."""

from __future__ import annotations

import argparse
import os
from collections.abc import Mapping
from dataclasses import dataclass

from bpfhost.packets import ETHERNET

# The arguments that name a filter in place of an object.
EXPRESSION, EXPRESSION_FILE, CLASSIC = "--filter", "-F", "--classic"
_STANDARD_INPUT = "-"
# Arguments that are only for objects, or only for filters, with their values if they are not given.
_OF_OBJECTS: Mapping[str, object] = {
    "section": None, "top": None, "by": None, "set": [], "time": None, "short": "pad", "long": "cut", "strict": False, "as_is": False, "dot": False,
}  # fmt: skip
_OF_FILTERS: Mapping[str, object] = {"semantics": "libpcap", "link_type": None, "form": None, "count": None}
_SHORT_FORMS = {"count": "-c"}


@dataclass(frozen=True)
class Source:
    """The argument that names a filter, and its expression or file."""

    kind: str
    of: str

    @property
    def file(self) -> str | None:
        """The file that the filter is read from; `-` is standard input."""
        return None if self.kind == EXPRESSION else self.of


def hint_of_filter(word: str) -> str:
    """What to say of a word in the place of an object, if it is no file: it may be an expression."""
    import shlex

    return "" if os.path.exists(word) or word.endswith(".o") else f"; did you mean --filter {shlex.quote(word)}?"


def settled(said: argparse.Namespace) -> argparse.Namespace:
    """The arguments, with each file under its own name. Ends the process if they contradict each other."""
    if "is_subject" not in said:
        return said
    if said.filters:
        _settle_filters(said)
    else:
        _settle_object(said)
    return said


def _settle_filters(said: argparse.Namespace) -> None:
    _refuse(said, _OF_OBJECTS, "is for an object, and filters are named")
    files = [getattr(said, name) for name in ("object", "file", "capture") if getattr(said, name, None) is not None]
    if "capture" in said:
        if getattr(said, "csv", None):
            # The table of filters has no name: a word after --csv is the capture.
            files.append(said.csv)
            said.csv = ""
        if said.link_type is not None and (files or "interface" in said):
            said.wrong("--link-type is for check, dis and build: packets that are run have their own")
        said.object, said.capture = None, files.pop(0) if files else None
    if files:
        said.wrong(f"unrecognized arguments: {' '.join(files)}")
    said.link_type = ETHERNET if said.link_type is None else said.link_type


def _settle_object(said: argparse.Namespace) -> None:
    _refuse(said, _OF_FILTERS, "is for filters, and none is named by --filter")
    if "object" in said and said.object is None:
        said.wrong("the following arguments are required: OBJECT, or a filter as in --filter EXPRESSION")
    if "csv" in said and said.csv == "":
        said.wrong("argument --csv: expected one argument")


def _refuse(said: argparse.Namespace, values: Mapping[str, object], why: str) -> None:
    """Ends the process if one of these arguments was given."""
    for name, value in values.items():
        if getattr(said, name, value) != value:
            option = _SHORT_FORMS.get(name) or f"--{name.replace('_', '-')}"
            said.wrong(f"{option} {why}")
