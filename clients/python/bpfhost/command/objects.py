"""Objects, for the commands that take one: pyelftools is imported only then."""

from __future__ import annotations

import argparse
import os
import sys
from collections.abc import Iterable
from typing import TYPE_CHECKING

from bpfhost.captures import is_capture
from bpfhost.command.subjects import hint_of_filter
from bpfhost.errors import InputError

if TYPE_CHECKING:
    from bpfhost.objects import ObjectFile


def read_object(said: argparse.Namespace, path: str) -> ObjectFile:
    """The object of a file, or the built program, in the form that the arguments ask for. Raises MissingPackage without pyelftools.

    Prints what is changed in its maps.
    """
    if not os.path.exists(path):
        raise InputError(f"{path}: No such file or directory{hint_of_filter(path)}")
    if is_capture(path):
        raise InputError(f"{path} is a capture, and not an object")
    from bpfhost.objects import Form, is_built, load_built, load_object

    form = Form.AS_IS if said.as_is else Form.STRICT if said.strict else Form.LOWERED
    found = load_built(path, form) if is_built(path) else load_object(path, form)
    tell_changes(path, found.changes)
    return found


def tell_changes(what: str, changes: Iterable[str]) -> None:
    """Prints what is changed in an object or in a program, one line each."""
    for change in changes:
        print(f"bpfhost: {what}: {change}", file=sys.stderr)
