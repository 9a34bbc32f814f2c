"""Modules of packages that not every machine has."""

from __future__ import annotations

import functools
import importlib
from typing import Any

from bpfhost.errors import PACKAGES, MissingPackage


@functools.cache
def optional_module(name: str) -> Any:
    """A module of one of `PACKAGES`; raises MissingPackage, which names what to install."""
    # By its name: the types that mypy may find of it are not those of Debian's version.
    try:
        return importlib.import_module(name)
    except ModuleNotFoundError:
        package = name.partition(".")[0]
        raise MissingPackage(package, PACKAGES[package]) from None
