"""Values of arguments, from their words."""

from __future__ import annotations

import re
from collections.abc import Mapping

from bpfhost.packets import ETHERNET

_SECONDS = r"(\d+(?:\.\d+)?)(ms|s|m|)"
_UNITS = {"ms": 0.001, "s": 1.0, "": 1.0, "m": 60.0}


def seconds(word: str) -> float:
    """A time, as `1s`, `500ms`, `2m` or `1.5`. Raises ValueError if it is not a time above 0."""
    found = re.fullmatch(_SECONDS, word)
    if found is None or float(found[1]) == 0:
        raise ValueError(word)
    return float(found[1]) * _UNITS[found[2]]


def setting(word: str) -> tuple[str, str]:
    """A name and a value, as `limit=10`. Raises ValueError without a name."""
    name, sign, value = word.partition("=")
    if not name or not sign:
        raise ValueError(word)
    return name, value


def number_at(value: object, path: str) -> float | None:
    """The number in a field of a plain value, as `bytes` or `flow.packets`; None if there is none."""
    for name in path.split("."):
        if not isinstance(value, Mapping) or name not in value:
            return None
        value = value[name]
    return value if isinstance(value, int | float) else None


def first_number(value: object) -> float | None:
    """The value itself if it is a number, else the first of its fields that is one."""
    if isinstance(value, Mapping):
        return next((number for number in map(first_number, value.values()) if number is not None), None)
    return value if isinstance(value, int | float) else None


def link_type(word: str) -> int:
    """A link type, by its number in captures or by libpcap's name. Raises ValueError if it is none."""
    from bpfhost.classic.errors import MissingLibrary
    from bpfhost.classic.libpcap import link_type_number

    try:
        return link_type_number(word)
    except MissingLibrary:
        # Without libpcap no expression is compiled: that is reported later.
        return ETHERNET
