"""Classic BPF filters, as tcpdump writes them, as programs of this host: from expressions, numbers and texts.

FILTERS.md of clients/python describes the translation, and how libpcap and the kernel differ.
"""

from __future__ import annotations

import importlib
from typing import TYPE_CHECKING

if TYPE_CHECKING:
    from bpfhost.classic.errors import ClassicError, ExpressionError, MissingLibrary
    from bpfhost.classic.instructions import Instruction
    from bpfhost.classic.libpcap import link_type_number
    from bpfhost.classic.program import ClassicProgram
    from bpfhost.classic.semantics import Length, Semantics
    from bpfhost.classic.translation import Translation

__all__ = [
    "ClassicError",
    "ClassicProgram",
    "ExpressionError",
    "Instruction",
    "Length",
    "MissingLibrary",
    "Semantics",
    "Translation",
    "link_type_number",
]

# The modules of these names, each of which is imported when one of its names is used.
_MODULES = {
    "ClassicError": "errors",
    "ClassicProgram": "program",
    "ExpressionError": "errors",
    "Instruction": "instructions",
    "Length": "semantics",
    "MissingLibrary": "errors",
    "Semantics": "semantics",
    "Translation": "translation",
    "link_type_number": "libpcap",
}


def __getattr__(name: str) -> object:
    if name not in _MODULES:
        raise AttributeError(f"module {__name__} has no attribute {name}")
    return getattr(importlib.import_module(f"{__name__}.{_MODULES[name]}"), name)
