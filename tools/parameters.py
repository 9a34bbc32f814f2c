"""Functions of the crates with more than seven parameters, `self` among them. What belongs together is one parameter: a record."""

from __future__ import annotations

import re
from collections.abc import Iterator, Mapping
from pathlib import Path

CRATES = Path(__file__).resolve().parent.parent / "crates"
MOST = 7
# The functions that may have more, each with the reason.
EXCEPTIONS = {
    "bpf_helpers/src/calls.rt: call": "users of the crate call it as it is",
    "bpfhost_c/src/lib.rt: bpfhost_c_run_packets": "it is called from C, which knows none of the records of the crates",
    "flat_machine/src/running.rt: run": "users of the crate call it as it is",
}
COMMENT = re.compile(r"//[^\n]*")
FUNCTION = re.compile(r"\bfn (\w+)(?=[<(])")
OPENING, CLOSING = "([{<", ")]}>"


def items(text: str) -> tuple[list[str], str]:
    """What the brackets at the front of a text have between them, cut at each comma that is in no inner ones; and the text after them."""
    found: list[str] = []
    depth, start = 0, 1
    for at, letter in enumerate(text):
        depth += letter in OPENING
        depth -= letter in CLOSING and text[at - 1:at + 1] != "->"
        if depth == 0 or depth == 1 and letter == ",":
            found.append(text[start:at].strip())
            start = at + 1
        if depth == 0:
            break
    return [item for item in found if item], text[start:]


def functions(text: str) -> Iterator[tuple[str, list[str]]]:
    """The name of each function of a file, and its parameters."""
    code = COMMENT.sub("", text)
    for found in FUNCTION.finditer(code):
        rest = code[found.end():]
        if rest.startswith("<"):
            _, rest = items(rest)
        yield found[1], items(rest)[0]


def faults(texts: Mapping[str, str], exceptions: Mapping[str, str]) -> list[str]:
    """The functions of some files that have too many parameters, and the exceptions that are none."""
    many = {f"{name}: {function}": len(parameters) for name, text in texts.items()
            for function, parameters in functions(text) if len(parameters) > MOST}
    wrong = [f"crates/{function}: {count} parameters, and {MOST} are the most: a record for those that belong together"
             for function, count in many.items() if function not in exceptions]
    return wrong + [f"tools/parameters.py: no function {function} has more than {MOST} parameters" for function in exceptions
                    if function not in many]


def checked() -> list[str]:
    """What is wrong in this repository."""
    return faults({str(path.relative_to(CRATES)): path.read_text() for path in sorted(CRATES.glob("*/src/**/*.rt"))}, EXCEPTIONS)
