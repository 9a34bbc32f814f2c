"""The slow words of plain_words.py in docstrings and comments, and how many of them each folder may have."""

from __future__ import annotations

import ast
import io
import re
import tokenize
from collections import Counter
from collections.abc import Iterable

from plain_words import PLAIN, WORD, count, patterns

# How deep the folders are that have a bound, by the first part of their names.
DEPTH = {"clients": 4}
# The proofs of a crate, and the definitions for them, have bounds of their own.
OF_PROOFS = re.compile(r"crates/\w+/(?:proofs|specs/inside)(?=/)")
# The words that count only there, each with what to write instead, and the forms that count.
PROOF_PLAIN = {
    "stays": "is not changed, is still",
    "goes on": "continues",
    "is there": "is present, exists",
    "comes to": "has as its result",
    "farther": "later",
    "just": "exactly, only",
}
PROOF_FORMS = {
    "stays": "stays?|stayed|staying",
    "goes on": "goes on|go on|went on|going on",
    "is there": "(?:is|are|was|were) there",
    "comes to": "comes? to|came to",
}
PROOF_WORD = WORD | patterns(PROOF_PLAIN, PROOF_FORMS)
# The comments of other languages than Python, by the suffix of a file; a script without a suffix has those of a shell.
C_LIKE = re.compile(r"//[^\n]*|/\*.*?\*/", re.S)
COMMENT = {
    **dict.fromkeys(("rt", "rs", "c", "h", "cc"), C_LIKE),
    "antt": re.compile(r"(?:^|\s)--\s[^\n]*"),
    "sh": re.compile(r"(?:^|\s)#[\s:][^\n]*"),
}
# The most of these words, in all, that the docstrings and comments of a folder may have. A folder that is not listed may have none, as
# those of the proofs.
MOST: dict[str, int] = {
    "tests/conformance": 1,
    "tests/library": 4,
    "clients/c/include": 1,
    "clients/python": 7,
    "clients/python/bench": 5,
    "clients/python/bpfhost": 2,
    "clients/python/bpfhost/lowering": 6,
    "crates/arena": 1,
    "crates/bpf_helpers": 1,
    "crates/bpf_text": 1,
    "crates/cases": 9,
    "crates/cases_commands": 3,
    "crates/cases_frames": 1,
    "crates/cases_logs": 1,
    "crates/cases_texts": 1,
    "crates/cases_verdicts": 1,
    "crates/flat_machine": 1,
    "crates/insn_codec": 1,
    "crates/insn_set": 1,
    "crates/interval": 1,
    "crates/reg_kinds": 1,
    "crates/saving": 1,
    "crates/tenant": 10,
    "crates/verifier": 1,
    "crates/words": 1,
    "examples/filters": 1,
}


def of_python(text: str) -> str:
    """The docstrings and comments of Python."""
    documented = (ast.Module, ast.ClassDef, ast.FunctionDef, ast.AsyncFunctionDef)
    strings = [ast.get_docstring(node) or "" for node in ast.walk(ast.parse(text)) if isinstance(node, documented)]
    tokens = tokenize.generate_tokens(io.StringIO(text).readline)
    return "\n".join([*strings, *(token.string for token in tokens if token.type == tokenize.COMMENT)])


def prose(name: str, text: str) -> str:
    """The docstrings and comments of a file, without their indentation; empty if the file is of another language."""
    script = text.partition("\n")[0] if text.startswith("#!") else ""
    suffix = name.rpartition("/")[2].rpartition(".")[2]
    if suffix == "py" or "python" in script:
        found = of_python(text)
    else:
        pattern = COMMENT.get("sh" if script else suffix)
        found = "\n".join(pattern.findall(text)) if pattern else ""
    return re.sub(r"^\s+", "", found, flags=re.M)


def folder(name: str) -> str:
    """The folder to which a file counts."""
    if found := OF_PROOFS.match(name):
        return found[0]
    parts = name.split("/")[:-1]
    return "/".join(parts[: DEPTH.get(parts[0], 2)]) if parts else "."


def by_folder(files: Iterable[tuple[str, str]]) -> dict[str, Counter[str]]:
    """How often the docstrings and comments of each folder have each of the words, for files with these names and texts."""
    found: dict[str, Counter[str]] = {}
    for name, text in files:
        words = PROOF_WORD if OF_PROOFS.match(name) else WORD
        found.setdefault(folder(name), Counter()).update(count(prose(name, text), words))
    return dict(sorted(found.items()))


def rounded(total: int) -> int:
    """A bound for so many words: above ten it has room up to a multiple of ten, so that a change does not always change the bound."""
    return total if total <= 10 else -(-total // 10) * 10


def bounds(files: Iterable[tuple[str, str]]) -> str:
    """The lines of `MOST` for files with these names and texts, as they are now."""
    return "".join(f'    "{where}": {rounded(words.total())},\n' for where, words in by_folder(files).items() if words)


def too_many(files: Iterable[tuple[str, str]]) -> list[str]:
    """The faults of folders that have more of these words in docstrings and comments than they may have."""
    wrong = []
    for where, words in by_folder(files).items():
        if words.total() > (most := MOST.get(where, 0)):
            instead = PLAIN | PROOF_PLAIN
            shown = ", ".join(f"{number} '{word}' ({instead[word]})" for word, number in words.most_common())
            wrong.append(f"{where}: {words.total()} slow words in docstrings and comments, and {most} are the most: {shown}")
    return wrong
