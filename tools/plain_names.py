"""Slow words of plain_words.py in names of code, and `place` as a word of its own in crates/: how often each folder may have them."""

from __future__ import annotations

import io
import re
import tokenize
from collections import Counter
from collections.abc import Callable, Iterable

from plain_comments import COMMENT, folder, rounded

# Each word with its forms, and with what to write instead.
WORDS = {
    "told": ("told|tells|telling", "returned, reported, or what happens: refused, accepted"),
    "behind": ("behind", "after"),
    "answer": ("answers?|answered|answering", "reply, result"),
}
WORD = re.compile("|".join(f"(?P<{word}>{forms})" for word, (forms, _) in WORDS.items()), re.I)
# The words of a name, as in `OneCommandResult`, `told_of` and `FRAMES_TOLD`.
PART = re.compile(r"[A-Z]+(?![a-z])|[A-Z]?[a-z]+")
NAME = re.compile(r"[A-Za-z_]\w*")
STRING = re.compile(r'"(?:[^"\\\n]|\\.)*"')
# What the toolchain names: the file with the proofs of a function, as other files cite it.
OF_TOOLCHAIN = re.compile(r"\bproofs(?:\.\w+)*\.Answers\b")
PLACE = re.compile(r"\bplace\b")
# The most of these words in the names of a folder, each as often as it occurs. A folder that is not listed may have none. They only fall.
MOST_IN_NAMES: dict[str, int] = {
    "bench": 30,
    "bench/map_costs": 10,
    "clients/c/include": 20,
    "clients/python": 4,
    "clients/python/bench": 3,
    "clients/python/bpfhost": 60,
    "clients/python/bpfhost/captures": 3,
    "clients/python/bpfhost/classic": 50,
    "clients/python/bpfhost/command": 22,
    "clients/python/bpfhost/lowering": 30,
    "clients/python/bpfhost/objects": 20,
    "clients/python/bpfhost/shards": 210,
    "clients/python/tests": 170,
    "clients/python/tests/classic": 48,
    "clients/python/tests/lowering": 30,
    "clients/python/tests/objects": 60,
    "clients/python/tests/shards": 190,
    "clients/rust/bpfhost-sys": 5,
    "clients/rust/tests": 4,
    "crates/abstraction/proofs": 20,
    "crates/arena": 1,
    "crates/bpf_helpers": 30,
    "crates/bpf_helpers/proofs": 100,
    "crates/bpf_helpers/specs/inside": 30,
    "crates/bpf_maps": 20,
    "crates/bpf_maps/proofs": 120,
    "crates/bpf_text": 1,
    "crates/bpf_text/proofs": 20,
    "crates/bpfhost_c/proofs": 5,
    "crates/cases": 4,
    "crates/cases_commands": 2,
    "crates/cases_frames": 2,
    "crates/cases_texts": 20,
    "crates/command_frames/proofs": 30,
    "crates/fd_table": 4,
    "crates/fd_table/proofs": 30,
    "crates/flat_machine": 4,
    "crates/flat_machine/proofs": 140,
    "crates/flat_machine/specs/inside": 4,
    "crates/host/proofs": 2,
    "crates/host_core/proofs": 130,
    "crates/insn_codec": 1,
    "crates/insn_codec/proofs": 5,
    "crates/insn_set": 1,
    "crates/interval": 1,
    "crates/ordered_keys/proofs": 20,
    "crates/reg_kinds": 1,
    "crates/reg_kinds/proofs": 10,
    "crates/saving": 60,
    "crates/saving/proofs": 310,
    "crates/saving/specs/inside": 10,
    "crates/seeded_hash": 1,
    "crates/tagged_model": 4,
    "crates/tagged_model/proofs": 30,
    "crates/tenant": 100,
    "crates/tenant/proofs": 250,
    "crates/text_line/proofs": 20,
    "crates/transfer/proofs": 60,
    "crates/verifier": 1,
    "crates/verifier/proofs": 8,
    "crates/words": 4,
    "examples/capture": 2,
    "examples/expression": 2,
    "examples/filters": 20,
    "examples/packet_path": 20,
    "examples/text_to_run": 3,
    "examples/two_tenants": 9,
    "tests": 70,
    "tests/conformance": 20,
    "tests/library": 30,
    "tools": 20,
    "tools/definitions": 2,
    "tools/tests": 20,
}
# The most of `place` in the files of a folder, code and comments. What is meant is a handle, an element, an entry, a slot, an offset, ..
# (docs/GUIDE.md, "Nouns"). `FdTable::place` is an interface of the specification.
MOST_PLACES: dict[str, int] = {
    "crates/bpf_maps": 2,
    "crates/cases": 1,
    "crates/cases_commands": 30,
    "crates/cases_frames": 10,
    "crates/cases_texts": 2,
    "crates/cases_verdicts": 4,
    "crates/command_frames": 2,
    "crates/fd_table": 3,
    "crates/fd_table/proofs": 1,
    "crates/flat_machine": 7,
    "crates/flat_machine/specs/inside": 1,
    "crates/insn_codec": 6,
    "crates/insn_codec/proofs": 1,
    "crates/insn_set": 3,
    "crates/log_facts": 1,
    "crates/ordered_keys": 1,
    "crates/ordered_keys/proofs": 1,
    "crates/reg_kinds": 5,
    "crates/saving": 2,
    "crates/seeded_hash": 2,
    "crates/tagged_model": 1,
    "crates/tenant": 2,
    "crates/text_line": 2,
    "crates/transfer": 1,
    "crates/verifier": 10,
}


def names(name: str, text: str) -> list[str]:
    """The names in the code of a file, each as often as it occurs; none if the file is of another language."""
    script = text.partition("\n")[0] if text.startswith("#!") else ""
    suffix = name.rpartition("/")[2].rpartition(".")[2]
    if suffix == "py" or "python" in script:
        tokens = tokenize.generate_tokens(io.StringIO(text).readline)
        return [token.string for token in tokens if token.type == tokenize.NAME]
    if suffix not in COMMENT:
        return []
    code = text if suffix == "antt" else STRING.sub("", text)
    return NAME.findall(OF_TOOLCHAIN.sub("", COMMENT[suffix].sub("", code)))


def slow_words(name: str, text: str) -> Counter[str]:
    """How often the names of a file have each of the words."""
    found = (WORD.fullmatch(part) for each in names(name, text) for part in PART.findall(each))
    return Counter(match.lastgroup for match in found if match and match.lastgroup)


def places(name: str, text: str) -> Counter[str]:
    return Counter({"place": len(PLACE.findall(text))} if name.startswith("crates/") else {})


def by_folder(files: Iterable[tuple[str, str]], count: Callable[[str, str], Counter[str]]) -> dict[str, Counter[str]]:
    found: dict[str, Counter[str]] = {}
    for name, text in files:
        if not name.endswith(".md"):
            found.setdefault(folder(name), Counter()).update(count(name, text))
    return dict(sorted(found.items()))


def bounds(files: Iterable[tuple[str, str]]) -> str:
    """The lines of both tables for files with these names and texts, as they are now."""
    listed, lines = list(files), ""
    for table, count in (("MOST_IN_NAMES", slow_words), ("MOST_PLACES", places)):
        totals = ((where, words.total()) for where, words in by_folder(listed, count).items())
        lines += f"{table}:\n" + "".join(f'    "{where}": {rounded(total)},\n' for where, total in totals if total)
    return lines


def too_many(files: Iterable[tuple[str, str]]) -> list[str]:
    """The faults of folders that have more of these words than they may have."""
    listed, wrong = list(files), []
    for where, words in by_folder(listed, slow_words).items():
        if words.total() > (most := MOST_IN_NAMES.get(where, 0)):
            shown = ", ".join(f"{number} '{word}' ({WORDS[word][1]})" for word, number in words.most_common())
            wrong.append(f"{where}: {words.total()} slow words in names, and {most} are the most: {shown}")
    for where, words in by_folder(listed, places).items():
        if words.total() > (most := MOST_PLACES.get(where, 0)):
            wrong.append(f"{where}: {words.total()} times 'place', and {most} are the most: name what it is (docs/GUIDE.md, \"Nouns\")")
    return wrong
