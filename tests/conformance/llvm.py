"""Compares the host's assembler and disassembler with LLVM's (`llvm-mc`), line by line, and assigns each difference to its rule."""

from __future__ import annotations

import re
import shutil
import subprocess
from dataclasses import dataclass, field
from functools import cache

from bpfhost.errors import BpfhostError
from bpfhost.program import assemble, disassemble
from conformance.cases import lines, text_lines
from conformance.instructions import key_of, key_of_text

NAMES = ("llvm-mc", *(f"llvm-mc-{version}" for version in range(24, 12, -1)))
ENCODING = re.compile(r"# encoding: \[(.*)\]")
# The rule by which LLVM may read or write a line in another way; the first that matches.
RULES = [
    ("a wide load of a map or its value: no words in LLVM", re.compile(r"map_(fd|value)")),
    ("an atomic operation on `u32`: register `w`, here `r`", re.compile(r"^lock ?\* ?\( ?u32")),
    ("a load or a store of at most 32 bits: register `w`, here `r`", re.compile(r"\*\(u(8|16|32) \*\)")),
    ("`ll` directly after a number is C's suffix there", re.compile(r"\dx?[0-9a-f]*ll")),
    ("the least distance of `gotol`", re.compile(r"gotol -2147483648")),
    ("a wide constant is written with a sign", re.compile(r"^r\d+ = \d{19,} ll")),
    ("more blanks in an atomic operation than LLVM reads", re.compile(r"^lock  ")),
]
# For a processor of version 3 as well.
ONLY_FROM_4_ON = ("an instruction that LLVM has not before its processors of version 4",
                  re.compile(r"s/=|%=|\(s(8|16|32)\)|bswap|^gotol|\*\(s(8|16|32) |^\*\(u\d+ \*\)\(.*\) = -?\d+$|^if \w+ & "))


@dataclass
class Compared:
    """How many lines were the same, and the others by the rule."""

    rules: list[tuple[str, re.Pattern[str]]]
    same: int = 0
    different: dict[str, list[str]] = field(default_factory=dict)
    unsorted: list[str] = field(default_factory=list)

    @property
    def count(self) -> int:
        return self.same + len(self.unsorted) + sum(map(len, self.different.values()))

    def add(self, what: str, line: str, example: str) -> None:
        rule = next((rule for rule, pattern in self.rules if pattern.search(line)), None)
        if rule is None:
            self.unsorted.append(f"{what}: {example}")
        else:
            self.different.setdefault(f"{what}: {rule}", []).append(example)


def llvm_mc() -> tuple[str, str] | None:
    """The newest installed llvm-mc that supports BPF, with its version."""
    found = []
    for name in NAMES:
        path = shutil.which(name)
        told = subprocess.run([path, "--version"], capture_output=True, text=True, check=False).stdout if path else ""
        if path and (version := re.search(r"LLVM version ([\d.]+)", told)) and re.search(r"^ *bpfel ", told, re.M):
            found.append((tuple(map(int, version[1].split("."))), path, version[1]))
    return max(found)[1:] if found else None


def corpus() -> list[str]:
    """The lines of programs in the cases of texts, each once, without labels and lines that name one."""
    found: dict[str, None] = {}
    for rest in lines("cases_texts", "round", "asm"):
        found.update(dict.fromkeys(line for line in text_lines(rest) if not line.endswith(":")))
    return list(found)


@cache
def processor(path: str) -> str:
    """The newest processor that it supports; version 4 has what RFC 9669 adds to version 3."""
    told = subprocess.run([path, "-triple", "bpfel", "-mcpu=help", "/dev/null"], capture_output=True, text=True, check=False)
    return "v4" if re.search(r"^ *v4 ", told.stderr, re.M) else "v3"


def bytes_of_llvm(path: str, texts: list[str]) -> list[bytes | None]:
    """LLVM's bytes of each line, or None if it rejects the line."""
    call = [path, "-triple", "bpfel", f"-mcpu={processor(path)}", "-show-encoding"]
    found: list[bytes | None] = []
    for text in texts:
        ended = subprocess.run(call, input=text + "\n", capture_output=True, text=True, check=False)
        encoding = ENCODING.search(ended.stdout)
        bytes_ = encoding[1].split(",") if encoding and ended.returncode == 0 else []
        is_whole = bool(bytes_) and all(re.fullmatch("0x[0-9a-f]{2}", byte) for byte in bytes_)  # otherwise LLVM leaves a byte to a fixup
        found.append(bytes(int(byte, 16) for byte in bytes_) if is_whole else None)
    return found


def text_of_llvm(path: str, slots: bytes) -> str | None:
    """LLVM's text of one instruction, or None if it does not know it."""
    call = [path, "-triple", "bpfel", f"-mcpu={processor(path)}", "-disassemble"]
    ended = subprocess.run(call, input=" ".join(f"0x{byte:02x}" for byte in slots), capture_output=True, text=True, check=False)
    text = [" ".join(line.split()) for line in ended.stdout.splitlines() if line.strip() and not line.strip().startswith(".")]
    return text[0] if len(text) == 1 and "warning" not in ended.stderr else None


def rules_of(path: str) -> list[tuple[str, re.Pattern[str]]]:
    return RULES if processor(path) == "v4" else [ONLY_FROM_4_ON, *RULES]


@cache
def assembled(program: str) -> list[tuple[str, bytes]]:
    """The lines of the corpus that the host's assembler accepts, with their bytes."""
    found = []
    for line in corpus():
        try:
            found.append((line, assemble(program, line + "\n")))
        except BpfhostError:
            continue
    return found


def misread(program: str) -> list[str]:
    """The lines for which the tables by opcode count another instruction than the assembler writes."""
    return [line for line, slots in assembled(program) if key_of(slots) != key_of_text(line)]


def compare_bytes(program: str, path: str) -> Compared:
    """The bytes of the host's assembler compared with LLVM's."""
    compared, taken = Compared(rules_of(path)), assembled(program)
    for (line, ours), theirs in zip(taken, bytes_of_llvm(path, [line for line, _ in taken]), strict=True):
        if ours == theirs:
            compared.same += 1
        else:
            compared.add("not read" if theirs is None else "other bytes", line, line)
    return compared


def compare_texts(program: str, path: str) -> Compared:
    """The line of the host's disassembler compared with LLVM's, for the bytes of each line that the host's assembler accepts."""
    compared = Compared(rules_of(path))
    for _, slots in assembled(program):
        ours, theirs = disassemble(program, slots).strip(), text_of_llvm(path, slots)
        if ours == theirs:
            compared.same += 1
        else:
            compared.add("unknown bytes" if theirs is None else "another text", ours, f"{ours}` and `{theirs}" if theirs else ours)
    return compared


def tables(kinds: dict[str, Compared]) -> str:
    """Two tables: what was compared, and the differences by their rule."""
    rows = ["| Compared | Lines | The same |", "|---|---|---|"]
    rows += [f"| {what} | {compared.count} | {compared.same} |" for what, compared in kinds.items()]
    rows += ["", "| Rule | Lines | For instance |", "|---|---|---|"]
    for compared in kinds.values():
        rows += [f"| {rule} | {len(found)} | `{found[0].replace('|', chr(92) + '|')}` |" for rule, found in sorted(compared.different.items())]
    return "\n".join(rows) + "\n"
