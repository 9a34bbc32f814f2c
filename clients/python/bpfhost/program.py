"""The program bpfhost: finds its path, and runs its subcommands asm, dis, verify and serve on given input."""

from __future__ import annotations

import os
import re
import shutil
import subprocess
from collections.abc import Mapping, Sequence
from dataclasses import dataclass

from bpfhost.errors import BpfhostError, HostError, InputError
from bpfhost.numbers import SLOT_SIZE, MapType
from bpfhost.words import TEXT_FAULTS, reason_words

Program = str | os.PathLike[str]

# The folder in which a build leaves the programs, if this package is in a clone of the repository.
_CRATES = os.path.realpath(os.path.join(os.path.dirname(__file__), "../../../crates"))
_BUILT = os.path.join(_CRATES, "bpfhost/out/bpfhost")
_BUILT_LOG = os.path.join(_CRATES, "verifier_log/out/verifier_log")
# The status of `asm` and `dis` for wrong input (docs/CLI.md).
_INPUT_REFUSED = 1
# The note that tools/quick-build leaves in what it builds, and the file that it leaves next to it.
_MARK, UNPROVED = b"built without proofs\0", "UNPROVED"
_SLOT = r"[0-9A-Fa-f]{16}"
_KINDS = {MapType.HASH: "hash", MapType.ARRAY: "array"}


def find_program(named: Program | None = None) -> str:
    """The path of the program: the given one, else that of the variable BPFHOST, else from PATH, else from the build of this clone.

    Raises HostError if there is none.
    """
    found = named or os.environ.get("BPFHOST") or shutil.which("bpfhost")
    if found:
        return os.fspath(found)
    if os.path.isfile(_BUILT):
        return os.fspath(_BUILT)
    raise HostError("there is no program bpfhost: name it by --bpfhost or by the variable BPFHOST")


def is_unproved(path: Program) -> bool:
    """Whether a program, or a library, says that it was built without proofs: by the mark in it, or by the file `UNPROVED` next to it."""
    found = os.path.abspath(shutil.which(path) or path)
    if os.path.isfile(os.path.join(os.path.dirname(found), UNPROVED)):
        return True
    try:
        with open(found, "rb") as file:
            return _MARK in file.read()
    except OSError:
        return False


def _called(program: Program, words: Sequence[str], given: bytes) -> subprocess.CompletedProcess[bytes]:
    try:
        return subprocess.run([os.fspath(program), *words], input=given, capture_output=True, check=False)
    except OSError as error:
        raise HostError(f"{os.fspath(program)} does not start: {error.strerror}") from error


def _written(program: Program, words: Sequence[str], given: bytes) -> bytes:
    """What the program writes for these bytes on standard input, if its status is 0."""
    ended = _called(program, words, given)
    if ended.returncode:
        raise HostError.of(f"bpfhost {words[0]}", ended.returncode, ended.stderr, ended.stdout)
    return ended.stdout


def serve(program: Program, tenants: int, stream: bytes) -> bytes:
    """The replies, as bytes, that `bpfhost serve` writes for a whole stream of frames."""
    return _written(program, ["serve", "--tenants", str(tenants)], stream)


def assemble(program: Program, text: str, name: str = "the text") -> bytes:
    """The slots, as bytes, that `bpfhost asm` writes for a program's text. Raises InputError with the line that is wrong."""
    try:
        written = _written(program, ["asm"], text.encode())
    except HostError as error:
        raise _refused(error, name, text) from error
    try:
        return bytes.fromhex(written.decode())
    except ValueError as error:
        raise HostError(f"{os.fspath(program)} asm does not write hex lines: it is not bpfhost", written=written, status=0) from error


def disassemble(program: Program, slots: bytes, name: str = "the slots") -> str:
    """The text that `bpfhost dis` writes for a program's slots. Raises InputError with the slot that is wrong."""
    try:
        return _written(program, ["dis"], hex_lines(slots).encode()).decode()
    except HostError as error:
        raise _refused(error, name, hex_lines(slots)) from error


def _refused(error: HostError, name: str, text: str) -> BpfhostError:
    """Turns the fault line of `asm` or `dis` into an InputError; returns the error itself if it is not about the input."""
    if error.status != _INPUT_REFUSED:
        return error
    fault = re.fullmatch(r"(line|slot) (\d+): fault (\d+)", error.fault)
    if not fault:
        return InputError(f"{name}: {error.fault}")
    where, number, kind = fault[1], int(fault[2]), int(fault[3])
    if where == "slot":
        return InputError(f"{name}: slot {number}: {reason_words(100 + kind)}")
    words = TEXT_FAULTS.get(kind, f"fault {kind}")
    if not number:
        return InputError(f"{name}: {words}")
    line = text.split("\n")[number - 1].strip()
    return InputError(f"{name}:{number}: {line}: {words}")


def hex_lines(slots: bytes) -> str:
    """Slots as lines of hex digits, the input of `dis` and `verify`."""
    if len(slots) % SLOT_SIZE:
        raise ValueError(f"{len(slots)} bytes are no whole slots of eight bytes")
    return "".join(f"{slots[at:at + SLOT_SIZE].hex()}\n" for at in range(0, len(slots), SLOT_SIZE))


def slots_of(text: str, name: str = "standard input") -> bytes:
    """The slots of hex lines, read as `dis` reads them. Raises InputError with the line that is wrong."""
    slots: list[bytes] = []
    for number, line in enumerate(text.split("\n"), 1):
        digits = line.strip(" \t\r")
        if digits and not re.fullmatch(_SLOT, digits):
            raise InputError(f"{name}:{number}: a slot is sixteen hexadecimal digits on a line, and nothing else")
        slots.append(bytes.fromhex(digits))
    return b"".join(slots)


@dataclass(frozen=True)
class MapShape:
    """The shape of a map: its kind, the sizes of a key and of a value in bytes, and its most entries."""

    map_type: MapType
    key_size: int
    value_size: int
    max_entries: int

    def word(self, descriptor: int) -> str:
        """The map as an argument of `verify`: `3:array:4:8:1`."""
        return f"{descriptor}:{_KINDS[self.map_type]}:{self.key_size}:{self.value_size}:{self.max_entries}"


@dataclass(frozen=True)
class Verdict:
    """The verdict on a program: accepted, or rejected at a slot for a reason."""

    refused: tuple[int, int] | None


def verify(program: Program, slots: bytes, maps: Mapping[int, MapShape]) -> Verdict:
    """The verdict of `bpfhost verify` on slots, with maps by their descriptors."""
    ended = _called(program, ["verify", *_map_words(maps)], hex_lines(slots).encode())
    said = ended.stdout.decode(errors="replace")
    refused = re.fullmatch(r"refused: slot ([0-9]+) reason ([0-9]+)\n", said)
    if ended.returncode == 0 and said == "accepted\n":
        return Verdict(None)
    if ended.returncode == 1 and refused:
        return Verdict((int(refused[1]), int(refused[2])))
    raise HostError.of("bpfhost verify", ended.returncode, ended.stderr, ended.stdout)


def _map_words(maps: Mapping[int, MapShape]) -> list[str]:
    return [shape.word(descriptor) for descriptor, shape in maps.items()]


def find_verifier_log(program: Program) -> str | None:
    """The path of the program `verifier_log`, or None.

    It is the one that the variable VERIFIER_LOG names, or none if the variable is empty; without the variable, the one next to bpfhost, or
    of the same build, or from PATH, or from the build of this clone.
    """
    named = os.environ.get("VERIFIER_LOG")
    if named is not None:
        return named or None
    folder = os.path.dirname(os.path.abspath(shutil.which(program) or program))
    beside = [os.path.join(folder, "verifier_log")]
    if os.path.basename(folder) == "out":
        # A build leaves each program in the folder of its crate.
        beside.append(os.path.join(os.path.dirname(os.path.dirname(folder)), "verifier_log/out/verifier_log"))
    of_path = shutil.which("verifier_log")
    return next((os.fspath(path) for path in (*beside, *([of_path] if of_path else []), _BUILT_LOG) if _is_program(path)), None)


def _is_program(path: str) -> bool:
    return os.path.isfile(path) and os.access(path, os.X_OK)


def verifier_log(program: Program, slots: bytes, maps: Mapping[int, MapShape], *words: str) -> str | None:
    """The verifier's log for slots, with maps by their descriptors and with further options, as `--dot`; None without `verifier_log`.

    Raises HostError if it exits with a status other than 0, for an accepted program, or 1, for a rejected one.
    """
    logger = find_verifier_log(program)
    if logger is None:
        return None
    ended = _called(logger, [*words, *_map_words(maps)], hex_lines(slots).encode())
    if ended.returncode not in (0, 1):
        raise HostError.of("verifier_log", ended.returncode, ended.stderr, ended.stdout)
    return ended.stdout.decode(errors="replace")


def log_or_fault(program: Program, slots: bytes, maps: Mapping[int, MapShape], *words: str) -> str | None:
    """The log, or a line that says why there is none: the verdict is reported in both cases."""
    try:
        return verifier_log(program, slots, maps, *words)
    except HostError as error:
        return f"there is no log: {error}\n"
