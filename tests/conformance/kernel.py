"""Passes the contents of frames to Linux by bpf(2), and assigns each difference in the replies to its rule."""

from __future__ import annotations

import errno
import os
import re
import struct
from collections import Counter, defaultdict
from dataclasses import dataclass, field

from bpfhost.numbers import Command
from bpfhost.program import serve, verify
from bpfhost.replies import Reply, read_replies
from bpfhost.slots import renamed_maps
from bpfhost.words import reason_words
from conformance import bpf
from conformance.bpf import Refused
from conformance.played import Case, Verdict
from conformance.rules import rule_of

NAMES = {int(command): command.name for command in Command}
NO_DESCRIPTOR = 1 << 20


@dataclass
class Open:
    """What a descriptor of a tenant names: the kernel's descriptor, and the kind and sizes of a map. A program has none of these."""

    fd: int
    kind: int = 0
    key: int = 0
    value: int = 0
    reads_context: bool = False


@dataclass
class Tally:
    """How many replies were compared, how many were the same, and the differences by their rule, each with an example."""

    compared: Counter[str] = field(default_factory=Counter)
    same: Counter[str] = field(default_factory=Counter)
    different: dict[str, Counter[str]] = field(default_factory=dict)
    examples: dict[str, str] = field(default_factory=dict)
    unsorted: list[str] = field(default_factory=list)

    def add(self, command: str, difference: str | None, case: str) -> None:
        self.compared[command] += 1
        if difference is None:
            self.same[command] += 1
            return
        rule = rule_of(f"{command}: {difference} ({case})")
        if rule is None:
            self.unsorted.append(f"{command}: {difference} ({case})")
            return
        self.different.setdefault(rule, Counter())[command] += 1
        self.examples.setdefault(rule, case)


def with_descriptors(slots: bytes, fds: dict[int, int]) -> bytes:
    """The slots with the kernel's descriptors in the loads of maps and of their values."""
    return renamed_maps(slots, defaultdict(lambda: NO_DESCRIPTOR, fds))


def reads_context(slots: bytes) -> bool:
    """Whether a load may be of a word of the context after the first, by its size and offset."""
    return any(slots[at] == 0x61 and 4 <= struct.unpack_from("<h", slots, at + 2)[0] <= 40 for at in range(0, len(slots) - 7, 8))


def reason_in_log(log: str) -> str:
    """The last message of the kernel's verifier, without numbers."""
    lines = [line for line in log.splitlines() if line and not re.match(r"\d+: |processed |from |verification time|stack depth|mark_|arg#", line)]
    return re.sub(r"-?\d+|0x[0-9a-f]+", "N", lines[-1])[:80] if lines else "without a sentence"


class Kernel:
    """A tenant with the kernel's maps and programs: its descriptors, from 3 on, and what each names."""

    def __init__(self) -> None:
        self.open: dict[int, Open] = {}

    def close_all(self) -> None:
        for each in self.open.values():
            os.close(each.fd)
        self.open.clear()

    def map_of(self, fd: int) -> Open:
        if fd not in self.open:
            raise Refused(errno.EBADF)
        if not self.open[fd].kind:
            raise Refused(errno.EINVAL)
        return self.open[fd]

    def create(self, body: bytes) -> Open:
        kind, key, value, entries, flags = struct.unpack("<5I", body)
        return Open(bpf.map_create(kind, key, value, entries, flags), kind, key, value)

    def load(self, body: bytes) -> Open:
        slots = body[4:]
        fd = bpf.prog_load(with_descriptors(slots, {number: each.fd for number, each in self.open.items()}))
        return Open(fd, reads_context=reads_context(slots))

    def element(self, command: int, body: bytes) -> bytes:
        """The kernel's result of a lookup, an update, a delete or a request for the next key."""
        map_ = self.map_of(struct.unpack_from("<I", body)[0])
        flags, rest = (struct.unpack_from("<Q", body, 4)[0], body[12:]) if command == bpf.MAP_UPDATE else (0, body[4:])
        sizes = {map_.key + map_.value} if command == bpf.MAP_UPDATE else {map_.key, 0} if command == bpf.MAP_NEXT_KEY else {map_.key}
        if len(rest) not in sizes:
            raise NoLength
        key = rest[:map_.key] if rest else None
        room = bpf.room(rest[map_.key:], max(map_.value, map_.key))
        bpf.map_call(command, map_.fd, key, None if command == bpf.MAP_DELETE else room, flags)
        return {bpf.MAP_LOOKUP: room.raw[:map_.value], bpf.MAP_NEXT_KEY: room.raw[:map_.key]}.get(command, b"")

    def run(self, body: bytes) -> bytes:
        fd, packet = struct.unpack_from("<I", body)[0], body[44:]
        if fd not in self.open:
            raise Refused(errno.EBADF)
        return struct.pack("<I", bpf.test_run(self.open[fd].fd, packet))


class NoLength(Exception):
    """bpf(2) has no length of a key or a value, which a frame has."""


def asked(tenant: Kernel, command: int, body: bytes) -> tuple[int, bytes, Open | None, str]:
    """The kernel's reply to a frame's body: status, payload, what was opened, and the verifier's log."""
    try:
        if command in (bpf.MAP_CREATE, bpf.PROG_LOAD):
            return 0, b"", tenant.create(body) if command == bpf.MAP_CREATE else tenant.load(body), ""
        if command == bpf.TEST_RUN:
            return 0, tenant.run(body), None, ""
        if command == Command.CLOSE:
            tenant_fd = struct.unpack("<I", body)[0]
            if tenant_fd not in tenant.open:
                raise Refused(errno.EBADF)
            os.close(tenant.open.pop(tenant_fd).fd)
            return 0, b"", None, ""
        return 0, tenant.element(command, body), None, ""
    except Refused as refused:
        return -refused.number, b"", None, refused.log


def is_malformed(command: int, body: bytes) -> bool:
    """Whether a body is refused for its length, or a load for its type; these are not passed to the kernel."""
    exact, least = {0: 20, 256: 4}, {1: 4, 2: 12, 3: 4, 4: 4, 5: 4, 10: 44}
    return command not in NAMES or len(body) != exact.get(command, len(body)) or len(body) < least.get(command, 0) or (
        command == 5 and body[:4] != b"\1\0\0\0")


def refused_here(reply: Reply) -> str:
    refusal = reply.refusal()
    return f"refused by the host alone, reason {refusal[1]}: {reason_words(refusal[1])}" if refusal else f"refused by the host alone ({errno.errorcode.get(-reply.status)})"


def difference(reply: Reply, status: int, payload: bytes, log: str, named: Open | None) -> str | None:
    """Why a reply and the kernel's differ; None if they are the same. A refusal with another error is a difference too."""
    command = reply.command
    if reply.status < 0 and status < 0:
        return None if reply.status == status else f"refused by both, {errno.errorcode.get(-reply.status)} here and {errno.errorcode.get(-status)} there"
    if reply.status < 0:
        return refused_here(reply)
    if status < 0:
        return f"refused by the kernel alone: {reason_in_log(log) if log else errno.errorcode.get(-status)}"
    if payload == reply.payload or command in (bpf.MAP_CREATE, bpf.PROG_LOAD):
        return None
    if command == bpf.MAP_NEXT_KEY and named and named.kind == 1:
        return "the order of keys in a hash map, which the kernel leaves open"
    if command == bpf.TEST_RUN and named and named.reads_context:
        return "words of the context that the kernel sets itself"
    return "another value"


def play(case: Case, program: str, tally: Tally) -> None:
    """Sends the frames of a case to a new host and to the kernel."""
    replies = list(read_replies(serve(program, case.tenants, b"".join(case.frames))))
    tenants = [Kernel() for _ in range(case.tenants)]
    try:
        for frame, reply in zip(case.frames, replies, strict=True):
            tenant, command, body = *struct.unpack_from("<HH", frame[4:8].ljust(4, b"\xff")), frame[8:]
            if tenant < case.tenants and not is_malformed(command, body):
                compare(tenants[tenant], body, reply, tally, case.name)
    finally:
        for kernel in tenants:
            kernel.close_all()


def compare(kernel: Kernel, body: bytes, reply: Reply, tally: Tally, name: str) -> None:
    fd = struct.unpack_from("<I", body)[0]
    named = kernel.open.get(fd) if reply.command not in (bpf.MAP_CREATE, bpf.PROG_LOAD) else None
    if reply.command not in (bpf.MAP_CREATE, bpf.PROG_LOAD) and named is None and reply.status != -errno.EBADF:
        return  # the kernel refused to open what it names, and that was counted already
    try:
        status, payload, opened, log = asked(kernel, reply.command, body)
    except NoLength:
        tally.add(NAMES[reply.command], "a length of a key or a value, which bpf(2) does not have", name)
        return
    tally.add(NAMES[reply.command], difference(reply, status, payload, log, named), name)
    if opened and reply.status >= 0:
        kernel.open[reply.status] = opened
    elif opened:
        os.close(opened.fd)


def judge(program: str, each: Verdict, tally: Tally) -> None:
    """The verdicts of the host and of the kernel on one program."""
    fds: dict[int, int] = {}
    log, is_accepted = "", True
    try:
        for fd, shape in each.maps.items():
            fds[fd] = bpf.map_create(shape.map_type, shape.key_size, shape.value_size, shape.max_entries, 0)
        os.close(bpf.prog_load(with_descriptors(each.slots, fds)))
    except Refused as refused:
        log, is_accepted = refused.log, False
    finally:
        for number in fds.values():
            os.close(number)
    here = verify(program, each.slots, each.maps).refused
    found = None
    if here and is_accepted:
        found = f"refused by the host alone, reason {here[1]}: {reason_words(here[1])}"
    elif not here and not is_accepted:
        found = f"refused by the kernel alone: {reason_in_log(log)}"
    tally.add("verdicts", found, each.name)


def compare_all(program: str, cases: list[Case], verdicts: list[Verdict]) -> Tally:
    tally = Tally()
    for case in cases:
        play(case, program, tally)
    for verdict in verdicts:
        judge(program, verdict, tally)
    return tally


def tables(tally: Tally) -> str:
    """Two tables: what was compared, and the differences by their rule."""
    rows = ["| Compared | Answers | The same |", "|---|---|---|"]
    rows += [f"| {command} | {count} | {tally.same[command]} |" for command, count in sorted(tally.compared.items())]
    rows += ["", "| Rule | Differences | For instance, the case |", "|---|---|---|"]
    for rule, counts in sorted(tally.different.items(), key=lambda item: -item[1].total()):
        found = ", ".join(f"{command} {count}" for command, count in counts.most_common())
        rows.append(f"| {rule} | {found} | {tally.examples[rule].strip()} |")
    return "\n".join(rows) + "\n"


def release() -> str:
    return os.uname().release.partition("-")[0]
