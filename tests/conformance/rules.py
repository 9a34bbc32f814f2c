"""The rules by which results of the host and Linux may differ: the first whose pattern matches the description of a difference."""

from __future__ import annotations

import re

RULES = [(re.compile(pattern), rule) for pattern, rule in (
    ("length of a key or a value", "a wrong length of a key or a value: bpf(2) has no such lengths"),
    ("order of keys|^MAP_GET_NEXT_KEY: refused by", "the order of keys in a hash map: in the kernel it differs from run to run"),
    ("words of the context", "words of the context: the kernel sets its own"),
    ("^PROG_TEST_RUN: refused by the kernel alone: EINVAL", "the kernel's test run takes no packet of 65,536 bytes"),
    ("^PROG_TEST_RUN: another value .*deletes", "a value that a run deletes: here it stays until the run ends, in the kernel a new key may get its memory"),
    ("^(MAP_CREATE|PROG_LOAD): refused by the host alone \\(E", "limits of a tenant, such as descriptors and bytes"),
    ("refused by both", "the error number, if both reject"),
    ("reason 102", "atomic operations with FETCH: not here"),
    ("reason 31", "the context: the kernel has more words and sizes"),
    ("reason 23", "arithmetic on a pointer such as that to the context"),
    ("reason 4:", "jumps forward only"),
    ("reason 36", "an atomic operation in a value needs one known offset"),
    ("reason 27", "unwritten bytes of the stack, as by an atomic operation"),
    ("reason (30|33)", "null tests: the kernel needs none for a constant index of an array"),
    ("reason 20.*(map|look-up|meet)", "joins: the kernel follows each path by itself"),
    ("reason 20", "ranges: the kernel knows signed ones, single bits, and equal registers"),
    ("subtraction from stack|comparison prohibited|corrupt spilled|prohibited for !root", "pointers that may not leak: the kernel is stricter"),
    ("math between fp pointer", "pointers: how far they may be moved"),
    ("invalid shift|div by zero", "constant shifts by the width or more, constant divisions by zero: rejected by the kernel, defined by RFC 9669"),
    ("invalid read from stack", "a helper's length that is a range: the kernel requires written bytes"),
)]


def rule_of(difference: str) -> str | None:
    return next((rule for pattern, rule in RULES if pattern.search(difference)), None)
