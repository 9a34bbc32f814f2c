"""Errors of classic programs and expressions, each as one sentence."""

from __future__ import annotations

from bpfhost.errors import InputError, MissingPackage


class ClassicError(InputError):
    """A classic program that is refused: its text is damaged, it fails the kernel's checks, or it can't be translated."""


class ExpressionError(InputError):
    """An expression that libpcap refuses, with libpcap's own sentence."""


class MissingLibrary(MissingPackage):
    """libpcap, which compiles expressions, is missing."""

    def __init__(self) -> None:
        Exception.__init__(self, "libpcap is missing, which compiles expressions: apt-get install libpcap0.8")
