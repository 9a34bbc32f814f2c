"""A test of translations on a host, compared with an interpreter of the classic program."""

from __future__ import annotations

from collections.abc import Sequence

from bpfhost import Host, Packets
from bpfhost.classic import ClassicProgram, Semantics
from bpfhost.program import disassemble
from tests.classic.common import on_host
from tests.classic.interpreter import run
from tests.common import PROGRAM, HostTest


class TranslationTest(HostTest):
    def setUp(self) -> None:
        super().setUp()
        host = Host(PROGRAM)
        self.addCleanup(host.close)
        self.tenant = host.tenant()

    def same(self, program: ClassicProgram, packets: Sequence[bytes], semantics: Semantics = Semantics.LIBPCAP) -> list[int]:
        """This host has the results of the interpreter."""
        found = on_host(self.tenant, program.translated(semantics).slots, Packets.of(list(packets), 0))
        self.assertEqual(found, [run(program.instructions, each, semantics=semantics) for each in packets], program.listing())
        return found

    def text(self, program: ClassicProgram | str) -> str:
        """The slots of a program, or of an expression, as text."""
        classic = ClassicProgram.of_expression(program) if isinstance(program, str) else program
        return disassemble(PROGRAM, classic.translated().slots)
