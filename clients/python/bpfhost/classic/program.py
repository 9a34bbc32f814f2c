"""Classic programs as objects: made from numbers, texts and expressions, checked, printed, and translated."""

from __future__ import annotations

from collections.abc import Iterable, Sequence
from dataclasses import dataclass

from bpfhost.classic.ancillary import context_word
from bpfhost.classic.checking import check
from bpfhost.classic.errors import ClassicError
from bpfhost.classic.instructions import ANCILLARY, FORMS, Instruction, Kind
from bpfhost.classic.semantics import Length, Meaning, Semantics
from bpfhost.classic.translation import Translation, translate
from bpfhost.packets import ETHERNET


@dataclass(frozen=True)
class ClassicProgram:
    """A classic BPF program that passes the kernel's checks; `name` has its expression, or the file that it was read from.

    `expression` is the expression that it was compiled from, if it was. A ClassicError names the instruction that breaks a rule.
    """

    instructions: tuple[Instruction, ...]
    name: str = "the classic program"
    expression: str | None = None

    def __post_init__(self) -> None:
        try:
            check(self.instructions)
        except ClassicError as error:
            raise ClassicError(f"{self.name}: {error}") from error

    @classmethod
    def of(cls, instructions: Iterable[Sequence[int]]) -> ClassicProgram:
        """The program of these codes, each with jt, jf and k; raises ValueError if one does not have these four numbers."""
        made = []
        for each in instructions:
            code, jt, jf, k = each
            made.append(Instruction(code, jt, jf, k))
        return cls(tuple(made))

    @classmethod
    def of_text(cls, text: str, name: str = "standard input") -> ClassicProgram:
        """The program of a text as `tcpdump -dd`, `tcpdump -ddd` or iptables' bytecode has it; raises ClassicError if it is damaged."""
        from bpfhost.classic import texts

        return cls(tuple(texts.read(text, name)), name)

    @classmethod
    def of_expression(
        cls, expression: str, link_type: int = ETHERNET, *, netmask: int = 0, optimized: bool = True, savefile: bytes | None = None
    ) -> ClassicProgram:
        """The program that libpcap makes of an expression for a link type, as captures number it (pcap-filter(7)).

        With the header of a capture in `savefile` (`Capture.savefile`), it is the program that tcpdump has for that capture. Raises
        ExpressionError with libpcap's sentence if it refuses, and MissingLibrary without libpcap. Names of hosts are looked up.
        """
        from bpfhost.classic import libpcap

        made = libpcap.compile_expression(expression, link_type, netmask=netmask, optimized=optimized, savefile=savefile)
        return cls(tuple(made), f"the expression '{libpcap.shown(expression)}'", expression)

    def listing(self) -> str:
        """The program as `tcpdump -d` shows it."""
        from bpfhost.classic import listing

        return listing.listing(self.instructions)

    def elements(self) -> str:
        """The program as `tcpdump -dd` shows it."""
        from bpfhost.classic import texts

        return texts.elements(self.instructions)

    def decimals(self) -> str:
        """The program as `tcpdump -ddd` shows it."""
        from bpfhost.classic import texts

        return texts.decimals(self.instructions)

    def bytecode(self) -> str:
        """The program as iptables' match `bpf` takes it."""
        from bpfhost.classic import texts

        return texts.bytecode(self.instructions)

    def reads_length(self) -> bool:
        """Whether it loads the packet's length."""
        return any(FORMS[each.code].kind is Kind.LENGTH for each in self.instructions)

    def context_words(self) -> list[str]:
        """The words of a run's context that its ancillary loads read, by their names."""
        loads = [each.k for each in self.instructions if FORMS[each.code].kind is Kind.ABSOLUTE and each.k >= ANCILLARY]
        return sorted({word.name for word in map(context_word, loads) if word})

    def translated(
        self, semantics: Semantics = Semantics.LIBPCAP, length: Length = Length.PACKET, *, fast: bool = True
    ) -> Translation:
        """The program as slots with the same result on every packet; raises ClassicError if it has none.

        If libpcap's interpreter and the kernel differ, `semantics` selects whose results these are; `length` is what a load of the length
        reads. Without `fast` each load of the packet is a call.
        """
        try:
            return translate(self.instructions, Meaning(semantics, length), fast=fast)
        except ClassicError as error:
            raise ClassicError(f"{self.name}: {error}") from error
