"""Classic programs as `tcpdump -d` shows them (libpcap's bpf_image)."""

from __future__ import annotations

from collections.abc import Sequence

from bpfhost.classic.instructions import FORMS, Form, Instruction, Kind, Operator

# Operands that are shown in hexadecimal.
_HEX = (Operator.AND, Operator.OR, Operator.XOR)


def listing(instructions: Sequence[Instruction]) -> str:
    """The program, with an instruction on each line."""
    return "".join(f"{shown(at, each)}\n" for at, each in enumerate(instructions))


def shown(at: int, instruction: Instruction) -> str:
    """The instruction at a place, as a line: `(001) jeq      #0x800           jt 2	jf 3`."""
    form = FORMS.get(instruction.code)
    if form is None:
        return f"({at:03}) unimp    0x{instruction.code:x}"
    operand = _operand(at, instruction, form)
    if form.kind is not Kind.BRANCH:
        return f"({at:03}) {form.mnemonic:<8} {operand}"
    return f"({at:03}) {form.mnemonic:<8} {operand:<16} jt {at + 1 + instruction.jt}\tjf {at + 1 + instruction.jf}"


def _operand(at: int, instruction: Instruction, form: Form) -> str:
    k, signed = instruction.k, _signed(instruction.k)
    operands = {
        Kind.ABSOLUTE: f"[{signed}]",
        Kind.INDIRECT: f"[x + {signed}]",
        Kind.HEADER_LENGTH: f"4*([{signed}]&0xf)",
        Kind.LENGTH: "#pktlen",
        Kind.NUMBER: f"#0x{k:x}",
        Kind.SCRATCH: f"M[{signed}]",
        Kind.STORE: f"M[{signed}]",
        Kind.OPERATE: "x" if form.is_x else f"#0x{k:x}" if form.operator in _HEX else f"#{signed}",
        Kind.JUMP: str(_signed((at + 1 + k) % 2**32)),
        Kind.BRANCH: "x" if form.is_x else f"#0x{k:x}",
        Kind.RETURN: "" if form.is_x else f"#{signed}",
    }
    return operands.get(form.kind, "")


def _signed(number: int) -> int:
    return number - 2**32 if number >= 2**31 else number
