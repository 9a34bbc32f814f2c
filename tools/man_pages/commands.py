"""The pages of the programs: bpfhost(1) and verifier_log(1), of docs/CLI.md and docs/VERIFIER.md."""

from __future__ import annotations

import re

from man_pages import roff

LOG = "The log of a program: `verifier_log`"
ARGUMENT, STATUSES = "The argument MAP", "Statuses and fault lines"


def _statuses(cli: str, *names: str) -> str:
    """The statuses of a program, by the column that says whose they are: a subcommand, or all."""
    found = [roff.heading("Exit status")]
    for block in roff.blocks_of(roff.section_of(cli, STATUSES)):
        if block.kind != "table":
            found.append(roff.shown(block))
            continue
        for status, line, when, by in block.rows()[1:]:
            if by == "all" or {*re.findall(r"\w+", by)} & {*names}:
                whose = "" if by == "all" or len(names) == 1 else f" ({by})"
                found.append(roff.tagged(f"**{status}**", f"{line}: {when}{whose}" if line else f"{when}{whose}"))
    return "".join(found)


def _maps(cli: str) -> str:
    return roff.heading("Maps") + "".join(map(roff.shown, roff.blocks_of(roff.section_of(cli, ARGUMENT))))


def bpfhost(cli: str, release: roff.Release) -> str:
    """The page of the program that serves."""
    blocks = list(roff.blocks_of(roff.section_of(cli, "")))
    calls = [row for block in blocks if block.kind == "table" for row in block.rows()[1:] if row[0].startswith("`bpfhost ")]
    described = roff.table(calls, lambda row: f"Reads {row[1]}; writes {row[2]}.")
    rest = [block for block in blocks if block.kind == "paragraph"][1:]
    return roff.page("bpfhost", 1, "an eBPF host in user space", release, [
        roff.heading("Synopsis"), ".br\n".join(f".B {roff.literal(row[0].strip('`'))}\n" for row in calls),
        roff.heading("Description"), roff.paragraph("It has four subcommands, reads standard input, and writes standard output."),
        described, *map(roff.shown, rest),
        _maps(cli), _statuses(cli, "serve", "asm", "dis", "verify"),
        roff.heading("See also"), roff.paragraph("**verifier_log**(1), **libbpfhost**(3), **bpf**(2)"),
    ])


def verifier_log(cli: str, verifier: str, release: roff.Release) -> str:
    """The page of the program that writes the verifier's log."""
    blocks = list(roff.blocks_of(roff.section_of(verifier, LOG)))
    options = next(at for at, block in enumerate(blocks) if block.kind == "table")
    return roff.page("verifier_log", 1, "what the verifier of bpfhost knows before each instruction", release, [
        roff.heading("Synopsis"), ".B verifier_log\n[\\fIOPTIONS\\fR] [\\fIMAP\\fR]...\n",
        roff.heading("Description"), *map(roff.shown, blocks[:options]),
        roff.heading("Options"), roff.shown(blocks[options]),
        roff.heading("Output"), *map(roff.shown, blocks[options + 1:]),
        _maps(cli), _statuses(cli, "verify"),
        roff.heading("See also"), roff.paragraph("**bpfhost**(1), **dot**(1)"),
    ])
