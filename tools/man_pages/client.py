"""The pages of the client's commands: bpfhost-py(1) and bpfhost-shards(1), of the texts that the commands print for --help."""

from __future__ import annotations

import os
import re
import subprocess
import sys
from pathlib import Path

from man_pages import roff

# The columns of the texts.
_COLUMNS = "78"
_CALL = "import importlib, sys; sys.argv = sys.argv[1:]; sys.exit(importlib.import_module({module!r}).main())"


class Command:
    """An installed command of the client: its name, and the module that has its `main`."""

    def __init__(self, package: Path, name: str, module: str) -> None:
        self.name, self._module, self._package = name, module, package

    def help(self, *words: str) -> str:
        """What the command prints for --help, with words before it."""
        call = [sys.executable, "-B", "-c", _CALL.format(module=self._module), self.name, *words, "--help"]
        environment = {**os.environ, "PYTHONPATH": str(self._package), "COLUMNS": _COLUMNS}
        return subprocess.run(call, env=environment, capture_output=True, text=True, check=True).stdout

    def words(self) -> list[str]:
        """The subcommands, in the order of the text."""
        return re.findall(r"^    ([a-z][a-z-]*)\b", self.help().partition("\n  WORD\n")[2], re.M)


def _without_usage(text: str) -> str:
    """The text of --help after its first lines, which say how the command is called."""
    return text.partition("\n\n")[2]


def _usage(text: str) -> str:
    return text.partition("\n\n")[0].removeprefix("usage: ")


def page(command: Command, what: str, see_also: str, release: roff.Release) -> str:
    """The page of a command: its own text, and that of each of its words."""
    whole = command.help()
    pieces = [roff.heading("Synopsis"), roff.example(_usage(whole)), roff.heading("Description"), roff.example(_without_usage(whole))]
    for word in command.words():
        text = command.help(word)
        pieces += [roff.heading(word), roff.example(_usage(text) + "\n\n" + _without_usage(text))]
    return roff.page(command.name, 1, what, release, [*pieces, roff.heading("See also"), roff.paragraph(see_also)])


def pages(package: Path, release: roff.Release) -> dict[str, str]:
    """The pages by the names of their files."""
    filters = page(Command(package, "bpfhost-py", "bpfhost.command"), "filters on captures, by an eBPF host in user space",
                   "**bpfhost**(1), **verifier_log**(1), **pcap-filter**(7), **tcpdump**(8)", release)
    shards = page(Command(package, "bpfhost-shards", "bpfhost.shards.command"), "customers served by many eBPF hosts, behind Redis",
                  "**bpfhost**(1), **redis-server**(1), **systemd.service**(5)", release)
    return {"bpfhost-py.1": filters, "bpfhost-shards.1": shards}
