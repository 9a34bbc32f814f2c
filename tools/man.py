"""tools/man FOLDER

Writes the man pages into a folder: bpfhost.1, verifier_log.1, bpfhost-py.1, bpfhost-shards.1 and libbpfhost.3. They are made of
docs/CLI.md, docs/VERIFIER.md, what the client prints for --help and clients/c/include/bpfhost.h, so nothing is written twice; tools/man_pages has how. Sentences about the repository itself are left out.
"""

from __future__ import annotations

import re
import sys
from email.utils import parsedate_to_datetime
from pathlib import Path

from man_pages import client, commands, header
from man_pages.roff import Release

TOP = Path(__file__).resolve().parent.parent


def release() -> Release:
    """The version, and the day of its entry in debian/changelog."""
    entry = re.search(r"^ -- .*?>  (.*)$", (TOP / "debian/changelog").read_text(), re.M)
    day = parsedate_to_datetime(entry[1]).date().isoformat() if entry else ""
    return Release((TOP / "VERSION").read_text().strip(), day)


def pages() -> dict[str, str]:
    """The pages by the names of their files."""
    cli, verifier = ((TOP / "docs" / name).read_text() for name in ("CLI.md", "VERIFIER.md"))
    of = release()
    return {
        "bpfhost.1": commands.bpfhost(cli, of),
        "verifier_log.1": commands.verifier_log(cli, verifier, of),
        **client.pages(TOP / "clients/python", of),
        "libbpfhost.3": header.libbpfhost((TOP / "clients/c/include/bpfhost.h").read_text(), of),
    }


def main(words: list[str]) -> int:
    if len(words) != 1 or words[0].startswith("-"):
        print(__doc__, file=sys.stderr)
        return 2
    folder = Path(words[0])
    folder.mkdir(parents=True, exist_ok=True)
    for name, text in pages().items():
        (folder / name).write_text(text)
    return 0
