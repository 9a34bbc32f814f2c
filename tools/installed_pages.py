"""tools/installed_pages.py --write FOLDER | --check FOLDER

The pages (*.md) of a folder in which not all files of the repository are, as a release installs it. --write makes text of each link that
leads to a file outside of the folder: its words, and the path of the file in the source tree. --check follows each link of each page, and
of the text about the package in the wheel (METADATA), and fails if one leads to no file or to no heading.
"""

from __future__ import annotations

import re
import sys
from pathlib import Path

LINK = re.compile(r"(?<!!)\[(?P<words>[^\]]*)\]\((?P<target>[^)\s]+)\)")
PICTURE = re.compile(r"!\[[^\]]*\]\((?P<target>[^)\s]+)\)")
FENCE = re.compile(r"^(```|~~~).*?^\1$", re.M | re.S)
ADDRESS = re.compile(r"[a-z]+:")


def anchors(page: str) -> set[str]:
    """The anchors of a page's headings: lower case, without signs, with - for each space, and a number from the second of a name on."""
    found: dict[str, int] = {}
    names = set()
    for heading in re.findall(r"^#+ (.*?) *$", FENCE.sub("", page), re.M):
        text = re.sub(r"\[([^\]]*)\]\([^)]*\)|[`*]", r"\1", heading).lower()
        name = re.sub(r"[^\w\- ]", "", text).replace(" ", "-")
        count = found[name] = found.get(name, -1) + 1
        names.add(f"{name}-{count}" if count else name)
    return names


def _in_sources(folder: Path, page: Path, path: str) -> str:
    """The path in the source tree of what a page links to; the folder has the pages at their paths."""
    parts: list[str] = []
    for part in (*page.parent.relative_to(folder).parts, *Path(path).parts):
        if part != "..":
            parts.append(part)
        elif parts:
            parts.pop()
    return "/".join(parts)


def settled(folder: Path, page: Path) -> str:
    """The text of a page, in which each link that leads out of the folder is text."""

    def text_of(link: re.Match[str]) -> str:
        path = link["target"].partition("#")[0]
        if not path or ADDRESS.match(path) or (page.parent / path).exists():
            return link[0]
        source = _in_sources(folder, page, path)
        words = link["words"]
        return words if source in words else f"{words} (`{source}` of the sources)"

    return LINK.sub(text_of, page.read_text())


def dead_links(page: Path) -> list[str]:
    """The links of a page that lead nowhere."""
    wrong = []
    text = FENCE.sub("", page.read_text())
    for link in (*LINK.finditer(text), *PICTURE.finditer(text)):
        path, _, heading = link["target"].partition("#")
        if ADDRESS.match(link["target"]):
            continue
        file = page.parent / path if path else page
        if not file.exists():
            wrong.append(f"{page}: the link {link['target']} leads to no file")
        elif heading and file.is_file() and heading not in anchors(file.read_text()):
            wrong.append(f"{page}: the link {link['target']} leads to no heading")
    return wrong


def main(words: list[str]) -> int:
    if len(words) != 2 or words[0] not in ("--write", "--check"):
        print(__doc__, file=sys.stderr)
        return 2
    folder = Path(words[1])
    pages = sorted(path for path in (*folder.rglob("*.md"), *folder.rglob("*.dist-info/METADATA")) if not path.is_symlink())
    if words[0] == "--write":
        for page in pages:
            page.write_text(settled(folder, page))
        return 0
    wrong = [line for page in pages for line in dead_links(page)]
    print("".join(f"pages: {line}\n" for line in wrong), end="")
    return bool(wrong)


if __name__ == "__main__":
    sys.exit(main(sys.argv[1:]))
