"""The pages are right: the tutorial's commands and outputs, and its programs and those of the README and of FILTERS.md."""

from __future__ import annotations

import os
import re
import shutil
import subprocess
import sys

from bpfhost import hex_lines
from tests.classic.common import needs_libpcap
from tests.common import ONE, PROGRAM, HostTest, without_notice
from tests.test_command import EXAMPLE, PACKAGE, needs_packages

TUTORIAL = PACKAGE.parents[1] / "docs/TUTORIAL.md"
FILTERS = PACKAGE / "FILTERS.md"
CLANG = shutil.which("clang-14")
# The time of a run differs each time.
TIME = re.compile(r"time a packet: [0-9.]+ us")


def blocks(page: str, kind: str) -> list[str]:
    """The blocks of a page that are of this kind."""
    return re.findall(rf"^```{kind}\n(.*?)^```$", page, re.M | re.S)


class Pages(HostTest):
    def test_the_cargo_that_is_new_enough(self) -> None:
        """Debian's `cargo` is older than the pages require: each page that names a version names the package that has it."""
        top = PACKAGE.parents[1]
        for page in ("CONTRIBUTING.md", "docs/EMBEDDING.md"):
            text = " ".join((top / page).read_text().split())
            self.assertRegex(text, r"cargo 1\.85 or later \([^)]*`cargo-web`", page)

    def shell(self, command: str) -> str:
        """What a command writes, on both outputs, in the scratch folder."""
        path = f"{self.scratch}/bin:{os.environ['PATH']}"
        environment = {**os.environ, "PATH": path, "PYTHONPATH": str(PACKAGE), "BPFHOST": f"{self.scratch}/bin/bpfhost", "COLUMNS": "80"}
        environment["C_INCLUDE_PATH"] = str(PACKAGE.parent / "c/include")
        # The pages show verdicts without the log, which adds lines if there is a program verifier_log.
        environment["VERIFIER_LOG"] = ""
        call = ["bash", "-c", command]
        ended = subprocess.run(call, stdout=subprocess.PIPE, stderr=subprocess.STDOUT, text=True, cwd=self.scratch, env=environment)
        return without_notice(ended.stdout.encode()).decode()

    def set_up(self) -> None:
        """The names that the pages use: python3, bpfhost, clang."""
        (self.scratch / "bin").mkdir()
        for name, target in (("python3", sys.executable), ("bpfhost", PROGRAM), ("clang", CLANG)):
            if target:
                os.symlink(os.path.realpath(target), self.scratch / "bin" / name)

    @needs_packages
    @needs_libpcap
    def test_tutorial(self) -> None:
        if not CLANG:
            self.skipTest("clang 14 is missing")
        self.set_up()
        page = TUTORIAL.read_text()
        for name, text in zip(("flows.c", "labels.c", "bucket.c"), blocks(page, "c"), strict=True):
            (self.scratch / name).write_text(text)
        shutil.copy(EXAMPLE / "sample.pcap", self.scratch)
        for block in blocks(page, "console"):
            told = "".join(f"$ {command}\n{self.shell(command)}" for command in re.findall(r"^\$ (.*)$", block, re.M))
            self.assertEqual(TIME.sub("", told), TIME.sub("", block))
        (self.scratch / "flows.py").write_text(blocks(page, "python")[0])
        self.assertEqual(self.shell("python3 flows.py"), blocks(page, "text")[0])

    @needs_libpcap
    def test_filters(self) -> None:
        self.set_up()
        page = FILTERS.read_text()
        (self.scratch / "shown.py").write_text(blocks(page, "python")[0])
        self.assertEqual(self.shell("python3 shown.py"), blocks(page, "text")[0])

    def test_readme(self) -> None:
        self.set_up()
        page = (PACKAGE / "README.md").read_text()
        (self.scratch / "shown.py").write_text(blocks(page, "python")[0])
        self.assertEqual(self.shell("python3 shown.py"), blocks(page, "text")[0])
        (self.scratch / "async.py").write_text(blocks(page, "python")[1])
        self.assertEqual(self.shell("python3 async.py"), blocks(page, "text")[1])
        self.assertEqual(self.shell("echo 'r0 = 1\nexit' | python3 -m bpfhost asm"), hex_lines(ONE))
