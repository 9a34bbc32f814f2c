"""tools/release refuses what tools/quick-build has marked."""

from __future__ import annotations

import shutil
import subprocess
import tempfile
import unittest
from pathlib import Path

from tools.quick_ir import UNPROVED

TOP = Path(__file__).resolve().parents[2]
MARKED, PLAIN = b"\x7fELF\0" + UNPROVED.encode() + b"\0", b"\x7fELF\0"


class Release(unittest.TestCase):
    """In a folder with the few files that the script reads before it would pack anything."""

    def setUp(self) -> None:
        scratch = tempfile.TemporaryDirectory()
        self.addCleanup(scratch.cleanup)
        self.scratch = Path(scratch.name)
        for name in ("tools/release", "VERSION", "debian/changelog"):
            (self.scratch / name).parent.mkdir(exist_ok=True)
            shutil.copy(TOP / name, self.scratch / name)
        # A Python that has the packages for the wheel, and a C compiler.
        for name in ("clients/python/find-python", "bin/cc"):
            (self.scratch / name).parent.mkdir(parents=True)
            (self.scratch / name).write_text("#!/bin/sh\necho python3\n")
            (self.scratch / name).chmod(0o755)
        (self.scratch / "library").mkdir()

    def released(self, bpfhost: bytes, verifier_log: bytes, library: bytes) -> subprocess.CompletedProcess[str]:
        """Calls the script with these programs and this library."""
        for name, content in (("bpfhost", bpfhost), ("verifier_log", verifier_log)):
            program = self.scratch / f"crates/{name}/out/{name}"
            program.parent.mkdir(parents=True, exist_ok=True)
            program.write_bytes(content)
            program.chmod(0o755)
        (self.scratch / "library/libbpfhost.a").write_bytes(library)
        call = [str(self.scratch / "tools/release"), "--over-proved", "library", "out"]
        environment = {"PATH": "/usr/bin:/bin", "CC": str(self.scratch / "bin/cc")}
        return subprocess.run(call, cwd=self.scratch, env=environment, capture_output=True, text=True, check=False)

    def test_what_is_unproved_is_refused(self) -> None:
        for name, contents in (
            ("bpfhost", (MARKED, PLAIN, PLAIN)),
            ("verifier_log", (PLAIN, MARKED, PLAIN)),
            ("libbpfhost.a", (PLAIN, PLAIN, MARKED)),
        ):
            ended = self.released(*contents)
            told = f"release: {name} is built without proofs, by tools/quick-build, and a release has what is proved\n"
            self.assertEqual((ended.returncode, ended.stdout, ended.stderr), (1, "", told))
            self.assertEqual(list((self.scratch / "out").iterdir()), [])

    def test_what_has_no_mark_is_not(self) -> None:
        self.assertNotIn("without proofs", self.released(PLAIN, PLAIN, PLAIN).stderr)
