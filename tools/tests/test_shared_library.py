"""tools/shared-library: what it makes of an archive, and the sentence that it prints if it can't."""

from __future__ import annotations

import os
import re
import shutil
import subprocess
import tempfile
import unittest
from pathlib import Path

TOP = Path(__file__).resolve().parents[2]
VERSION = (TOP / "VERSION").read_text().strip()
SONAME = f"libbpfhost.so.{VERSION.rpartition('.')[0]}"
HEADER = (TOP / "clients/c/include/bpfhost.h").read_text()
PROVED = sorted(set(re.findall(r"\bbpfhost_c_\w+(?=\()", HEADER)))
INLINE = re.findall(r"(?m)^static inline .*?\b(bpfhost_\w+)\(", HEADER)
# In the place of the proved functions, and one that is not given.
SOURCE = "int helps(void) { return 2; }\n" + "".join(f"int {name}(void) {{ return helps(); }}\n" for name in PROVED)


@unittest.skipUnless(shutil.which("cc") and shutil.which("nm"), "there is no C compiler")
class SharedLibrary(unittest.TestCase):
    def setUp(self) -> None:
        scratch = tempfile.TemporaryDirectory()
        self.addCleanup(scratch.cleanup)
        self.scratch = Path(scratch.name)

    def link(self, *words: str | Path, path: str | None = None) -> subprocess.CompletedProcess[str]:
        """Calls the script."""
        environment = {**os.environ, "PATH": path or os.environ["PATH"]}
        environment.pop("CC", None)
        return subprocess.run([TOP / "tools/shared-library", *words], env=environment, capture_output=True, text=True, check=False)

    def archive(self) -> None:
        """An archive in the folder."""
        (self.scratch / "host.c").write_text(SOURCE)
        subprocess.run(["cc", "-fPIC", "-c", "host.c", "-o", "host.o"], cwd=self.scratch, check=True)
        subprocess.run(["ar", "rc", "libbpfhost.a", "host.o"], cwd=self.scratch, check=True)

    def test_what_it_leaves(self) -> None:
        """The same names in the archive's folder, and in another one, even if they existed before."""
        self.archive()
        calls: list[tuple[list[Path], Path]] = [([], self.scratch), ([self.scratch / "lib"], self.scratch / "lib"), ([], self.scratch)]
        for words, out in calls:
            ended = self.link(self.scratch, *words)
            self.assertEqual((ended.returncode, ended.stderr), (0, ""))
            self.assertEqual((out / "libbpfhost.so").resolve().name, f"libbpfhost.so.{VERSION}")
            self.assertEqual((out / SONAME).readlink(), Path(f"libbpfhost.so.{VERSION}"))
            shown = subprocess.run(["nm", "-D", "--defined-only", out / SONAME], capture_output=True, text=True, check=True)
            node = f"BPFHOST_{VERSION.rpartition('.')[0]}"
            names = [line.split()[-1] for line in shown.stdout.splitlines()]
            self.assertEqual(sorted(names), sorted([node, *(f"{name}@@{node}" for name in [*PROVED, *INLINE])]))
            said = subprocess.run(["objdump", "-p", out / SONAME], capture_output=True, text=True, check=True)
            self.assertRegex(said.stdout, rf"SONAME +{SONAME}\n")

    def test_all_functions_are_exported(self) -> None:
        """Those of the header, in its order."""
        exported = (TOP / "clients/c/exported.c").read_text()
        self.assertEqual(re.findall(r"(?m)^EXPORT\((\w+)\);$", exported), INLINE)

    def test_no_global_data(self) -> None:
        """What the file of exported functions adds is code and constants."""
        source, include = TOP / "clients/c/exported.c", TOP / "clients/c/include"
        subprocess.run(["cc", "-O2", "-fPIC", f"-I{include}", "-c", str(source), "-o", "exported.o"], cwd=self.scratch, check=True)
        shown = subprocess.run(["nm", "--defined-only", "exported.o"], cwd=self.scratch, capture_output=True, text=True, check=True)
        self.assertEqual([line for line in shown.stdout.splitlines() if line.split()[-2] in "bBdDC"], [])

    def test_a_library_without_proofs(self) -> None:
        """The file UNPROVED is copied along."""
        self.archive()
        out = self.scratch / "lib"
        self.link(self.scratch, out)
        self.assertFalse((out / "UNPROVED").exists())
        (self.scratch / "UNPROVED").write_text("without proofs\n")
        for to in (out, self.scratch):
            self.assertEqual(self.link(self.scratch, to).returncode, 0)
            self.assertEqual((to / "UNPROVED").read_text(), "without proofs\n")

    def test_what_is_wrong(self) -> None:
        self.assertEqual((self.link().returncode, self.link("--help").returncode, self.link("a", "b", "c").returncode), (2, 2, 2))
        missing = self.link(self.scratch)
        self.assertEqual((missing.returncode, missing.stderr), (2, f"shared-library: there is no library {self.scratch}/libbpfhost.a: tools/library makes it\n"))
        self.archive()
        tools = self.scratch / "tools"
        tools.mkdir()
        for name in ("bash", "cat", "dirname", "env", "sed", "cut"):
            (tools / name).symlink_to(str(shutil.which(name)))
        without = self.link(self.scratch, path=str(tools))
        self.assertEqual((without.returncode, without.stderr), (2, "shared-library: a C compiler is missing: apt-get install gcc libc6-dev\n"))


if __name__ == "__main__":
    unittest.main()
