"""tools/quick-build with a fake kit: what it calls, what it leaves, and what it prints."""

from __future__ import annotations

import os
import subprocess
import tempfile
import unittest
from pathlib import Path

TOP = Path(__file__).resolve().parents[2]
RT = """#!/usr/bin/env python3
import subprocess, sys
from pathlib import Path
kit = Path(__file__).parent.parent
if sys.argv[1] == "doc":
    print(Path(__file__).resolve().parent.parent / "START-HERE.md")
    sys.exit()
Path("module.bc").write_text("a module\\n")
words = ["--sysroot=" + str(kit), "-Werror", "-c", "-x", "ir", "module.bc", "-o", "module.o", "-fPIE", "-O0", "-fsanitize=address"]
ended = subprocess.run([kit / "toolchain/bin/clang", *words])
Path("module.bc").unlink()
sys.exit(ended.returncode)
"""
# Writes what is compiled, or, for a module as text, one that has what quick_ir.py looks for.
CLANG = '#!/usr/bin/env bash\necho "clang $*" >> "$CALLS"\nwhile [ "$1" != -o ]; do shift; done\necho compiled > "$2"\n'
LINK = '#!/usr/bin/env bash\necho "link $*" >> "$CALLS"\nwhile [ "$1" != -o ]; do shift; done\necho linked > "$2"\nchmod +x "$2"\n'


class QuickBuild(unittest.TestCase):
    def setUp(self) -> None:
        scratch = tempfile.TemporaryDirectory()
        self.addCleanup(scratch.cleanup)
        self.scratch = Path(scratch.name)
        for folder in ("kit/bin", "kit/toolchain/bin", "kit/c"):
            (self.scratch / folder).mkdir(parents=True)
        for name, text in (("bin/rt", RT), ("bin/rtlib.py", ""), ("bin/rattle-link", LINK), ("toolchain/bin/clang", CLANG)):
            path = self.scratch / "kit" / name
            path.write_text(text)
            path.chmod(0o755)
        heap = self.scratch / "heap.pic.o"
        heap.write_text("the heap\n")
        archived = subprocess.run(["ar", "rc", self.scratch / "kit/c/liblibc_c.a", heap], check=False, capture_output=True)
        self.assertEqual(archived.returncode, 0)

    def build(self, *words: str, path: str | None = None) -> subprocess.CompletedProcess[str]:
        """Calls the script with the kit first in PATH."""
        path = f"{self.scratch}/kit/bin:{os.environ['PATH']}" if path is None else path
        environment = {**os.environ, "PATH": path, "CALLS": str(self.scratch / "calls")}
        call = [str(TOP / "tools/quick-build"), *words]
        return subprocess.run(call, env=environment, cwd=self.scratch, capture_output=True, text=True, check=False)

    def test_what_it_leaves(self) -> None:
        ended = self.build("out")
        self.assertEqual((ended.returncode, ended.stderr), (0, ""))
        self.assertEqual({path.name for path in (self.scratch / "out").iterdir()}, {"bpfhost", "verifier_log", "libbpfhost.a", "bpfhost.h", "UNPROVED"})
        self.assertIn("without its proofs", (self.scratch / "out/UNPROVED").read_text())
        self.assertEqual(ended.stdout.count("is built WITHOUT proofs"), 3)

    def test_what_it_compiles(self) -> None:
        """The words of the kit's own call, with the whole kit's toolchain, without the sanitizer, and a proved program's level."""
        self.assertEqual(self.build("out", "bpfhost").returncode, 0)
        shown, compiled, linked = (self.scratch / "calls").read_text().splitlines()
        self.assertIn(f"--sysroot={self.scratch}/kit/toolchain -x ir -fPIE -O3 -c", compiled)
        self.assertIn("-S -emit-llvm -O0", shown)
        self.assertNotIn("sanitize", shown + compiled)
        self.assertIn(f"-o {self.scratch}/out/bpfhost", linked)

    def test_the_library(self) -> None:
        """It is made from the repository's sources in a copy, and of code that any program may be linked with."""
        self.assertEqual(self.build("out", "library").returncode, 0)
        shown, compiled = (self.scratch / "calls").read_text().splitlines()
        self.assertIn("-S -emit-llvm", shown)
        self.assertIn("-O3 -fPIC -c", compiled)
        listed = subprocess.run(["ar", "t", self.scratch / "out/libbpfhost.a"], check=True, capture_output=True, text=True)
        self.assertEqual(listed.stdout.split(), ["bpfhost.o", "heap.pic.o"])

    def test_what_is_wrong(self) -> None:
        self.assertEqual((self.build().returncode, self.build("--help").returncode), (2, 2))
        self.assertIn("WITHOUT their proofs", self.build().stderr)
        wrong = self.build("out", "words")
        self.assertEqual((wrong.returncode, wrong.stderr), (2, "quick-build: there is no program words\n"))
        without = self.build("out", path="/usr/bin:/bin")
        self.assertEqual((without.returncode, without.stderr), (2, "quick-build: rt, the command of the Rattle kit, is missing\n"))

    def test_a_crate_that_does_not_compile(self) -> None:
        (self.scratch / "kit/bin/rt").write_text(RT.replace('Path("module.bc").write_text', 'print("a fault") or sys.exit(1) or Path("module.bc").write_text'))
        ended = self.build("out", "bpfhost")
        self.assertEqual((ended.returncode, ended.stderr), (1, "a fault\nquick-build: rt try compiles no bpfhost\n"))
        self.assertFalse((self.scratch / "out/UNPROVED").exists())
