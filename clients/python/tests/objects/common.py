"""What tests of objects share: a clang that writes objects of machine BPF, and refusals without their path."""

from __future__ import annotations

import functools
import importlib.util
import os
import shutil
import subprocess
import tempfile
import unittest
from pathlib import Path

from bpfhost.objects import Form, ObjectError, ObjectFile, load_object
from tests.common import TimedTest

SOURCES = Path(__file__).resolve().parent / "sources"
HEADERS = Path(__file__).resolve().parents[3] / "c/include"
HAS_ELFTOOLS = importlib.util.find_spec("elftools") is not None

needs_elftools = unittest.skipUnless(HAS_ELFTOOLS, "python3-pyelftools is missing")


@functools.cache
def clang() -> str | None:
    """A clang that compiles for BPF: that of the variable CLANG, or else of PATH."""
    named = os.environ.get("CLANG")
    for name in [named] if named else ["clang", *(f"clang-{version}" for version in range(21, 9, -1))]:
        found = shutil.which(name)
        if found and subprocess.run([found, "-target", "bpf", "--version"], capture_output=True, check=False).returncode == 0:
            with tempfile.TemporaryDirectory() as scratch:
                words = [found, "-target", "bpf", "-c", "-x", "c", "-", "-o", f"{scratch}/none.o"]
                if subprocess.run(words, input=b"", capture_output=True, check=False).returncode == 0:
                    return found
    return None


def compile_object(source: Path, made: Path, *flags: str) -> Path:
    """Compiles a source for BPF with types and lines; the test fails if that fails."""
    words = [clang() or "clang", "-O2", "-g", "-target", "bpf", f"-I{SOURCES}", f"-I{HEADERS}", *flags, "-c", str(source), "-o", str(made)]
    ended = subprocess.run(words, capture_output=True, text=True, check=False)
    if ended.returncode:
        raise AssertionError(f"{' '.join(words)} failed:\n{ended.stderr}")
    return made


class ObjectTest(TimedTest):
    """A test that loads objects."""

    def setUp(self) -> None:
        super().setUp()
        if not HAS_ELFTOOLS:
            self.skipTest("python3-pyelftools is missing")

    def written(self, content: bytes, name: str = "built.o") -> Path:
        """A file of these bytes."""
        path = self.scratch / name
        path.unlink(missing_ok=True)
        path.write_bytes(content)
        return path

    def refusal_of(self, path: Path | str, form: Form = Form.LOWERED) -> str:
        """The text of an object's refusal, after its path."""
        with self.assertRaises(ObjectError) as caught:
            load_object(path, form)
        sentence = str(caught.exception)
        self.assertTrue(sentence.startswith(f"{path}: "), sentence)
        self.assertNotIn("\n", sentence)
        return sentence.removeprefix(f"{path}: ")


class ClangTest(ObjectTest):
    """A test that compiles objects."""

    def setUp(self) -> None:
        super().setUp()
        if clang() is None:
            self.skipTest("there is no clang that compiles for BPF")

    def source(self, name: str, *flags: str) -> ObjectFile:
        """The object of a file of `sources`."""
        return load_object(compile_object(SOURCES / name, self.scratch / "made.o", *flags))

    def text(self, text: str, *flags: str) -> ObjectFile:
        """The object of a source that is given as text, after an include of bpf.h."""
        return load_object(self.compiled(text, *flags))

    def compiled(self, text: str, *flags: str) -> Path:
        """The object's file."""
        source = self.scratch / "filter.c"
        source.write_text(f'#include "bpf.h"\n{text}\n')
        return compile_object(source, self.scratch / "filter.o", *flags)

    def refusal(self, text: str, *flags: str, form: Form = Form.LOWERED) -> str:
        """The sentence that the object of a source is refused with, without the path and the folder of the source."""
        return self.refusal_of(self.compiled(text, *flags), form).replace(f"{self.scratch}/", "")
