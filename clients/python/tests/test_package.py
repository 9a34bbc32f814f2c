"""The package builds without a network, as an sdist and as a wheel, and its scripts run after the wheel is installed."""

from __future__ import annotations

import importlib.util
import os
import shutil
import subprocess
import sys
import tarfile
import zipfile
from pathlib import Path

from bpfhost import __version__, hex_lines
from tests.common import ONE, PROGRAM, TimedTest

PACKAGE = Path(__file__).resolve().parents[1]
# Builds by the standard's hooks, if the package `build` is missing. A hook changes the list of arguments.
HOOKS = "import sys, setuptools.build_meta as hooks; out = sys.argv[1]; hooks.build_sdist(out); hooks.build_wheel(out)"


class PackageTest(TimedTest):
    def setUp(self) -> None:
        super().setUp()
        missing = [f"python3-{name}" for name in ("setuptools", "wheel") if not importlib.util.find_spec(name)]
        if missing:
            self.skipTest(f"no wheel and no sdist is built, as {' and '.join(missing)} is missing")

    def call(self, *words: str, folder: Path, **variables: str) -> str:
        """What a program writes to standard output; it sees nothing of this process's modules, and no proxy leads to a network."""
        offline = {"PIP_NO_INDEX": "1", "PIP_DISABLE_PIP_VERSION_CHECK": "1", "http_proxy": "http://127.0.0.1:1", "https_proxy": "http://127.0.0.1:1"}
        environment = {name: value for name, value in os.environ.items() if name != "PYTHONPATH"} | offline | variables
        ended = subprocess.run(words, cwd=folder, env=environment, capture_output=True, text=True)
        self.assertEqual(ended.returncode, 0, ended.stderr)
        return ended.stdout

    def sources(self) -> Path:
        """A copy of the package, since setuptools writes files next to its sources; the copy has no git history."""
        copy = self.scratch / "python"
        ignored = shutil.ignore_patterns("__pycache__", "build", "*.egg-info")
        return Path(shutil.copytree(PACKAGE, copy, ignore=ignored))

    def built(self) -> Path:
        """The folder in which the sdist is, and the wheel that is built from it."""
        out = self.scratch / "dist"
        if importlib.util.find_spec("build"):
            self.call(sys.executable, "-m", "build", "--no-isolation", "--outdir", str(out), str(self.sources()), folder=self.scratch)
        else:
            out.mkdir()
            self.call(sys.executable, "-c", HOOKS, str(out), folder=self.sources())
        return out

    def test_license(self) -> None:
        self.assertEqual((PACKAGE / "LICENSE").read_bytes(), (PACKAGE.parents[1] / "LICENSE").read_bytes())

    def test_sdist_and_wheel(self) -> None:
        out = self.built()
        self.assertEqual({file.name for file in out.iterdir()}, {f"bpfhost-{__version__}.tar.gz", f"bpfhost-{__version__}-py3-none-any.whl"})
        modules = {str(path.relative_to(PACKAGE)) for path in (PACKAGE / "bpfhost").rglob("*.py")} | {"bpfhost/py.typed"}
        with zipfile.ZipFile(out / f"bpfhost-{__version__}-py3-none-any.whl") as wheel:
            about = f"bpfhost-{__version__}.dist-info"
            names = {name for name in wheel.namelist() if not name.startswith(about)}
            scripts = wheel.read(f"{about}/entry_points.txt").decode()
            self.assertIn("Apache License", wheel.read(f"{about}/LICENSE").decode())
        self.assertEqual(names, modules)
        self.assertIn("bpfhost-py = bpfhost.command:main", scripts.splitlines())
        with tarfile.open(out / f"bpfhost-{__version__}.tar.gz") as sdist:
            unpacked = {name.partition("/")[2] for name in sdist.getnames()}
        self.assertLessEqual(modules | {"pyproject.toml", "README.md", "LICENSE"}, unpacked)

    def test_script_of_an_installed_wheel(self) -> None:
        if not importlib.util.find_spec("pip"):
            self.skipTest("the wheel is not installed, as python3-pip is missing")
        if not PROGRAM:
            self.skipTest("the variable BPFHOST names no program")
        pip = (sys.executable, "-m", "pip")
        self.call(*pip, "wheel", "--no-build-isolation", "--no-deps", "-w", str(self.scratch), ".", folder=self.sources())
        wheel = self.scratch / f"bpfhost-{__version__}-py3-none-any.whl"
        target = self.scratch / "installed"
        self.call(*pip, "install", "--no-deps", "--target", str(target), str(wheel), folder=self.scratch)
        (self.scratch / "one.txt").write_text("r0 = 1\nexit\n")
        script = (str(target / "bin/bpfhost-py"), "asm", "one.txt")
        self.assertEqual(self.call(*script, folder=self.scratch, PYTHONPATH=str(target), BPFHOST=PROGRAM), hex_lines(ONE))
        usage = self.call(script[0], "--help", folder=self.scratch, PYTHONPATH=str(target))
        self.assertTrue(usage.startswith("usage: bpfhost-py "), usage)
