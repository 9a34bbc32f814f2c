"""mypy's result is the same with and without the types of other packages in Debian's python3-typeshed."""

from __future__ import annotations

import os
import shutil
import subprocess

from tests.common import TimedTest
from tests.test_command import PACKAGE


class Types(TimedTest):
    def test_where_redis_has_types_and_where_not(self) -> None:
        if shutil.which("mypy") is None:
            self.skipTest("mypy is missing")
        (self.scratch / "redis-stubs").mkdir()
        (self.scratch / "redis-stubs/__init__.pyi").write_text("from typing import Any\nexceptions: Any\nConnectionPool: Any\n")
        (self.scratch / "redis-stubs/connection.pyi").write_text("from typing import Any\nclass Connection(Any): ...\n")
        for path in ("", str(self.scratch)):
            call = ["mypy", "--cache-dir", str(self.scratch / "cache"), "bpfhost/shards/link.py"]
            ended = subprocess.run(call, cwd=PACKAGE, env={**os.environ, "MYPYPATH": path}, capture_output=True, text=True, check=False)
            self.assertEqual((ended.stdout.splitlines()[-1:], ended.returncode), (["Success: no issues found in 1 source file"], 0), ended)
