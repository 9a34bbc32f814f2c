"""The program in docs/SCALING.md prints what the page says."""

from __future__ import annotations

import os
import subprocess
import sys

from tests.shards.common import ShardTest
from tests.test_command import PACKAGE
from tests.test_pages import blocks


class Page(ShardTest):
    def test_the_program(self) -> None:
        for shard in (0, 1):
            self.shard(shard)
        page = (PACKAGE.parents[1] / "docs/SCALING.md").read_text()
        environment = {**os.environ, "PYTHONPATH": str(PACKAGE), "BPFHOST_REDIS": self.server.url}
        words = [sys.executable, "-c", blocks(page, "python")[0]]
        ended = subprocess.run(words, capture_output=True, text=True, env=environment)
        self.assertEqual((ended.stdout, ended.stderr), (blocks(page, "text")[0], ""))
