"""Words of the command that need no Redis."""

from __future__ import annotations

import subprocess
import sys
import unittest

import bpfhost
from bpfhost.shards.command import metrics_of


class Words(unittest.TestCase):
    def test_the_version(self) -> None:
        called = subprocess.run([sys.executable, "-m", "bpfhost.shards", "--version"], capture_output=True, text=True)
        self.assertEqual((called.returncode, called.stderr), (0, ""))
        self.assertRegex(called.stdout, rf"^bpfhost, the client in Python, {bpfhost.__version__}\nbpfhost, the program: .+\n(bpfhost, the library: .+\n)?$")

    def test_where_metrics_are_read(self) -> None:
        """Workers with one file of configuration have a port each."""
        self.assertEqual([metrics_of("127.0.0.1:9110+", shard) for shard in (0, 7)], ["127.0.0.1:9110", "127.0.0.1:9117"])
        self.assertEqual(metrics_of("127.0.0.1:9110", 7), "127.0.0.1:9110")


if __name__ == "__main__":
    unittest.main()
