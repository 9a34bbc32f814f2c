"""What comes from outside and is wrong: each is refused with a sentence, and nothing else is in its way."""

from __future__ import annotations

import json
import unittest

from bpfhost.shards.errors import SnapshotDamaged
from bpfhost.shards.manifest import Manifest


class Manifests(unittest.TestCase):
    def test_what_is_none(self) -> None:
        whole = Manifest("1-0", "build", "name", 5).summed()
        self.assertEqual(Manifest.read(whole.to_bytes()), whole)
        said = json.loads(whole.to_bytes())
        for kept in (b"", b"{}", b"[" * 100_000, b'{"place": ' * 100_000, json.dumps({**said, "size": 5.0}).encode(), b"\xff"):
            with self.subTest(kept[:20]), self.assertRaises(SnapshotDamaged):
                Manifest.read(kept)


if __name__ == "__main__":
    unittest.main()
