"""A backup that is made and restored while customers send: they go on from what the backup has."""

from __future__ import annotations

import subprocess
import threading

from bpfhost.shards import Client, NoReply, NotTaken
from tests.shards.common import CREATE, LOOK_UP, ShardTest, put
from tests.test_command import PACKAGE

BACKUP, RESTORE = PACKAGE / "deploy/backup", PACKAGE / "deploy/restore"


class Sending:
    """A customer that counts up in a map, until it ends; `done` is the last number that has its reply."""

    def __init__(self, url: str, name: str) -> None:
        self.done, self.errors = 0, list[BaseException]()
        self._ended = threading.Event()
        self._thread = threading.Thread(target=self._run, args=(url, name))
        self._thread.start()

    def _run(self, url: str, name: str) -> None:
        try:
            with Client(url) as client:
                # A call that came after the backup is lost with its reply: its customer does not wait for long.
                customer = client.customer(name, 3)
                customer.ask(CREATE)
                while not self._ended.is_set():
                    try:
                        if customer.ask(put(self.done + 1)).status == 0:
                            self.done += 1
                    except (NoReply, NotTaken):
                        continue
        except BaseException as error:
            self.errors.append(error)

    def end(self) -> None:
        """Ends it."""
        self._ended.set()
        self._thread.join(60)


class Backups(ShardTest):
    def test_while_customers_send(self) -> None:
        worker = self.shard(0)
        quiet = self.client.customer("quiet")
        self.assertEqual([reply.status for reply in quiet.ask_all([CREATE, put(5)])], [3, 0])
        customers = [Sending(self.server.url, f"c{number}") for number in range(3)]
        for one in customers:
            self.addCleanup(one.end)
        self.until(lambda: all(one.done > 20 for one in customers))
        made = subprocess.run([BACKUP, "-s", f"{self.scratch}/s", "--", self.scratch, self.scratch / "backup"], capture_output=True, text=True)
        self.assertEqual((made.returncode, made.stderr), (0, ""))
        self.assertEqual(quiet.ask(put(6)).status, 0)
        before = [one.done for one in customers]
        self.until(lambda: all(one.done > then + 20 for one, then in zip(customers, before)))
        # The worker and Redis are stopped, and customers go on sending.
        worker.stop()
        self.server.kill()
        restored = subprocess.run([RESTORE, self.scratch / "backup", self.scratch], capture_output=True, text=True)
        self.assertEqual((restored.returncode, restored.stderr), (0, ""))
        self.server.start()
        self.shard(0)
        self.assertEqual(quiet.ask(LOOK_UP).payload, (5).to_bytes(8, "little"))
        before = [one.done for one in customers]
        self.until(lambda: all(one.done > then + 20 for one, then in zip(customers, before)))
        for number, one in enumerate(customers):
            one.end()
            value = int.from_bytes(self.client.customer(f"c{number}").ask(LOOK_UP).payload, "little")
            self.assertIn(value, (one.done, one.done + 1))
        self.assertEqual([one.errors for one in customers], [[], [], []])

    def test_what_is_no_backup(self) -> None:
        called = subprocess.run([RESTORE, self.scratch / "none", self.scratch], capture_output=True, text=True)
        self.assertEqual((called.returncode, called.stderr), (1, f"restore: {self.scratch}/none is no backup\n"))
