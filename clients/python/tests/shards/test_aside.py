"""An error of one customer is reported to that customer, and all others go on."""

from __future__ import annotations


from bpfhost import MapType, frames
from bpfhost.shards import MoveError, NotDone, SetAside, Settings, ShardError, move, operating
from bpfhost.shards.manifest import Manifest
from tests.common import PROGRAM
from tests.shards.blocking_redis import shard_of
from tests.shards.common import CREATE, LOOK_UP, SECONDS, ShardTest, WorkerThread, put, did, shown

# A host that ends at a lookup of a key with these bytes.
_POISON = b"poison!!"
_FRAGILE = """
import subprocess
host = subprocess.Popen([{program!r}, *sys.argv[1:]], stdin=subprocess.PIPE, bufsize=0)
while head := read(4):
    body = read(int.from_bytes(head, 'little'))
    if {poison!r} in body:
        os._exit(70)
    host.stdin.write(head + body)
host.stdin.close()
sys.exit(host.wait())
"""
# A host that refuses all programs, as a stricter verifier would.
_STRICT = """
import subprocess
host = subprocess.Popen([{program!r}, *sys.argv[1:]], stdin=subprocess.PIPE, bufsize=0)
while head := read(4):
    body = read(int.from_bytes(head, 'little'))
    if body[2:4] == b'\\5\\0' and body[4:8] == b'\\1\\0\\0\\0' and len(body) > 40:
        body = body[:8] + bytes(8)
        head = len(body).to_bytes(4, 'little')
    host.stdin.write(head + body)
host.stdin.close()
sys.exit(host.wait())
"""
POISON = frames.map_update_elem(0, 3, b"key1", _POISON)
LONGER = frames.prog_load(0, bytes.fromhex("b700000001000000") * 5 + bytes.fromhex("9500000000000000"))


class AsideTest(ShardTest):
    def fragile(self) -> str:
        return self.pretender(_FRAGILE.format(program=PROGRAM, poison=_POISON))

    def serve(self, program: str = PROGRAM, settings: Settings = Settings(SECONDS)) -> WorkerThread:
        worker = WorkerThread(self.server.url, 0, settings, program)
        self.addCleanup(worker.stop)
        worker.wait()
        return worker


class Poison(AsideTest):
    def test_an_entry_that_ends_the_host_each_time(self) -> None:
        worker = self.serve(self.fragile())
        customer, other = self.client.customer("acme", 60), self.client.customer("other", 60)
        for one in (customer, other):
            self.assertEqual(one.ask(CREATE).status, 3)
        poison, behind = customer.post(POISON), customer.post(LOOK_UP)
        others = [other.post(put(value)) for value in range(20)]
        for ticket in others:
            self.assertEqual(other.wait(ticket)[0][8:], bytes(4))
        for ticket in (poison, behind):
            with self.assertRaisesRegex(SetAside, "customer acme is set aside until an operator has looked: entry .* ended the host 3 times"):
                customer.wait(ticket)
        self.assertIn("acme is set aside: entry", shown(self.client))
        # It is as before if it is tried again, and done if the host takes it.
        did(self.client, operating.say, "acme", "retry", 20)
        with self.assertRaises(SetAside):
            customer.wait(poison)
        worker.stop()
        self.assertIsNone(worker.error)
        self.serve()
        did(self.client, operating.say, "acme", "retry", 20)
        self.assertEqual(customer.wait(poison)[0][8:], bytes(4))
        self.assertEqual(customer.wait(behind)[0][12:], _POISON)

    def test_an_entry_that_is_skipped(self) -> None:
        first = self.serve(self.fragile())
        customer = self.client.customer("acme", 60)
        customer.ask(CREATE)
        poison, behind = customer.post(POISON), customer.post(LOOK_UP)
        with self.assertRaises(SetAside):
            customer.wait(poison)
        self.assertIn("ended the host 3 times", did(self.client, operating.say, "acme", "skip", 20))
        self.assertEqual(customer.wait(behind)[0][8:], bytes.fromhex("feffffff"))
        with self.assertRaisesRegex(NotDone, "was skipped by an operator"):
            customer.wait(poison)
        with self.assertRaisesRegex(ShardError, "nothing of customer acme is set aside"):
            did(self.client, operating.say, "acme", "skip", 20)
        # A skipped entry is skipped when the log is played again.
        first.stop()
        self.serve()
        self.assertEqual([reply.status for reply in customer.ask_all([LOOK_UP, put(4)])], [-2, 0])

    def test_a_state_that_ends_the_host_each_time(self) -> None:
        """A call that one build has played ends another build when it is played again."""
        first = self.serve()
        customer = self.client.customer("acme", 60)
        self.assertEqual([reply.status for reply in customer.ask_all([CREATE, POISON])], [3, 0])
        first.stop()
        fragile = self.serve(self.fragile())
        self.assertEqual(self.client.customer("other").ask(CREATE).status, 3)
        with self.assertRaisesRegex(SetAside, "the state of tenant 0 ended the host 3 times"):
            customer.ask(LOOK_UP)
        fragile.stop()
        self.assertIsNone(fragile.error)
        self.serve()
        self.assertEqual(customer.ask(LOOK_UP).payload, _POISON)

    def test_memory_that_is_refused_each_time(self) -> None:
        refuses = """
import subprocess
host = subprocess.Popen([{program!r}, *sys.argv[1:]], stdin=subprocess.PIPE, stdout=subprocess.PIPE, bufsize=0)
while head := read(4):
    body = read(int.from_bytes(head, 'little'))
    host.stdin.write(head + body)
    reply = host.stdout.read(4)
    reply += host.stdout.read(int.from_bytes(reply, 'little'))
    os.write(1, reply[:8] + (-12).to_bytes(4, 'little', signed=True) if {poison!r} in body else reply)
"""
        self.serve(self.pretender(refuses.format(program=PROGRAM, poison=_POISON)))
        customer = self.client.customer("acme", 60)
        customer.ask(CREATE)
        with self.assertRaisesRegex(SetAside, "memory was refused"):
            customer.ask(POISON)
        self.assertEqual(self.client.customer("other").ask(CREATE).status, 3)


class Damage(AsideTest):
    """Snapshots that differ from what was written."""

    def served(self) -> None:
        """A customer with two snapshots, and entries after them."""
        worker = self.serve(settings=Settings(SECONDS, snapshot_entries=20))
        customer = self.client.customer("acme")
        customer.ask(CREATE)
        for value in range(50):
            customer.ask(put(value))
        worker.stop()
        self.assertIsNone(worker.error)

    def damaged(self, of: str, damage: str) -> None:
        redis, keys = shard_of(self.client, 0)
        manifest = Manifest.read(redis.hget(keys.snapshots, of) or b"")
        name = manifest.names()[0]
        piece = redis.hget(keys.pieces, name) or b""
        if damage == "flip":
            redis.hset(keys.pieces, name, piece[:-30] + bytes([piece[-30] ^ 1]) + piece[-29:])
        elif damage == "cut":
            redis.hset(keys.pieces, name, piece[:-40])
        elif damage == "gone":
            redis.hdel(keys.pieces, name)
        else:
            redis.hset(keys.snapshots, of, manifest.to_bytes().replace(manifest.place.encode(), b"1-1"))

    def test_the_one_before_it_is_used(self) -> None:
        for damage in ("flip", "cut", "gone", "place"):
            with self.subTest(damage):
                self.served()
                self.damaged("0", damage)
                worker = self.serve()
                self.assertEqual(self.client.customer("acme").ask(LOOK_UP).payload, (49).to_bytes(8, "little"))
                self.assertRegex("\n".join(worker.told), "shard 0, tenant 0: .*; the state was made of the snapshot before it")
                worker.stop()
                remove_all(self)

    def test_there_is_none_that_is_whole(self) -> None:
        self.served()
        for of in ("0", "0:before"):
            self.damaged(of, "flip")
        self.serve()
        self.assertEqual(self.client.customer("other").ask(CREATE).status, 3)
        with self.assertRaisesRegex(SetAside, "the checksum of the snapshot at .* is wrong, and the stream does not reach"):
            self.client.customer("acme").ask(LOOK_UP)
        with self.assertRaisesRegex(ShardError, "there is nothing to go on with"):
            did(self.client, operating.say, "acme", "skip", 20)

    def test_the_stream_reaches(self) -> None:
        worker = self.serve(settings=Settings(SECONDS, snapshot_entries=20))
        customer = self.client.customer("acme")
        customer.ask(CREATE)
        for value in range(25):
            customer.ask(put(value))
        worker.stop()
        self.damaged("0", "flip")
        worker = self.serve()
        self.assertEqual(customer.ask(LOOK_UP).payload, (24).to_bytes(8, "little"))
        self.assertIn("the state was made of the stream", "\n".join(worker.told))


class OtherBuilds(AsideTest):
    def test_a_stricter_verifier(self) -> None:
        worker = self.serve(settings=Settings(SECONDS, snapshot_entries=5))
        customer, other = self.client.customer("acme"), self.client.customer("other")
        self.assertEqual([reply.status for reply in customer.ask_all([CREATE, LONGER, put(7)])], [3, 4, 0])
        for _ in range(30):
            customer.ask(LOOK_UP)
        other.ask(CREATE)
        worker.stop()
        strict = self.serve(self.pretender(_STRICT.format(program=PROGRAM)))
        self.assertEqual(other.ask(put(1)).status, 0)
        with self.assertRaisesRegex(SetAside, "the state of tenant 0 can't be made: the host answers .*; build [0-9a-f]+ made its snapshot"):
            customer.ask(LOOK_UP)
        # An operator accepts what this build makes of it: the program is closed.
        did(self.client, operating.say, "acme", "skip", 20)
        self.assertEqual([reply.status for reply in customer.ask_all([frames.prog_test_run(0, 4), LOOK_UP])][:1], [-9])
        self.assertEqual(customer.ask(LOOK_UP).payload, (7).to_bytes(8, "little"))
        self.assertIsNone(strict.error)

    def test_the_old_build_again(self) -> None:
        worker = self.serve(settings=Settings(SECONDS, snapshot_entries=5))
        customer = self.client.customer("acme")
        self.assertEqual([reply.status for reply in customer.ask_all([CREATE, LONGER, put(7)])], [3, 4, 0])
        for _ in range(30):
            customer.ask(LOOK_UP)
        worker.stop()
        strict = self.serve(self.pretender(_STRICT.format(program=PROGRAM)))
        with self.assertRaises(SetAside):
            customer.ask(LOOK_UP)
        strict.stop()
        self.serve()
        self.assertEqual(customer.ask(frames.prog_test_run(0, 4)).status, 0)

    def test_an_arrival_that_is_refused_goes_back(self) -> None:
        self.serve()
        strict = WorkerThread(self.server.url, 1, program=self.pretender(_STRICT.format(program=PROGRAM)))
        self.addCleanup(strict.stop)
        strict.wait()
        customer = self.client.customer("acme")
        if self.client.directory.place("acme").shard:
            self.client.directory.place("other")
            move(self.client, "acme", 0)
        self.assertEqual([reply.status for reply in customer.ask_all([CREATE, LONGER, put(7)])], [3, 4, 0])
        with self.assertRaisesRegex(MoveError, "customer acme stays on shard 0: what arrives at shard 1 is refused"):
            move(self.client, "acme", 1)
        self.assertEqual(customer.ask(LOOK_UP).payload, (7).to_bytes(8, "little"))
        self.assertEqual(customer.ask(frames.prog_test_run(0, 4)).status, 0)
        self.assertEqual((self.client.directory.loads()[0], self.client.directory.moves()), (1, {}))
        # The number is free for the next customer there, who is new.
        self.client.directory.drain(0)
        self.assertEqual(self.client.customer("third").ask(frames.map_create(0, MapType.HASH, 4, 8, 1)).status, 3)


def remove_all(test: ShardTest) -> None:
    """Empties the Redis between two tries."""
    redis, _ = shard_of(test.client, 0)
    redis.call("FLUSHALL")
