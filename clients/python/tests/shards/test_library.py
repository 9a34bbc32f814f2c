"""The host in the worker's own process: the library replies as a separate host does, and a file that is no library is refused."""

from __future__ import annotations

import contextlib
import ctypes.util
import os
import random
import shutil
import signal
import subprocess
import threading
import unittest
from collections.abc import Callable
from pathlib import Path
from unittest import mock

from bpfhost import Errno, Host, frames
from bpfhost.errors import HostError
from bpfhost.library import Library
from bpfhost.program import is_unproved
from bpfhost.shards import Settings, ShardKeys, Worker
from bpfhost.shards.calls import NoCall
from bpfhost.shards.connection import Redis
from bpfhost.shards.errors import MemoryRefused
from bpfhost.shards.library import SONAME, HostHere, find_library
from bpfhost.shards.serving import Serving
from bpfhost.shards.system import MACHINE
from bpfhost.state import at_once, split
from tests.common import PROGRAM, HostTest
from tests.shards import test_snapshot, test_stalls
from tests.shards.blocking_redis import shard_of
from tests.shards.common import CREATE, LOOK_UP, SECONDS, ShardTest, call_of, put, all_steps, no_history
from tests.shards.library_file import library_file
from tests.shards.streams import Stream, slots_of
from tests.shards.worker_process import WorkerProcess

_FILE = library_file() if PROGRAM else None
_WHY = "there is no library beside the program, and BPFHOST_LIBRARY names none"
# A value from which on the program `add` counts packets of zeros.
ZERO = frames.map_update_elem(0, 3, bytes(4), bytes(8))
# A library that ends the process at a frame of a customer.
_FRAGILE = """
#include <stdint.h>
#include <stdlib.h>
uint32_t bpfhost_c_version(void) { return 768; }
uint32_t bpfhost_c_abi(void) { return 3; }
int32_t bpfhost_c_new(void *h, size_t n, uint64_t a, uint64_t b) { return 0; }
int32_t bpfhost_c_handle(void *h, const uint8_t *f, size_t n, uint8_t *r, size_t m, size_t *w) { abort(); }
int32_t bpfhost_c_run_packets(void) { abort(); }
int32_t bpfhost_c_save(void) { abort(); }
int32_t bpfhost_c_memory_refused(void *h, uint16_t t, uint8_t *r) { *r = 0; return 0; }
int32_t bpfhost_c_status(void) { abort(); }
int32_t bpfhost_c_describe(void) { abort(); }
int32_t bpfhost_c_program_cost(void) { abort(); }
int32_t bpfhost_c_verify(void) { abort(); }
int32_t bpfhost_c_prepare(void) { abort(); }
int32_t bpfhost_c_install(void) { abort(); }
void bpfhost_c_prepared_free(void *p) { }
void bpfhost_c_free(void *h) { }
"""


def loaded() -> Library:
    """The library."""
    assert _FILE is not None
    return Library(_FILE, keeps_lock=True)


@unittest.skipIf(_FILE is None, _WHY)
class Answers(HostTest):
    def serving(self) -> Serving:
        return Serving(PROGRAM, MACHINE, library=loaded())

    def test_random_streams(self) -> None:
        """Calls of random frames, right and wrong, of some tenants in turns, with the replies of a separate host for each."""
        with self.serving() as serving, contextlib.ExitStack() as stack:
            alone = {tenant: stack.enter_context(Host(PROGRAM)) for tenant in (0, 7, 63)}
            streams = {tenant: Stream(PROGRAM, f"library {tenant}") for tenant in alone}
            for turn in range(40):
                for tenant, host in alone.items():
                    asked, wanted = streams[tenant].play(host, 25)
                    ((written, _),) = serving.play([call_of(b"%d-0" % turn, tenant, asked)])
                    self.assertEqual(split(written.value), wanted)
            for tenant, stream in streams.items():
                self.assertEqual(sorted(serving.tenancies[tenant].open), sorted(stream.tenancy.open))

    def test_frames_that_are_alike(self) -> None:
        """Runs of one program by one call, runs that are refused, of several programs, with several contexts, and updates."""
        draw = random.Random(3)
        kinds: list[Callable[[], list[bytes]]] = [
            lambda: [frames.prog_test_run(0, 4, draw.randbytes(64)) for _ in range(50)],
            lambda: [frames.prog_test_run(0, draw.choice((4, 3)), bytes(64)) for _ in range(50)],
            lambda: [frames.prog_test_run(0, 9, bytes(64))] * 50,
            lambda: [frames.prog_test_run(0, 3, bytes(64))] * 50,
            lambda: [frames.prog_test_run(0, 4)] * 50,
            lambda: [frames.prog_test_run(0, 4, bytes(70_000))] * 8,
            lambda: [frames.prog_test_run(0, 4, b"1", frames.Context(mark=draw.randrange(2))) for _ in range(30)],
            lambda: [frames.frame(0, 5, bytes(draw.randrange(1, 40)))] * 20,
            lambda: [frames.map_update_elem(0, 3, draw.randbytes(4), bytes(8)) for _ in range(30)],
            lambda: [LOOK_UP] * 20,
        ]
        with self.serving() as serving, Host(PROGRAM) as alone:
            for turn in range(60):
                asked = [CREATE, frames.prog_load(0, slots_of(PROGRAM, "add")), ZERO] if turn == 0 else draw.choice(kinds)()
                ((written, _),) = serving.play([call_of(b"%d-0" % turn, 5, asked, packs=turn % 2 == 1)])
                self.assertEqual(split(written.value), list(alone.ask_bytes(asked)))

    def test_runs_are_one_call(self) -> None:
        library = loaded()
        called = library.functions
        called.run_packets, called.handle = mock.Mock(wraps=called.run_packets), mock.Mock(wraps=called.handle)
        with contextlib.closing(Closing(HostHere(library, 3))) as closing:
            for frame in (CREATE, frames.prog_load(0, slots_of(PROGRAM, "add")), ZERO):
                closing.host.answer(call_of(b"1-0", 2, [frame]))
            stream = frames.prog_test_run(0, 4, bytes(64)) * 300
            replies = closing.host.answer(call_of(b"1-0", 2, split(stream)))
        self.assertEqual((called.run_packets.call_count, called.handle.call_count), (1, 3))
        self.assertEqual([reply[12:] for reply in split(replies)], [number.to_bytes(4, "little") for number in range(1, 301)])

    def test_states(self) -> None:
        """A state of one form of host, saved by the library or read by frames, is restored on the other one."""
        with self.serving() as here, Serving(PROGRAM, MACHINE) as beside:
            stream = Stream(PROGRAM, "states")
            with Host(PROGRAM) as alone:
                asked, _ = stream.play(alone, 150)
            for serving in (here, beside):
                list(serving.play([call_of(b"1-0", 3, asked)]))
            saved, read = (all_steps(serving.state(3, self.nothing, no_history)) for serving in (here, beside))
            at_once(here.make(9, read))
            at_once(beside.make(9, saved))
            self.assertEqual([all_steps(serving.state(9, self.nothing, no_history)) for serving in (here, beside)], [saved, read])
            here.empty(9)
            self.assertEqual(here.tenancies[9].open, {})
            here.restart()
            ((written, _),) = here.play([call_of(b"2-0", 3, [LOOK_UP])])
            self.assertEqual(written.value[8:12], (-Errno.EBADF & 0xFFFFFFFF).to_bytes(4, "little"))

    @staticmethod
    async def nothing() -> bytes:
        raise AssertionError("a map is without a descriptor")

    def test_a_save_needs_no_history(self) -> None:
        """A map that only a program keeps is saved, in steps that let other tenants be served."""
        with self.serving() as serving:
            asked = [CREATE, put(5), frames.prog_load(0, slots_of(PROGRAM, "read")), frames.close(0, 3)]
            list(serving.play([call_of(b"1-0", 63, asked)]))
            steps, parts = serving.state(63, self.nothing, no_history), 0
            with self.assertRaises(StopIteration) as ended:
                while True:
                    steps.send(None)
                    parts += 1
                    list(serving.play([call_of(b"2-0", 62, [CREATE])]))
            # All descriptors, the map, its key, the program, and what is closed.
            self.assertEqual(parts, 5)
            at_once(serving.make(61, ended.exception.value))
            ((written, _),) = serving.play([call_of(b"3-0", 61, [frames.prog_test_run(0, 4, b"key1"), LOOK_UP])])
            self.assertEqual([reply[8:] for reply in split(written.value)], [bytes(4) + b"\5\0\0\0", (-Errno.EBADF & 0xFFFFFFFF).to_bytes(4, "little")])

    def test_no_memory_for_a_save(self) -> None:
        library = loaded()
        with Serving(PROGRAM, MACHINE, library=library) as serving, mock.patch.object(library.functions, "save", return_value=-4):
            with self.assertRaisesRegex(MemoryRefused, "memory was refused to a snapshot of tenant 5"):
                all_steps(serving.state(5, self.nothing, no_history))

    def test_memory_that_is_refused(self) -> None:
        """The library also reports a refusal within a run, whose reply does not show it."""
        with self.serving() as serving:
            list(serving.play([call_of(b"1-0", 5, [CREATE])]))
            assert isinstance(serving._host, HostHere)
            self.assertFalse(serving._host.memory_refused(5))
            with mock.patch.object(HostHere, "memory_refused", return_value=True), self.assertRaisesRegex(MemoryRefused, "entry 2-0"):
                list(serving.play([NoCall(b"1-5", 5, "no call", 0), call_of(b"2-0", 5, [LOOK_UP])]))

    def test_its_end(self) -> None:
        host = HostHere(loaded(), 1)
        host.kill()
        host.kill()
        calls: list[Callable[[], object]] = [lambda: next(host.ask_bytes([CREATE])), lambda: host.memory_refused(0), lambda: host.answer(call_of(b"1-0", 0, [CREATE]))]
        for call in calls:
            with self.assertRaisesRegex(HostError, "its host is closed"):
                call()


@unittest.skipIf(_FILE is None, _WHY)
class SavedStates(test_snapshot.Snapshots):
    """The random streams of test_snapshot, with states that the library saves."""

    def serving(self) -> Serving:
        """A host in this process."""
        return Serving(PROGRAM, MACHINE, library=loaded())


@unittest.skipIf(_FILE is None, _WHY)
class RefusedStates(test_snapshot.RefusedStates):
    """States that are not restored, with a host in this process."""

    def serving(self) -> Serving:
        """A host in this process."""
        return Serving(PROGRAM, MACHINE, library=loaded())


@unittest.skipIf(_FILE is None, _WHY)
class InSteps(test_stalls.InSteps):
    """A state of eight full maps is saved in 42 parts, five for each map, and restored in steps."""

    library = loaded() if _FILE else None
    parts = 42


@unittest.skipIf(_FILE is None, _WHY)
class SnapshotStalls(test_stalls.SnapshotStalls):
    """Waits while the library saves."""

    library = loaded() if _FILE else None


class Closing:
    """A host that is ended by `close`."""

    def __init__(self, host: HostHere) -> None:
        self.host = host

    def close(self) -> None:
        """Ends it."""
        self.host.kill()


@unittest.skipIf(_FILE is None, _WHY)
class Refused(HostTest):
    def refused(self, path: str | Path, sentence: str) -> None:
        with self.assertRaisesRegex(HostError, sentence):
            find_library(str(path), PROGRAM)

    def test_what_is_no_library(self) -> None:
        self.refused(self.scratch / "none.so", "there is no library .*none.so: tools/library and tools/shared-library make it")
        text = self.scratch / "text.so"
        text.write_text("a text\n")
        self.refused(text, "text.so is no shared library that can be opened: it is no shared object")
        cut = self.scratch / "cut.so"
        cut.write_bytes(loaded().path.read_bytes()[:3000])
        self.refused(cut, "cut.so is no shared library that can be opened: it is cut off")
        name = ctypes.util.find_library("c")
        found = next((path for path in Path("/lib").rglob(name or "libc.so.6")), None)
        if found:
            self.refused(found, f"{name} is no library of bpfhost 0.3: it has no bpfhost_c_abi")

    def test_another_version(self) -> None:
        other = self.scratch / SONAME
        other.write_bytes(loaded().path.read_bytes().replace(SONAME.encode(), b"libbpfhost.so.9.9"))
        self.refused(other, "is of version 9.9, and this client is for 0.3")

    def test_another_build(self) -> None:
        """One is built without proofs, and the other with them."""
        other, mark = self.scratch / SONAME, b"built without proofs\0"
        whole = loaded().path.read_bytes()
        other.write_bytes(whole.replace(mark, bytes(len(mark))) if is_unproved(PROGRAM) else whole + mark)
        self.refused(other, "is built without proofs, and .* with them: a worker takes both of one build")

    def test_which_is_found(self) -> None:
        with mock.patch.dict(os.environ):
            os.environ.pop("BPFHOST_LIBRARY", None)
            self.assertIsNone(find_library("none", PROGRAM))
            program = self.scratch / "bin/bpfhost"
            for folder in ("bin", "lib"):
                (self.scratch / folder).mkdir()
            shutil.copy(PROGRAM, program)
            self.assertIsNone(find_library(None, program))
            shutil.copy(loaded().path, self.scratch / "lib" / SONAME)
            for expected in (self.scratch / "lib" / SONAME, self.scratch / "bin" / SONAME):
                shutil.copy(loaded().path, expected)
                library = find_library(None, program)
                self.assertEqual(library and library.path, expected)
            os.environ["BPFHOST_LIBRARY"] = str(self.scratch / "missing.so")
            with self.assertRaisesRegex(HostError, "there is no library"):
                find_library(None, program)


@unittest.skipIf(_FILE is None, _WHY)
class Workers(ShardTest):
    def worker(self, name: str, *words: str) -> WorkerProcess:
        """A worker of shard 0, by the command."""
        told = ["worker", "0", "--redis", self.server.url, "--bpfhost", PROGRAM, "--lease", str(SECONDS), "--drain", "0", *words]
        worker = WorkerProcess(told, self.scratch / name)
        self.addCleanup(worker.wait, 20)
        self.addCleanup(worker.send, signal.SIGKILL)
        return worker

    def serves(self, worker: WorkerProcess) -> None:
        self.until(lambda: "is served, from" in worker.said() or worker.status() is not None)
        self.assertIsNone(worker.status(), worker.said())

    def test_a_worker_with_its_host(self) -> None:
        """A worker has no host process, except one that follows a killed worker; one that follows a regular end has none."""
        first = self.worker("first", "--library", str(_FILE))
        self.serves(first)
        customer = self.client.customer("acme", 60)
        run = frames.prog_test_run(0, 4, bytes(64))
        self.assertEqual([reply.status for reply in customer.ask_all([CREATE, frames.prog_load(0, slots_of(PROGRAM, "add")), ZERO])], [3, 4, 0])
        part = customer.send(run * 900)
        self.assertEqual([int.from_bytes(reply[12:], "little") for reply in customer.receive(part)], list(range(1, 901)))
        self.assertIsNone(first.host())
        first.send(signal.SIGKILL)
        first.wait(20)
        second = self.worker("second", "--library", str(_FILE))
        self.serves(second)
        self.assertIn("the worker before ended without a word, so the host is a process of its own at first", second.said())
        self.assertIsNotNone(second.host())
        self.assertEqual(customer.ask(run).result(), 901)
        second.send(signal.SIGTERM)
        self.assertEqual(second.wait(20), 0)
        third = self.worker("third", "--library", str(_FILE))
        self.serves(third)
        self.assertEqual(customer.ask(run).result(), 902)
        self.assertIsNone(third.host())

    def test_a_host_that_is_replaced(self) -> None:
        """After a worker that was killed, the host is in this process again after many calls."""
        redis, keys = shard_of(self.client, 0)
        redis.hset(keys.lease, "token", "another worker")
        redis.hset(keys.lease, "milliseconds", 200)
        told = list[str]()
        stopped = [False]
        settings = Settings(lease_seconds=0.2, most_asked=50)
        worker = Worker(Redis(self.server.url), ShardKeys(0), PROGRAM, settings, told.append, None, loaded())
        thread = threading.Thread(target=lambda: worker.run(lambda: stopped[0]))
        thread.start()
        try:
            self.until(lambda: any("is served" in one for one in told))
            serving = worker._serving
            self.assertFalse(serving.is_here)
            customer = self.client.customer("acme", 60)
            customer.ask(CREATE)
            for value in range(60):
                customer.ask(put(value))
            self.until(lambda: serving.is_here)
            self.assertEqual(customer.ask(LOOK_UP).payload, (59).to_bytes(8, "little"))
        finally:
            stopped[0] = True
            thread.join()

    def test_a_library_that_ends_the_worker(self) -> None:
        """A separate host process shows which call ends it, so the shard is not stuck."""
        if not shutil.which("cc"):
            self.skipTest("there is no C compiler")
        source, fragile = self.scratch / "fragile.c", self.scratch / SONAME
        source.write_text(_FRAGILE)
        subprocess.run(["cc", "-shared", "-fPIC", f"-Wl,-soname,{SONAME}", "-o", fragile, source], check=True)
        if (Path(PROGRAM).parent / "UNPROVED").is_file():
            (self.scratch / "UNPROVED").touch()
        first = self.worker("first", "--library", str(fragile))
        self.serves(first)
        customer = self.client.customer("acme", 60)
        ticket = customer.post(CREATE)
        self.assertEqual(first.wait(20), -signal.SIGABRT)
        second = self.worker("second", "--library", str(fragile))
        self.assertEqual(customer.wait(ticket)[0][8:], bytes([3, 0, 0, 0]))
        self.assertIsNone(second.status())

    def test_a_refusal_of_the_command(self) -> None:
        worker = self.worker("wrong", "--library", "/no/library.so")
        self.assertEqual(worker.wait(20), 3)
        self.assertEqual(worker.said(), "bpfhost.shards: there is no library /no/library.so: tools/library and tools/shared-library make it\n")


if __name__ == "__main__":
    unittest.main()
