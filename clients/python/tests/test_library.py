"""The host as a shared library in this process, compared with the program over two pipes.

The library is the shared object that the variable BPFHOST_LIBRARY names, or is linked from the libbpfhost.a next to the program.
"""

from __future__ import annotations

import copy
import gc
import mmap
import os
import pickle
import re
import shutil
import subprocess
import sys
import threading
import unittest
from array import array
from pathlib import Path
from typing import Any

from bpfhost import Context, Host, Packets, ProgramRefused, Refused, __version__, frames
from bpfhost.inspection import Cost, Counts, Log, LogStyle, OpenedMap, OpenedProgram
from bpfhost.library import Library, LibraryError, LibraryHost
from bpfhost.numbers import MapType
from bpfhost.prepared import Named, PreparedProgram
from bpfhost.program import MapShape
from bpfhost.state import FILLER
from tests.classic.common import needs_libpcap
from tests.common import LENGTH, ONE, PROGRAM, TimedTest

CLIENT = Path(__file__).resolve().parents[1]
NAMED = os.environ.get("BPFHOST_LIBRARY", "")
ARCHIVE = Path(PROGRAM).parent / "libbpfhost.a" if PROGRAM else None
IS_THERE = bool(NAMED) or (ARCHIVE is not None and ARCHIVE.is_file() and shutil.which("cc") is not None)
# r0 = the word `mark` of the context; exit.
MARK = bytes.fromhex("6110080000000000 9500000000000000")
# Counts in the array of descriptor 3: r1 = 1; r2 = the value of index 0; lock *(u64 *)(r2 + 0) += r1; r0 = it; exit.
COUNT = bytes.fromhex("b701000001000000 1822000003000000 0000000000000000 db12000000000000 7920000000000000 9500000000000000")
# r2 = 0; r3 = r10 - 8; r4 = 1; load a byte of the packet; r0 = it, or the error if there is none.
FIRST_BYTE = bytes.fromhex(
    "b702000000000000 bfa3000000000000 07030000f8ffffff b704000001000000 850000001a000000"
    "5500010000000000 71a0f8ff00000000 9500000000000000"
)
# r0 = the length; if r0 > 10, then r0 = 1, six times r0 += 1, exit; otherwise load a byte of the packet, exit.
BRANCHES = bytes.fromhex(
    "6110000000000000 250006000a000000 b702000000000000 bfa3000000000000 07030000fcffffff b704000001000000 850000001a000000"
    f"9500000000000000 b700000001000000 {6 * '0700000001000000'} 9500000000000000"
)
# A save of a tenant with nothing open: a program at each descriptor, which are all closed.
EMPTY = b"".join([FILLER] * 64 + [frames.close(0, number) for number in range(3, 67)])


def linked(scratch: Path) -> Path:
    """The shared library."""
    if NAMED:
        return Path(NAMED)
    path = scratch / "libbpfhost.so"
    whole = ("-Wl,--whole-archive", str(ARCHIVE), "-Wl,--no-whole-archive")
    subprocess.run(["cc", "-shared", *whole, "-o", str(path)], check=True)
    return path


class Files(TimedTest):
    def refused(self, path: Path, told: str) -> None:
        with self.assertRaisesRegex(LibraryError, rf"\A{told}\Z"):
            Library(path)

    def test_no_file(self) -> None:
        self.refused(self.scratch / "none.so", "there is no library .*/none.so: tools/library and tools/shared-library make it")
        self.refused(self.scratch, "there is no library .*")
        self.refused(Path("libnone.so.0.3"), "there is no library libnone.so.0.3, neither here nor among those that are installed")

    def test_no_library(self) -> None:
        path = self.scratch / "text.so"
        path.write_text("no library")
        self.refused(path, ".*/text.so is no shared library that can be opened: it is no shared object")

    def test_another_library(self) -> None:
        found = sorted(Path("/lib").glob("*/libm.so.6")) or sorted(Path("/usr/lib").glob("*/libm.so.6"))
        if not found:
            self.skipTest("there is no libm.so.6")
        self.refused(found[0], ".*/libm.so.6 is no library of bpfhost 0.3: it has no bpfhost_c_abi")

    def test_another_version(self) -> None:
        path = self.scratch / "libbpfhost.so.0.4.7"
        path.write_bytes(b"")
        link = self.scratch / "libbpfhost.so"
        link.symlink_to(path)
        self.refused(link, ".*/libbpfhost.so is of version 0.4, and this client is for 0.3")

    @unittest.skipIf(shutil.which("cc") is None, "a C compiler is missing")
    def test_another_binary_interface(self) -> None:
        path = self.scratch / "other.so"
        source = "unsigned bpfhost_c_abi(void) { return 99; }"
        subprocess.run(["cc", "-shared", "-x", "c", "-", "-o", str(path)], input=source.encode(), check=True)
        reason = "its functions are of the binary interface 99, and this client calls those of 3"
        self.refused(path, f".*/other.so is no library of bpfhost 0.3: {reason}")


@unittest.skipUnless(IS_THERE, "there is no library: BPFHOST_LIBRARY names none, and no libbpfhost.a is beside the program")
class Calls(TimedTest):
    def setUp(self) -> None:
        super().setUp()
        self.library = Library(linked(self.scratch))
        self.host = self.library.host(3, (1, 2))
        self.addCleanup(self.host.close)

    def test_version(self) -> None:
        self.assertEqual(self.library.version(), __version__)

    def test_by_its_name(self) -> None:
        """A name without a folder is that of an installed library."""
        (self.scratch / "libbpfhost.so.0.3").symlink_to(self.library.path.resolve())
        code = "from bpfhost.library import Library; print(Library('libbpfhost.so.0.3').version())"
        environment = {**os.environ, "LD_LIBRARY_PATH": str(self.scratch), "PYTHONPATH": str(CLIENT)}
        ended = subprocess.run([sys.executable, "-c", code], capture_output=True, check=False, text=True, cwd="/", env=environment)
        self.assertEqual((ended.stdout, ended.stderr), (f"{__version__}\n", ""))

    def test_batches(self) -> None:
        """As packets, as a list, in any place of the bytes, and none."""
        tenant = self.host.tenant(2)
        descriptor = tenant.prog_load(LENGTH)
        listed = [bytes(length) for length in (0, 1, 14, 60, 1500, 65_536, 0)]
        wanted = [len(packet) for packet in listed]
        apart = Packets(bytes(70_000), [5, 40, 3, 0], [10, 20, 0, 65_536])
        self.assertEqual(tenant.run_packets(descriptor, listed), wanted)
        self.assertEqual(tenant.run_packets(descriptor, iter(listed)), wanted)
        self.assertEqual(tenant.run_packets(descriptor, Packets.of(listed)), wanted)
        self.assertEqual(tenant.run_packets(descriptor, Packets.of(listed).first(3)), wanted[:3])
        self.assertEqual(tenant.run_packets(descriptor, apart), [10, 20, 0, 65_536])
        self.assertEqual(tenant.run_packets(descriptor, []), [])
        self.assertEqual(tenant.run_packets(descriptor, Packets.of([])), [])

    def test_contexts(self) -> None:
        tenant = self.host.tenant()
        descriptor = tenant.prog_load(MARK)
        self.assertEqual(tenant.run_packets(descriptor, [b"", b"a"]), [0, 0])
        self.assertEqual(tenant.run_packets(descriptor, [b"", b"a"], Context(mark=2**32 - 7)), [2**32 - 7] * 2)
        marks = [Context(mark=each) for each in (5, 0, 2**32 - 1)]
        self.assertEqual(tenant.run_packets(descriptor, [b"", b"a", b""], marks), [5, 0, 2**32 - 1])
        self.assertEqual(tenant.run_packets(descriptor, [b"a"], marks[2:]), [2**32 - 1])
        self.assertEqual(tenant.run_packets(descriptor, [], []), [])
        for count in (0, 1, 2, 4):
            with self.assertRaisesRegex(ValueError, f"there are 3 contexts for {count} packets"):
                tenant.run_packets(descriptor, [b""] * count, marks)

    def test_bounds(self) -> None:
        """By one call as many packets as a bound allows, and all of them by some calls; COUNT has five instructions."""
        tenant = self.host.tenant(1)
        tenant.map_create(MapType.ARRAY, 4, 8, 1)
        count, length, mark = tenant.prog_load(COUNT), tenant.prog_load(LENGTH), tenant.prog_load(MARK)
        packets = [bytes(size) for size in (3, 0, 5, 1, 0, 2, 9)]
        for bound, ran in ((1, 1), (9, 1), (10, 2), (34, 6), (35, 7), (2**64 - 1, 7), (0, 7)):
            begin = tenant.run_packets(count, [b""])[0] + 1
            self.assertEqual(tenant.run_bounded(count, packets, bound), list(range(begin, begin + ran)))
            begin += ran
            self.assertEqual(tenant.run_packets(count, packets, bound=bound), list(range(begin, begin + 7)))
        marks = [Context(mark=each) for each in (7, 1, 8, 2, 9, 3, 0)]
        data = b"".join(packets)
        starts, lengths = [0, 3, 3, 8, 9, 9, 11], [len(packet) for packet in packets]
        later = Packets(bytearray(b".." + data), [start + 2 for start in starts], lengths)
        forms: list[Packets | list[bytes]] = [packets, Packets.of(packets), Packets(bytearray(data), starts, lengths), later]
        for bound in (1, 4, 5, 6, 13, 14, 0):
            for each in forms:
                self.assertEqual(tenant.run_packets(length, each, bound=bound), [3, 0, 5, 1, 0, 2, 9])
            self.assertEqual(tenant.run_packets(mark, packets, marks, bound), [context.mark for context in marks])
            self.assertEqual(tenant.run_packets(mark, packets, Context(mark=6), bound), [6] * 7)
            self.assertEqual(tenant.run_packets(mark, packets[:1], marks[:1], bound), [7])
            self.assertEqual((tenant.run_packets(length, [], bound=bound), tenant.run_bounded(length, [], bound)), ([], []))
        self.assertEqual(tenant.run_bounded(mark, packets, 4, marks), [7, 1])
        first = tenant.run_packets(count, [b""])[0]
        with self.assertRaisesRegex(ValueError, "a packet has 65,537 bytes"):
            tenant.run_packets(count, [b"", b"", bytes(65_537)], bound=1)
        self.assertEqual(tenant.run_bounded(count, [b"", bytes(65_537)], 1), [first + 1])
        with self.assertRaisesRegex(ValueError, "a bound is a number of 64 bits"):
            tenant.run_packets(count, [b""], bound=2**64)
        with self.assertRaises(Refused):
            tenant.run_packets(60, [b"", b""], bound=1)

    @unittest.skipUnless(PROGRAM, "the variable BPFHOST names no program")
    def test_beside_pipes(self) -> None:
        """What a program reads of each packet, in a batch and by frames."""
        # r2 = 3; r3 = r10 - 8; r4 = 4; load 4 bytes; r0 = them, or the error if the packet ends before.
        slots = bytes.fromhex(
            "b702000003000000 bfa3000000000000 07030000f8ffffff b704000004000000 850000001a000000"
            "5500010000000000 61a0f8ff00000000 9500000000000000"
        )
        packets = Packets.of([bytes(range(at, at + length)) for at, length in enumerate((0, 3, 6, 7, 8, 60, 100))], 0)
        with Host(PROGRAM) as host:
            tenant = host.tenant()
            by_frames = [each for some in tenant.prog_test_runs(tenant.prog_load(slots), [packets]) for each in some]
        mine = self.host.tenant()
        self.assertEqual(mine.run_packets(mine.prog_load(slots), packets), by_frames)

    @needs_libpcap
    def test_the_page(self) -> None:
        """The program of docs/EMBEDDING.md."""
        found = re.search("```python\n(.*?)```", (CLIENT.parents[1] / "docs/EMBEDDING.md").read_text(), re.S)
        assert found
        code = found[1].replace("out/libbpfhost.so", str(self.library.path))
        ended = subprocess.run([sys.executable, "-c", code], capture_output=True, check=False, text=True, cwd=CLIENT)
        self.assertEqual((ended.stdout, ended.stderr), ("[0, 0]\n", ""))

    @unittest.skipUnless(PROGRAM, "the variable BPFHOST names no program")
    def test_bench(self) -> None:
        call = [sys.executable, str(CLIENT / "bench/batches.py"), str(self.library.path), PROGRAM, "--packets", "4096", "--rounds", "1"]
        ended = subprocess.run(call, capture_output=True, check=False, text=True)
        self.assertEqual((ended.stderr, ended.returncode), ("", 0))
        sizes = [line.split()[0] for line in ended.stdout.splitlines()[2:]]
        self.assertEqual(sizes, ["1", "8", "64", "512", "4096"])

    def test_refused_batches(self) -> None:
        tenant = self.host.tenant(1)
        descriptor = tenant.prog_load(ONE)
        self.assertEqual(self.host.ask(frames.map_create(1, MapType.ARRAY, 4, 8, 1)).status, descriptor + 1)
        for number, status in ((descriptor + 1, -22), (descriptor + 2, -9), (2**32 - 1, -9)):
            with self.assertRaises(Refused) as refused:
                tenant.run_packets(number, [b"a"])
            self.assertEqual(refused.exception.status, status)
        with self.assertRaises(Refused):
            self.host.tenant(0).run_packets(descriptor, [b"a"])
        with self.assertRaises(Refused) as refused:
            self.host.run_packets(3, descriptor, [b"a"])
        self.assertEqual(refused.exception.status, -1)
        with self.assertRaisesRegex(ValueError, "a packet has 65,537 bytes, and that of a test run has 65,536 at most"):
            tenant.run_packets(descriptor, [b"a", bytes(65_537), bytes(9)])
        self.assertEqual(tenant.run_packets(descriptor, [b"a"]), [1])
        tenant.close(descriptor)
        with self.assertRaises(Refused):
            tenant.run_packets(descriptor, [])

    def test_saves(self) -> None:
        """A tenant with a map, its keys in order, and a program that keeps a closed map, restored on another host and on one that is not new."""
        tenant, ask = self.host.tenant(1), self.host.ask
        self.assertEqual(ask(frames.map_create(1, MapType.ARRAY, 4, 8, 1)).status, 3)
        count = tenant.prog_load(COUNT)
        self.assertEqual(tenant.run_packets(count, [b"", b""]), [1, 2])
        tenant.close(3)
        self.assertEqual(ask(frames.map_create(1, MapType.HASH, 2, 8, 4)).status, 3)
        for key in (b"no", b"my", b"so"):
            ask(frames.map_update_elem(1, 3, key, bytes(8))).done()
        ask(frames.map_delete_elem(1, 3, b"my")).done()
        parts = list(tenant.save_parts())
        self.assertEqual((len(parts), b"".join(parts)), (7, tenant.save()))
        self.assertEqual((self.host.save_part(1, 7), self.host.save_part(3, 0), self.host.tenant(0).save()), (None, None, EMPTY))
        with self.library.host(3) as other:
            for part in parts:
                other.restore(1, part)
                self.host.ask(frames.map_create(2, MapType.ARRAY, 4, 8, 1)).done()
            restored = other.tenant(1)
            self.assertEqual(restored.run_packets(count, [b"", b""]), [3, 4])
            keys = [other.ask(frames.map_get_next_key(1, 3, key)).payload for key in (b"", b"no")]
            self.assertEqual((keys, other.ask(frames.close(1, 5)).status), ([b"no", b"so"], -9))
            with self.assertRaises(Refused) as refused:
                restored.restore(b"".join(parts))
            self.assertEqual(refused.exception.status, -24)
        self.assertEqual(tenant.run_packets(count, [b""]), [3])

    def test_empty_part(self) -> None:
        """The last part of a tenant whose descriptors are all open closes none of them."""
        tenant = self.host.tenant()
        self.assertEqual([tenant.prog_load(ONE) for _ in range(64)], list(range(3, 67)))
        parts = list(tenant.save_parts())
        self.assertEqual((len(parts), parts[-1], all(parts[:-1])), (66, b"", True))
        with self.library.host() as other:
            for part in parts:
                other.restore(0, part)
            self.assertEqual(other.tenant().save(), tenant.save())

    def test_bad_saves(self) -> None:
        """Cut, or of another tenant: nothing is handled."""
        tenant = self.host.tenant(1)
        saved = tenant.save()
        with self.assertRaisesRegex(ValueError, "a frame of the save is not of tenant 2"):
            self.host.restore(2, saved)
        for length in (1, 27, len(saved) - 1):
            with self.assertRaisesRegex(ValueError, "no whole frame"):
                tenant.restore(saved[:length])
        tenant.restore(saved)
        self.assertEqual(tenant.save(), saved)

    def test_saves_as_another_tenant(self) -> None:
        """Frames of one tenant, whatever its number; those of several are none's. All descriptors are closed after it."""
        tenant = self.host.tenant(1)
        map_ = tenant.map_create(MapType.HASH, 2, 8, 4).descriptor
        tenant.map_update_elem(map_, b"no", bytes(8))
        count, saved = tenant.prog_load(ONE), tenant.save()
        with self.library.host(2) as other:
            first, second = other.tenant(0), other.tenant(1)
            first.restore_as(saved)
            self.assertEqual((first.map_lookup_elem(map_, b"no"), first.run_packets(count, [b""])), (bytes(8), [1]))
            second.restore_as(first.save())
            self.assertEqual(second.save(), saved)
            with self.assertRaises(Refused) as refused:
                first.restore_as(saved)
            self.assertEqual((refused.exception.status, first.close_all(), first.close_all()), (-24, 64, 0))
            with self.assertRaisesRegex(ValueError, "the frames of the save are of several tenants"):
                first.restore_as(saved + frames.close(0, 3))
            with self.assertRaisesRegex(ValueError, "no whole frame"):
                first.restore_as(saved[:-1])
            self.assertEqual(first.close_all(), 0)
            first.restore_as(b"")
            self.assertEqual(first.save(), EMPTY)

    def test_inspection(self) -> None:
        """Counts, what descriptors name, and logs that fit into the first buffer or not."""
        tenant = self.host.tenant(1)
        self.assertEqual((tenant.status(), tenant.opened()), (Counts(0, 0, 0, 0, 0, False), {}))
        map_ = tenant.map_create(MapType.HASH, 2, 8, 4)
        map_[b"no"] = bytes(8)
        program = tenant.prog_load(ONE)
        self.assertEqual(tenant.status(), Counts(1, 1, 32, 1, 2, False))
        self.assertEqual(tenant.opened(), {3: OpenedMap(MapType.HASH, 2, 8, 4, 1), program: OpenedProgram(len(ONE) // 8, Cost(2, 0))})
        self.assertEqual((self.host.status(3).maps, self.host.describe(1, 66)), (0, None))
        log = tenant.verify(ONE)
        self.assertTrue(log.is_accepted and "accepted" in log.text)
        self.assertTrue(tenant.verify(ONE, LogStyle.GRAPH).text.startswith("digraph"))
        long = ONE[:8] * 1000 + ONE
        self.assertEqual((tenant.verify(long).is_accepted, len(tenant.verify(long).text) > 8192), (True, True))
        self.assertFalse(tenant.verify(ONE[:-8]).is_accepted or tenant.verify(b"abc").is_accepted)
        self.assertEqual(tenant.status().programs, 1)

    def test_costs_of_loaded_programs(self) -> None:
        """The most instructions are on one path, and the only call on another; what names no program costs nothing."""
        tenant = self.host.tenant(1)
        branches = tenant.prog_load(BRANCHES)
        cost = tenant.program_cost(branches)
        self.assertEqual((cost, tenant.verify(BRANCHES).cost()), (Cost(10, 1), Cost(10, 1)))
        self.assertEqual(tenant.run_packets(branches, [b"", bytes(11)]), [2**32 - 14, 7])
        self.assertEqual(tenant.opened()[branches], OpenedProgram(16, Cost(10, 1)))
        map_ = tenant.map_create(MapType.HASH, 2, 8, 4)
        self.assertEqual([tenant.program_cost(number) for number in (map_.descriptor, 0, 66)], [None, None, None])
        self.assertEqual([self.host.program_cost(number, branches) for number in (0, 3)], [None, None])
        tenant.close(branches)
        self.assertIsNone(tenant.program_cost(branches))

    def test_costs(self) -> None:
        """The line before the verdict of an accepted program."""
        lines = "0: r0 = 1\n1: exit\ncost: instructions 2, calls 0\naccepted\n"
        self.assertEqual(Log(lines, True).cost(), Cost(2, 0))
        for log in (Log(lines, False), Log("accepted\n", True), Log("digraph {}\n", True)):
            self.assertIsNone(log.cost())

    def test_prepared(self) -> None:
        """By another thread; for a map that is not there, then there; a second time; and refused as a load is."""
        tenant, array, made = self.host.tenant(1), MapShape(MapType.ARRAY, 4, 8, 1), list[PreparedProgram]()
        thread = threading.Thread(target=lambda: made.append(self.library.prepare(COUNT, {3: array})))
        thread.start()
        thread.join()
        with made[0] as prepared:
            self.assertIsNone(tenant.install(prepared))
            tenant.map_create(array.map_type, array.key_size, array.value_size, array.max_entries)
            self.assertEqual(tenant.install(prepared), 4)
            self.assertEqual(tenant.run_packets(4, [b"", b""]), [1, 2])
            with self.assertRaisesRegex(LibraryError, "it was installed or closed already"):
                tenant.install(prepared)
            with self.assertRaisesRegex(TypeError, "a prepared program can't be copied"):
                copy.copy(prepared)
        with self.assertRaises(ProgramRefused) as loaded:
            self.host.tenant(0).prog_load(COUNT)
        with self.assertRaises(ProgramRefused) as refused:
            self.library.prepare(COUNT)
        self.assertEqual((refused.exception.slot, refused.exception.reason), (loaded.exception.slot, loaded.exception.reason))
        wrong: list[dict[int, Named]] = [{3: MapShape(MapType.ARRAY, 5, 8, 1)}, dict.fromkeys(range(65))]
        for named in wrong:
            with self.assertRaisesRegex(ValueError, "a map that there cannot be, or there are more than 64"):
                self.library.prepare(ONE, named)

    def test_frames(self) -> None:
        """Valid and invalid ones; a program that is rejected."""
        self.assertEqual(self.host.handle(b"").hex(), "08000000ffffffffeaffffff")
        self.assertEqual(self.host.handle(b"\7\0\5\0").hex(), "08000000070005" + "00ffffffff")
        self.assertEqual(self.host.ask(frames.close(0, 3)).status, -9)
        with self.assertRaises(ProgramRefused):
            self.host.tenant().prog_load(ONE[:8])
        self.assertFalse(self.host.memory_refused(0))

    def test_frames_in_other_buffers(self) -> None:
        """Bytes of any kind, and no text, of which a call would read wide characters."""
        frame = frames.close(0, 3)[4:]
        wanted = self.host.handle(frame)
        for buffer in (bytearray(frame), memoryview(frame), memoryview(bytearray(frame)), memoryview(b"." + frame)[1:]):
            self.assertEqual(self.host.handle(buffer), wanted)
        self.assertEqual(self.host.handle(bytearray()), self.host.handle(b""))
        for wrong in ("abc", None, 3):
            with self.assertRaises(TypeError):
                self.host.handle(wrong)  # type: ignore[arg-type]

    def test_packets_in_other_buffers(self) -> None:
        """Packets from the first byte of a buffer on, which are not copied, and from a later one on."""
        tenant = self.host.tenant()
        descriptor = tenant.prog_load(FIRST_BYTE)
        data = bytes(range(1, 101))
        mapped = mmap.mmap(-1, len(data))
        mapped.write(data)
        self.addCleanup(mapped.close)
        buffers: list[Any] = [data, bytearray(data), memoryview(data), memoryview(bytearray(data)), mapped]
        for buffer in buffers:
            self.assertEqual(tenant.run_packets(descriptor, Packets(buffer, [0, 10], [10, 90])), [1, 11])
            self.assertEqual(tenant.run_packets(descriptor, Packets(buffer, [5, 50], [10, 50])), [6, 51])
        self.assertEqual(tenant.run_packets(descriptor, [bytearray(b"a"), memoryview(b"b")]), [97, 98])
        with self.assertRaisesRegex(TypeError, "a packet is bytes, and no array of larger numbers"):
            tenant.run_packets(descriptor, [array("I", [1, 2])])  # type: ignore[list-item]
        with self.assertRaises(TypeError):
            tenant.run_packets(descriptor, ["a"])  # type: ignore[list-item]

    def test_commands(self) -> None:
        """Maps, single runs and whether memory was refused, as of a tenant over pipes."""
        tenant = self.host.tenant(2)
        counts = tenant.map_create(MapType.ARRAY, 4, 8, 1)
        words = tenant.map_create(MapType.HASH, 2, 8, 4)
        self.assertEqual((counts.descriptor, words.descriptor), (3, 4))
        words[b"no"], words[b"my"] = bytes(8), b"12345678"
        self.assertEqual((words[b"my"], sorted(words), len(words)), (b"12345678", [b"my", b"no"], 2))
        self.assertEqual(sorted(words.entries()), [(b"my", b"12345678"), (b"no", bytes(8))])
        del words[b"no"]
        self.assertEqual((list(words), len(words)), ([b"my"], 1))
        with self.assertRaises(KeyError):
            words[b"no"]
        with self.assertRaises(Refused):
            tenant.map_lookup_elem(9, b"no")
        count = tenant.prog_load(COUNT)
        self.assertEqual([tenant.prog_test_run(count), tenant.prog_test_run(count, b"a")], [1, 2])
        self.assertEqual(int.from_bytes(counts[bytes(4)], "little"), 2)
        self.assertEqual(tenant.prog_test_run(tenant.prog_load(MARK), b"", Context(mark=9)), 9)
        self.assertFalse(tenant.memory_refused())
        words.close()
        self.assertRegex(repr(tenant), "<LibraryTenant 2 of <LibraryHost of <Library .*>>>")

    def test_no_copies(self) -> None:
        """A copy would free the host of its original."""
        for copied in (copy.copy, copy.deepcopy, pickle.dumps):
            with self.assertRaisesRegex(TypeError, "a host can't be copied"):
                copied(self.host)  # type: ignore[operator]
        gc.collect()
        self.assertEqual(self.host.ask(frames.close(0, 3)).status, -9)

    def test_closed(self) -> None:
        with self.library.host() as host:
            tenant = host.tenant()
            descriptor = tenant.prog_load(ONE)
        with self.assertRaisesRegex(LibraryError, ": its host is closed"):
            tenant.run_packets(descriptor, [b""])
        with self.assertRaisesRegex(LibraryError, ": its host is closed"):
            tenant.close(descriptor)
        with self.assertRaisesRegex(LibraryError, ": its host is closed"):
            host.memory_refused(0)
        host.close()

    def test_wrong_words(self) -> None:
        for tenants in (0, 65, -1):
            with self.assertRaisesRegex(ValueError, "a host serves 1 to 64 tenants, and not "):
                self.library.host(tenants)
        for seed in ((-1, 0), (0, 2**64)):
            with self.assertRaisesRegex(ValueError, "a seed is two numbers"):
                self.library.host(1, seed)
        with self.assertRaisesRegex(ValueError, "tenant 3 is not served: this host has the tenants 0 to 2"):
            self.host.tenant(3)
        for tenant, descriptor in ((-1, 3), (2**16, 3), (0, -1), (0, 2**32)):
            with self.assertRaisesRegex(ValueError, "the tenant is a number of 16 bits, and a descriptor one of 32"):
                self.host.run_packets(tenant, descriptor, [])

    def test_threads_and_hosts(self) -> None:
        """Threads share a host, and hosts share nothing."""
        tenants = [self.host.tenant(number) for number in range(3)]
        descriptors = [tenant.prog_load(LENGTH) for tenant in tenants]
        found: list[list[int]] = []

        def work(number: int) -> None:
            for times in range(50):
                found.append(tenants[number].run_packets(descriptors[number], [bytes(number)] * times))

        threads = [threading.Thread(target=work, args=(number,)) for number in range(3)]
        for thread in threads:
            thread.start()
        for thread in threads:
            thread.join()
        self.assertEqual(sorted(found), sorted([number] * times for number in range(3) for times in range(50)))
        with LibraryHost(self.library) as other, self.assertRaises(Refused):
            other.tenant().run_packets(descriptors[0], [])
