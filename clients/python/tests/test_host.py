"""A running host: frames one at a time and many at once, and programs that exit or reply wrongly."""

from __future__ import annotations

import itertools
from collections.abc import Iterator

from bpfhost import Host, HostError, MapType, Refused, ReplyError, Update, assemble, frames
from tests.common import LENGTH, ONE, PROGRAM, HostTest, TimedTest

# The filter and the exchange of docs/PROTOCOL.md, "Two tenants in one stream".
LOOK_UP = bytes.fromhex(
    "620afcff00000000 bfa2000000000000 07020000fcffffff 1811000003000000 0000000000000000 8500000001000000"
    "5500020000000000 b700000000000000 9500000000000000 7900000000000000 9500000000000000"
)
EXCHANGE = [
    (frames.map_create(1, MapType.ARRAY, 4, 8, 1), "08000000 0100 0000 03000000"),
    (frames.map_create(0, MapType.ARRAY, 4, 4096, 16), "08000000 0000 0000 03000000"),
    (frames.map_update_elem(1, 3, bytes(4), bytes([5, 0, 0, 0, 0, 0, 0, 0])), "08000000 0100 0200 00000000"),
    (frames.prog_load(1, LOOK_UP), "08000000 0100 0500 04000000"),
    (frames.close(0, 3), "08000000 0000 0001 00000000"),
    (frames.prog_test_run(1, 4), "0c000000 0100 0a00 00000000 05000000"),
    (frames.map_lookup_elem(1, 3, bytes(4)), "10000000 0100 0100 00000000 05000000 00000000"),
]


class Asking(HostTest):
    def test_the_exchange_of_the_protocol(self) -> None:
        with Host(PROGRAM, 2) as host:
            for frame, wanted in EXCHANGE:
                self.assertEqual(host.ask(frame).to_bytes(), bytes.fromhex(wanted))

    def test_the_same_at_once(self) -> None:
        with Host(PROGRAM, 2) as host:
            replies = list(host.ask_all(frame for frame, _ in EXCHANGE))
        self.assertEqual([reply.to_bytes() for reply in replies], [bytes.fromhex(wanted) for _, wanted in EXCHANGE])

    def test_the_same_as_bytes(self) -> None:
        with Host(PROGRAM, 2) as host:
            host.widen()
            replies = list(host.ask_bytes(frame for frame, _ in EXCHANGE * 500))
        self.assertEqual(replies[: len(EXCHANGE)], [bytes.fromhex(wanted) for _, wanted in EXCHANGE])
        self.assertEqual(len(replies), 500 * len(EXCHANGE))

    def test_tenants_that_are_not_served(self) -> None:
        with Host(PROGRAM, 1) as host:
            self.assertEqual(host.ask(frames.close(1, 3)).status, -1)
        for tenants in (0, 65):
            self.assertRaisesRegex(ValueError, "a host serves 1 to 64 tenants", Host, PROGRAM, tenants)

    def test_bytes_that_are_no_whole_frame_are_not_sent(self) -> None:
        with Host(PROGRAM) as host:
            for bad in (b"", b"\x04\0\0", b"\x05\0\0\0\0\0\0\0", frames.close(0, 3) * 2):
                self.assertRaisesRegex(ValueError, "are not a whole frame", host.ask, bad)
                self.assertRaisesRegex(ValueError, "are not a whole frame", list, host.ask_all([bad]))
            self.assertEqual(host.ask(bytes.fromhex("03000000 626164")).status, -22)

    def test_a_frame_that_is_too_long_is_answered(self) -> None:
        with Host(PROGRAM) as host:
            self.assertEqual(host.ask(frames.frame(0, 10, bytes(131_069))).status, -7)
            self.assertEqual(host.ask(frames.frame(0, 10, bytes(4_000_000))).status, -7)

    def test_closing_twice_and_asking_afterwards(self) -> None:
        host = Host(PROGRAM)
        host.close()
        host.close()
        self.assertRaisesRegex(HostError, "was ended before", host.ask, frames.close(0, 3))


class ManyAtOnce(HostTest):
    def test_small_replies_in_their_order(self) -> None:
        numbers = range(50_000)
        with Host(PROGRAM) as host:
            tenant = host.tenant()
            program = tenant.prog_load(assemble(PROGRAM, "r0 = *(u32 *)(r1 + 8)\nexit\n"))
            asked = (frames.prog_test_run(0, program, b"", frames.Context(mark=number)) for number in numbers)
            self.assertEqual([reply.result() for reply in host.ask_all(asked)], list(numbers))

    def test_replies_and_frames_that_fill_both_pipes(self) -> None:
        value = bytes(range(256)) * 16
        with Host(PROGRAM) as host:
            large = host.tenant().map_create(MapType.HASH, 512, 4096, 2)
            key = bytes(511) + b"k"
            large[key] = value
            look_up, update = frames.map_lookup_elem(0, large.descriptor, key), frames.map_update_elem(0, large.descriptor, key, value)
            long_run = frames.prog_test_run(0, 66, bytes(65_536))
            asked = list(itertools.islice(itertools.cycle((look_up, update, look_up, long_run)), 2000))
            told = [(reply.status, reply.payload) for reply in host.ask_all(asked)]
        self.assertEqual(told, [(0, value), (0, b""), (0, value), (-9, b"")] * 500)

    def test_whoever_stops_early_gets_the_right_reply_next(self) -> None:
        with Host(PROGRAM) as host:
            replies = host.ask_all(frames.map_update_elem(0, 3, b"", b"", Update.ANY) for _ in range(30_000))
            self.assertEqual(next(replies).status, -9)
            assert isinstance(replies, Iterator)
            del replies
            self.assertEqual(host.tenant().prog_load(ONE), 3)

    def test_a_frame_that_can_not_be_sent_leaves_the_host_of_use(self) -> None:
        def asked() -> Iterator[bytes]:
            yield from [frames.close(0, 3)] * 30_000
            raise KeyError("no more frames")

        with Host(PROGRAM) as host:
            self.assertRaisesRegex(KeyError, "no more frames", list, host.ask_all(asked()))
            self.assertRaisesRegex(ValueError, "are not a whole frame", list, host.ask_bytes([*[frames.close(0, 3)] * 30_000, b"bad"]))
            self.assertEqual(host.tenant().prog_load(ONE), 3)

    def test_it_does_not_wait_for_frames_that_come_late(self) -> None:
        with Host(PROGRAM) as host:
            self.assertEqual(list(host.ask_all([])), [])
            self.assertEqual([reply.status for reply in host.ask_all(iter([frames.close(0, 3)]))], [-9])


class Ends(TimedTest):
    def error_of(self, script: str) -> HostError:
        """The error of a frame for a program that does this."""
        with self.assertRaises(HostError) as ended, Host(self.pretender(script)) as host:
            host.ask(frames.close(0, 3))
        return ended.exception

    def test_a_program_that_does_not_start(self) -> None:
        self.assertRaisesRegex(HostError, "/nowhere does not start: No such file or directory", Host, "/nowhere")
        self.assertRaisesRegex(HostError, "does not start: Permission denied", Host, str(self.scratch))

    def test_its_words_are_the_text(self) -> None:
        ended = self.error_of("print('out of memory', file=sys.stderr); sys.exit(4)")
        self.assertEqual(str(ended), "bpfhost serve, before its reply, ended with status 4: out of memory")
        self.assertEqual(ended.fault, "out of memory")

    def test_it_ends_in_the_middle_of_many_frames(self) -> None:
        program = self.pretender("read(1000); print('read fault', file=sys.stderr); sys.exit(3)")
        with self.assertRaisesRegex(HostError, "ended with status 3: read fault"), Host(program) as host:
            list(host.ask_all(frames.prog_test_run(0, 3, bytes(1000)) for _ in range(10_000)))

    def test_it_ends_in_the_middle_of_a_reply(self) -> None:
        script = "read(12); os.write(1, bytes.fromhex('0c0000000000')); print('write fault', file=sys.stderr); sys.exit(3)"
        self.assertIn("ended with status 3: write fault", str(self.error_of(script)))

    def test_it_ends_by_a_signal(self) -> None:
        self.assertIn("ended by SIGKILL: it gave no reason", str(self.error_of("os.kill(os.getpid(), 9)")))

    def test_it_ends_with_another_status_than_0_at_the_end(self) -> None:
        program = self.pretender("read(); print('too many frames', file=sys.stderr); sys.exit(1)")
        with self.assertRaisesRegex(HostError, "bpfhost serve ended with status 1: too many frames"):
            Host(program).close()

    def test_it_writes_a_great_deal_on_standard_error(self) -> None:
        self.assertEqual(len(self.error_of("print('x' * 1_000_000, file=sys.stderr); sys.exit(1)").fault), 1_000_000)

    def test_it_answers_no_reply(self) -> None:
        for said in ("07000000000000000000", "0d100000", "ffffffff"):
            program = self.pretender(f"read(12); os.write(1, bytes.fromhex({said!r})); read()")
            with self.assertRaisesRegex(ReplyError, "with which no reply begins"), Host(program) as host:
                host.ask(frames.close(0, 3))
            with self.assertRaisesRegex(ReplyError, "with which no reply begins"), Host(program) as host:
                list(host.ask_bytes([frames.close(0, 3)]))

    def test_it_answers_something_else(self) -> None:
        """The reply to a close, when another tenant's close or a lookup was sent."""
        program = self.pretender("read(12); os.write(1, bytes.fromhex('0800000000000001 00000000')); read()")
        told = "the reply is not to this command: tenant 0, CLOSE: done"
        with self.assertRaisesRegex(ReplyError, told), Host(program, 2) as host:
            host.tenant(1).close(3)
        with self.assertRaisesRegex(ReplyError, told), Host(program, 2) as host:
            host.tenant().map_lookup_elem(3, b"")

    def test_it_answers_more_than_was_asked(self) -> None:
        program = self.pretender("read(12); os.write(1, bytes.fromhex('0800000000000001 00000000') * 2); read()")
        with self.assertRaisesRegex(ReplyError, "wrote 12 bytes more than the replies"), Host(program) as host:
            host.ask(frames.close(0, 3))

    def test_an_error_of_the_caller_ends_the_program_too(self) -> None:
        program = self.pretender("read(); os.write(1, bytes(1_000_000))")
        with self.assertRaises(KeyError), Host(program):
            raise KeyError

    def test_a_program_that_does_not_end_is_ended(self) -> None:
        self.assertIn("ended by SIGKILL", str(self.error_of("os.close(1); time.sleep(1000)")))


class Refusals(HostTest):
    def test_a_refusal_leaves_the_host_of_use(self) -> None:
        with Host(PROGRAM) as host:
            tenant = host.tenant()
            self.assertRaises(Refused, tenant.close, 3)
            program = tenant.prog_load(LENGTH)
            self.assertEqual(tenant.prog_test_run(program, b"12345"), 5)
