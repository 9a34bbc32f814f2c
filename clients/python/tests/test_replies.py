"""Replies: their bytes are those of docs/PROTOCOL.md, and their words those of its errors and of docs/VERIFIER.md."""

import unittest

from bpfhost import Command, Errno, ProgramRefused, Refused, Reply, ReplyError, read_replies
from bpfhost.words import command_name, errno_name, errno_words, reason_words


def of(text: str) -> list[Reply]:
    """The replies that hexadecimal digits are."""
    return list(read_replies(bytes.fromhex(text)))


class Replies(unittest.TestCase):
    def test_replies_of_the_protocol(self) -> None:
        stream = "08000000 0100 0000 03000000 08000000 0000 0000 e4ffffff 0c000000 0100 0a00 00000000 05000000"
        made, full, ran = of(stream)
        self.assertEqual(made, Reply(1, Command.MAP_CREATE, 3))
        self.assertEqual(full, Reply(0, Command.MAP_CREATE, -28))
        self.assertEqual(ran, Reply(1, Command.PROG_TEST_RUN, 0, bytes.fromhex("05000000")))
        self.assertEqual(ran.result(), 5)
        self.assertEqual(b"".join(reply.to_bytes() for reply in (made, full, ran)), bytes.fromhex(stream))

    def test_words(self) -> None:
        told = {
            "08000000 0100 0000 03000000": "tenant 1, MAP_CREATE: descriptor 3",
            "08000000 0000 0000 e4ffffff": "tenant 0, MAP_CREATE: ENOSPC (-28): no room for another map",
            "0c000000 0100 0a00 00000000 05000000": "tenant 1, PROG_TEST_RUN: result 5",
            "0a000000 0000 0100 00000000 abcd": "tenant 0, MAP_LOOKUP_ELEM: value abcd",
            "09000000 0000 0400 00000000 6b": "tenant 0, MAP_GET_NEXT_KEY: key 6b",
            "08000000 0000 0001 00000000": "tenant 0, CLOSE: done",
            "08000000 0000 0700 eaffffff": "tenant 0, command 7: EINVAL (-22): a field or a size is invalid",
            "08000000 ffff ffff eaffffff": "no tenant, no command: EINVAL (-22): a field or a size is invalid",
            "0e000000 0000 0500 f3ffffff 02000000 1d00": "tenant 0, PROG_LOAD: EACCES (-13), slot 2, reason 29: outside a map's value",
            "0e000000 0000 0500 f9ffffff 00100000 6b00": "tenant 0, PROG_LOAD: E2BIG (-7), slot 4096, reason 107: "
            "there are more than 4,096 slots",
        }
        for stream, words in told.items():
            self.assertEqual([str(reply) for reply in of(stream)], [words])

    def test_unknown_numbers_have_words_too(self) -> None:
        self.assertEqual(errno_name(-99), "error -99")
        self.assertEqual(errno_words(-99), "not an error of the protocol")
        self.assertEqual(reason_words(99), "not a reason of the verifier")
        self.assertEqual(command_name(9), "command 9")

    def test_done_tells_a_refusal(self) -> None:
        self.assertEqual(Reply(0, Command.PROG_LOAD, 7).done(), 7)
        with self.assertRaises(ProgramRefused) as refused:
            of("0e000000 0000 0500 f3ffffff 02000000 1d00")[0].done()
        self.assertEqual((refused.exception.slot, refused.exception.reason, refused.exception.status), (2, 29, -13))
        with self.assertRaises(Refused) as closed:
            Reply(0, Command.CLOSE, -9).done()
        self.assertTrue(closed.exception.has(Errno.EBADF))
        self.assertNotIsInstance(closed.exception, ProgramRefused)

    def test_a_load_that_memory_is_refused_to_has_no_slot(self) -> None:
        self.assertIsNone(Reply(0, Command.PROG_LOAD, -12).refusal())

    def test_results_are_of_test_runs_alone(self) -> None:
        for reply in (Reply(0, Command.CLOSE, 0), Reply(0, Command.PROG_TEST_RUN, -9), Reply(0, Command.PROG_TEST_RUN, 0, b"abc")):
            self.assertRaises(ReplyError, reply.result)

    def test_bytes_that_are_no_replies(self) -> None:
        whole = "08000000 0000 0001 00000000"
        for bad in ("08", "080000", "07000000 0000 0001 000000", "08000000 0000 0001 000000", "ffffffff 0000 0001 00000000"):
            with self.assertRaisesRegex(ReplyError, "the bytes from 12 on are not a whole reply"):
                of(whole + bad)
