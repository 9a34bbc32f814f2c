"""Frames: their bytes are those of docs/PROTOCOL.md."""

import unittest

from bpfhost import Context, MapType, Update, frames


def of(text: str) -> bytes:
    """The bytes that hexadecimal digits are."""
    return bytes.fromhex(text)


class Frames(unittest.TestCase):
    def test_the_exchange_of_the_page(self) -> None:
        load = frames.prog_load(0, of("b700000001000000 9500000000000000"))
        self.assertEqual(load, of("18000000 0000 0500 01000000 b700000001000000 9500000000000000"))
        self.assertEqual(frames.prog_test_run(0, 3), of("30000000 0000 0a00 03000000") + bytes(40))

    def test_two_tenants_of_the_protocol(self) -> None:
        made = frames.map_create(1, MapType.ARRAY, 4, 8, 1)
        self.assertEqual(made, of("18000000 0100 0000 02000000 04000000 08000000 01000000 00000000"))
        large = frames.map_create(0, MapType.ARRAY, 4, 4096, 16)
        self.assertEqual(large, of("18000000 0000 0000 02000000 04000000 00100000 10000000 00000000"))
        update = frames.map_update_elem(1, 3, bytes(4), of("0500000000000000"))
        self.assertEqual(update, of("1c000000 0100 0200 03000000 00000000 00000000 00000000 05000000 00000000"))
        self.assertEqual(frames.close(0, 3), of("08000000 0000 0001 03000000"))
        self.assertEqual(frames.map_lookup_elem(1, 3, bytes(4)), of("0c000000 0100 0100 03000000 00000000"))

    def test_fields_that_the_page_only_tells(self) -> None:
        self.assertEqual(frames.map_delete_elem(2, 4, b"k"), of("09000000 0200 0300 04000000 6b"))
        self.assertEqual(frames.map_get_next_key(2, 4), of("08000000 0200 0400 04000000"))
        self.assertEqual(frames.map_get_next_key(2, 4, b"k"), of("09000000 0200 0400 04000000 6b"))
        kept = frames.map_update_elem(0, 3, b"k", b"v", Update.EXIST)
        self.assertEqual(kept, of("12000000 0000 0200 03000000 02000000 00000000 6b 76"))
        self.assertEqual(frames.map_create(0, MapType.HASH, 1, 2, 3, 4)[8:], of("01000000 01000000 02000000 03000000 04000000"))

    def test_context_has_its_words_in_order(self) -> None:
        words = Context(1, 2, 3, 4, 5, 6, 7, 8, 9, 0x01020304)
        run = frames.prog_test_run(0, 3, b"\xee", words)
        wanted = "01000000 02000000 03000000 04000000 05000000 06000000 07000000 08000000 09000000 04030201 ee"
        self.assertEqual(run[12:], of(wanted))
        self.assertEqual(run[:4], of("31000000"))

    def test_a_frame_of_any_body(self) -> None:
        self.assertEqual(frames.frame(65535, 65535, b"xy"), of("06000000 ffff ffff 7879"))

    def test_numbers_without_room_are_refused(self) -> None:
        for frame in (
            lambda: frames.frame(65536, 0),
            lambda: frames.frame(-1, 0),
            lambda: frames.close(0, 1 << 32),
            lambda: frames.map_update_elem(0, 3, b"", b"", 1 << 64),
            lambda: frames.map_create(0, 1, -1, 0, 0),
            lambda: frames.prog_test_run(0, 3, b"", Context(mark=1 << 32)),
        ):
            self.assertRaisesRegex(ValueError, "and a frame has room for 0 to", frame)
