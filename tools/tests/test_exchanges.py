"""tools/exchanges reads frames as pages have them, reports replies that differ, and frames that it can't read."""

from __future__ import annotations

import sys
import tempfile
import unittest
from pathlib import Path

import exchanges

HEAD = "| Frame | Meaning | Reply | |\n|---|---|---|---|\n"
FIRST = "| `08000000 0100 0001 03000000` | a close | `08000000 0100 0001 01000000` | |\n"
AGAIN = "| the same frame | again | `08000000 0100 0001 02000000` | |\n"
LOAD = "| `10000000 0000 0500 01000000` and the slots below | a load | `08000000 0000 0500 01000000` | |\n"
LISTING = "\nThe slots are those of\n\n    exit\n\nthat is `9500000000000000`.\n"
# Replies to each frame with the number of its tenant's frames so far, and assembles each line as an exit.
PROGRAM = f"""#!{sys.executable}
import sys
read = sys.stdin.buffer.read()
if sys.argv[1] == "asm":
    print("95" + "0" * 14)
sent = dict()
while sys.argv[1] == "serve" and read:
    length = int.from_bytes(read[:4], "little")
    sent[read[4:6]] = sent.get(read[4:6], 0) + 1
    sys.stdout.buffer.write(b"\\x08\\0\\0\\0" + read[4:8] + sent[read[4:6]].to_bytes(4, "little"))
    read = read[4 + length:]
"""


class Exchanges(unittest.TestCase):
    def setUp(self) -> None:
        folder = tempfile.TemporaryDirectory()
        self.addCleanup(folder.cleanup)
        program = Path(folder.name) / "program"
        program.write_text(PROGRAM)
        program.chmod(0o755)
        self.program = str(program)

    def play(self, page: str) -> tuple[list[str], int, int]:
        told: tuple[list[str], int, int] = exchanges.play_page(self.program, page)
        return told

    def test_table(self) -> None:
        self.assertEqual(self.play("# A page\n\n" + HEAD + FIRST + LOAD + AGAIN.replace("the same frame", "`04000000 0100 0001`") + LISTING), ([], 1, 3))
        self.assertEqual(self.play(HEAD + FIRST + AGAIN), ([], 1, 2))

    def test_parts(self) -> None:
        frame = exchanges.frame_in(1, "`0102 03` and 2 zero bytes and the slots below", b"", b"\4")
        self.assertEqual(frame, b"\1\2\3\0\0\4")

    def test_another_reply(self) -> None:
        told = self.play(HEAD + FIRST + AGAIN.replace("02000000", "03000000"))
        self.assertEqual(told[0], ["4: in this stream the reply is 08000000 0100 0001 02000000, and the page has 08000000 0100 0001 03000000"])

    def test_reply_that_another_tenant_changes(self) -> None:
        Path(self.program).write_text(PROGRAM.replace("sent.get(read[4:6], 0)", "sum(sent.values())"))
        other = "| `08000000 0000 0001 03000000` | a close | `08000000 0000 0001 02000000` | |\n"
        told = self.play(HEAD + FIRST + other)
        self.assertEqual(told[0], ["4: where tenant 0 is alone the reply is 08000000 0000 0001 01000000, and the page has 08000000 0000 0001 02000000"])

    def test_blocks(self) -> None:
        frames = "```text\n08000000 0000 0001      a close\n03000000\n08000000 0000 0001 04000000\n```\n"
        replies = "```text\n08000000 0000 0001 01000000\n08000000 0000 0001 02000000  done\n```\n"
        self.assertEqual(self.play(frames + replies), ([], 1, 2))
        self.assertEqual(self.play(frames + replies.replace(" 02", " 07"))[0][0][:38], "8: in this stream the reply is 0800000")
        self.assertEqual(self.play(frames)[0], ["2: a block of frames without a block of replies"])

    def test_one_reply_too_few(self) -> None:
        page = exchanges.exchanges_of(HEAD + FIRST + AGAIN)[0]
        wrong = exchanges.differences(self.program, 2, page.frames, page.replies[:1], "here")
        self.assertEqual(wrong, ["3: here the reply is 08000000 0100 0001 02000000, and the page has nothing"])

    def test_text_of_other_slots(self) -> None:
        wrong = self.play(HEAD + LOAD.replace("10000000", "18000000") + LISTING.replace("`95", "`b700000001000000 95"))[0]
        self.assertEqual(wrong, ["7: the text's slots are 9500000000000000, and the page has b700000001000000 9500000000000000"])

    def test_what_is_not_read(self) -> None:
        for page, fault in (
            (HEAD.replace("Reply", "Answer") + FIRST, "1: a table of frames without the columns Frame and Reply, or without rows"),
            (HEAD + FIRST.replace("`08000000 0100 0001 03000000`", "a close of 3"), "3: these are no bytes as hex digits: a close of 3"),
            (HEAD + FIRST.replace("| `08", "| `09"), "3: Frame: its length field is not the number of the bytes behind it"),
            (HEAD + LOAD, "1: no text with its slots stands below"),
            ("    08000000 0000 0001 03000000\n\n    08000000 0000 0001 0000\n", "3: the block ends inside a frame or a reply"),
        ):
            self.assertEqual(self.play(page), ([fault], 0, 0))

    def test_no_frames(self) -> None:
        self.assertEqual(self.play("| Opcode | Text |\n|---|---|\n| `9500000000000000` | exit |\n\n    b700000001000000\n"), ([], 0, 0))


if __name__ == "__main__":
    unittest.main()
