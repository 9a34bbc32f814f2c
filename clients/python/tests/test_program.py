"""The program bpfhost by its path, its subcommands, and the verifier's log."""

from __future__ import annotations

import contextlib
import os
import unittest
from pathlib import Path
from unittest import mock

from bpfhost import HostError, InputError, MapShape, MapType, assemble, disassemble, find_program, hex_lines, serve, verify
from bpfhost.program import find_verifier_log, log_or_fault, slots_of, verifier_log
from tests.common import ONE, PROGRAM, HostTest, TimedTest


class Lines(unittest.TestCase):
    def test_hex_lines(self) -> None:
        self.assertEqual(hex_lines(ONE), "b700000001000000\n9500000000000000\n")
        self.assertRaises(ValueError, hex_lines, ONE[:7])

    def test_slots_of_lines_as_the_page_on_instructions_has_them(self) -> None:
        self.assertEqual(slots_of("\tB700000001000000 \r\n\n9500000000000000"), ONE)
        for bad in ("b70000000100000", "b7000000010000000", "b7 00000001000000", "b700000001000000 95", "zz00000001000000"):
            with self.assertRaisesRegex(InputError, "file:2: a slot is sixteen hexadecimal digits"):
                slots_of(f"9500000000000000\n{bad}\n", "file")


class Finding(TimedTest):
    def test_the_named_program_goes_first(self) -> None:
        with mock.patch.dict(os.environ, {"BPFHOST": "/of/the/variable"}):
            self.assertEqual(find_program("/named"), "/named")
            self.assertEqual(find_program(), "/of/the/variable")

    def test_then_that_of_path(self) -> None:
        program = self.scratch / "bpfhost"
        program.write_text("#!/bin/sh\n")
        program.chmod(0o755)
        with mock.patch.dict(os.environ, {"PATH": str(self.scratch)}):
            os.environ.pop("BPFHOST", None)
            self.assertEqual(find_program(), str(program))

    def test_none_is_told(self) -> None:
        with mock.patch.dict(os.environ, {"PATH": ""}), mock.patch("bpfhost.program._BUILT", self.scratch / "nothing"):
            os.environ.pop("BPFHOST", None)
            self.assertRaisesRegex(HostError, "there is no program bpfhost", find_program)

    def test_a_program_that_does_not_start(self) -> None:
        self.assertRaisesRegex(HostError, "/nowhere/bpfhost does not start: No such file", serve, "/nowhere/bpfhost", 1, b"")

    def test_a_verdict_that_is_none(self) -> None:
        for said in ("refused: slot one reason 2", "refused: slot 1 reason", "perhaps"):
            program = self.pretender(f"print({said!r}); sys.exit(1)")
            self.assertRaises(HostError, verify, program, ONE, {})


class Subcommands(HostTest):
    def test_asm_and_dis(self) -> None:
        self.assertEqual(assemble(PROGRAM, "r0 = 1\nexit\n"), ONE)
        self.assertEqual(disassemble(PROGRAM, ONE), "r0 = 1\nexit\n")

    def test_a_text_that_is_wrong(self) -> None:
        """An InputError says the line, and what is wrong with it."""
        self.assertRaisesRegex(InputError, "the text:2: exti: it is none of the forms", assemble, PROGRAM, "r0 = 1\nexti\n")
        self.assertRaisesRegex(InputError, "the text: there is no instruction", assemble, PROGRAM, "")
        self.assertRaisesRegex(InputError, "the slots: slot 1: no instruction begins", disassemble, PROGRAM, ONE[:8] + b"\xff" * 8)
        self.assertRaisesRegex(HostError, "/nowhere does not start", assemble, "/nowhere", "exit\n")

    def test_serve(self) -> None:
        self.assertEqual(serve(PROGRAM, 1, b""), b"")
        with self.assertRaises(HostError) as ended:
            serve(PROGRAM, 1, bytes.fromhex("08000000 0000 0001 03000000 ff"))
        self.assertEqual(ended.exception.fault, "truncated after 1 frames")
        self.assertEqual(ended.exception.written, bytes.fromhex("08000000 0000 0001 f7ffffff"))

    def test_verify_as_the_readme_has_it(self) -> None:
        slots = bytes.fromhex("1811000003000000 0000000000000000 b700000000000000 9500000000000000")
        one = MapShape(MapType.ARRAY, 4, 8, 1)
        self.assertIsNone(verify(PROGRAM, slots, {3: one}).refused)
        self.assertEqual(verify(PROGRAM, slots, {}).refused, (0, 7))
        self.assertEqual(verify(PROGRAM, slots, {4: one}).refused, (0, 7))
        self.assertRaisesRegex(HostError, "map word 1 is wrong", verify, PROGRAM, slots, {3: MapShape(MapType.ARRAY, 5, 8, 1)})

    def test_slots_that_are_no_program(self) -> None:
        self.assertEqual(verify(PROGRAM, b"\xff" * 8, {}).refused, (0, 101))


def without_log() -> contextlib.AbstractContextManager[object]:
    """An environment that names no program `verifier_log`, and without a build that left one."""
    stack = contextlib.ExitStack()
    stack.enter_context(mock.patch.dict(os.environ, {"PATH": ""}))
    stack.enter_context(mock.patch("bpfhost.program._BUILT_LOG", Path("/nowhere/verifier_log")))
    os.environ.pop("VERIFIER_LOG", None)
    return stack


class FindingTheLog(TimedTest):
    def setUp(self) -> None:
        super().setUp()
        self.enterContext(without_log())

    def made(self, name: str) -> str:
        """A program of this name in the scratch folder."""
        path = self.scratch / name
        path.parent.mkdir(parents=True, exist_ok=True)
        path.write_text("#!/bin/sh\n")
        path.chmod(0o755)
        return str(path)

    def test_there_may_be_none(self) -> None:
        self.assertIsNone(find_verifier_log(self.scratch / "bpfhost"))
        self.assertIsNone(verifier_log(self.scratch / "bpfhost", ONE, {}))
        (self.scratch / "verifier_log").mkdir()
        self.assertIsNone(find_verifier_log(self.scratch / "bpfhost"))

    def test_the_one_beside_bpfhost_goes_before_that_of_path(self) -> None:
        os.environ["PATH"] = os.path.dirname(self.made("bin/verifier_log"))
        self.assertEqual(find_verifier_log(self.made("own/bpfhost")), str(self.scratch / "bin/verifier_log"))
        beside = self.made("own/verifier_log")
        self.assertEqual(find_verifier_log(self.scratch / "own/bpfhost"), beside)

    def test_bpfhost_may_be_of_path_itself(self) -> None:
        os.environ["PATH"] = os.path.dirname(self.made("bin/bpfhost"))
        beside = self.made("bin/verifier_log")
        self.assertEqual(find_verifier_log("bpfhost"), beside)

    def test_that_of_the_same_build(self) -> None:
        program, log = self.made("crates/bpfhost/out/bpfhost"), self.made("crates/verifier_log/out/verifier_log")
        self.assertEqual(find_verifier_log(program), log)

    def test_that_of_this_clone_goes_last(self) -> None:
        built = self.made("built/verifier_log")
        with mock.patch("bpfhost.program._BUILT_LOG", Path(built)):
            self.assertEqual(find_verifier_log("/elsewhere/bpfhost"), built)
            os.environ["PATH"] = os.path.dirname(self.made("bin/verifier_log"))
            self.assertEqual(find_verifier_log("/elsewhere/bpfhost"), str(self.scratch / "bin/verifier_log"))

    def test_the_variable(self) -> None:
        program = self.made("bpfhost")
        self.made("verifier_log")
        for named, found in (("/named/log", "/named/log"), ("", None)):
            os.environ["VERIFIER_LOG"] = named
            self.assertEqual(find_verifier_log(program), found)


class Log(TimedTest):
    def setUp(self) -> None:
        super().setUp()
        self.enterContext(without_log())

    def log_of(self, script: str) -> str | None:
        """The log of a program `verifier_log` next to another program."""
        os.rename(self.pretender(script), self.scratch / "verifier_log")
        return verifier_log(self.scratch / "bpfhost", ONE, {3: MapShape(MapType.HASH, 4, 8, 2)})

    def test_it_is_given_slots_and_maps(self) -> None:
        self.assertEqual(self.log_of("print(sys.argv[1:], read())"), f"['3:hash:4:8:2'] {hex_lines(ONE).encode()!r}\n")

    def test_a_refused_program_has_a_log_too(self) -> None:
        self.assertEqual(self.log_of("print('0: r0 = 1'); sys.exit(1)"), "0: r0 = 1\n")

    def test_another_status_is_told(self) -> None:
        for status, fault in ((2, "map word 1 is wrong"), (3, "read fault"), (4, "out of memory")):
            script = f"print({fault!r}, file=sys.stderr); sys.exit({status})"
            told = f"verifier_log ended with status {status}: {fault}"
            self.assertRaisesRegex(HostError, told, self.log_of, script)
            self.assertEqual(log_or_fault(self.scratch / "bpfhost", ONE, {}), f"there is no log: {told}\n")

    def test_one_that_does_not_start(self) -> None:
        os.environ["VERIFIER_LOG"] = "/nowhere/log"
        told = "there is no log: /nowhere/log does not start: No such file or directory\n"
        self.assertEqual(log_or_fault("bpfhost", ONE, {}), told)


@unittest.skipUnless(PROGRAM and find_verifier_log(PROGRAM), "there is no program verifier_log")
class TrueLog(HostTest):
    """The program itself: its log has the program's text, and ends with the cost and the verdict."""

    def test_an_accepted_program(self) -> None:
        log = verifier_log(PROGRAM, ONE, {})
        assert log is not None
        self.assertEqual(log.splitlines()[-2:], ["cost: instructions 2, calls 0", "accepted"])
        for text in disassemble(PROGRAM, ONE).splitlines():
            self.assertIn(text, log)

    def test_a_refused_program(self) -> None:
        slots = assemble(PROGRAM, "r1 = map_fd 3 ll\nr0 = 0\nexit\n")
        one = MapShape(MapType.ARRAY, 4, 8, 1)
        self.assertTrue((verifier_log(PROGRAM, slots, {3: one}) or "").endswith("accepted\n"))
        log = verifier_log(PROGRAM, slots, {4: one}) or ""
        self.assertEqual(verify(PROGRAM, slots, {4: one}).refused, (0, 7))
        self.assertRegex(log, r"slot 0\b.*\b7\b")
        self.assertNotIn("accepted", log)

    def test_maps_that_are_wrong(self) -> None:
        wrong = {3: MapShape(MapType.ARRAY, 5, 8, 1)}
        self.assertRaisesRegex(HostError, "verifier_log ended with status 2", verifier_log, PROGRAM, ONE, wrong)
