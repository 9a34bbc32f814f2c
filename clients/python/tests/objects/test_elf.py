"""Files that are no objects of machine BPF, and objects that are damaged."""

from __future__ import annotations

import subprocess
import sys
from pathlib import Path

from bpfhost import MissingPackage
from bpfhost.helpers import the_helpers
from bpfhost.objects import load_object
from bpfhost.objects.elf import LARGEST_FILE
from tests.objects.common import SOURCES, ClangTest, ObjectTest, clang, compile_object
from tests.objects.elf_builder import ElfBuilder, Part

SLOTS = "b700000000000000 9500000000000000"


def good() -> ElfBuilder:
    """An object with a program."""
    builder = ElfBuilder()
    builder.symbol("f", builder.program("socket", SLOTS), 0, 16)
    return builder


class Compiled(ClangTest):
    def refused(self, *flags: str) -> str:
        text = 'int f(void *skb) { return 1; }'
        source = self.scratch / "other.c"
        source.write_text(text)
        made = self.scratch / "other.o"
        ended = subprocess.run([str(clang()), *flags, "-c", str(source), "-o", str(made)], capture_output=True, check=False)
        if ended.returncode:
            self.skipTest(f"this clang does not compile with {' '.join(flags)}")
        return self.refusal_of(made)

    def test_big_endian(self) -> None:
        self.assertEqual(
            self.refused("-target", "bpfeb"), "the object is big-endian, and the host has little-endian programs only (-target bpfel)"
        )

    def test_other_machines(self) -> None:
        self.assertEqual(
            self.refused("-target", "x86_64-linux-gnu"), "the object is of machine EM_X86_64, not of BPF (clang -target bpf)"
        )
        self.assertEqual(self.refused("-target", "i386-linux-gnu"), "the object is an ELF file of 32 bits, and one of BPF has 64")

    def test_bitcode(self) -> None:
        self.assertEqual(self.refused("-target", "bpf", "-emit-llvm"), "the file is not an ELF object")

    def test_every_section_cut(self) -> None:
        """An object that is cut off is rejected at each of some hundred lengths; only its last bytes may be missing."""
        content = compile_object(SOURCES / "variables.c", self.scratch / "made.o").read_bytes()
        for size in range(0, len(content), len(content) // 100):
            with self.subTest(size):
                self.assertTrue(self.refusal_of(self.written(content[:size])))


class Files(ObjectTest):
    def test_what_is_no_file(self) -> None:
        self.assertEqual(self.refusal_of(self.scratch / "none.o"), "the file cannot be read: No such file or directory")
        self.assertEqual(self.refusal_of(self.scratch), "the file cannot be read: Is a directory")
        self.assertEqual(self.refusal_of("a\0b"), "the path is wrong: embedded null byte")

    def test_what_is_no_elf(self) -> None:
        for content in (b"", b"\x7fEL", b"int f;", b"\x7fELG" + bytes(100)):
            self.assertEqual(self.refusal_of(self.written(content)), "the file is not an ELF object")

    def test_too_large(self) -> None:
        self.assertEqual(self.refusal_of(self.written(bytes(LARGEST_FILE + 1))), "the file has more than 8,388,608 bytes")
        if Path("/dev/zero").exists():
            self.assertEqual(self.refusal_of("/dev/zero"), "the file has more than 8,388,608 bytes")

    def test_without_pyelftools(self) -> None:
        script = (
            "import sys; sys.modules['elftools'] = None; sys.path.insert(0, '.')\n"
            "from bpfhost import MissingPackage\n"
            "from bpfhost.objects import load_object\n"
            "try: load_object('none.o' if len(sys.argv) < 2 else sys.argv[1])\n"
            "except MissingPackage as error: print(error)\n"
        )
        root = Path(__file__).resolve().parents[2]
        words = [sys.executable, "-c", script, str(self.written(good().to_bytes()))]
        ended = subprocess.run(words, cwd=root, capture_output=True, text=True, check=True)
        self.assertEqual(ended.stdout, str(MissingPackage("elftools", "python3-pyelftools")) + "\n")


class Built(ObjectTest):
    def refused(self, content: bytes) -> str:
        return self.refusal_of(self.written(content))

    def with_bytes(self, at: int, *new: int) -> bytes:
        content = bytearray(good().to_bytes())
        content[at : at + len(new)] = bytes(new)
        return bytes(content)

    def header(self, section: int, field: int, value: int, size: int = 8) -> bytes:
        """The object with a field of a section's header changed, by its offset there."""
        content = bytearray(good().to_bytes())
        at = int.from_bytes(content[40:48], "little") + 64 * section + field
        content[at : at + size] = value.to_bytes(size, "little")
        return bytes(content)

    def test_good(self) -> None:
        self.assertEqual(load_object(self.written(good().to_bytes())).programs[0].slots, bytes.fromhex(SLOTS))

    def test_headers(self) -> None:
        self.assertEqual(self.refused(self.with_bytes(4, 7)), "the ELF header is damaged or cut off")
        self.assertEqual(self.refused(self.with_bytes(5, 7)), "the ELF header is damaged or cut off")
        self.assertEqual(self.refused(self.with_bytes(16, 2)), "the file is of type ET_EXEC, not a relocatable object (clang -c)")
        self.assertEqual(self.refused(self.with_bytes(18, 62)), "the object is of machine EM_X86_64, not of BPF (clang -target bpf)")
        self.assertEqual(self.refused(self.with_bytes(18, 0x34, 0x12)), "the object is of machine 4660, not of BPF (clang -target bpf)")
        self.assertEqual(self.refused(good().to_bytes()[:63]), "the ELF header is damaged or cut off")

    def test_tables_of_sections(self) -> None:
        self.assertEqual(self.refused(self.with_bytes(40, *bytes(8))), "the object has no sections")
        self.assertEqual(self.refused(self.with_bytes(58, 32)), "a section's header has 32 bytes, and not 64")
        self.assertEqual(self.refused(self.with_bytes(60, 255, 15)), "the table of sections ends at byte 262,256, and the file has 496")
        self.assertEqual(self.refused(self.with_bytes(60, 1, 16)), "the object has 4,097 sections, and at most 4,096 are read")
        self.assertIn("damaged", self.refused(self.with_bytes(62, 200)))
        self.assertIn("the table of sections ends at byte", self.refused(self.with_bytes(40, *[255] * 8)))

    def test_sections(self) -> None:
        where = "section socket ends at byte"
        self.assertEqual(self.refused(self.header(1, 32, 2**40)), f"{where} 1,099,511,627,840, and the file has 496")
        self.assertIn(where, self.refused(self.header(1, 24, 2**64 - 1)))
        self.assertEqual(self.refused(self.header(1, 0, 9999, 4)), "the name of section 1 lies outside the table of names")

    def test_tables_of_symbols(self) -> None:
        self.assertEqual(self.refused(self.header(2, 4, 1, 4)), "the object has no table of symbols: it is stripped")
        self.assertEqual(self.refused(self.header(2, 56, 0)), "section 2 is damaged or cut off")
        self.assertEqual(self.refused(self.header(2, 56, 12)), "section .symtab is damaged")
        self.assertEqual(self.refused(self.header(2, 40, 77, 4)), "section 2 is damaged or cut off")
        self.assertEqual(self.refused(self.header(2, 40, 2, 4)), "section 2 is damaged or cut off")
        self.assertEqual(
            self.refused(self.header(2, 40, 1, 4)), "section .symtab has its names in section socket, which is no table of strings"
        )

    def test_symbols(self) -> None:
        builder = good()
        builder.symbol("far", 99)
        self.assertEqual(self.refused(builder.to_bytes()), "symbol far is in section 99, and there are 5")
        builder = good()
        builder.symbols += (9999).to_bytes(4, "little") + bytes(20)
        self.assertEqual(self.refused(builder.to_bytes()), "the name of symbol 2 lies outside section .strtab")
        builder = good()
        builder.symbol("x" * 1025, 1)
        self.assertEqual(self.refused(builder.to_bytes()), "section .strtab has a name of more than 1,024 bytes")
        builder = good()
        builder.names.data += b"unended"
        self.assertEqual(self.refused(builder.to_bytes()), "section .strtab is damaged: its last string has no end")

    def test_names_for_terminals(self) -> None:
        builder = good()
        builder.symbol("f\n\x1b[2J", builder.program("a\tb", "8500000004000000"), 0, 8)
        self.assertEqual(
            self.refused(builder.to_bytes()),
            rf"function f\n\x1b[2J in section a\tb calls helper bpf_probe_read (4), and the host has {the_helpers()}, at slot 0",
        )

    def test_kinds_of_sections(self) -> None:
        """A section of a kind that this package does not use is ignored, or reported as damaged."""
        for kind in (*range(2, 20), 0x6FFFFFF6, 0x6FFFFFFD, 0x6FFFFFFE, 0x6FFFFFFF, 0x70000003):
            builder = good()
            builder.parts.append(Part("odd", bytes(7), kind))
            path = self.written(builder.to_bytes())
            with self.subTest(kind):
                try:
                    self.assertEqual(len(load_object(path).programs), 1)
                except ValueError as error:
                    self.assertRegex(str(error), "damaged|symbols|stripped")
