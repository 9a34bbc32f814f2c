"""Why a program is rejected: one message, and a log with the names of the source."""

from __future__ import annotations

import re
import unittest

from bpfhost import assemble
from bpfhost.graphs import annotated
from bpfhost.helpers import HELPERS, helper_name, the_helpers
from bpfhost.program import find_verifier_log
from bpfhost.refusals import PAGE, hint, is_loop, need_of, with_names
from bpfhost.words import REASONS
from tests.common import PROGRAM, HostTest
from tests.objects.common import ClangTest
from tests.test_command import PACKAGE, CommandTest, needs_packages

LOG = str((find_verifier_log(PROGRAM) if PROGRAM else None) or "")
# The reasons below this one are the verifier's rules.
NO_MEMORY = 40
# The log of docs/VERIFIER.md.
OF_THE_PAGE = """0: r6 = *(u32 *)(r1 + 0)                 // r1 = context; r10 = stack
1: if r6 > 15 goto +9                    // r6 = 0 to 4294967295; to 11: r6 = 16 to 4294967295
5: r1 = map_fd 3 ll                      // r2 = stack - 4
7: call 1                                // r1 = map 3
8: if r0 == 0 goto +2                    // r0 = value of map 3, offset 0, or null (look-up at slot 7); r1, r2 lost; to 11: r0 = 0
refused: slot 10 reason 29
outside a map's value: it changes bytes 8 to 15 of a value of 8 bytes (map 3)
"""


class Names(unittest.TestCase):
    def test_the_log(self) -> None:
        self.assertEqual(
            with_names(OF_THE_PAGE, {3: "sizes"}),
            """0: r6 = *(u32 *)(r1 + 0)                 // r1 = context; r10 = stack
1: if r6 > 15 goto +9                    // r6 = 0 to 0xffffffff; to 11: r6 = 16 to 0xffffffff
5: r1 = map_fd 3 ll  # sizes             // r2 = stack - 4
7: call bpf_map_lookup_elem (1)          // r1 = map sizes
8: if r0 == 0 goto +2                    // r0 = value of map sizes, offset 0, or null (look-up at slot 7); r1, r2 lost; to 11: r0 = 0
refused: slot 10 reason 29
outside a map's value: it changes bytes 8 to 15 of a value of 8 bytes (map sizes)
""",
        )

    def test_numbers(self) -> None:
        """Those of 2^31 and above have hexadecimal digits."""
        told = "0: r1 = r2                               // r1 = 2147483647 to 2147483648; r2 = 18446744073709551615 (-1); r3 = 12"
        self.assertTrue(with_names(told, {}).endswith("// r1 = 2147483647 to 0x80000000; r2 = 0xffffffffffffffff (-1); r3 = 12\n"))

    def test_helpers(self) -> None:
        self.assertEqual((helper_name(6), helper_name(26), helper_name(9999)), ("bpf_trace_printk (6)", "bpf_skb_load_bytes (26)", "number 9999"))
        self.assertEqual(the_helpers().count("bpf_"), len(HELPERS))
        self.assertRegex(the_helpers(), r"^bpf_map_lookup_elem \(1\)(, bpf_\w+ \(\d+\))+ and bpf_\w+ \(\d+\)$")

    def test_what_was_needed(self) -> None:
        self.assertEqual(need_of(OF_THE_PAGE, {3: "sizes"}), "it changes bytes 8 to 15 of a value of 8 bytes (map sizes)")
        self.assertEqual((need_of("accepted\n", {}), need_of("there is no log: gone\n", {})), (None, None))

    def test_a_graph_is_folded(self) -> None:
        told = annotated(graph_of_lines([f"{at}: r0 = {at}" for at in range(578)]), no_source, {})
        self.assertEqual(labels(told), [["0: r0 = 0", "1: r0 = 1", "... 574 more", "576: r0 = 576", "577: r0 = 577"]])
        self.assertTrue(told.endswith('", style=dashed];\n    block_0 -> block_9;\n}\n'))
        short = graph_of_lines([f"{at}: r0 = 1" for at in range(5)])
        self.assertEqual(annotated(short, no_source, {}), short)

    def test_the_refused_instruction_of_a_long_block_is_shown(self) -> None:
        lines = [f"{at}: r0 = {at}" for at in range(12)]
        lines[6:6] = ["refused: slot 5 reason 30", "the pointer may be null:", "r0 may be null: test it first"]
        told = annotated(graph_of_lines(lines), no_source, {})
        self.assertEqual(labels(told), [[*lines[:2], "... 3 more", *lines[5:9], "... 4 more", *lines[-2:]]])

    def test_a_graph_has_the_lines_of_the_source(self) -> None:
        """Each block begins with its line, even if the block above ends with the same one."""
        source = {0: '// a.c:1: f("\\n");', 1: "// a.c:2: g();", 3: "// a.c:2: g();"}
        graph = graph_of_lines(["0: r0 = 1", "1: r1 = map_fd 3 ll"], ["3: call 1", "4: exit"], edge=' [label="taken:\\nr1 = map 3; r2 = 4294967295"]')
        told = annotated(graph, lambda slot: source.get(slot, ""), {3: "sizes"})
        self.assertIn('    block_0 -> block_9 [label="taken:\\nr1 = map sizes; r2 = 0xffffffff"];\n', told)
        first = ['// a.c:1: f(\\"\\\\n\\");', "0: r0 = 1", "// a.c:2: g();", "1: r1 = map_fd 3 ll  # sizes"]
        self.assertEqual(labels(told), [first, ["// a.c:2: g();", "3: call bpf_map_lookup_elem (1)", "4: exit"]])


def graph_of_lines(*blocks: list[str], edge: str = "") -> str:
    """A graph with the lines of its blocks, and an edge."""
    shown = "".join(f'    block_{at} [label="{"".join(f"{line}{chr(92)}l" for line in lines)}", style=dashed];\n' for at, lines in enumerate(blocks))
    return f"digraph program {{\n{shown}    block_0 -> block_9{edge};\n}}\n"


def labels(graph: str) -> list[list[str]]:
    """The lines of each block of a graph."""
    return [label.split("\\l")[:-1] for label in re.findall(r'block_\d+ \[label="(.*?)", style', graph)]


def no_source(_slot: int) -> str:
    return ""


class Hints(HostTest):
    def test_each_reason_has_one(self) -> None:
        """And the page has a place for each, with what is to be changed."""
        page = (PACKAGE.parents[1] / PAGE).read_text()
        for reason in (*range(1, 10), *range(20, 37)):
            self.assertTrue(hint(reason, b"", 0), reason)
            self.assertRegex(page, rf"\| {reason} \||Reasons? .*\b{reason}\b", reason)
        self.assertEqual(set(REASONS) - {40} - set(range(101, 109)), {*range(1, 10), *range(20, 37)})
        self.assertIsNone(hint(40, b"", 0))

    def test_a_loop_and_a_layout(self) -> None:
        loop = assemble(PROGRAM, "r0 = 0\nagain:\nr0 += 1\nif r0 < 9 goto again\nexit\n")
        layout = assemble(PROGRAM, "goto there\nhere:\nr0 = 0\nexit\nthere:\nr1 = 5 ll\nif r1 == 0 goto here\ngoto here\n")
        self.assertTrue(is_loop(loop, 2))
        self.assertFalse(is_loop(layout, 5))
        self.assertFalse(is_loop(layout, 6))
        self.assertIn("give the loop a bound", hint(2, loop, 2) or "")
        self.assertIn("this is not a loop, only the compiler's order of blocks", hint(2, layout, 5) or "")


@needs_packages
class Messages(CommandTest, ClangTest):
    """What `check` says of a filter in C: the line, what was known and needed, and what to change."""

    def told(self, body: str, *words: str, log: str = LOG) -> str:
        head = "int table[16];\nstruct { __uint(type, BPF_MAP_TYPE_HASH); __type(key, int); __type(value, long); __uint(max_entries, 8); }"
        self.compiled(f'{head} m SEC(".maps");\nSEC("socket") int f(struct __sk_buff *skb)\n{{\n{body}\n}}')
        return self.command("check", "filter.o", *words, VERIFIER_LOG=log).stdout.decode().splitlines()[0]

    def test_without_a_log(self) -> None:
        told = self.told("return table[skb->len & 31];", log="")
        self.assertRegex(told, r"filter\.c:\d+: return table\[skb->len & 31\]; \(slot \d+.*: outside a map's value, reason 29\); compare the index before")

    def test_fields_of_the_context(self) -> None:
        """Reason 31 names the field, and what to use instead."""
        for body, wanted in {
            "return *((unsigned *)skb + 17);": "skb->hash is a field that the host's context does not have: compute a number of the addresses",
            "return *((unsigned long *)skb + 8);": "skb->cb is a field that the host's context does not have: keep it in a variable",
            "return *((unsigned *)skb + 40);": "skb->wire_len is a field that the host's context does not have \\(",
            "return *((unsigned char *)skb + 16);": "a part of skb->protocol is read: read the whole word into a variable",
            "*((unsigned *)skb + 2) = 7; return 1;": "skb->mark is written, and a program only reads the context",
            "return *((unsigned *)skb + 90);": "of the context eleven words of 32 bits are read",
        }.items():
            self.assertRegex(self.told(body, log=""), rf"reason 31\); {wanted}")

    def test_a_loop(self) -> None:
        told = self.told("int sum = 0;\nfor (unsigned i = 0; i < skb->len; i++) sum += i * skb->mark ^ sum;\nreturn sum;", "--as-is", log="")
        self.assertIn("reason 2); give the loop a bound of constants", told)

    @unittest.skipUnless(LOG, "the program verifier_log is missing")
    def test_with_a_log(self) -> None:
        cases = {
            "return table[skb->len & 31];": "it reads bytes 0 to 127 of a value of 64 bytes","return table[skb->len];": "offsets stay from .*; compare the number before","return table[skb->mark & 31];": "it reads bytes .* of a value of 64 bytes \\(map .bss\\); compare the index before",
            "int key = 1; long *v = bpf_map_lookup_elem(&m, &key); return *v;": "r0 may be null: test it first; test the result",
            "char *p = (char *)skb; return p[skb->mark & 3];": "arithmetic on a pointer, reason 23\\): r1 is context .*; a pointer into a map's value",
            "int key; asm volatile(\"\" : \"=r\"(key)); return bpf_map_delete_elem(&m, &key);": "a part of a spilled pointer, reason 28\\): r1 is context, and is stored by 8 bytes, not by 4; a pointer that is kept",
        }
        for body, wanted in cases.items():
            self.assertRegex(self.told(body), wanted)

    @unittest.skipUnless(LOG, "the program verifier_log is missing")
    def test_a_graph(self) -> None:
        """Each block has its line in C, and so has the refused instruction."""
        self.told("int key = skb->len;\nif (key > 9)\nreturn 0;\nlong *value = bpf_map_lookup_elem(&m, &key);\nreturn *value;")
        graph = self.command("check", "filter.o", "--dot", VERIFIER_LOG=LOG).stdout.decode()
        blocks = labels(graph.replace(", color", ", style"))
        self.assertEqual({bool(re.match(r"// \S*filter\.c:\d+: ", block[0])) for block in blocks}, {True}, graph)
        refused = next(block for block in blocks if any(line.startswith("refused: ") for line in block))
        source = max(at for at, line in enumerate(refused[: refused.index("the pointer may be null:")]) if line.startswith("// "))
        self.assertRegex(refused[source], r"filter\.c:\d+: return \*value;")


class Page(unittest.TestCase):
    def test_it_is_linked(self) -> None:
        top = PACKAGE.parents[1]
        for page in ("README.md", "docs/TUTORIAL.md", "clients/python/README.md"):
            self.assertRegex((top / page).read_text(), r"\([\w./]*\bVERIFIER\.md#fixes-in-c\)", page)

    def test_it_has_each_reason(self) -> None:
        """The table of fixes has each reason for which a program is rejected, except out of memory."""
        section = (PACKAGE.parents[1] / PAGE).read_text().partition("## Fixes in C\n")[2].partition("\n### ")[0]
        listed = [int(number) for cell in re.findall(r"^\| ([\d, ]+) \|", section, re.M) for number in cell.split(", ")]
        self.assertEqual(sorted(listed), sorted(reason for reason in REASONS if reason < NO_MEMORY))
