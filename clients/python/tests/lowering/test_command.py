"""The command on objects that are lowered: what it prints and writes, and which slot a refusal names."""

from __future__ import annotations

import json
import struct

from bpfhost.captures.piece import Stamp
from bpfhost.objects import load_object
from tests.capture_bytes import pcap
from tests.objects.common import clang, compile_object
from tests.test_command import CommandTest, needs_packages

HEAD = """
struct {
    __uint(type, BPF_MAP_TYPE_PERCPU_ARRAY);
    __type(key, __u32);
    __type(value, __u64);
    __uint(max_entries, 16);
} sizes SEC(".maps");
"""
# A call, a loop, and a per-CPU map.
COUNT = (
    HEAD
    + """
static NOINLINE int sum(struct __sk_buff *skb)
{
    int total = 0;
#pragma clang loop unroll(disable)
    for (int at = 0; at < 4; at++) {
        __u8 byte;
        if (bpf_skb_load_bytes(skb, at, &byte, 1))
            break;
        total += byte;
    }
    return total;
}
SEC("socket") int count(struct __sk_buff *skb)
{
    __u32 key = skb->len & 15;
    __u64 *counted = bpf_map_lookup_elem(&sizes, &key);
    if (counted)
        *counted += 1;
    return sum(skb);
}"""
)
CHANGES = ["1 call is inlined, of sum", "loops are unrolled: "]


class LoweredTest(CommandTest):
    """A test that compiles objects for the command."""

    def setUp(self) -> None:
        super().setUp()
        if clang() is None:
            self.skipTest("there is no clang that compiles for BPF")

    def object(self, text: str, name: str = "count") -> str:
        """The file of a source's object, in the scratch folder."""
        (self.scratch / f"{name}.c").write_text(f'#include "bpf.h"\n{text}\n')
        compile_object(self.scratch / f"{name}.c", self.scratch / f"{name}.o")
        return f"{name}.o"


@needs_packages
class Lowered(LoweredTest):
    def test_check(self) -> None:
        ended = self.command("check", self.object(COUNT))
        lines = ended.stdout.decode().splitlines()
        self.assertEqual(lines[0], "count in section socket is accepted in another form")
        self.assertTrue(all(line.startswith(f"- {change}") for line, change in zip(lines[1:], CHANGES)), lines)
        one = "since one processor runs all programs"
        self.assertEqual(ended.stderr.decode(), f"bpfhost: count.o: map sizes in section .maps: PERCPU_ARRAY is taken as ARRAY, {one}\n")
        self.assertEqual(ended.returncode, 0)

    def test_strict_and_as_is(self) -> None:
        name = self.object(COUNT)
        for word in ("--strict", "--as-is"):
            self.refuses(1, "map sizes in section .maps has type 6 (PERCPU_ARRAY)", "check", word, name)
        name = self.object(COUNT.replace("PERCPU_ARRAY", "ARRAY"))
        self.assertEqual(self.command("check", "--strict", name).returncode, 0)
        self.refuses(1, "calls function sum in section .text, and calls between functions are not supported", "check", "--as-is", name)
        self.refuses(2, "not allowed with argument", "check", "--as-is", "--strict", name)

    def test_run(self) -> None:
        (self.scratch / "capture").write_bytes(pcap([(bytes([1, 2, 3]), Stamp(1, 0, 3)), (bytes([5, 6, 7, 8, 9]), Stamp(1, 0, 5))]))
        ended = self.command("run", self.object(COUNT), "capture", "--json", "--tenants", "2")
        report = json.loads(ended.stdout)
        self.assertEqual(report["results"], {"6": 1, "26": 1})
        values = {entry["key"]: entry["value"] for entry in report["maps"]["sizes"]["entries"] if entry["value"]}
        self.assertEqual(values, {3: 1, 5: 1})
        told = ended.stderr.decode().splitlines()
        self.assertEqual(len(told), 1 + len(CHANGES), told)
        self.assertTrue(all(line.startswith(f"bpfhost: count: {change}") for line, change in zip(told[1:], CHANGES)), told)

    def test_dis_has_the_source_of_moved_slots(self) -> None:
        name = self.object(COUNT)
        lines = self.command("dis", name).stdout.decode().splitlines()
        self.assertEqual(lines[:2], ["// count, section socket", "// 1 call is inlined, of sum"])
        self.assertEqual(sum("if (bpf_skb_load_bytes(skb, at, &byte, 1)) (copy" in line for line in lines), 4, lines)

    def test_dis_as_it_is(self) -> None:
        text = COUNT.replace("PERCPU_ARRAY", "ARRAY").replace("static NOINLINE", "static inline").replace("at < 4", "at < skb->len")
        name = self.object(text)
        shown = self.command("dis", name)
        self.assertEqual(shown.returncode, 0)
        self.assertIn("// as compiled, as there is no accepted form: count.c:", shown.stdout.decode())
        plain = self.command("dis", "--as-is", name)
        self.assertIn("goto -", plain.stdout.decode())
        self.refuses(1, "no bound of this loop, slots ", "build", name, "-o", "count.json")

    def test_a_refusal_points_at_the_line_and_the_copy(self) -> None:
        text = COUNT.replace("return total;", "return bytes[total];").replace("static NOINLINE", "__u8 bytes[16];\nstatic NOINLINE")
        ended = self.command("check", self.object(text))
        told = ended.stdout.decode().splitlines()[0]
        refused = r"^count in section socket is refused: count.c:\d+: return bytes\[total\]; \(slot \d+, slot \d+ of sum as compiled"
        self.assertRegex(told, refused)
        self.assertRegex(told, r", called at count.c:\d+: return sum\(skb\);: outside a map's value, reason 29\)(: .*)?; compare the index before")

    def test_a_log_has_the_source_of_moved_slots(self) -> None:
        script = "for at in range(70): print(f'{at}: an instruction // what is known')\nprint('accepted')"
        log = self.pretender(f"read(){chr(10)}{script}")
        lines = self.command("check", self.object(COUNT), VERIFIER_LOG=log).stdout.decode().splitlines()
        self.assertEqual(lines[-2:], ["69: an instruction                       // what is known", "accepted"])
        self.assertTrue(any("if (bpf_skb_load_bytes(skb, at, &byte, 1)) (copy 2 of 4)" in line for line in lines), lines)

    def test_loops_and_cycles(self) -> None:
        endless = 'NOINLINE int a(int x);\nNOINLINE int b(int x) { return a(x) + 1; }\nNOINLINE int a(int x) { return b(x) * 2; }\n'
        name = self.object(endless + 'SEC("socket") int f(struct __sk_buff *skb) { return a(skb->len); }', "cycle")
        told = self.command("check", name).stdout.decode()
        self.assertRegex(told, "a function that calls itself can't be inlined\n$")
        self.refuses(1, "a function that calls itself can't be inlined", "build", name, "-o", "out.json")
        self.assertFalse((self.scratch / "out.json").exists())


@needs_packages
class Build(LoweredTest):
    def test_what_is_built(self) -> None:
        name = self.object(COUNT)
        self.assertEqual(self.command("build", name, "-o", "count.json").returncode, 0)
        found = json.loads((self.scratch / "count.json").read_text())
        self.assertEqual((found["format"], found["version"], found["section"], found["name"]), ("bpfhost program", 1, "socket", "count"))
        self.assertTrue(all(len(slot) == 16 for slot in found["slots"]))
        (sizes,) = found["maps"]
        slots = sizes.pop("slots")
        self.assertEqual(
            sizes,
            {
                "name": "sizes",
                "type": "array",
                "key_size": 4,
                "value_size": 8,
                "max_entries": 16,
                "initial": None,
                "key_type": "__u32",
                "value_type": "__u64",
            },
        )
        self.assertTrue(slots)
        for slot in slots:
            self.assertEqual(found["slots"][slot][:2], "18")
            self.assertEqual(found["slots"][slot][8:], "00000000")
        self.assertEqual([each.split(":")[0] for each in found["changes"][1:]], ["1 call is inlined, of sum", "loops are unrolled"])
        self.assertIn("if (bpf_skb_load_bytes(skb, at, &byte, 1))", {line["text"] for line in found["lines"]})

    def test_what_is_built_of_variables(self) -> None:
        text = 'int first = 7; SEC("socket") int f(struct __sk_buff *skb) { return first + skb->len; }'
        self.assertEqual(self.command("build", self.object(text, "first"), "-o", "first.json", "--section", "f").returncode, 0)
        (data,) = json.loads((self.scratch / "first.json").read_text())["maps"]
        self.assertEqual((data["name"], data["initial"]), (".data", struct.pack("<I", 7).hex()))

    def test_nothing_is_built(self) -> None:
        text = COUNT.replace("PERCPU_ARRAY", "ARRAY")
        name = self.object(text)
        self.refuses(2, "the following arguments are required: -o/--output", "build", name)
        self.refuses(1, "can't be written over its object", "build", name, "-o", name)
        self.assertEqual(len(load_object(self.scratch / name).programs), 1)
        self.refuses(1, "No such file or directory", "build", name, "-o", "nowhere/count.json")
        (self.scratch / "kept.json").write_text("kept")
        refused = self.object(text.replace("if (counted)", ""), "refused")
        ended = self.command("build", refused, "-o", "kept.json")
        self.assertIn("the pointer may be null, reason 30", ended.stderr.decode())
        self.assertEqual((ended.returncode, (self.scratch / "kept.json").read_text()), (1, "kept"))
