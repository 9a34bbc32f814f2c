"""Built programs that are read again: the same program with the same maps, for `run` and `check`; and files that are none."""

from __future__ import annotations

import json
import random
from pathlib import Path
from unittest import mock

from bpfhost import Host
from bpfhost.built import built
from bpfhost.command import main
from bpfhost.loading import load_program, lowered_program
from bpfhost.objects import ObjectError, load_built
from tests.common import PROGRAM
from tests.objects.common import ClangTest

TEXT = """
u64 total = 5;
struct { __uint(type, BPF_MAP_TYPE_HASH); __type(key, u32); __type(value, u64); __uint(max_entries, 8); } counts SEC(".maps");
SEC("socket") int f(struct __sk_buff *skb)
{
    u32 key = skb->len;
    total += 1;
    bpf_map_update_elem(&counts, &key, &total, 0);
    return skb->len;
}"""
PATH = Path(__file__).parents[4] / "examples/built/filter.json"


class Built(ClangTest):
    def setUp(self) -> None:
        super().setUp()
        self.file = self.scratch / "built.json"

    def test_it_is_the_program(self) -> None:
        found = self.text(f"typedef unsigned int u32; typedef unsigned long u64;{TEXT}")
        lowered = lowered_program(PROGRAM, found, found.programs[0])
        self.file.write_text(built(found, lowered))
        again = load_built(self.file)
        program = again.programs[0]
        self.assertEqual((program.slots, program.map_slots), (lowered.program.slots, lowered.program.map_slots))
        for one, other in zip(found.maps, again.maps, strict=True):
            same = ("name", "map_type", "key_size", "value_size", "max_entries", "initial")
            self.assertEqual([getattr(one, name) for name in same], [getattr(other, name) for name in same])
        self.assertEqual([str(line) for line in program.lines], [str(line) for line in lowered.program.lines])
        with Host(PROGRAM) as host:
            loaded = load_program(host.tenant(), again, program)
            self.assertEqual([host.tenant().prog_test_run(loaded.descriptor, bytes(size)) for size in (3, 8)], [3, 8])
            counts = next(each for each in loaded.maps if each.declared.name == "counts")
            self.assertEqual([(key[0], value[0]) for key, value in counts.map.entries()], [(3, 6), (8, 7)])
            assert again.types is not None and counts.declared.value_type is not None
            self.assertEqual(again.types.plain(counts.declared.value_type, (6).to_bytes(8, "little")), 6)

    def test_the_words_read_it(self) -> None:
        for words in (["check"], ["run", str(PATH.parents[1] / "capture/sample.pcap")]):
            with mock.patch("sys.stdout") as output:
                status = main([words[0], "--bpfhost", PROGRAM, str(PATH), *words[1:]])
            self.assertEqual(status, 0)
            written = "".join(str(call.args[0]) for call in output.write.call_args_list if call.args)
            self.assertIn("keep_odd", written)

    def refused(self, change: dict[str, object], sentence: str) -> None:
        self.file.write_text(json.dumps({**json.loads(PATH.read_text()), **change}))
        with self.assertRaises(ObjectError) as caught:
            load_built(self.file)
        self.assertIn(sentence, str(caught.exception))

    def test_what_is_none(self) -> None:
        self.refused({"format": "other"}, 'it is JSON without "format": "bpfhost program"')
        self.refused({"version": 2}, "its version is 2, and 1 is read")
        self.refused({"slots": []}, "the program has 0 slots, and a program has 1 to 4,096")
        self.refused({"slots": ["b7"]}, "slot 0 is not sixteen hex digits")
        self.refused({"slots": None}, '"slots" is missing or of another type')
        self.refused({"lines": [1]}, 'an element of "lines" is no object')
        declared = json.loads(PATH.read_text())["maps"]
        self.refused({"maps": []}, "and maps are loaded at")
        for key, value, sentence in (
            ("type", "lru", "has type lru, and the host has hash and array"),
            ("max_entries", 0, "it has 0 entries, and may have 1 to 4,096"),
            ("key_size", "4", '"key_size" is missing or of another type'),
            ("initial", "zz", "is not its"),
            ("slots", ["1"], "has a slot that is no number"),
        ):
            self.refused({"maps": [{**declared[0], key: value}, *declared[1:]]}, sentence)
        self.file.write_text("{")
        with self.assertRaisesRegex(ObjectError, "it is no JSON, and no ELF object"):
            load_built(self.file)

    def test_damage(self) -> None:
        """A damaged file is read, or rejected by an ObjectError."""
        chance, whole, rejected = random.Random(92), PATH.read_bytes(), 0
        for _ in range(300):
            data = bytearray(whole)
            for _ in range(chance.randrange(1, 4)):
                at = chance.randrange(len(data))
                data[at : at + chance.randrange(2)] = chance.choice((b"", b"0", b'"', b"[", b"-", bytes([chance.randrange(256)])))
            self.file.write_bytes(data)
            try:
                load_built(self.file)
            except ObjectError:
                rejected += 1
        self.assertGreater(rejected, 100)
