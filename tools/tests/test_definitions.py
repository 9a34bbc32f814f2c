"""tools/trusted reads the sources by their layout, divides them into tiers, fills pages, and checks what TRUST.md says of them."""

from __future__ import annotations

import sys
import unittest
from pathlib import Path
from unittest import mock

sys.path.insert(0, str(Path(__file__).resolve().parents[1]))
from definitions import checks
from definitions.page import Row, Section, definitions_page, fill, quotation, quoted, sections_of, shown, trust_page
from definitions.sources import Name, Place, closure, file_of
from definitions.tiers import LAWS, Tier, idle_stops, name, roots, tiers

SERVED = Place("host_core", "specs/Served.antt")


class Sources(unittest.TestCase):
    def test_traits_in_bounds(self) -> None:
        cited = set(file_of(Place("host_core", "src/server.rt")).cited("serve"))
        self.assertLessEqual({name("host_core/src/stream.rt", "Source"), name("host_core/src/stream.rt", "Sink")}, cited)

    def test_what_a_trait_cites(self) -> None:
        cited = set(file_of(Place("host_core", "src/stream.rt")).cited("Sink"))
        self.assertEqual(cited, {name("host_core/specs/Stream.antt", word) for word in ("write_failures", "flush_failures")})

    def test_bound_names_are_not_cited(self) -> None:
        cited = {each.word for each in file_of(SERVED).cited("joined_replies")}
        self.assertEqual(cited, set())

    def test_names_of_the_kit(self) -> None:
        found = {word for _, word in file_of(SERVED).cited_of_kit("Serves")}
        self.assertLessEqual({"AllByRecursion", "Consumes", "◌++◌"}, found)
        self.assertNotIn("take", found)

    def test_function_with_an_empty_body(self) -> None:
        cited = set(file_of(Place("host_core", "src/laws.rt")).cited("batch_is_its_calls"))
        self.assertEqual(cited, {name("host_core/specs/Batch.antt", "BatchIsItsCalls")})

    def test_lines(self) -> None:
        self.assertEqual(file_of(SERVED).counts["IsUnrefused"], 3)


class Tiers(unittest.TestCase):
    def test_parts(self) -> None:
        found = tiers()
        self.assertEqual(frozenset.union(*(tier.names for tier in found)), frozenset(closure(roots())))
        self.assertEqual(sum(len(tier.names) for tier in found), len(closure(roots())))
        self.assertEqual(idle_stops(found), [])

    def test_cuts(self) -> None:
        first, stretches, streams, replies, verdict = tiers()[:5]
        self.assertIn(name("host_core/specs/Handled.antt", "HandlesInOrder"), first.names)
        self.assertIn(name(LAWS, "EachStretchIsServedAlone"), stretches.names)
        self.assertIn(name("host_core/specs/Served.antt", "ServesStream"), streams.names)
        self.assertIn(name("command_frames/specs/Frame.antt", "reply_to"), replies.names)
        self.assertIn(name("verifier/specs/Maps.antt", "maps_of"), replies.names)
        self.assertIn(name("transfer/specs/Effects.antt", "effect"), verdict.names)

    def test_claims(self) -> None:
        library, batches, saves, installed = tiers()[5:]
        self.assertIn(name(LAWS, "CallsAreServedAlone"), library.names)
        self.assertLessEqual({name("host_core/src/host.rt", "run_packets"), name("host_core/specs/Batch.antt", "BatchIsItsCalls")}, batches.names)
        self.assertIn(name("host_core/specs/Saving.antt", "TenantsAreRestored"), saves.names)
        self.assertIn(name("host_core/specs/Installs.antt", "Installs"), installed.names)

    def test_idle_stop(self) -> None:
        tier = Tier("T", frozenset({name("host_core/specs/Served.antt", "IsUnrefused")}), frozenset({name("tenant/specs/State.antt", "live")}))
        self.assertEqual(len(idle_stops([tier])), 1)


class Tables(unittest.TestCase):
    def test_rows(self) -> None:
        names = frozenset(Name(SERVED, word) for word in ("IsUnrefused", "NoneFaults", "StreamState"))
        rows = [Row(SERVED, ["NoneFaults", "Gone"], "kept words"), Row(Place("host_core", "specs/Gone.antt"), ["Lost"], "lost words")]
        sections = [Section(["## T", ""], rows)]
        fill(sections, Tier("T", names, frozenset()))
        lines = shown(sections[0])
        self.assertEqual(lines[-2], "| [`host_core/specs/Served.antt`](../crates/host_core/specs/Served.antt) | 12 | `NoneFaults`, `IsUnrefused`, `StreamState` | kept words |")
        self.assertEqual(sections_of(lines)[0].rows[0].words, "kept words")

    def test_tiers_below_their_headings(self) -> None:
        tier = Tier("For a test", frozenset({Name(SERVED, "IsUnrefused")}), frozenset())
        row = "| [`host_core/specs/Served.antt`](../crates/host_core/specs/Served.antt) | 3 | `IsUnrefused` | %s |"
        head = "| File | Lines | Definitions | In the field's words |\n|---|---|---|---|\n"
        page = "# Page\n\n## Before\n\nkept\n\n## For a test\n\n### Part\n\n" + head + row % "its words" + "\n\n## After\n\nkept too\n"
        self.assertEqual(definitions_page([tier], page), page)
        with self.assertRaises(ValueError):
            definitions_page([tier], "# Page\n\n### For a test\n")

    def test_quotations(self) -> None:
        self.assertTrue(quotation("host_core/specs/Served.antt", "StopsAlone").endswith("ServesAlone old new count rest\n"))
        self.assertTrue(quotation("host_core/src/server.rt", "serve").endswith("host.new.states reader.new writer.new) }\n"))
        with self.assertRaises(ValueError):
            quotation("host_core/specs/Served.antt", "Gone")

    def test_quotation_of_several(self) -> None:
        page = "<!-- quoted: host_core/specs/Served.antt IsUnrefused NoneFaults -->\n```text\nold\n```\n"
        self.assertEqual(quoted(page), [Name(SERVED, "IsUnrefused"), Name(SERVED, "NoneFaults")])
        made = trust_page(tiers(), page)
        self.assertNotIn("old", made)
        self.assertIn("s.refused ≡ false\n\nabbrev pub NoneFaults", made)


class Checks(unittest.TestCase):
    PAGE = "<!-- quoted: host_core/specs/Served.antt IsUnrefused -->\n```text\n```\n"

    def test_quotations(self) -> None:
        first = frozenset(Name(SERVED, word) for word in ("IsUnrefused", "NoneFaults"))
        self.assertEqual(checks.not_quoted(self.PAGE, first), ["docs/TRUST.md does not quote host_core/specs/Served.antt: NoneFaults, which the first theorem needs"])

    def test_long_lines(self) -> None:
        with mock.patch.object(checks, "STILL_LONG", {"IsUnrefused"}):
            self.assertEqual(checks.too_long(self.PAGE), ["the quoted IsUnrefused has no long line any more: take it out of tools/definitions/checks.py"])
        with mock.patch.object(checks, "STILL_LONG", set()), mock.patch.object(checks, "MOST_COLUMNS", 40):
            self.assertEqual(checks.too_long(self.PAGE), ["the quoted IsUnrefused has a line of more than 40 columns"])

    def test_bounds(self) -> None:
        first = frozenset({Name(SERVED, "IsUnrefused")})
        self.assertEqual(checks.too_much("word " * 3000, first, 60), [])
        self.assertEqual(checks.too_much("word " * 3001, first, 61), ["docs/TRUST.md has 3001 words, and 3000 are the most",
                                                                     "the definitions of the first theorem have 61 lines, and 60 are the most"])

    def test_promises(self) -> None:
        self.assertEqual(checks.broken_promises(), [])
        with mock.patch.dict(checks.IN_CONTRACT, {"reply.new": "answer"}):
            self.assertEqual(checks.broken_promises(), [f"Host::handle does not promise the field {field} of Handles" for field in ("own", "no_fault")])

    def test_laws(self) -> None:
        self.assertEqual(checks.unproved(), [])
        with mock.patch.object(checks, "roots", lambda: [name(LAWS, "EachIsServedByItsMachine")]):
            self.assertEqual(checks.unproved(), ["no function in crates/host_core/src/laws.rt has the contract EachIsServedByItsMachine"])


if __name__ == "__main__":
    unittest.main()
