"""tools/lemmas.py finds files of proofs without a head, and public lemmas without a sentence, in a comment or as a name."""

from __future__ import annotations

import unittest

from lemmas import checked, faults, headless, is_sentence

TEXT = """-- Sums over lists.

pub few : ℕ
few = 3

-- the sum of a list and one more number
pub total_more : ℕ
pub total_of_list : ℕ
module _ (n : ℕ) where
  pub deletes_keep_sums : ℕ
  pub unfoldable wide : ℕ
own : ℕ
"""


class Lemmas(unittest.TestCase):
    def test_a_lemma_has_a_comment_or_a_name_that_is_a_sentence(self) -> None:
        found = faults({"A.antt": TEXT})
        self.assertEqual([(fault.partition(": ")[0], fault.split("`")[1]) for fault in found],
                         [("A.antt:3", "few"), ("A.antt:8", "total_of_list"), ("A.antt:11", "wide")])

    def test_names(self) -> None:
        for name, is_one in (("areas_are_apart", True), ("are_apart", False), ("value_in_map", False), ("frame-is-read", True)):
            self.assertEqual(is_sentence(name), is_one, name)

    def test_a_file_has_a_head(self) -> None:
        texts = {"proofs/A.antt": TEXT, "proofs/f/Answers.antt": TEXT[TEXT.index("pub"):], "proofs/Lib.antt": "pub mod A\n"}
        self.assertEqual([fault.partition(": ")[0] for fault in headless(texts)], ["proofs/f/Answers.antt"])

    def test_the_repository(self) -> None:
        self.assertEqual(checked(), [])


if __name__ == "__main__":
    unittest.main()
