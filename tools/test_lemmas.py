#!/usr/bin/env python3
"""Tests of `tools/lemmas`, over small crates in a folder of their own.

    tools/test_lemmas.py

The last line is `lemmas: N passed, M failed`.
"""
import importlib.machinery
import importlib.util
import os
import sys
import tempfile
import unittest
from typing import Dict, List

HERE = os.path.dirname(os.path.abspath(__file__))
sys.dont_write_bytecode = True
LOADER = importlib.machinery.SourceFileLoader("lemmas", os.path.join(HERE, "lemmas"))
SPEC = importlib.util.spec_from_loader("lemmas", LOADER)
assert SPEC is not None
lemmas = importlib.util.module_from_spec(SPEC)
LOADER.exec_module(lemmas)

LOW = """-- Two laws, of which one is used.
use Rattle.std.specs.Prelude.{ℕ}

helper : (n : ℕ) → n ≡ n
helper n = refl

pub used : (n : ℕ) → n ≡ n
used n = helper n

alone : (n : ℕ) → n ≡ n
alone n = refl

module _ (m : ℕ)
    (n : ℕ) where
  pub inner : (k : ℕ) → k ≡ k
  inner zero = refl
  inner (suc k) = case k of [
    | zero ↦ refl
  ]

  other : ℕ
  other = m
"""

HIGH = """use Rattle.low.proofs.Laws.{used, inner as deep}
use Rattle.high.proofs.f.Goals as goal

pub returns : goal.returns
returns c = used (deep c)
"""


class Looked(unittest.TestCase):
    """What is found in folders of crates."""

    def setUp(self) -> None:
        self.room = tempfile.TemporaryDirectory()
        self.addCleanup(self.room.cleanup)
        self.write({"crates/low/proofs/Laws.antt": LOW, "crates/high/proofs/f/Answers.antt": HIGH})

    def write(self, texts: Dict[str, str]) -> None:
        """Makes files."""
        for path, text in texts.items():
            at = os.path.join(self.room.name, path)
            os.makedirs(os.path.dirname(at), exist_ok=True)
            with open(at, "w", encoding="utf-8") as file:
                file.write(text)

    def told(self, *words: str) -> List[str]:
        """What the tool prints."""
        found = lemmas.told(list(words), self.room.name)
        self.assertIsNotNone(found)
        return found

    def test_what_nothing_reaches_is_unused(self) -> None:
        """An answer reaches lemmas through imports, under other names too, and through lemmas."""
        self.assertEqual(self.told("unused"), ["crates/low/proofs/Laws.antt:10: alone", "crates/low/proofs/Laws.antt:21: other"])

    def test_what_is_passed_on_is_used(self) -> None:
        """A lemma is used through a module that passes it on."""
        self.write({
            "crates/low/proofs/On.antt": "pub use Rattle.low.proofs.Laws.{alone}\n",
            "crates/high/proofs/g/Proof.antt": "use Rattle.low.proofs.On.{alone}\n\ng : ℕ\ng = alone 1\n",
        })
        self.assertEqual(self.told("unused"), ["crates/low/proofs/Laws.antt:21: other"])

    def test_contracts_rows_and_documents_use(self) -> None:
        """What a contract, a tactic of code, a worked example or a document names is used."""
        self.write({
            "crates/low/specs/Words.antt": "abbrev pub said : ℕ\nsaid = 1\n\nabbrev pub unfolded : ℕ\nunfolded = 1\n",
            "crates/low/src/lib.rt": "ghost use Rattle.low.specs.Words.{said};\n#[tactic(auto, unfolding(crate::specs::Words::unfolded))]\n",
            "crates/low/proofs/RowsOne.antt": "use Rattle.low.proofs.Laws.{alone}\n\nrow : ℕ\nrow = alone 1\n",
            "docs/laws/PROOFS.md": "As `other` says.\n",
        })
        self.assertEqual(self.told("unused"), [])

    def test_what_stands_twice(self) -> None:
        """Blocks are the same without comments, and those of one file count once."""
        block = "a : ℕ\na = 1\nb : ℕ\nb = 2\n"
        self.write({"crates/low/proofs/One.antt": "-- one\n" + block, "crates/high/proofs/Two.antt": block + "\n" + block})
        self.assertEqual(self.told("twice", "4"), ["4 lines, a : ℕ: crates/high/proofs/Two.antt, crates/low/proofs/One.antt"])
        self.assertEqual(self.told("twice"), [])

    def test_wide_lines(self) -> None:
        """A line has 130 columns at most, whatever bytes they take, unless it imports."""
        self.write({"crates/low/proofs/Wide.antt": "use " + "ℕ" * 140 + "\n" + "ℕ" * 130 + "\n" + "ℕ" * 131 + "\n"})
        self.assertEqual(self.told("wide"), ["crates/low/proofs/Wide.antt:3"])

    def test_other_words(self) -> None:
        """Words that ask for nothing are told apart."""
        for words in ([], ["unused", "x"], ["twice", "x"], ["twice", "4", "4"]):
            self.assertIsNone(lemmas.told(words, self.room.name), words)


def main(name: str) -> int:
    """Runs the tests, and counts them."""
    ran = unittest.TextTestRunner(verbosity=0).run(unittest.defaultTestLoader.loadTestsFromName(name))
    failed = len(ran.failures) + len(ran.errors)
    print("lemmas: %d passed, %d failed" % (ran.testsRun - failed, failed))
    return 1 if failed else 0


if __name__ == "__main__":
    sys.exit(main(__name__))
