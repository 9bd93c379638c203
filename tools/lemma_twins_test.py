#!/usr/bin/env python3
"""Tests of tools/lemma_twins.py on small crates that are made here. Run it: tools/lemma_twins_test.py"""
import contextlib
import io
import pathlib
import tempfile
import unittest
from unittest import mock

import lemma_twins

LOW = """\
-- Sums.
use Rattle.std.specs.Naturals

-- Zero on the right.
add_zero : (n : Nat) → n + 0 ≡ n
add_zero n = refl

pub add_swap : (left right : Nat) → left + right ≡ right + left
add_swap = by auto

unfoldable twice : Nat → Nat
twice n = n + n

own_field : (n : Tally) → n.n ≡ 0
own_field = by auto

long : {A : Type} (xs ys : List A)
    → length (xs ++ ys)
    ≡ length xs + length ys
long = by auto
"""
MIDDLE = """\
pub zero_after : (m : Nat) → m + 0 ≡ m
zero_after = by auto
other : (m : Nat) → 0 + m ≡ m
other = by auto
field_zero : (m : Tally) → m.n ≡ 0
field_zero = by auto
primed : (m' m : Nat) → m' + m ≡ m + m'
primed = by auto
"""
TOP = """\
split : {T : Type} (front back : List T) → length (front ++ back) ≡ length front + length back
split = by auto
named : (n : Nat) → n.length + 0 ≡ n
named = by auto
swapped : (a b : Nat) → b + a ≡ a + b
swapped = by auto
"""
FOUND = """\
($0 : Nat) → $0 + 0 ≡ $0
    low/proofs/Sums: add_zero
    middle/proofs/More: zero_after
($0 $1 : Nat) → $0 + $1 ≡ $1 + $0
    low/proofs/Sums: add_swap
    middle/proofs/More: primed
($0 : Tally) → $0.n ≡ 0
    low/proofs/Sums: own_field
    middle/proofs/More: field_zero
{$0 : Type} ($1 $2 : List $0) → length ($1 ++ $2) ≡ length $1 + length $2
    low/proofs/Sums: long
    top/proofs/Lists: split
4 signatures stand more than once
"""


class Twins(unittest.TestCase):
    def setUp(self):
        room = tempfile.TemporaryDirectory()
        self.addCleanup(room.cleanup)
        self.top = pathlib.Path(room.name)
        (self.top / "crates.txt").write_text("# crates\ntop: middle std  # the program\nmiddle: low\nlow:\n")
        for crate, file, text in (("low", "Sums", LOW), ("middle", "More", MIDDLE), ("top", "Lists", TOP)):
            self.put(crate, file, text)
        patch = mock.patch.object(lemma_twins, "TOP", self.top)
        patch.start()
        self.addCleanup(patch.stop)

    def put(self, crate, file, text):
        path = self.top / f"crates/{crate}/proofs/{file}.antt"
        path.parent.mkdir(parents=True, exist_ok=True)
        path.write_text(text)

    def found(self, *words):
        out = io.StringIO()
        with contextlib.redirect_stdout(out), mock.patch("sys.argv", ["lemma_twins.py", *words]):
            lemma_twins.main()
        return out.getvalue()

    def test_order(self):
        """A crate comes after those that it stands on."""
        self.assertEqual(lemma_twins.order_of_crates(), {"low": 0, "middle": 1, "top": 2})

    def test_groups(self):
        """The same but for names and line breaks. Sides the other way round aren't the same, nor is a name that is a part of a word."""
        self.assertEqual(self.found(), FOUND)

    def test_one_crate(self):
        """The groups of one crate, with the others' places in them."""
        self.assertEqual(self.found("--crate", "top").splitlines()[:-1], FOUND.splitlines()[9:12])
        self.assertEqual(len(self.found("--crate", "low").splitlines()), 13)

    def test_most_first(self):
        self.put("top", "More", "again : (x : Nat) → x + 0 ≡ x\nagain = by auto\n")
        places = self.found().splitlines()[1:4]
        self.assertEqual(places, ["    low/proofs/Sums: add_zero", "    middle/proofs/More: zero_after", "    top/proofs/More: again"])

    def test_left_out(self):
        """Answers of proofs (files in a folder below), and types of functions."""
        self.put("top", "module/function/Answers", "again : (x : Nat) → x + 0 ≡ x\nagain = by auto\n")
        self.put("top", "Functions", "half : Nat → Nat\nhalf n = n / 2\nthird : Nat → Nat\nthird n = n / 3\n")
        self.assertEqual(len(self.found().splitlines()), 13)

    def test_two_definitions(self):
        """Words of one name that different modules define: of the file itself, of a module that it imports, and by the name of a module."""
        lemma = "again : (x : Nat) → is_end x ≡ true → after.end x ≡ 0\nagain = by auto\n"
        self.put("middle", "Own", "is_end : Nat → Bool\nis_end x = x == 0\nuse Rattle.low.specs.Ends as after\n" + lemma)
        self.put("middle", "Imports", "use Rattle.low.specs.Ends.{is_end}\nuse Rattle.low.specs.Ends as after\n" + lemma)
        self.put("top", "Others", "use Rattle.low.specs.Ends.{is_end}\nuse Rattle.middle.specs.Ends as after\n" + lemma)
        self.put("top", "Signs", "use Rattle.low.specs.Signs.{◌+◌}\nplus : (x : Nat) → x + 0 ≡ x\nplus = by auto\n")
        self.assertEqual(self.found(), FOUND)

    def test_one_definition(self):
        """One word under two names, of a module that hands it on, and of the kit, whose modules hand on what others define."""
        (self.top / "crates/middle/specs").mkdir()
        (self.top / "crates/middle/specs/Handed.antt").write_text("pub use Rattle.low.specs.Ends.{is_end}\n")
        for crate, file, uses, word in (
            ("middle", "Straight", "use Rattle.low.specs.Ends.{is_end}\nuse Rattle.std.specs.Prelude.{not}\n", "is_end"),
            ("middle", "Renamed", "use Rattle.low.specs.Ends.{is_end as ends}\nuse Rattle.std.proofs.Common.{not}\n", "ends"),
            ("top", "Handed", "use Rattle.middle.specs.Handed.{is_end}\nuse Rattle.std.proofs.Common.{not}\n", "is_end"),
        ):
            self.put(crate, file, f"{uses}again : (x : Nat) → not ({word} x) ≡ true\nagain = by auto\n")
        places = "    middle/proofs/Renamed: again\n    middle/proofs/Straight: again\n    top/proofs/Handed: again\n"
        self.assertIn(f"($0 : Nat) → not (ends $0) ≡ true\n{places}", self.found())

    def test_one_file(self):
        """Twice in one file."""
        self.put("low", "Both", "one : (a : Bool) → a ≡ a\none = refl\ntwo : (b : Bool) → b ≡ b\ntwo = refl\n")
        self.assertIn("($0 : Bool) → $0 ≡ $0\n    low/proofs/Both: one\n    low/proofs/Both: two\n", self.found())


if __name__ == "__main__":
    unittest.main()
