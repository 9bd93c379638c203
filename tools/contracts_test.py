#!/usr/bin/env python3
"""Tests of tools/contracts.py on a small crate that is made here; its lines were written by hand. Run it: tools/contracts_test.py"""
import contextlib
import io
import pathlib
import tempfile
import unittest
from unittest import mock

import believed
import contracts

LONG = " && ".join(f"double n == {number}" for number in range(14))
LIB = f"""\
//! Counts of bytes. More is said here.

ghost use Rattle.std.specs.Prelude.{{◌≡◌, ◌≤◌}};
ghost use Rattle.low.specs.Sums.{{double}};

pub use counter::Counter;

mod counter;

/// Doubles a count. It is small.
pub fn doubled(n: u32) -> u32
    requires small {{ n ≤ 8 }}
    ensures {{ result ≡ double n }}
{{
    n + n
}}

/// Doubling is long.
pub fn doubling_is_long()
    ensures {{ (n : ℕ) → {LONG} }}
    ensures once {{ (n : ℕ) → {LONG} }}
{{}}

fn hidden(n: u32) -> u32
{{
    n
}}
"""
COUNTER = """\
//! A count.

/// A count of bytes.
pub struct Counter {
    count: u32,
}

impl Counter {
    /// Returns the count.
    pub fn count(&self) -> u32
        ensures { result ≡ self.now.count }
    {
        self.count
    }

    /// Adds to the count, which is private.
    fn add(&mut self, n: u32)
    {
        self.count += n;
    }
}
"""
FILES = {
    "crates.txt": "# one crate\nlow:\n",
    "crates/low/src/lib.rt": LIB,
    "crates/low/src/counter.rt": COUNTER,
    "crates/low/specs/Sums.antt": "abbrev pub double : ℕ → ℕ\ndouble n = n + n\n",
    "docs/CONTRACTS.md": "",
}
LINES = [
    "- `Counter::count(&self)`: Returns the count. Ensures `result ≡ self.now.count`.",
    "- `doubled(n)`: Doubles a count. Requires *small* `n ≤ 8`. Ensures `result ≡ double n`.",
    "- Law `doubling_is_long()`: Doubling is long. Ensures (`double`); *once* (`double`).",
]


class Page(unittest.TestCase):
    def setUp(self):
        room = tempfile.TemporaryDirectory()
        self.addCleanup(room.cleanup)
        self.top = pathlib.Path(room.name)
        for name, text in FILES.items():
            path = self.top / name
            path.parent.mkdir(parents=True, exist_ok=True)
            path.write_text(text, encoding="utf-8")
        for name, place in (("TOP", self.top), ("CRATES", self.top / "crates")):
            patch = mock.patch.object(believed, name, place)
            patch.start()
            self.addCleanup(patch.stop)
        for function in vars(believed).values():
            if hasattr(function, "cache_clear"):
                function.cache_clear()
                self.addCleanup(function.cache_clear)

    def run_tool(self, *words):
        """The status and what is printed."""
        out = io.StringIO()
        with contextlib.redirect_stdout(out), contextlib.redirect_stderr(out), mock.patch("sys.argv", ["contracts.py", *words]):
            try:
                status = contracts.main()
            except SystemExit as end:
                status = end.code
        return status or 0, out.getvalue()

    def test_crate(self):
        status, text = self.run_tool("low")
        self.assertEqual(status, 0)
        self.assertEqual([line for line in text.splitlines() if line.startswith("- ")], LINES)
        self.assertIn("Counts of bytes.", text)

    def test_unknown_crate(self):
        self.assertNotEqual(self.run_tool("high")[0], 0)

    def test_check(self):
        self.assertNotEqual(self.run_tool("--check")[0], 0)
        (self.top / "docs/CONTRACTS.md").write_text(self.run_tool("--table")[1], encoding="utf-8")
        self.assertEqual(self.run_tool("--check")[0], 0)
        source = self.top / "crates/low/src/lib.rt"
        source.write_text(LIB.replace("n ≤ 8", "n ≤ 9"), encoding="utf-8")
        for function in vars(believed).values():
            if hasattr(function, "cache_clear"):
                function.cache_clear()
        self.assertNotEqual(self.run_tool("--check")[0], 0)


if __name__ == "__main__":
    unittest.main()
