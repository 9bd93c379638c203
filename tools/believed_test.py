#!/usr/bin/env python3
"""Tests of tools/believed.py on two small crates that are made here; what their contracts lead to was counted by hand. Run it: tools/believed_test.py"""
import contextlib
import io
import pathlib
import signal
import tempfile
import unittest
from unittest import mock

import believed

SUMS = """\
-- Sums.
use Rattle.std.specs.Prelude.{ℕ, ◌+◌}
use Rattle.low.specs.More as More

-- the double of a number
abbrev pub double : ℕ → ℕ
double n = n + n

-- four times a number; its last line names tenfold only in a comment
unfoldable pub fourfold : ℕ → ℕ
fourfold n = double (double n)  -- tenfold

-- ten times a number
abbrev pub tenfold : ℕ → ℕ
tenfold n = fourfold n + More.sixfold n

-- a count with its limit
pub record Tally : Type 0 where
  pub count : ℕ
  pub limit : ℕ

-- how a count ends
pub data End : Type 0 where
  Stopped : ℕ → End
  Ran_out : End
"""
MORE = """\
use Rattle.std.specs.Prelude.{ℕ}
use Rattle.low.specs.Sums.{double, fourfold}

abbrev pub sixfold : ℕ → ℕ
sixfold n = double n
  + fourfold n

abbrev pub unused : ℕ
unused = 1
"""
LIB = """\
//! The lower crate.
ghost use Rattle.std.specs.Prelude.{◌≡◌};
ghost use Rattle.low.specs.Sums.{double, fourfold, tenfold, Ran_out};
ghost use Rattle.low.proofs.Lemmas.{secret};

pub use counter::Counter;

mod counter;

/// Doubles. In words, tenfold isn't named here.
pub fn twice(n: u32) -> u32
    ensures exact { result ≡ double n }
{
    helper(n)
}

pub fn ten(n: u32) -> u32
    ensures exact { result ≡ tenfold n }
{
    n * 10
}

pub fn ends() -> bool
    ensures { Ran_out ≡ Ran_out }
{
    true
}

fn helper(n: u32) -> u32
    ensures hidden { result ≡ secret n }
{
    n + n
}

#[cfg(test)]
mod tests {
    pub fn tested(n: u32)
        ensures { secret n }
    {}
}
"""
COUNTER = """\
ghost use Rattle.low.specs.Sums.{Tally};

/// Counts.
pub struct Counter {
    count: u32,
    limit: u32,
}

impl Model for Counter {
    ghost use Rattle.low.specs.Sums.{fourfold};

    ghost Value = { Tally };

    ghost view = { λ c. record { count = c.count; limit = fourfold c.limit } };
}

impl Counter {
    /// Makes one.
    pub fn new() -> Counter
        ensures { result }
    {
        Counter { count: 0, limit: 1 }
    }

    fn hidden(&self)
        ensures { self.now ≡ tenfold }
    {}
}
"""
TOP = """\
ghost use Rattle.top.proofs.Facts.{holds};
use low::Counter;

/// A thing that counts.
pub trait Counts {
    ghost use Rattle.low.specs.Sums.{double, tenfold};

    /// What it counts.
    ghost value: { ℕ → Self };

    /// Counts on.
    fn step(&mut self)
        ensures { tenfold self.old };

    /// A law.
    ghost lawful: { value 1 ≡ double 1 };
}

pub fn leaky(c: &Counter)
    ensures { holds c.now }
{}

pub fn used<C: Counts>(c: &C)
    ensures { value c }
{}
"""
MAIN = "use low::Counter;\n\npub fn main()\n    ensures { double }\n{}\n"
FILES = {
    "crates.txt": "# all\nlow: std\ntop: low std\nprogram: low  # a program\n",
    "crates/low/specs/Sums.antt": SUMS,
    "crates/low/specs/More.antt": MORE,
    "crates/low/proofs/Lemmas.antt": "secret : ℕ → Type\nsecret n = n ≡ n\n",
    "crates/low/src/lib.rt": LIB,
    "crates/low/src/counter.rt": COUNTER,
    "crates/top/src/lib.rt": TOP,
    "crates/top/proofs/Facts.antt": "holds : ℕ → Type\nholds n = n ≡ n\n",
    "crates/program/src/main.rt": MAIN,
}
ARCHITECTURE = """\
### What has to be believed

| crate | files |
|---|---|
| `low` | `Sums`, `More` |

Other contracts are listed elsewhere: `Nothing`.
"""


class Repository(unittest.TestCase):
    def setUp(self):
        room = tempfile.TemporaryDirectory()
        self.addCleanup(room.cleanup)
        self.top = pathlib.Path(room.name)
        for name, text in FILES.items():
            self.put(name, text)
        patches = {"TOP": self.top, "CRATES": self.top / "crates", "CALLS": [("low::ten", "`ten`"), ("low::twice", "`twice`")]}
        for name, value in patches.items():
            patch = mock.patch.object(believed, name, value)
            patch.start()
            self.addCleanup(patch.stop)
        self.addCleanup(signal.signal, signal.SIGPIPE, signal.getsignal(signal.SIGPIPE))
        self.addCleanup(self.forget)
        self.forget()

    def forget(self):
        """Nothing that was read earlier is kept."""
        for call in vars(believed).values():
            if hasattr(call, "cache_clear"):
                call.cache_clear()

    def put(self, name, text):
        path = self.top / name
        path.parent.mkdir(parents=True, exist_ok=True)
        path.write_text(text)
        self.forget()

    def found(self, asked):
        """The definitions to which contracts lead, by file, and for each file how many lines these have."""
        table = believed.believed(asked)[1].table()
        return {f"{crate}/{file}": (sorted(names), lines) for (crate, file), (names, lines) in table.items()}

    def run_tool(self, *words):
        """The status, and what is printed on both outputs."""
        out, err = io.StringIO(), io.StringIO()
        with contextlib.redirect_stdout(out), contextlib.redirect_stderr(err), mock.patch("sys.argv", ["believed.py", *words]):
            with self.assertRaises(SystemExit) as end:
                believed.main()
        return end.exception.code, out.getvalue(), err.getvalue()


class Following(Repository):
    def test_definition(self):
        """One definition of two lines with the comment above it; not what its file has besides, nor what the function's body calls."""
        self.assertEqual(self.found("low::twice"), {"low/specs/Sums.antt": (["double"], 3)})

    def test_definitions_of_definitions(self):
        """Through another file, named by an alias, and back; what only a comment names doesn't count, and each definition counts once."""
        self.assertEqual(self.found("low::ten"), {"low/specs/Sums.antt": (["double", "fourfold", "tenfold"], 9), "low/specs/More.antt": (["sixfold"], 3)})

    def test_constructor(self):
        """It stands for its type."""
        self.assertEqual(self.found("low::ends"), {"low/specs/Sums.antt": (["End"], 4)})

    def test_type(self):
        """A type stands for its declaration, its comment among it, and for what it models: the impl's head and two ghost members."""
        wanted = {"low/src/counter.rt": (["Counter"], 5 + 1 + 2), "low/specs/Sums.antt": (["Tally", "double", "fourfold"], 4 + 3 + 3)}
        self.assertEqual(self.found("low::Counter::new"), wanted)

    def test_trait(self):
        """Of a trait its ghost members count, and no law: what a function promises, and ghost members after the functions."""
        self.assertEqual(self.found("top::used"), {"top/src/lib.rt": (["Counts"], 1)})

    def test_kit(self):
        _, reached = believed.believed("low::twice")
        self.assertEqual(dict(reached.kit), {"std.specs.Prelude": {"ℕ", "◌+◌", "◌≡◌"}})

    def test_public_functions(self):
        """Those that a library exports, methods of an exported type among them; no private ones, no tests, and none of a program."""
        names = [[name for name, _, _ in believed.public_functions(crate)] for crate in ("low", "top", "program")]
        self.assertEqual([sorted(them) for them in names], [["Counter::new", "ends", "ten", "twice"], ["Counts::step", "leaky", "used"], []])


class Commands(Repository):
    def test_names(self):
        status, out, _ = self.run_tool("--names", "low::ten")
        self.assertEqual(status, 0)
        self.assertEqual(out.splitlines()[0], "low::ten: contracts 1, files of specs 2, definitions and types 4, lines 12")
        self.assertIn("  low/specs/Sums.antt: definitions 3, lines 9 of 18\n    double, fourfold, tenfold\n", out)
        self.assertIn("  low/specs/More.antt: definitions 1, lines 3 of 5\n    sixfold\n", out)

    def test_proofs(self):
        """A contract that leads into proofs ends it with status 1; a private one doesn't count."""
        status, out, _ = self.run_tool("top::leaky")
        self.assertEqual(status, 1)
        self.assertIn("IN PROOFS top/proofs/Facts.antt: holds\n    by top::leaky\n", out)
        self.assertEqual((self.run_tool("--all")[0], self.run_tool("low")[0], self.run_tool("top::used")[0]), (1, 0, 0))

    def test_why(self):
        out = self.run_tool("--why", "low/specs/More:sixfold", "low::ten")[1]
        self.assertEqual(out, "  low::ten\n    -> low/specs/Sums.antt tenfold\n    -> low/specs/More.antt sixfold\n")
        self.assertEqual(self.run_tool("--why", "low/specs/More:unused", "low::ten")[1], "")

    def test_unknown(self):
        self.assertEqual(self.run_tool("nothing")[0], "no crate nothing")
        self.assertEqual(self.run_tool("low::helper")[0], "no public function helper in low")
        self.assertEqual((self.run_tool()[0], self.run_tool("--all", "low")[0]), (2, 2))


class Pages(Repository):
    def setUp(self):
        super().setUp()
        self.put("crates/top/src/lib.rt", TOP.replace("ensures { holds c.now }", "ensures { c.now }"))
        self.put("docs/ARCHITECTURE.md", ARCHITECTURE)
        self.put("docs/BELIEVED.md", self.run_tool("--table")[1])

    def test_table(self):
        status, out, err = self.run_tool("--table")
        self.assertEqual((status, err), (0, ""))
        for row in (
            "| file | lines | `ten` | `twice` |",
            "| **files of `specs/`** |  | **2** | **1** |",
            "| **definitions and types** |  | **4** | **1** |",
            "| **lines** |  | **12** | **3** |",
            "| `low/specs/More` | 5 | 3 |  |",
            "| `low/specs/Sums` | 18 | 9 | 3 |",
            "| `low` | 4 | 2 | 7 | 28 |  |  |",
        ):
            self.assertIn(f"\n{row}\n", out)

    def test_up_to_date(self):
        self.assertEqual(self.run_tool("--check"), (0, "up to date\n", ""))

    def check(self, *wanted):
        status, out, _ = self.run_tool("--check")
        self.assertEqual(status, 1)
        for words in wanted:
            self.assertIn(words, out)

    def test_changed_definition(self):
        self.put("crates/low/specs/More.antt", MORE.replace("  + fourfold n\n", "  + fourfold n\n  + 0\n"))
        self.check("docs/BELIEVED.md isn't")

    def test_files_in_architecture(self):
        self.put("docs/ARCHITECTURE.md", ARCHITECTURE.replace("`Sums`, `More`", "`Sums`"))
        self.check("docs/ARCHITECTURE.md doesn't list low/specs/More")
        self.put("crates/low/specs/Extra.antt", "abbrev pub extra : ℕ\nextra = 1\n")
        self.put("docs/ARCHITECTURE.md", ARCHITECTURE.replace("`Sums`, `More`", "`Sums`, `More`, `Extra`"))
        self.check("docs/ARCHITECTURE.md lists low/specs/Extra")

    def test_proofs(self):
        """The page's status shows a contract that leads into proofs."""
        self.put("crates/top/src/lib.rt", TOP)
        status, _, err = self.run_tool("--table")
        self.assertEqual(status, 1)
        self.assertIn("IN PROOFS top/proofs/Facts.antt: holds", err)


if __name__ == "__main__":
    unittest.main()
