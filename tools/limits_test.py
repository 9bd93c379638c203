#!/usr/bin/env python3
"""Tests of tools/limits.py on small crates that are made here. Run it: tools/limits_test.py"""
import contextlib
import io
import os
import pathlib
import tempfile
import unittest
from unittest import mock

import limits

CODE = """\
// 1460 in a comment counts nowhere
fn cut(n: u32) -> u32
    requires { n ≤ 1460 }
    ensures { result ≤ 65535 }
{
    let most = 1_460;
    let text = "1460 bytes";
    let other = 14600 + 1460.5 + a1460 + 11_460;
    most.min(0x5B4).min(1460u32)
}
"""
SPECS = """\
-- at most 2 ^ 24 bytes
stream : ℕ
stream = 2 ^ 24
units : ℕ
units = 2 ^ 24 + 1
modulus : ℕ → ℕ
modulus n = n % 2 ^ 64
"""


class Limits(unittest.TestCase):
    def setUp(self):
        room = tempfile.TemporaryDirectory()
        self.addCleanup(room.cleanup)
        self.addCleanup(os.chdir, os.getcwd())
        self.top = pathlib.Path(room.name)
        os.chdir(self.top)
        self.put("crates/limits/src/lib.rt", "pub const SEGMENT: u32 = 1_460;\n")
        self.put("crates/plain/src/lib.rt", "fn none() {}\n")

    def put(self, name, text):
        path = self.top / name
        path.parent.mkdir(parents=True, exist_ok=True)
        path.write_text(text)

    def run_tool(self, *words):
        out = io.StringIO()
        with contextlib.redirect_stdout(out), mock.patch("sys.argv", ["limits.py", *words]):
            return limits.main(), out.getvalue().splitlines()

    def test_none(self):
        """The home of the limits may spell them."""
        self.assertEqual(self.run_tool(), (0, ["", "in all: 0 in code, 0 in contract, 0 in definition"]))

    def test_code(self):
        """Each spelling in code counts, and makes the status 1; comments, texts and longer numbers don't."""
        self.put("crates/low/src/lib.rt", CODE)
        status, lines = self.run_tool("--list")
        self.assertEqual((status, lines[0], lines[-1]), (1, "low: 3 in code, 2 in contract", "in all: 3 in code, 2 in contract, 0 in definition"))
        found = [tuple(line.split(":")[1:3]) for line in lines if line.startswith("  ")]
        self.assertEqual([(int(at), said.split()[0], said.split()[1]) for at, said in found][:2], [(3, "contract", "1460"), (4, "contract", "65535")])
        self.assertEqual([int(at) for at, _ in found], [3, 4, 6, 9, 9])
        self.assertEqual(lines[-3:-1], ["SEGMENT: 3 in code, 1 in contract, 0 in definition", "BUFFER: 0 in code, 1 in contract, 0 in definition"])

    def test_contracts(self):
        """Limits in contracts and definitions are counted, and are no fault."""
        self.put("crates/low/src/lib.rt", "fn cut(n: u32)\n    requires { n ≤ 1460 }\n{}\n")
        self.put("crates/low/specs/Sizes.antt", SPECS)
        status, lines = self.run_tool()
        self.assertEqual((status, lines[0]), (0, "low: 1 in contract, 2 in definition"))
        wanted = ["SEGMENT: 0 in code, 1 in contract, 0 in definition"]
        wanted += [f"{it}: 0 in code, 0 in contract, 1 in definition" for it in ("STREAM", "UNITS")]
        self.assertEqual(sorted(lines[2:5]), wanted)

    def test_one_less(self):
        """The largest index of an entry is a limit too; an exponent isn't."""
        self.put("crates/low/src/lib.rt", "fn low(n: u64) -> bool\n    requires { n < 2 ^ 63 + 1460 }\n{\n    n <= 63\n}\n")
        status, lines = self.run_tool("--list")
        found = [line.split(":")[1:3] for line in lines if line.startswith("  ")]
        self.assertEqual((status, lines[0], found), (1, "low: 1 in code, 1 in contract", [["2", " contract 1460 (SEGMENT)"], ["4", " code 63 (ENTRIES - 1)"]]))

    def test_kinds(self):
        """A line that names a kind of message may have its length, and no index."""
        self.put("crates/plain_packets/src/message.rt", "fn low(n: u64) -> bool {\n    Body::Done(_) => n == 22,\n    Body::List { index } => index <= 63,\n}\n")
        self.assertEqual(self.run_tool()[1][0], "plain_packets: 1 in code")

    def test_named(self):
        """Only the crates that are named."""
        self.put("crates/low/src/lib.rt", CODE)
        self.assertEqual((self.run_tool("plain")[0], self.run_tool("low")[0]), (0, 1))

    def test_elsewhere(self):
        """A number that means something else in one file counts in another."""
        place = "const SYN: u8 = 64;\n"
        self.put("crates/seq_arith/src/flags.rt", place)
        self.assertEqual(self.run_tool()[0], 0)
        self.put("crates/seq_arith/src/lib.rt", place)
        self.assertEqual(self.run_tool()[0], 1)


if __name__ == "__main__":
    unittest.main()
