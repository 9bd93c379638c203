#!/usr/bin/env python3
"""Tests of tools/wrong_bodies.py on a small repository that is made here, with a stand-in for `rt`. Run it: tools/wrong_bodies_test.py"""
import contextlib
import io
import os
import pathlib
import subprocess
import tempfile
import unittest
from unittest import mock

import wrong_bodies

TOP = pathlib.Path(__file__).resolve().parent.parent
FILES = {
    "crates/low/must-fail/loses_a_byte.edit": "# exact\n",
    "crates/low/wrong-bodies/forgets_the_fin.edit": "# fin\n",
    "crates/low/wrong-bodies/takes_too_much.edit": "# bound\n",
    "crates/low/wrong-bodies/swaps_two.edit": "# order\n",
    "crates/low/src/excluded.rt": """\
//! Small functions.

/// One with a body.
pub fn forgets_the_fin(a: u8) -> bool
    ensures fin { result ≡ true }
{
    true
}

/// A law.
fn takes_too_much()
    ensures bound { one ≡ one }
{}
""",
    "crates/top/wrong-bodies/never_ends.edit": "# end\n",
    "crates/top/src/lib.rt": "pub fn never_ends()\n{}\n",
    "tools/excluded.tsv": (
        "crate\tedit\tlaw\tclause\tseen\n"
        "low\tforgets_the_fin\t\t`fin` of \"close\"\tyes\n"
        "low\ttakes_too_much\t\t`bound`\tnot tried\n"
        "low\tswaps_two\torder_of_two\t`order`\tyes\n"
    ),
}
ROWS = """\
| `low` | `forgets_the_fin` | fin | the function `forgets_the_fin` | `fin` of "close" |
| `low` | `loses_a_byte` | exact | the edit itself |  |
| `low` | `swaps_two` | order | the law `order_of_two` | `order` |
| `low` | `takes_too_much` | bound | the law `takes_too_much` | `bound` (not tried) |
| `top` | `never_ends` | end | nothing |  |

5 in all: 1 nothing, 1 the edit itself, 1 the function, 2 the law.
"""


class Repository(unittest.TestCase):
    def setUp(self):
        room = tempfile.TemporaryDirectory()
        self.addCleanup(room.cleanup)
        self.addCleanup(os.chdir, os.getcwd())
        self.top = pathlib.Path(room.name) / "top"
        self.room = pathlib.Path(room.name)
        for name, text in FILES.items():
            self.put(name, text)
        os.chdir(self.top)

    def put(self, name, text):
        path = self.top / name
        path.parent.mkdir(parents=True, exist_ok=True)
        path.write_text(text)

    def run_tool(self, *words):
        """The status, and what is printed on both outputs."""
        out, err = io.StringIO(), io.StringIO()
        with contextlib.redirect_stdout(out), contextlib.redirect_stderr(err), mock.patch("sys.argv", ["wrong_bodies.py", *words]):
            try:
                status = wrong_bodies.main()
            except SystemExit as end:
                status = end.code
        return status, out.getvalue(), err.getvalue()


class Tables(Repository):
    def check_wrong(self, *names):
        """The table's status is 1, and these are named."""
        status, _, err = self.run_tool("--table")
        self.assertEqual((status, sorted(line.split()[-1] for line in err.splitlines())), (1, sorted(names)))

    def test_table(self):
        status, out, err = self.run_tool("--table")
        self.assertEqual((status, err), (0, ""))
        self.assertEqual(out.partition("|---|---|---|---|---|\n")[2], ROWS)

    def test_check(self):
        """The page that `--table` prints is up to date until a record changes."""
        self.put("docs/EXCLUDED.md", self.run_tool("--table")[1])
        self.assertEqual(self.run_tool("--check")[0], 0)
        self.put("crates/top/wrong-bodies/never_ends.edit", "# start\n")
        self.assertEqual(self.run_tool("--check")[0], 1)

    def test_list(self):
        self.assertEqual(self.run_tool("--list"), (0, "  1   3 low\n  0   1 top\n  1   4 in all\n", ""))

    def test_function_without_edit(self):
        self.put("crates/top/src/excluded.rt", "fn renamed_edit()\n    ensures a { b }\n{\n}\n")
        self.check_wrong("top/renamed_edit")

    def test_function_without_record(self):
        self.put("crates/top/src/excluded.rt", "fn never_ends()\n    ensures a { b }\n{\n}\n")
        self.check_wrong("top/never_ends")

    def test_record_without_edit(self):
        (self.top / "crates/low/wrong-bodies/swaps_two.edit").unlink()
        self.check_wrong("low/swaps_two")

    def test_record_without_function(self):
        self.put("crates/low/src/excluded.rt", "")
        self.check_wrong("low/forgets_the_fin", "low/takes_too_much")

    def test_unknown_crate(self):
        status, out, err = self.run_tool("low", "middle")
        self.assertEqual((status, out), (2, ""))
        self.assertIn("middle", err)


class Tries(Repository):
    """What `rt must-fail` gets."""

    def setUp(self):
        super().setUp()
        self.git("init", "-q")
        self.git("add", "-A")
        self.git("-c", "user.name=a", "-c", "user.email=a@localhost", "commit", "-qm", "All")
        self.put("crates/low/wrong-bodies/uncommitted.edit", "# new\n")
        folder = self.room / "bin"
        folder.mkdir()
        (folder / "rt").write_text(f'#!/bin/sh\n{{ echo "$@"; find crates -name "*.edit" | sort; }} >{self.room}/seen\nexit $(cat {self.room}/status)\n')
        (folder / "rt").chmod(0o755)
        patch = mock.patch.dict(os.environ, {"PATH": f"{folder}:{os.environ['PATH']}"})
        patch.start()
        self.addCleanup(patch.stop)

    def git(self, *words):
        return subprocess.run(["git", *words], cwd=self.top, check=True, capture_output=True, text=True).stdout

    def try_with(self, status, *names):
        """The tool's status where `rt` ends with this one, the words that `rt` got, and the edits that it saw."""
        (self.room / "status").write_text(str(status))
        found = self.run_tool(*names)[0]
        words, *edits = (self.room / "seen").read_text().splitlines()
        return found, words, edits

    def test_edits(self):
        """All wrong bodies of the last commit are tried, and the repository stays as it was."""
        before = self.git("status", "--porcelain"), self.git("worktree", "list")
        wanted = [f"crates/low/must-fail/{name}.edit" for name in ("forgets_the_fin", "loses_a_byte", "swaps_two", "takes_too_much")]
        self.assertEqual(self.try_with(0, "low"), (0, "must-fail low", [*wanted, "crates/top/must-fail/never_ends.edit"]))
        self.assertEqual((self.git("status", "--porcelain"), self.git("worktree", "list")), before)

    def test_status(self):
        """A wrong body that is proved shows in the status; without names, the crates with wrong bodies are tried."""
        self.assertEqual(self.try_with(1)[:2], (1, "must-fail low top"))
        self.assertEqual(len(self.git("worktree", "list").splitlines()), 1)


class Stored(unittest.TestCase):
    def test_page(self):
        """docs/EXCLUDED.md is what the tool prints of this repository."""
        out = io.StringIO()
        with contextlib.redirect_stdout(out):
            self.assertEqual(wrong_bodies.table(TOP), 0)
        self.assertEqual(out.getvalue(), (TOP / "docs/EXCLUDED.md").read_text())


if __name__ == "__main__":
    unittest.main()
