#!/usr/bin/env python3
"""Tests of tools/gate_times.py on stand-ins for the prover, which are started here, and on tables made by hand. Run it: tools/gate_times_test.py"""
import contextlib
import io
import os
import signal
import subprocess
import sys
import tempfile
import time
import unittest
from unittest import mock

import gate_times
from gate_times import Run

# Starts a prover: a shell whose first word is `rattle`, which does the rest of its words and then waits until its input ends.
PROVER = "import os, sys; os.execv('/bin/bash', ['/opt/kit/rattle', '-c', sys.argv[1] + chr(10) + 'read line', *sys.argv[2:]])"
BURN = f"{sys.executable} -c 'import time\nwhile time.process_time() < 0.3: pass'"
RUNS = [
    Run("top", "proof", 60.0, 1000.0, 1090.0, 700),
    Run("top", "edits", 30.0, 1060.0, 1120.0, 900),
    Run("low", "proof", 90.0, 1000.0, 1050.0, 300),
    Run("low", "proof", 30.0, 1000.0, 1050.0, 300),
    Run("side", "tests", 6.0, 1000.0, 1010.0, 100),
]
TABLE = """\
| crate | proof | tests | edits | all | chain | below | above | again |
|---|---|---|---|---|---|---|---|---|
| `low` | 2.0 |  |  | 2.0 | 2.0 | 2.0 | 2 | 3.6 |
| `top` | 1.0 |  | 0.5 | 1.5 | 3.0 | 3.0 | 0 | 1.5 |
| `side` |  | 0.1 |  | 0.1 | 2.0 | 2.0 | 0 | 0.1 |
| all | 3.0 | 0.1 | 0.5 | 3.6 | | | | |

The longest chain of proofs is 3.0 processor minutes: low, top.
By the clock 2 minutes. The most memory that one process held: 900 MB (top, edits).
"""
SAVED = """\
top\tproof\t60.00\t1000.0\t1090.0\t700
top\tedits\t30.00\t1060.0\t1120.0\t900
low\tproof\t90.00\t1000.0\t1050.0\t300
low\tproof\t30.00\t1000.0\t1050.0\t300
side\ttests\t6.00\t1000.0\t1010.0\t100
"""
BELOW = {"low": [], "side": ["low"], "top": ["low"]}


@contextlib.contextmanager
def prover(does, *words, folder=None):
    """A stand-in for the prover that does this, with these words on its command line; ready once it has done it."""
    command = [sys.executable, "-c", PROVER, f"{does}\necho ready", *words]
    child = subprocess.Popen(command, cwd=folder, stdin=subprocess.PIPE, stdout=subprocess.PIPE)
    try:
        while b"ready" not in (line := child.stdout.readline()):
            assert line, "the stand-in has ended"
        yield child
    finally:
        child.stdin.close()
        child.stdout.close()
        child.wait()


def printed(call, *words):
    out = io.StringIO()
    with contextlib.redirect_stdout(out):
        call(*words)
    return out.getvalue()


class Processes(unittest.TestCase):
    def test_purposes(self):
        for words, wanted in (
            (["--crate-name", "low"], ("low", "proof")),
            (["x", "--crate-name", "low", "--test"], ("low", "tests")),
            (["--crate", "low"], None),
        ):
            with prover("true", *words) as child:
                self.assertEqual(gate_times.purpose(child.pid), wanted, words)
        with tempfile.TemporaryDirectory(prefix="rt-edit-") as room, prover("true", "--crate-name", "low", "--test", folder=room) as child:
            self.assertEqual(gate_times.purpose(child.pid), ("low", "edits"))
        self.assertIsNone(gate_times.purpose(os.getpid()))
        self.assertIsNone(gate_times.purpose(child.pid), "it has ended")

    def test_below(self):
        """All processes below one, however deep, and no other."""
        with prover("sleep 60 & echo pid $!", "--crate-name", "low") as child:
            inner = gate_times.below(gate_times.processes(), child.pid)
            self.assertEqual(len(inner), 1)
            self.assertEqual(set(gate_times.below(gate_times.processes(), os.getpid())), {child.pid, *inner})
            os.kill(inner[0], signal.SIGKILL)
        self.assertEqual(gate_times.below({1: (0, 0, 0), 2: (1, 0, 0), 3: (2, 0, 0), 4: (0, 0, 0)}, 1), [2, 3])

    def test_seconds(self):
        """The time of a child for which a prover waited is the prover's. A second look at it makes no second run."""
        runs = {}
        with prover(BURN, "--crate-name", "low") as child:
            gate_times.look(os.getpid(), runs)
            first = dict(runs)
            gate_times.look(os.getpid(), runs)
            ((pid, _),) = runs
            self.assertEqual(pid, child.pid)
        ((name, run),) = runs.items()
        self.assertEqual(run[:2], ("low", "proof"))
        self.assertTrue(0.29 <= run.seconds < 3, run)
        self.assertTrue(first[name].first == run.first <= first[name].last <= run.last, run)
        self.assertGreaterEqual(run.memory, 1)

    def test_prover_below_a_prover(self):
        """It counts once: in the upper one, which waits for it."""
        runs, inner = {}, f"{sys.executable} -c \"{PROVER}\" 'sleep 60' --crate-name low &"
        with prover(inner, "--crate-name", "top") as child:
            until = time.monotonic() + 20
            while (provers := self.provers_below(child.pid)) != [("low", "proof")] and time.monotonic() < until:
                time.sleep(0.01)
            self.assertEqual(provers, [("low", "proof")])
            gate_times.look(os.getpid(), runs)
            for pid in gate_times.below(gate_times.processes(), child.pid):
                os.kill(pid, signal.SIGKILL)
        self.assertEqual([run.crate for run in runs.values()], ["top"])

    def provers_below(self, pid):
        return [what for it in gate_times.below(gate_times.processes(), pid) if (what := gate_times.purpose(it))]

    def test_running(self):
        child = subprocess.Popen(["sleep", "60"])
        self.assertTrue(gate_times.is_running(child.pid))
        child.kill()
        os.waitid(os.P_PID, child.pid, os.WEXITED | os.WNOWAIT)
        self.assertFalse(gate_times.is_running(child.pid), "it has ended, and nobody has waited for it")
        child.wait()
        self.assertFalse(gate_times.is_running(child.pid))

    def test_watch(self):
        """It looks until the run has ended, and what is saved then has its last look, too."""
        turns = iter([False, False, True])
        look = lambda _root, runs: runs.update({len(runs): RUNS[len(runs)]})
        with tempfile.TemporaryDirectory() as room, mock.patch("time.sleep"), mock.patch.object(gate_times, "look", look):
            self.assertEqual(gate_times.watch(os.getpid(), f"{room}/times", lambda: next(turns)), RUNS[:2])
            self.assertEqual(gate_times.read(f"{room}/times"), RUNS[:2])
            self.assertEqual(os.listdir(room), ["times"])


class Tables(unittest.TestCase):
    def test_table(self):
        with tempfile.TemporaryDirectory() as room, mock.patch.object(gate_times, "crates_below", lambda: BELOW):
            gate_times.write(RUNS, f"{room}/times")
            with open(f"{room}/times", encoding="utf-8") as file:
                self.assertEqual(file.read(), SAVED)
            self.assertEqual(gate_times.read(f"{room}/times"), RUNS)
            with mock.patch("sys.argv", ["gate_times.py", "table", f"{room}/times"]):
                self.assertEqual(printed(gate_times.main), TABLE)

    def test_page(self):
        """The notes of the kept file stand above its table, and crates without times below it; and the page in docs is what the tool prints."""
        with tempfile.TemporaryDirectory() as room, mock.patch.object(gate_times, "crates_below", lambda: {**BELOW, "new": []}):
            os.mkdir(f"{room}/tools")
            with mock.patch.object(gate_times, "TOP", room):
                with open(f"{room}/{gate_times.KEPT}", "w", encoding="utf-8") as file:
                    file.write("# One run\n# of today.\n" + SAVED)
                text = gate_times.page()
        self.assertIn("in processor minutes. One run of today.\n", text)
        self.assertTrue(text.endswith(f"\n\n{TABLE}\nNot measured: `new`.\n"), text)
        with mock.patch("sys.argv", ["gate_times.py", "page", "--check"]), self.assertRaises(SystemExit) as end:
            self.assertEqual(printed(gate_times.main), "up to date\n")
        self.assertEqual(end.exception.code, 0)

    def test_without_tests(self):
        """A kind of which there is nothing has no column, and memory that isn't known no sentence."""
        text = printed(gate_times.print_table, [Run("low", "proof", 60.0, 0.0, 60.0, 0)])
        self.assertTrue(text.startswith("| crate | proof | all | chain | below | above | again |\n|---|---|---|---|---|---|---|\n| `low` | 1.0 | 1.0 | "), text)
        self.assertTrue(text.endswith("By the clock 1 minutes.\n"), text)

    def test_chains(self):
        """The dearest way down, not the longest one."""
        below = {"a": [], "b": ["a"], "c": ["b"], "d": [], "e": ["c", "d"]}
        ways = gate_times.chains({"a": 1.0, "b": 1.0, "c": 1.0, "d": 10.0, "e": 2.0}, below)
        self.assertEqual(ways["e"], (12.0, ["d", "e"]))
        self.assertEqual(ways["c"], (3.0, ["a", "b", "c"]))
        self.assertEqual(gate_times.chains({}, {"x": ["not_here"], "not_here": []})["x"], (0.0, ["not_here", "x"]))

    def test_above(self):
        above = gate_times.crates_above({"a": [], "b": ["a"], "c": ["b"], "d": ["b", "c"], "e": []})
        self.assertEqual({crate: sorted(above[crate]) for crate in "abcde"}, {"a": ["b", "c", "d"], "b": ["c", "d"], "c": ["d"], "d": [], "e": []})

    def test_crates(self):
        """Each crate has a folder, and stands on those that its line in crates.txt names."""
        below = gate_times.crates_below()
        top = os.path.dirname(os.path.dirname(os.path.abspath(gate_times.__file__)))
        self.assertEqual(sorted(below), sorted(os.listdir(f"{top}/crates")))
        with open(f"{top}/crates.txt", encoding="utf-8") as file:
            (line,) = [line for line in file if line.startswith("tcp_endpoint:") or line.startswith("tcp_endpoint ")]
        self.assertTrue(set(below["tcp_endpoint"]) <= set(line.partition("#")[0].replace(":", " ").split()))
        self.assertIn("tcp_buffers", below["tcp_endpoint"])
        self.assertLessEqual({name for names in below.values() for name in names}, set(below), "a crate of the kit has no times here")

    def test_log(self):
        lines = ["fn low::a::b: proved", "fn low::c: proved (kept)", "fn low::d: not proved", "rt: low proved", "fn top::e: proved"]
        lines += ["rt: must-fail top/one: refused", "must-fail top/two: REFUSED", "must-fail top/three: PROVED", "rt: top proved", "rt: other failed", "noise"]
        wanted = "| crate | functions proved, its tests among them | edits refused |\n|---|---|---|\n| `low` | 2 |  |\n| `top` | 1 | 2 |\n"
        with tempfile.NamedTemporaryFile("w", suffix=".log") as file:
            file.write("\n".join(lines) + "\n")
            file.flush()
            with mock.patch("sys.argv", ["gate_times.py", "log", file.name]):
                self.assertEqual(printed(gate_times.main), wanted)


class Commands(unittest.TestCase):
    def test_run(self):
        """It starts `rt ci` with its words, and ends with its status."""
        with tempfile.TemporaryDirectory() as room:
            with open(f"{room}/rt", "w", encoding="utf-8") as file:
                file.write(f'#!/bin/sh\necho "$@" > {room}/words\nexit 7\n')
            os.chmod(f"{room}/rt", 0o755)
            words = ["gate_times.py", "run", "--anew", "--save", f"{room}/times", "low", "top"]
            with mock.patch("sys.argv", words), mock.patch.dict(os.environ, {"PATH": f"{room}:{os.environ['PATH']}"}), self.assertRaises(SystemExit) as end:
                printed(gate_times.main)
            self.assertEqual(end.exception.code, 7)
            with open(f"{room}/words", encoding="utf-8") as file:
                self.assertEqual(file.read(), "ci --anew low top\n")


if __name__ == "__main__":
    unittest.main()
