#!/usr/bin/env python3
"""Tests of tools/server_status.py on a server and a logger on loopback (stand_ins.py). Run it: tools/server_status_test.py"""
import contextlib
import io
import unittest
from unittest import mock

import server_status
from loggers import Message
from stand_ins import ACK, FIN, PSH, RST, SYN, StandIn, clients, listener, log_of, logger, nobody, read_segment, segment, silent
from twin_model import PLAIN, WIDE, read_message

WAIT, SHORT = "0.1", "0.03"


def run(*words):
    """The status of the tool's main with these words, and what it prints on both outputs."""
    out, err = io.StringIO(), io.StringIO()
    with contextlib.redirect_stdout(out), contextlib.redirect_stderr(err), mock.patch("sys.argv", ["server_status.py", *words]):
        try:
            status = server_status.main()
        except SystemExit as end:
            status = end.code
    return status, out.getvalue().strip(), err.getvalue().strip()


class Servers(unittest.TestCase):
    """What a server answers, or doesn't."""

    def ask(self, answers, wait=SHORT):
        with StandIn(answers) as there:
            return run("--server", there.where, "--wait", wait), there

    def check_silence(self, said):
        status, out, err = said
        self.assertEqual((status, out), (3, ""))
        self.assertIn("no answer", err)

    def test_listens(self):
        """A server that answers isn't known to serve: its logger wasn't asked."""
        said, there = self.ask(listener, "5")
        self.assertEqual(said, (0, "answers", ""))
        self.assertEqual(len(there.asked), 1)

    def test_restarting(self):
        """Three acknowledgements, each from another port."""
        said, there = self.ask(silent)
        self.check_silence(said)
        self.assertEqual([read_segment(data)[4] for data, _ in there.asked], [ACK] * 3)
        self.assertEqual(len({read_segment(data)[0] for data, _ in there.asked}), 3)

    def test_nobody(self):
        for where in (nobody(), "255.255.255.255:7"):  # to the second nothing can even be sent
            self.check_silence(run("--server", where, "--wait", SHORT))

    def test_lost(self):
        """Two of three questions may be lost."""
        for number, wanted in ((1, 0), (2, 0), (3, 0), (4, 3)):
            count = []

            def late(data, asker):
                count.append(data)
                return listener(data, asker) if len(count) >= number else []

            self.assertEqual(self.ask(late, "0.2")[0][0], wanted, number)

    def test_bad(self):
        """None of these is a listening TCP's answer."""
        other = bytes([192, 0, 2, 9])

        def answer(make):
            def answers(data, _asker):
                source, destination, _, ack, _ = read_segment(data)
                return [make(destination, source, ack)]

            return answers

        rows = {
            "junk": lambda here, there, ack: b"junk",
            "cut": lambda here, there, ack: segment(here, there, ack, 0, RST)[:39],
            "the next number": lambda here, there, ack: segment(here, there, (ack + 1) % 2**32, 0, RST),
            "no RST": lambda here, there, ack: segment(here, there, ack, 0, ACK),
            "a SYN-ACK": lambda here, there, ack: segment(here, there, ack, 1, SYN | ACK),
            "RST and ACK": lambda here, there, ack: segment(here, there, ack, 1, RST | ACK),
            "RST and more": lambda here, there, ack: segment(here, there, ack, 0, RST | FIN | PSH),
            "of another address": lambda here, there, ack: segment((other, here[1]), there, ack, 0, RST),
            "of another port": lambda here, there, ack: segment((here[0], here[1] ^ 1), there, ack, 0, RST),
            "to another address": lambda here, there, ack: segment(here, (other, there[1]), ack, 0, RST),
            "to another port": lambda here, there, ack: segment(here, (there[0], there[1] ^ 1), ack, 0, RST),
            "its own question": lambda here, there, ack: segment(there, here, 0, ack, ACK),
        }
        for name, make in rows.items():
            with self.subTest(name):
                self.check_silence(self.ask(answer(make), "0.02")[0])

    def test_bad_before_right(self):
        self.assertEqual(self.ask(lambda data, asker: [b"junk", *listener(data, asker)], "5")[0], (0, "answers", ""))


class Loggers(unittest.TestCase):
    """A server that answers, and each state of its logger. What is expected follows from the log: whether it would give a further client a place."""

    def ask(self, answers, *words, wait=WAIT):
        with StandIn(listener) as server, StandIn(answers) as there:
            said = run("--server", server.where, "--logger", there.where, "--wait", wait, *words)
        for data, _ in there.asked:
            self.assertEqual(read_message(data, data[2]).name, "List", "it sends what could change the log")
        return said

    def check(self, log, boot, *words, version=PLAIN):
        """Whether it says that the server serves is whether an Open of the server's boot number is answered by Opened."""
        status, out, err = self.ask(logger(log, version), *words)
        used = len(log.entries)
        opened = log.answer(Message("Open", boot, {"key": 1, "cisn": 1, "sisn": 2, "mss": 536}))
        can_open = opened is not None and opened.name == "Opened"
        said = f"serves; {used} of 64 places" + f", {used} empty" * (used > 0)
        self.assertEqual((status, out) if can_open else (status > 0, out), (0, said) if can_open else (True, ""))
        return status, err

    def test_places(self):
        for used in (0, 1, 63):
            self.assertEqual(self.check(log_of(2, clients(used)), 2), (0, ""))
        status, err = self.check(log_of(2, clients(64)), 2)
        self.assertEqual(status, 1)
        self.assertIn("64 places", err)

    def test_wide(self):
        """A logger that takes only messages of version 2."""
        self.assertEqual(self.check(log_of(2, clients(63)), 2, version=WIDE), (0, ""))
        self.assertEqual(self.check(log_of(2, clients(64)), 2, version=WIDE)[0], 1)

    def test_new_log(self):
        """The logger was started again without a journal, and the server runs on: its messages aren't answered."""
        status, err = self.check(log_of(0, []), 5)
        self.assertEqual(status, 3)
        self.assertIn("logger", err)

    def test_first_boot(self):
        """A log of boot number 1 is silent before its first connection, as a new one is, so it isn't said that the server serves; with one it is."""
        self.assertEqual(self.ask(logger(log_of(1, [])))[:2], (3, ""))
        self.assertEqual(self.check(log_of(1, clients(1)), 1), (0, ""))

    def test_other_boot(self):
        """A server that is fenced, one of whose log another server began, and one with the log's number."""
        for boot, wanted, words in ((4, 1, "boot number 5, and the server 4"), (6, 1, "boot number 5, and the server 6"), (5, 0, "")):
            status, err = self.check(log_of(5, []), boot, "--boot", str(boot))
            self.assertEqual(status, wanted, boot)
            self.assertIn(words, err)

    def test_no_logger(self):
        for answers in (silent, lambda _data, _asker: [b"junk"]):
            status, out, err = self.ask(answers, wait=SHORT)
            self.assertEqual((status, out), (3, ""))
            self.assertIn("not its logger", err)

    def test_server_first(self):
        """Where the server doesn't answer, the logger isn't asked."""
        with StandIn(logger(log_of(2, []))) as there:
            self.assertEqual(run("--server", nobody(), "--logger", there.where, "--wait", SHORT)[0], 3)
        self.assertEqual(there.asked, [])


class Words(unittest.TestCase):
    def test_wrong(self):
        for words in ((), ("--server", "127.0.0.1"), ("--server", "127.0.0.1:7", "--boot", "1"), ("--server", "127.0.0.1:7", "--wait", "x")):
            self.assertEqual(run(*words)[0], 2, words)


if __name__ == "__main__":
    unittest.main()
