#!/usr/bin/env python3
"""Tests of tools/log_status.py on a logger on loopback, which follows the rules of loggers.py. Run it: tools/log_status_test.py"""
import collections
import contextlib
import io
import socket
import struct
import unittest
from unittest import mock

import log_status
from loggers import Message
from stand_ins import StandIn, clients, key, log_of, logger, nobody, silent
from twin_model import WIDE, read_message, spell_message, spelled

WAIT = "0.1"
# An Entry by hand (docs/FORMATS.md): header and fields; the checksum is the complement of the sum of its words.
ENTRY = "46540104 0030 40a5 0000000000000002 0000 c0000201 9c40 000003e8 00001388 0218 00000005 00 00 00000001 00000000"
LINE = "192.0.2.1:40000 bytes 5 fin 0 reads 1 acknowledged 0 done 0"
FULL = [f"192.0.2.1:{40000 + place} bytes 0 fin 0 reads 0 acknowledged 0 done 0" for place in range(64)]


def run(where, *words):
    """The status of the tool's main with these words, and the lines of both outputs."""
    out, err = io.StringIO(), io.StringIO()
    with contextlib.redirect_stdout(out), contextlib.redirect_stderr(err), mock.patch("sys.argv", ["log_status.py", "--logger", where, *words]):
        try:
            status = log_status.main()
        except SystemExit as end:
            status = end.code
    return status, out.getvalue().splitlines(), err.getvalue().splitlines()


class Messages(unittest.TestCase):
    """The bytes of docs/FORMATS.md."""

    def test_question(self):
        self.assertEqual(log_status.message(1, log_status.LIST, struct.pack("!H", 0)).hex(), "465401030012b89500000000000000010000")
        for boot, index in ((1, 63), (2, 0), (2**64 - 1, 5)):
            said = read_message(log_status.message(boot, log_status.LIST, struct.pack("!H", index)))
            self.assertEqual((said.name, said.boot, said.fields["index"]), ("List", boot, index))

    def test_entry(self):
        boot, kind, fields = log_status.read(bytes.fromhex(ENTRY))
        self.assertEqual((boot, kind, log_status.line(log_status.FIELDS.unpack(fields))), (2, log_status.ENTRY, LINE))

    def test_damaged(self):
        """With one bit changed no bytes are a message, and none that are cut or longer."""
        data = bytes.fromhex(ENTRY)
        for bit in range(8 * len(data)):
            changed = bytearray(data)
            changed[bit // 8] ^= 1 << bit % 8
            self.assertIsNone(log_status.read(bytes(changed)), bit)
        for length in range(len(data)):
            self.assertIsNone(log_status.read(data[:length]), length)
        self.assertIsNone(log_status.read(data + b"\0"))


class States(unittest.TestCase):
    """Each state of a logger that the tool names."""

    def ask(self, log, *words):
        with StandIn(logger(log)) as there:
            said = run(there.where, "--wait", WAIT, *words)
        for data, _ in there.asked:
            self.assertEqual(read_message(data, data[2]).name, "List", "it sends what could change the log")
        return said

    def test_entries(self):
        """What is logged of two connections: text, a read, what is acknowledged, a FIN, an end."""
        first, second = key("192.0.2.1", 40000), key("198.51.100.255", 65535)
        log = log_of(7, [first, second])
        log.answer(Message("Data", 7, {"key": first, "offset": 0, "acked": 0, "fin": 0, "bytes": b"hello world"}))
        log.answer(Message("Read", 7, {"key": first, "index": 0, "length": 5}))
        log.answer(Message("Data", 7, {"key": first, "offset": 11, "acked": 4, "fin": 0, "bytes": b""}))
        log.answer(Message("Data", 7, {"key": first, "offset": 11, "acked": 4, "fin": 1, "bytes": b"!"}))
        log.answer(Message("Done", 7, {"key": second}))
        lines = ["boot 7: 2 of 64 places, 1 done", "192.0.2.1:40000 bytes 12 fin 1 reads 1 acknowledged 4 done 0"]
        self.assertEqual(self.ask(log), (0, [*lines, "198.51.100.255:65535 bytes 0 fin 0 reads 0 acknowledged 0 done 1"], []))
        self.assertEqual((log.boot, len(log.entries)), (7, 2))

    def test_wide(self):
        """A logger that takes only messages of version 2 is named."""
        with StandIn(logger(log_of(7, clients(1)), WIDE)) as there:
            self.assertEqual(run(there.where, "--wait", WAIT), (0, ["boot 7: 1 of 64 places, 1 empty, profile wan", FULL[0]], []))

    def test_empty(self):
        self.assertEqual(self.ask(log_of(2, [])), (0, ["boot 2: 0 of 64 places"], []))

    def test_first_boot(self):
        """A log with boot number 1 is listed once it has a connection; before that it doesn't answer."""
        self.assertEqual(self.ask(log_of(1, clients(1))), (0, ["boot 1: 1 of 64 places, 1 empty", FULL[0]], []))
        status, out, err = self.ask(log_of(1, []))
        self.assertEqual((status, out, len(err)), (3, [], 1))

    def test_new_log(self):
        status, out, err = self.ask(log_of(0, []))
        self.assertEqual((status, out, len(err)), (3, [], 1))

    def test_warning(self):
        self.assertEqual(self.ask(log_of(3, clients(64))), (1, ["boot 3: 64 of 64 places, 64 empty", *FULL], []))
        for used, words, wanted in ((55, (), 0), (56, (), 1), (1, ("--warn", "1"), 1), (63, ("--warn", "64"), 0)):
            self.assertEqual(self.ask(log_of(3, clients(used)), *words)[0], wanted, (used, words))

    def test_nobody(self):
        for where in (nobody(), "255.255.255.255:7"):  # to the second nothing can even be sent
            status, out, err = run(where, "--wait", "0.02")
            self.assertEqual((status, out, len(err)), (3, [], 1), where)


class Answers(unittest.TestCase):
    """Bad answers, lost ones, and those of others."""

    def ask(self, answers, wait="0.05"):
        with StandIn(answers) as there:
            return run(there.where, "--wait", wait)

    def test_silence(self):
        with StandIn(silent) as there:
            self.assertEqual(run(there.where, "--wait", "0.02")[0], 3)
        self.assertEqual([data[2] for data, _ in there.asked], [1, 1, 1, 2, 2, 2])
        self.assertEqual([read_message(data, data[2]).fields["index"] for data, _ in there.asked], [0] * 6)

    def test_lost(self):
        """Two of three questions may be lost, or their answers."""
        right, times = logger(log_of(4, clients(2))), collections.Counter()

        def third(data, asker):
            times[data] += 1
            return right(data, asker) if times[data] > 2 else []

        self.assertEqual(self.ask(third, "0.4"), (0, ["boot 4: 2 of 64 places, 2 empty", *FULL[:2]], []))

    def test_bad(self):
        """None of these is an answer to the question for entry 0 by boot number 1."""
        entry = {"index": 0, "key": 1, "cisn": 0, "sisn": 0, "mss": 536, "length": 0, "fin": 0, "done": 0, "reads": 0, "acked": 0}
        fields = spell_message(Message("Entry", 1, entry))[16:]
        rows = {
            "junk": b"junk",
            "another index": spell_message(Message("Entry", 1, {**entry, "index": 1})),
            "another boot number": spell_message(Message("Entry", 2, entry)),
            "another version": spell_message(Message("Entry", 1, entry), 3),
            "an Entry's fields in another kind": spelled(b"FT", 2, 1, fields),
            "another kind": spell_message(Message("Summary", 1, {"count": 0})),
            "a short entry": spelled(b"FT", 4, 1, fields[:-1]),
            "a long entry": spelled(b"FT", 4, 1, fields + b"\0"),
            "a short Stale": spelled(b"FT", 17, 1, b"\0\0\0\5"),
            "a Stale that names no newer boot number": spelled(b"FT", 17, 1, struct.pack(">Q", 1)),
            "a Stale of another boot number": spell_message(Message("Stale", 3, {"newer": 5})),
            "another magic": spelled(b"FU", 4, 1, fields),
            "a wrong checksum": spell_message(Message("Entry", 1, entry))[:-1] + b"\1",
        }
        for name, data in rows.items():
            with self.subTest(name):
                status, out, err = self.ask(lambda _data, _asker, said=data: [said], "0.02")
                self.assertEqual((status, out, len(err)), (3, [], 1))

    def test_bad_before_right(self):
        right = logger(log_of(4, clients(64)))
        self.assertEqual(self.ask(lambda data, asker: [b"junk", *right(data, asker)], "0.5")[1][0], "boot 4: 64 of 64 places, 64 empty")

    def test_others(self):
        """What another address says isn't the logger's."""
        right = logger(log_of(4, clients(64)))
        with socket.socket(socket.AF_INET, socket.SOCK_DGRAM) as other:

            def from_elsewhere(data, asker):
                for answer in right(data, asker):
                    other.sendto(answer, asker)
                return []

            self.assertEqual(self.ask(from_elsewhere, "0.02")[0], 3)

    def test_restart(self):
        """Another log, of a newer boot number, between two answers: all of it is asked for, and nothing of the old one is printed."""
        logs, count = [log_of(4, clients(64)), log_of(9, [key("198.51.100.7", 1 + place) for place in range(64)])], [0]

        def restarted(data, asker):
            count[0] += 1
            return logger(logs[count[0] > 9])(data, asker)

        lines = [f"198.51.100.7:{1 + place} bytes 0 fin 0 reads 0 acknowledged 0 done 0" for place in range(64)]
        self.assertEqual(self.ask(restarted, "0.5"), (1, ["boot 9: 64 of 64 places, 64 empty", *lines], []))


class Words(unittest.TestCase):
    def test_wrong(self):
        for words in (["--warn", "0"], ["--warn", "65"], ["--warn", "x"], ["--wait", "x"], ["more"]):
            self.assertEqual(run("127.0.0.1:1", *words)[0], 2, words)
        for where in ("127.0.0.1", "127.0.0.1:0", "127.0.0.1:65536", "no.such.host:x"):
            self.assertEqual(run(where)[0], 2, where)


if __name__ == "__main__":
    unittest.main()
