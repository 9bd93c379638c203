#!/usr/bin/env python3
"""Tests of tools/mailbox.py on journals that are spelled out here. Run it: tools/mailbox_test.py"""
import contextlib
import io
import os
import tempfile
import unittest
from struct import pack
from unittest import mock

import mailbox
from journal_model import HEADER, apart, block, data, header, hello, opening, read
from twin_model import WIDE, spell_message

KEYS = [pack(">IH", 0xC0000201, port) for port in (40000, 40001)]
START = b"EHLO a\r\nMAIL FROM:<a@b>\r\nRCPT TO:<c@d>\r\nDATA\r\n"
MADE = "Mon Sep 21 14:13:20 2026"  # 1,790,000,000 s after 1970 began


def journal(*bodies):
    """A journal's file with these blocks."""
    text, number, previous = header(), 1, header()[16:HEADER]
    for body in bodies:
        new, previous = block(header()[16:HEADER], number, previous, body)
        text, number = text + new, number + 1
    return text


def logged(key, text, *lengths):
    """The messages that a connection logs: its opening, its bytes, and reads of these lengths."""
    parts = b"".join(data(1, at, text[at : at + 1460], key=key) for at in range(0, len(text), 1460))
    return opening(1, key) + parts + b"".join(read(1, index, length, key) for index, length in enumerate(lengths))


def run(text):
    """The status of the tool on a file, and both outputs."""
    with tempfile.NamedTemporaryFile() as file:
        file.write(text)
        file.flush()
        out, err = io.TextIOWrapper(io.BytesIO()), io.StringIO()
        with contextlib.redirect_stdout(out), contextlib.redirect_stderr(err), mock.patch("sys.argv", ["mailbox.py", file.name]):
            status = mailbox.main()
        out.flush()
        return status, out.buffer.getvalue(), err.getvalue()


class Mailbox(unittest.TestCase):
    def test_a_message_is_there_once_its_end_is_read(self):
        text = START + b"Subject: x\r\n\r\ntext\r\n.\r\n"
        wanted = f"From a@b {MADE}\nReturn-Path: <a@b>\nDelivered-To: c@d\nX-Accepted: 192.0.2.1:40000 message 1, 20 bytes\nSubject: x\n\ntext\n\n".encode()
        self.assertEqual(run(journal(hello(1), logged(KEYS[0], text, 20, len(text) - 20))), (0, wanted, ""))

    def test_a_read_that_lacks_the_last_byte_is_no_message(self):
        text = START + b"x\r\n.\r\n"
        self.assertEqual(run(journal(hello(1) + logged(KEYS[0], text, len(text) - 1))), (0, b"", ""))

    def test_bytes_that_are_logged_and_not_read_are_no_message(self):
        text = START + b"x\r\n.\r\n"
        self.assertEqual(run(journal(hello(1) + logged(KEYS[0], text))), (0, b"", ""))

    def test_two_clients_and_two_messages_of_one(self):
        first = START + b"1\r\n.\r\n" + START + b"2\r\n.\r\nQUIT\r\n" + START + b"3\r\n.\r\n"
        second = START + b"4\r\n.\r\n"
        status, out, _ = run(journal(hello(1) + logged(KEYS[0], first, len(first)), logged(KEYS[1], second, 7, len(second) - 7)))
        self.assertEqual(status, 0)
        self.assertEqual([line for line in out.split(b"\n") if line.startswith(b"X-Accepted")],
                         [b"X-Accepted: 192.0.2.1:40000 message 1, 3 bytes", b"X-Accepted: 192.0.2.1:40000 message 2, 3 bytes",
                          b"X-Accepted: 192.0.2.1:40001 message 1, 3 bytes"])

    def test_a_logger_of_the_profile_wan(self):
        text = START + b"x\r\n.\r\n"
        bodies = [hello(1), logged(KEYS[0], text, len(text))]
        wide = [b"".join(spell_message(message, WIDE) for message in apart(body)) for body in bodies]
        self.assertNotEqual(wide, bodies)
        self.assertEqual(run(journal(*wide)), run(journal(*bodies)))

    def test_smuggled_text_is_text(self):
        text = START + b"a\n.\r\nMAIL FROM:<evil@b>\r\n.\r\n"
        _, out, _ = run(journal(hello(1) + logged(KEYS[0], text, len(text))))
        self.assertEqual(out.count(b"\nX-Accepted"), 1)
        self.assertIn(b"\na\n.\nMAIL FROM:<evil@b>\n", out)

    def test_dots_are_taken_away_and_seams_are_quoted(self):
        text = START + b"..x\r\nFrom me\r\n>From me\r\n.\r\n"
        _, out, _ = run(journal(hello(1) + logged(KEYS[0], text, len(text))))
        self.assertTrue(out.endswith(b"23 bytes\n.x\n>From me\n>>From me\n\n"), out)

    def test_a_file_that_a_running_logger_is_writing(self):
        whole = journal(hello(1) + logged(KEYS[0], START + b".\r\n", len(START) + 3), logged(KEYS[1], START + b".\r\n", len(START) + 3))
        for cut in (1, 30, 100):
            status, out, _ = run(whole[:-cut])
            self.assertEqual((status, out.count(b"X-Accepted")), (0, 1))

    def test_what_is_no_journal(self):
        self.assertEqual(run(b""), (1, b"", "mailbox.py: the journal is empty\n"))
        self.assertEqual(run(b"ftlog 1\n" + bytes(40))[0], 1)
        damaged = bytearray(journal(hello(1), logged(KEYS[0], START, 5)))
        damaged[10] ^= 1
        self.assertEqual(run(bytes(damaged)), (1, b"", "mailbox.py: the journal is damaged at byte 0\n"))

    def test_wrong_words(self):
        for words in ([], ["a", "b"], ["--halp"]):
            with mock.patch("sys.argv", ["mailbox.py", *words]), contextlib.redirect_stderr(io.StringIO()) as err:
                self.assertEqual(mailbox.main(), 2)
            self.assertEqual(err.getvalue(), "mailbox.py JOURNAL\n")

    def test_help(self):
        with mock.patch("sys.argv", ["mailbox.py", "--help"]), contextlib.redirect_stdout(io.StringIO()) as out:
            self.assertEqual(mailbox.main(), 0)
        self.assertIn("tools/mailbox.py JOURNAL\n", out.getvalue())

    def test_no_such_file(self):
        with mock.patch("sys.argv", ["mailbox.py", "/dev/null/none"]), contextlib.redirect_stderr(io.StringIO()) as err:
            self.assertEqual(mailbox.main(), 1)
        self.assertEqual(err.getvalue(), "mailbox.py: /dev/null/none: Not a directory\n")


if __name__ == "__main__":
    os.environ["TZ"] = "UTC"
    unittest.main()
