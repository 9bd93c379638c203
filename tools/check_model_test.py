#!/usr/bin/env python3
"""Tests of tools/check_model.py: verdicts that follow from the first path's report by hand, and the reports in examples/. Run it: tools/check_model_test.py"""
import pathlib
import unittest

from check_model import PACKETS, is_packet_line, verdict

EXAMPLES = pathlib.Path(__file__).parent.parent / "examples"
FIRST = (EXAMPLES / "first_path.report").read_bytes()
DELAYED = (EXAMPLES / "delayed_ack.report").read_bytes()
BATCH = (EXAMPLES / "batch.report").read_bytes()
MEASURED = (EXAMPLES / "wide_area.report").read_bytes()
HEAD = b"ftreplay 1\nservice echo\nserver 192.0.2.100:7\n"


def lines(report=FIRST):
    return report.splitlines(keepends=True)


def said(text):
    it = verdict(text)
    return (it.events, it.packets) if it.law == "legal" else (it.line, it.law)


def without(number):
    return b"".join(lines()[: number - 1] + lines()[number:])


def put(number, *others):
    """The report with these lines in the place of one, counted from 1."""
    return b"".join([*lines()[: number - 1], *others, *lines()[number:]])


class Verdicts(unittest.TestCase):
    def check(self, rows):
        for text, wanted in rows:
            with self.subTest(wanted=wanted, text=text[-80:]):
                self.assertEqual(said(text), wanted)

    def test_legal(self):
        self.assertEqual(said(FIRST), (17, 15))
        self.assertEqual(said(HEAD + b"end 0\n"), (0, 0))
        for path in sorted(EXAMPLES.glob("*.report")):
            text = path.read_bytes()
            beyond = b"\ntwin\n" in text or b"\nmarks " in text  # the report of a run with two loggers, or with marks, isn't checked
            self.assertEqual(verdict(text).law, "text" if beyond else "legal", path.name)

    def test_turns(self):
        wrong_ack = lines()[30].replace(b"ack 1006", b"ack 1007")
        self.check([(put(31, wrong_ack), (32, "server")), (without(29), (29, "log")), (without(39), (39, "end")), (without(11), (11, "client"))])

    def test_packet_after_a_turn(self):
        one_more = b"packet 3 S>L Hello boot 1\n"
        self.check([(put(9, lines()[8], one_more), (11, "server")), (put(9, lines()[8], one_more.replace(b"3", b"4")), (10, "packet"))])

    def test_spelling(self):
        event = lines()[8]
        self.check([(put(9, event.replace(b"3", b"4", 1)), (9, "text")), (put(9, event.replace(b"deliver 2", b"deliver 02")), (9, "text"))])
        self.check([(put(9, event[:-1] + b"\r\n"), (9, "text")), (put(2, b"service  echo\n"), (2, "text")), (put(3, b"server 192.0.2.100:0\n"), (3, "text"))])
        self.check([(HEAD + b"twin\n" + b"end 0\n", (4, "text")), (HEAD + b"client  1 192.0.2.1:1 0 -\nend 0\n", (4, "end"))])
        self.check([(HEAD + b"client 1 192.0.2.100:7 0 -\n", (4, "text")), (HEAD + b"client 2 192.0.2.1:1 0 -\n", (4, "end"))])

    def test_events(self):
        self.check([(put(9, b"event 3 deliver 3\n"), (9, "event")), (put(5, b"event 1 crash\n"), (5, "event")), (put(9, b"event 3 boot 2 1\n"), (9, "event"))])
        self.check([(put(9, b"event 3 stop 1\n"), (9, "event")), (put(9, b"event 3 stop 3\n"), (9, "text"))])

    def test_ends(self):
        self.check([(b"", (1, "end")), (b"\n", (1, "text")), (FIRST[:-1], (len(lines()), "end")), (FIRST + b"\n", (len(lines()) + 1, "end"))])
        self.check([(HEAD, (4, "end")), (HEAD + b"packet 1 S>L Hello boot 1\n", (4, "end")), (HEAD[:-1], (3, "text"))])

    def test_packet_lines(self):
        segment = "packet 7 1>S A seq 1 ack 2 window 3 mss - data -"
        self.assertTrue(is_packet_line(segment, 7, 1))
        for wrong in (segment.replace("1>S", "2>S"), segment.replace("A seq", "SA seq"), segment.replace("data -", "data 0"), segment.replace("7", "8")):
            self.assertFalse(is_packet_line(wrong, 7, 1), wrong)
        self.assertFalse(is_packet_line(segment.replace("7", str(PACKETS + 1)), PACKETS + 1, 1))
        stamped = segment + " ts 1 4294967295"
        self.assertTrue(is_packet_line(stamped, 7, 1))
        for wrong in stamped + "0", stamped + " 1", stamped.replace("ts", "tS"), stamped.replace("ts 1 ", "ts "), stamped.replace("ts 1", "ts 01"):
            self.assertFalse(is_packet_line(wrong, 7, 1), wrong)

    def test_profile_line(self):
        named, server, end = b"profile wan\n", lines()[2], b"end 0\n"
        self.check([(HEAD + named + end, (0, 0)), (HEAD + b"profile plain\n" + end, (4, "text")), (HEAD + b"profile  wan\n" + end, (4, "text"))])
        self.check([(HEAD + named + named + end, (5, "text")), (HEAD + b"profile\n" + end, (4, "text")), (put(3, named, server), (3, "text"))])
        self.check([(put(4, lines()[3], named), (5, "text")), (HEAD + named + b"twin\n" + end, (5, "text"))])

    def test_delayed_ack(self):
        """The ACK of text waits for the log in the profile `wan`, and only there."""
        self.check([(DELAYED, (17, 14)), (DELAYED.replace(b"profile wan\n", b""), (27, "server")), (put(3, lines()[2], b"profile wan\n"), (29, "server"))])

    def test_batches(self):
        """Only in the profile `wan` a Data says that another follows, and there each but the last of a turn says so."""
        told = next(line for line in lines(BATCH) if b" fin 2 " in line)
        self.check([(BATCH, (19, 17)), (BATCH.replace(b" fin 2 ", b" fin 0 "), (lines(BATCH).index(told) + 4, "server"))])  # a turn is judged behind its packets
        self.assertTrue(is_packet_line(told.decode().rstrip(), 11, 1, "wan"))
        self.assertFalse(is_packet_line(told.decode().rstrip(), 11, 1))
        self.assertFalse(is_packet_line(told.decode().rstrip().replace("fin 2", "fin 3"), 11, 1, "wan"))

    def test_recovery(self):
        """A timeout that follows a measured round trip, and what partial acknowledgements send again."""
        told = lines(MEASURED)
        expiry = told.index(b"event 36 tick\n")
        early = b"".join([*told[:expiry], told[expiry + 1], told[expiry], *told[expiry + 2 :]])
        partial = next(at for at, line in enumerate(told) if line.startswith(b"packet 25 "))
        missing = b"".join(told[:partial] + told[partial + 1 :])
        self.check([(MEASURED, (49, 39)), (early, (expiry + 2, "server")), (missing, (partial + 1, "server"))])


if __name__ == "__main__":
    unittest.main()
