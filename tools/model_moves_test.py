#!/usr/bin/env python3
"""Tests of tools/model.py: which events are allowed, what a client sends and takes, and what a server refuses. What is expected is from docs/FORMATS.md and
RFC 9293; numbers were worked out by hand. Run it: tools/model_moves_test.py"""
import unittest

from loggers import OPENINGS, Message
from model import Client, Segment, Server, World

KEY, OTHER, SERVER = "192.0.2.1:40000", "192.0.2.2:40000", "192.0.2.100:7"
ISN, SISN = 4294967294, 5000  # the client's numbers wrap after its first byte
SYN_ACK = Segment("AS", SISN, ISN + 1, 65535, 1460, b"")
MOVES = {"open": [10], "send": [0, 1], "fin": [], "ack": [10], "reset": []}


def client(phase, script=b"hello", window=10):
    """A client in a phase, with this window at its SYN."""
    it = Client(KEY, ISN, script)
    if phase != "new":
        it.make("open", [window])
    if phase in ("open", "ended", "reset"):
        it.receive(SYN_ACK)
    if phase == "ended":
        it.receive(Segment("AF", SISN + 1, ISN + 1, 65535, None, b""))
    if phase == "reset":
        it.make("reset", [])
    assert it.phase == phase
    return it


class Allowed(unittest.TestCase):
    """Refused events, by the table of docs/FORMATS.md."""

    def test_phases(self):
        """A client may open while new or opening, send, end and acknowledge while open or ended, reset while opening, open or ended."""
        allowed = {"open": {"new", "opening"}, "send": {"open", "ended"}, "fin": {"open", "ended"}, "ack": {"open", "ended"}}
        allowed["reset"] = {"opening", "open", "ended"}
        for move, words in MOVES.items():
            for phase in ("new", "opening", "open", "ended", "reset"):
                it = client(phase, b"" if move == "fin" else b"hello")
                self.assertEqual(it.refuses(move, words), None if phase in allowed[move] else "state", (move, phase))

    def test_ranges(self):
        """Text from what is acknowledged to what was sent, of 1 to 1,460 bytes, that the script has; and a FIN once all was sent."""
        it = client("open", bytes(3000))
        rows = [(0, 1, None), (0, 0, "range"), (0, 1460, None), (0, 1461, "range"), (1, 1, "range")]
        for start, length, wanted in rows:
            self.assertEqual(it.refuses("send", [start, length]), wanted, (start, length))
        for start in (0, 1460, 2920):
            self.assertEqual(it.refuses("fin", []), "range")
            it.make("send", [start, min(1460, 3000 - start)])
        it.receive(Segment("A", SISN + 1, ISN + 1 + 100 - 2**32, 65535, None, b""))
        for start, length, wanted in ((99, 1, "range"), (100, 1, None), (2999, 1, None), (2999, 2, "range"), (3000, 1, "range")):
            self.assertEqual(it.refuses("send", [start, length]), wanted, (start, length))
        self.assertIsNone(it.refuses("fin", []))

    def test_after_the_fin(self):
        """Once its FIN is acknowledged it sends neither text nor FIN, but acknowledges and resets."""
        it = client("open")
        it.make("send", [0, 5])
        it.make("fin", [])
        self.assertEqual([it.refuses(move, words) for move, words in (("send", [0, 5]), ("fin", []))], [None, None])
        it.receive(Segment("A", SISN + 1, 5, 65535, None, b""))  # 4294967294 + 1 + 5 and one for the FIN, modulo 2^32
        moves = [("send", [0, 5]), ("fin", []), ("ack", [1]), ("reset", [])]
        self.assertEqual([it.refuses(move, words) for move, words in moves], ["state", "state", None, None])

    def test_world(self):
        world = World("echo", SERVER, [Client(KEY, 1, b"")])
        self.assertEqual([world.refuses(verb, []) for verb in ("crash", "tick")], ["down", "down"])
        world.step("boot", [5, 1])
        self.assertEqual((world.refuses("boot", [9, 1]), world.refuses("crash", []), world.refuses("tick", [])), ("up", None, None))
        self.assertEqual([world.refuses("deliver", [packet]) for packet in (0, 1, 2)], ["packet", None, "packet"])
        # a Hello has 16 bytes
        self.assertEqual([world.refuses("flip", words) for words in ([2, 0], [1, 127], [1, 128])], ["packet", None, "bit"])
        self.assertEqual([world.refuses("open", [place, 1]) for place in (0, 1, 2)], ["client", None, "client"])
        self.assertEqual(world.refuses("stop", [1]), "stop")
        world.step("crash", [])
        self.assertEqual([world.refuses("boot", [boot, 1]) for boot in (4, 5, 6)], ["boot", "boot", None])

    def test_flip(self):
        """A packet with a bit changed is refused, whoever gets it."""
        world = World("echo", SERVER, [Client(KEY, 1, b"")])
        world.step("boot", [1, 1])
        self.assertEqual([world.step("flip", [1, bit]) for bit in (0, 127)], [[], []])
        self.assertEqual(world.step("deliver", [1]), [("L>S", Message("Summary", 1, {"count": 0}))])


class Sending(unittest.TestCase):
    def test_segments(self):
        """What each move sends; the right edge of the window stays where it was told, until an acknowledgement moves it."""
        it = Client(KEY, ISN, b"hello")
        self.assertEqual(it.make("open", [10]), Segment("S", 4294967294, 0, 10, None, b""))
        it.receive(SYN_ACK)
        self.assertEqual(it.make("send", [0, 2]), Segment("A", 4294967295, 5001, 10, None, b"he"))
        it.receive(Segment("A", SISN + 1, 1, 65535, None, b"abcd"))
        self.assertEqual(it.make("send", [2, 3]), Segment("A", 1, 5005, 6, None, b"llo"))
        self.assertEqual(it.make("fin", []), Segment("AF", 4, 5005, 6, None, b""))
        self.assertEqual(it.make("ack", [8]), Segment("A", 5, 5005, 8, None, b""))
        self.assertEqual(it.make("send", [2, 1]), Segment("A", 1, 5005, 8, None, b"l"))
        it.make("ack", [3])
        self.assertEqual(it.make("send", [2, 1]).window, 8, "a smaller window doesn't take the edge back")
        self.assertEqual(it.make("reset", []), Segment("R", 5, 0, 0, None, b""))
        self.assertEqual(it.phase, "reset")

    def test_reset_while_opening(self):
        self.assertEqual(client("opening").make("reset", []), Segment("R", ISN + 1, 0, 0, None, b""))


class Taking(unittest.TestCase):
    """What a client takes: each row is a segment, and then the phase, the bytes that it has accepted, and how much of its stream is acknowledged."""

    def check(self, phase, rows, sent=0):
        it = client(phase)
        if sent:
            it.make("send", [0, sent])
        for came, *wanted in rows:
            it.receive(came)
            self.assertEqual((it.phase, bytes(it.accepted), it.acked), tuple(wanted), came)

    def text(self, at, text, flags="A", ack=0):
        return Segment(flags, SISN + 1 + at, (ISN + 1 + ack) % 2**32, 65535, None, text)

    def test_opening(self):
        """RFC 9293, 3.10.7.3: only what acknowledges the SYN counts."""
        for came, phase in (
            (SYN_ACK, "open"),
            (SYN_ACK._replace(ack=ISN), "opening"),
            (SYN_ACK._replace(ack=0), "opening"),
            (SYN_ACK._replace(flags="S"), "opening"),
            (SYN_ACK._replace(flags="A"), "opening"),
            (Segment("AR", 0, ISN + 1, 0, None, b""), "reset"),
            (Segment("AR", 0, ISN, 0, None, b""), "opening"),
            (Segment("R", 0, ISN + 1, 0, None, b""), "opening"),
        ):
            self.check("opening", [(came, phase, b"", 0)])

    def test_text(self):
        """In order, again, partly new, past a gap, and past the right edge of 10 bytes."""
        rows = [(self.text(0, b"abc"), b"abc"), (self.text(0, b"abc"), b"abc"), (self.text(1, b"bcde"), b"abcde"), (self.text(7, b"h"), b"abcde")]
        rows += [(self.text(5, b"fghijklm"), b"abcdefghij"), (self.text(10, b"k"), b"abcdefghij")]
        self.check("open", [(came, "open", text, 0) for came, text in rows])

    def test_fin(self):
        """A FIN ends the stream once all text before it is there, and not past the edge; then text is no longer taken, but acknowledgements are."""
        self.check("open", [(self.text(2, b"c", "AF"), "open", b"", 0), (self.text(0, b"abc", "AF"), "ended", b"abc", 0)])
        self.check("open", [(self.text(0, b"0123456789", "AF"), "open", b"0123456789", 0)])
        self.check("ended", [(self.text(1, b"", "A", 2), "ended", b"", 2), (self.text(0, b"x"), "ended", b"", 2)], sent=2)

    def test_acknowledgements(self):
        """They only grow, and none of what was never sent counts; nor does a segment with it, or without one, or with a SYN."""
        rows = [(self.text(0, b"", ack=2), b"", 2), (self.text(0, b"", ack=1), b"", 2), (self.text(0, b"a", ack=4), b"", 2)]
        rows += [(self.text(0, b"a", "F", 3), b"", 2), (self.text(0, b"", "AS", 3), b"", 2), (self.text(0, b"a", ack=3), b"a", 3)]
        self.check("open", [(came, "open", *wanted) for came, *wanted in rows], sent=3)

    def test_reset(self):
        """Only a RST at exactly the next number ends a connection (RFC 9293, 3.10.7.4)."""
        for at, phase in ((0, "reset"), (1, "open"), (9, "open"), (10, "open"), (-1, "open")):
            self.check("open", [(self.text(at, b"", "R"), phase, b"", 0)])
        for at, phase in ((1, "reset"), (0, "ended")):
            self.check("ended", [(self.text(at, b"", "R"), phase, b"", 0)])


class Refusing(unittest.TestCase):
    """What a server answers to a client that it has no connection with (RFC 9293, 3.10.7.1 and 3.10.7.2)."""

    def server(self):
        it = Server(1, SISN, "echo")
        it.on_message(Message("Summary", 1, {"count": 0}))
        return it

    def opening(self, cisn, mss=536, sisn=SISN):
        return Message("Open", 1, {"key": KEY, "cisn": cisn, "sisn": sisn, "mss": mss})

    def test_unknown(self):
        """An acknowledgement is refused at its number; a RST, a FIN and text alone aren't answered."""
        it = self.server()
        for flags in ("A", "AF", "AS"):
            self.assertEqual(it.on_segment(KEY, Segment(flags, 7, 8, 9, None, b"x")), [(KEY, Segment("R", 8, 0, 0, None, b""))], flags)
        for flags in ("R", "AR", "RS", "F", "-"):
            self.assertEqual(it.on_segment(KEY, Segment(flags, 7, 8, 9, None, b"x")), [], flags)

    def test_syn(self):
        """The log is asked, with a segment size of 64 to 1,460, of 536 where the SYN has none; and again by the same SYN alone."""
        for mss, wanted in ((None, 536), (1460, 1460), (9000, 1460), (63, 64), (0, 64), (1000, 1000)):
            self.assertEqual(self.server().on_segment(KEY, Segment("S", 1000, 0, 9, mss, b"")), [(None, self.opening(1000, wanted))], mss)
        it = self.server()
        syn = Segment("S", 1000, 0, 9, None, b"")
        sent = [it.on_segment(KEY, syn), it.on_segment(KEY, syn._replace(seq=1001)), it.on_tick(), it.on_segment(KEY, syn)]
        self.assertEqual(sent, [[(None, self.opening(1000))], [], [(None, self.opening(1000))], [(None, self.opening(1000))]])

    def test_full(self):
        """A refusal by the log is one of the SYN: <SEQ=0><ACK=SEG.SEQ+1><CTL=RST,ACK>. The next SYN asks again."""
        it = self.server()
        it.on_segment(KEY, Segment("S", 4294967295, 0, 9, None, b""))
        self.assertEqual(it.on_message(Message("Full", 2, {"key": KEY})), [], "of another boot number")
        self.assertEqual(it.on_message(Message("Full", 1, {"key": KEY})), [(KEY, Segment("AR", 0, 0, 0, None, b""))])
        self.assertEqual(it.on_message(Message("Full", 1, {"key": KEY})), [])
        self.assertEqual(it.on_segment(KEY, Segment("S", 5, 0, 9, None, b"")), [(None, self.opening(5, sisn=SISN + 65536))])

    def test_other_opening(self):
        """An entry of another SYN than the pending one's is no connection of it."""
        it = self.server()
        it.on_segment(KEY, Segment("S", 1000, 0, 9, None, b""))
        self.assertEqual(it.on_message(Message("Opened", 1, {"key": KEY, "cisn": 999, "sisn": 1, "mss": 536})), [])
        self.assertEqual(it.on_message(Message("Opened", 1, {"key": KEY, "cisn": 1000, "sisn": 1, "mss": 536})), [])

    def test_pending(self):
        """Of 64 openings that the log hasn't answered, no more are begun."""
        it = self.server()
        for place in range(OPENINGS):
            self.assertEqual(len(it.on_segment(f"192.0.2.1:{1 + place}", Segment("S", 1, 0, 9, None, b""))), 1)
        self.assertEqual(it.on_segment(OTHER, Segment("S", 1, 0, 9, None, b"")), [])
        it.on_message(Message("Full", 1, {"key": "192.0.2.1:1"}))
        self.assertEqual(len(it.on_segment(OTHER, Segment("S", 1, 0, 9, None, b""))), 1)

    def test_ended(self):
        """Of a connection that the log has as ended, also once the server has restarted: whatever comes but a RST is refused, by what it says."""
        it = Server(2, SISN, "echo")
        it.on_message(Message("Summary", 2, {"count": 1}))
        entry = {"index": 0, "key": KEY, "cisn": 1, "sisn": 2, "mss": 536, "length": 0, "fin": 0, "done": 1, "reads": 0, "acked": 0}
        it.on_message(Message("Entry", 2, entry))
        self.assertTrue(it.serves)
        rows = [("S", b"", Segment("AR", 0, 8, 0, None, b"")), ("F", b"abc", Segment("AR", 0, 11, 0, None, b""))]
        rows += [("-", b"abc", Segment("AR", 0, 10, 0, None, b"")), ("A", b"abc", Segment("R", 9, 0, 0, None, b""))]
        rows.append(("AS", b"", Segment("R", 9, 0, 0, None, b"")))
        for flags, text, wanted in rows:
            self.assertEqual(it.on_segment(KEY, Segment(flags, 7, 9, 5, None, text)), [(KEY, wanted)], flags)
        self.assertEqual(it.on_segment(KEY, Segment("R", 7, 9, 5, None, b"")), [])

    def test_restarting(self):
        """While it restarts: a client whose entry has come learns that its window is closed; others and ended ones hear nothing."""
        it = Server(2, SISN, "echo")
        self.assertEqual(it.on_tick(), [(None, Message("Hello", 2, {}))])
        ack = Segment("A", 1, 2, 3, None, b"")
        self.assertEqual(it.on_segment(KEY, ack), [])
        it.on_message(Message("Summary", 2, {"count": 3}))
        entry = {"index": 0, "key": KEY, "cisn": 1000, "sisn": 5000, "mss": 536, "length": 7, "fin": 1, "done": 0, "reads": 0, "acked": 3}
        it.on_message(Message("Entry", 2, entry))
        self.assertEqual(it.on_segment(KEY, ack), [(KEY, Segment("A", 5004, 1009, 0, None, b""))])
        self.assertEqual([it.on_segment(KEY, ack._replace(flags="R")), it.on_segment(OTHER, ack)], [[], []])
        it.on_message(Message("Part", 2, {"key": KEY, "offset": 0, "bytes": b"1234567"}))
        it.on_message(Message("Entry", 2, {**entry, "index": 1, "key": OTHER, "done": 1}))
        self.assertEqual((len(it.entries), it.on_segment(OTHER, ack)), (2, []))


if __name__ == "__main__":
    unittest.main()
