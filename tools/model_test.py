#!/usr/bin/env python3
"""Tests of tools/model.py: numbers computed from the rules by hand, a crash at each turn of the first path, also where one of two loggers stops there, transfers
with lost segments, and the part `replay` of the stored run of crates/node_cases. It takes half a minute. Run it: tools/model_test.py"""
import pathlib
import re
import unittest
from unittest import mock

import lossy
from endpoint_model import play_script
from loggers import Forward, Got, Head, Log, Message, Tail
from masked import Watch
from model import Client, Connection, Segment, Server, Stream, World, size_of
from reordered import drawn
from replay_stored import printed
from seed_model import drawn_run
from sender_model import WIDEST, Congestion, Timing
from services import GREETINGS, Service
from stored_parts import read_part

KEY, SERVER = "192.0.2.1:40000", "192.0.2.100:7"
FIRST_PATH = "boot 1 5000|deliver 1|deliver 2|open 1 65535|deliver 3|deliver 4|deliver 5|deliver 6|ack 1 65535|deliver 7|send 1 0 5|deliver 8|deliver 10"
FIRST_PATH += "|deliver 12|deliver 11|deliver 14|deliver 15"
# The same with two loggers, and what goes between them.
PAIRED_PATH = "boot 1 5000|deliver 1|deliver 2|deliver 3|deliver 4|open 1 65535|deliver 5|deliver 6|deliver 7|deliver 8|deliver 9|deliver 10|ack 1 65535"
PAIRED_PATH += "|deliver 11|send 1 0 5|deliver 12|deliver 14|deliver 16|deliver 17|deliver 18|deliver 19|deliver 15|deliver 20|deliver 21|deliver 22|deliver 23"
EDGE = 65535  # the right edge of a connection of which nothing is read


def said(name, boot=1, **fields):
    return Message(name, boot, fields)


def text(at, data, ack=5001):
    return Segment("A", 1001 + at, ack, 65535, None, data)


def play(world, *lines):
    for line in lines:
        verb, *words = line.split()
        words = [int(word) for word in words]
        assert world.refuses(verb, words) is None, line
        world.step(verb, words)


def drain(world, start):
    """Delivers what was sent from a packet on, in order, until nothing is left."""
    while start < len(world.packets):
        start += 1
        play(world, f"deliver {start}")
    return start


class Services(unittest.TestCase):
    def outputs(self, name, *chunks):
        service = Service(name)
        return b"".join(service.take(chunk) for chunk in chunks), service.closed

    def test_lines(self):
        self.assertEqual(self.outputs("line", b"a", b"b\n\nc", b""), (b"1 ab\n2 \n3 c\n", True))
        self.assertEqual(self.outputs("line", b"x\nquit\ny"), (b"1 x\nbye\n", True))
        self.assertEqual(self.outputs("line", b"z" * 1024 + b"y\n")[0], b"1 " + b"z" * 1024 + b"\n2 y\n")

    def test_requests_and_lengths(self):
        self.assertEqual(self.outputs("transfer", b"\0\0\0", b"\3\0\0\0\0"), (b"\0\1\2", True))
        self.assertEqual(self.outputs("meter", b"ab", b"c", b""), (b"2\n1\n", True))


class Logs(unittest.TestCase):
    def log(self):
        log = Log()
        log.answer(said("Hello"))
        log.answer(said("Open", key=KEY, cisn=1000, sisn=5000, mss=536))
        return log

    def test_fence(self):
        log = self.log()
        log.answer(said("Data", key=KEY, offset=0, acked=0, fin=0, bytes=b"hello"))
        log.answer(said("Hello", boot=2))
        self.assertEqual(log.answer(said("Read", key=KEY, index=0, length=5)), said("Stale", newer=2))
        self.assertEqual(log.entries[KEY].lengths, [])

    def test_long_entry(self):
        log = self.log()
        for offset in (0, 1460, 2920):
            log.answer(said("Data", key=KEY, offset=offset, acked=0, fin=0, bytes=bytes(1460)))
        for index in range(701):
            log.answer(said("Read", key=KEY, index=index, length=2 if index == 700 else 1))
        self.assertEqual(len(log.answer(said("Bytes", key=KEY, offset=4090)).fields["bytes"]), 290)
        self.assertEqual(log.answer(said("Cuts", key=KEY, first=0)).fields["lens"], [1] * 512)
        self.assertEqual(log.answer(said("Cuts", key=KEY, first=512)).fields["lens"], [1] * 188 + [2])

    def test_sixty_fifth_entry(self):
        log = self.log()
        for place in range(2, 65):
            log.answer(said("Open", key=f"192.0.2.{place}:40000", cisn=1000, sisn=5000, mss=536))
        self.assertEqual(log.answer(said("Open", key="192.0.3.1:40000", cisn=1000, sisn=5000, mss=536)), said("Full", key="192.0.3.1:40000"))
        self.assertIsNone(log.answer(said("Bytes", key=KEY, offset=0)))


class Pairs(unittest.TestCase):
    """A head and a tail, message by message."""

    def test_full_head(self):
        head, hello = Head(), said("Hello")
        for count in range(1, 65):
            self.assertEqual(head.receive_server(hello), [Forward(n, hello) for n in range(1, count + 1)])
        self.assertEqual([it.number for it in head.receive_server(said("List", index=0))], list(range(1, 65)))
        head.receive_other(Got(65))
        self.assertEqual(head.confirmed, 0)
        head.receive_other(Got(64))
        head.receive_other(Got(1))
        self.assertEqual([it.number for it in head.receive_server(hello)], [65])
        self.assertEqual(head.receive_server(said("Summary", count=0)), [])

    def test_wide_head(self):
        head = Head(wide=True)
        asked = [said("List", index=index) for index in range(65)]
        for number, message in enumerate(asked[:3], 1):
            self.assertEqual(head.receive_server(message), [Forward(number, message)])
        self.assertEqual([it.number for it in head.receive_server(asked[1])], [1, 2, 3, 4])
        head.receive_other(Got(2))
        self.assertEqual([it.number for it in head.receive_server(asked[0])], [5])
        self.assertEqual([it.number for it in head.receive_server(asked[1])], [3, 4, 5, 6])
        head.receive_other(Got(6))
        for number, message in enumerate(asked[:64], 7):
            self.assertEqual(head.receive_server(message), [Forward(number, message)])
        self.assertEqual([it.number for it in head.receive_server(asked[64])], list(range(7, 71)))
        self.assertEqual(len(head.taken), 70)

    def test_order(self):
        tail, hello = Tail(), said("Hello")
        self.assertEqual(tail.receive_server(hello) + tail.receive_other(Forward(2, hello)), [])
        self.assertEqual(tail.receive_other(Forward(1, hello)), [said("Summary", count=0), Got(1)])
        self.assertEqual(tail.receive_other(Forward(2, hello)), [said("Summary", count=0), Got(2)])
        self.assertEqual(tail.receive_other(Forward(1, hello)), [Got(2)])

    def test_alone(self):
        head, tail, hello = Head(), Tail(), said("Hello")
        head.receive_server(hello)
        head.alone = tail.alone = True
        self.assertEqual(tail.receive_other(Forward(1, hello)), [])
        for logger in (head, tail):
            self.assertEqual(logger.receive_server(hello), [said("Summary", count=0)])

    def test_stops(self):
        world = World("echo", SERVER, [], twin=True)
        self.assertEqual((world.refuses("stop", [2]), World("echo", SERVER, []).refuses("stop", [1])), (None, "stop"))
        play(world, "boot 1 5000", "stop 2", "deliver 1")
        self.assertEqual(world.packets[1:], [("L>S", said("Summary", count=0))])
        self.assertEqual([world.refuses("stop", [part]) for part in (1, 2)], ["stop", "stop"])


class Streams(unittest.TestCase):
    """What is taken and held of segments: each row is their places, texts and FINs, then the bytes taken, whether the FIN is, and what is held."""

    def check(self, edge, came, data, fin=0, held="", held_fin=None):
        stream = Stream()
        for first, text, *has_fin in came:
            stream.come(first, text.encode(), bool(has_fin), edge)
        kept = "".join(chr(stream.held[at]) for at in sorted(stream.held))
        self.assertEqual((stream.data.decode(), stream.fin, kept, stream.held_fin), (data, fin, held, held_fin), came)

    def test_text(self):
        self.check(EDGE, [(2, "llo"), (0, "he")], "hello")
        self.check(EDGE, [(2, "BBB"), (3, "cc"), (0, "aa")], "aaBcc")
        self.check(EDGE, [(2, "BBB"), (0, "aaaa")], "aaaaB")
        self.check(EDGE, [(4, "e"), (-2, "xyab")], "ab", held="e")
        self.check(4, [(2, "cdef"), (5, "f")], "", held="cd")

    def test_runs(self):
        sixteen = [(1 + 2 * place, "x") for place in range(16)]
        self.check(EDGE, [*sixteen, (40, "y")], "", held="x" * 16)
        self.check(EDGE, [*sixteen, (32, "y")], "", held="x" * 16 + "y")
        self.check(EDGE, [*sixteen, (2, "y"), (40, "z")], "", held="xy" + "x" * 15 + "z")
        self.check(EDGE, [*sixteen, (40, "y"), (0, "a")], "ax", held="x" * 15)

    def test_fin(self):
        self.check(EDGE, [(2, "", True), (0, "abcd")], "ab", 1)
        self.check(EDGE, [(2, "", True), (3, "xy"), (1, "bc")], "", held="b", held_fin=2)
        self.check(EDGE, [(5, "xyz"), (4, "", True), (0, "ab", True)], "ab", held="xyz")
        self.check(EDGE, [(2, "cd", True), (6, "", True), (0, "ab")], "abcd", 1)
        self.check(EDGE, [(0, "ab", True), (4, "x", True)], "ab", 1)
        self.check(4, [(2, "cd", True), (0, "ab")], "abcd")
        self.check(4, [(2, "c", True), (0, "ab")], "abc", 1)


class Servers(unittest.TestCase):
    def test_questions(self):
        server, asked = Server(1, 5000, "meter"), []
        entry = {"index": 0, "key": KEY, "cisn": 1000, "sisn": 5000, "mss": 536, "length": 2500, "fin": 0, "done": 0, "reads": 2, "acked": 5}
        sent = server.on_message(said("Summary", count=1))
        answers = [said("Entry", **entry), said("Lens", key=KEY, first=0, lens=[2048, 452])]
        answers += [said("Part", key=KEY, offset=at, bytes=bytes(length)) for at, length in ((0, 1024), (1024, 1024), (2048, 452))]
        for answer in answers:
            asked.append((sent[0][1].name, sent[0][1].fields.get("offset", sent[0][1].fields.get("first"))))
            sent = server.on_message(answer)
        self.assertEqual(asked, [("List", None), ("Cuts", 0), ("Bytes", 0), ("Bytes", 1024), ("Bytes", 2048)])
        place = server.places[KEY]
        self.assertEqual(bytes(place.output[place.una : place.released()]), b"452\n")

    def test_full_log(self):
        server = Server(1, 5000, "echo")
        server.on_message(said("Summary", count=0))
        (_, opened), = server.on_segment(KEY, Segment("S", 1000, 0, 65535, None, b""))
        self.assertEqual(opened.name, "Open")
        self.assertEqual(server.on_message(said("Full", key=KEY)), [(KEY, Segment("AR", 0, 1001, 0, None, b""))])

    def opened(self, profile, stamps, mss=1460):
        """A server, and the segments with which it answers a SYN with these timestamps once the log has the opening."""
        server = Server(1, 5000, "echo", profile=profile)
        server.on_message(said("Summary", count=0))
        (_, asked), = server.on_segment(KEY, Segment("S", 1000, 0, 65535, mss, b"", stamps))
        return server, asked.fields["mss"], [it for _, it in server.on_message(said("Opened", **asked.fields))]

    def test_timestamps_of_an_opening(self):
        rows = [("wan", (7, 0), 1460, 1448, (1, 7)), ("wan", None, 1460, 1460, None), ("plain", (7, 0), 1460, 1460, None)]
        rows += [("wan", (2**32 - 1, 5), None, 524, (1, 2**32 - 1)), ("wan", (0, 0), 70, 64, (1, 0))]
        for profile, stamps, offered, size, wanted in rows:
            _, mss, sent = self.opened(profile, stamps, offered)
            self.assertEqual((mss, [it.stamps for it in sent]), (size, [wanted]), (profile, stamps, offered))

    def test_latest_timestamp(self):
        """Of the segments that are acceptable and begin at or before what is acknowledged the newest value is echoed."""
        server, _, _ = self.opened("wan", (2**32 - 2, 0))
        place = server.places[KEY]
        place.turn("segment", text(0, b"ab", 5001)._replace(stamps=(3, 1)))
        rows = [("A", 2, b"c", 9, 3), ("A", 0, b"ab", 9, 3), ("A", -1, b"", 9, 3), ("R", 1, b"", 9, 3), ("A", 2 + 65536, b"", 9, 3)]
        for flags, at, data, value, wanted in rows:
            place.turn("segment", text(at, data, 5001)._replace(flags=flags, stamps=(value, 77)))
            self.assertEqual(place.recent, wanted, (flags, at))
        segments, _ = place.turn("logged", said("Stable", key=KEY, length=3, fin=0, reads=0))
        self.assertEqual({it.stamps for it in segments}, {(1, 3)})
        for value, wanted in ((2, 3), (9, 9), (9 + 2**31, 9), (8 + 2**31, 8 + 2**31)):
            place.turn("segment", text(3, b"", 5001)._replace(stamps=(value, 1)))
            self.assertEqual(place.recent, wanted, value)

    def test_timestamps_behind_a_restart(self):
        entry = {"key": KEY, "cisn": 1000, "sisn": 5000, "data": b"", "length": 0, "fin": 0, "lengths": [], "acked": 0}
        for mss, wanted in ((1448, (1, 4)), (1449, None)):
            place = Connection.of_entry({**entry, "mss": mss}, "echo", profile="wan")
            segments, _ = place.turn("live")
            self.assertEqual([it.stamps for it in segments], [None])
            place.turn("segment", text(0, b"ab", 5001)._replace(stamps=(4, 9)))
            segments, _ = place.turn("logged", said("Stable", key=KEY, length=2, fin=0, reads=0))
            self.assertEqual([it.stamps for it in segments], [wanted])

    def test_full_stream(self):
        place = Connection(KEY, 1000, 5000, 536, "meter")
        place.turn("start")
        at, segments, reads = 0, [], 0
        for length in [1460] * 11491 + [356]:
            place.turn("segment", text(at, bytes(length), 5001 + len(place.output)))
            at, reads = at + length, len(place.lengths)
            segments, _ = place.turn("logged", said("Reads", key=KEY, length=at, fin=0, reads=reads))
        self.assertEqual([(it.ack - 1001, it.window) for it in segments][-1], (1 << 24, 0))
        segments, _ = place.turn("segment", text(at, b"z", 5001 + len(place.output)))
        self.assertEqual([(it.flags, it.ack - 1001, it.window) for it in segments], [("A", 1 << 24, 0)])

    def test_waiting_requests(self):
        place = Connection(KEY, 1000, 5000, 536, "transfer")
        place.turn("start")
        place.data += bytes(33 * 2048)
        self.assertEqual(len(place.make_reads()), 32)
        place.reads_answered = 1
        self.assertEqual(len(place.make_reads()), 1)


class Receiving(unittest.TestCase):
    """What is used of one segment, and whether an ACK is owed. 5 bytes of output, from 5001 on, are sent and none is acknowledged."""

    def connection(self, taken):
        place = Connection(KEY, 1000, 5000, 536, "echo")
        place.data, place.answered, place.output, place.counted, place.sent, place.edge = bytearray(taken), taken, bytearray(5), True, 5, 5
        return place

    def check(self, taken, rows):
        """Each row: flags, place, acknowledgement, text; then whether an ACK is owed, una, whether the window is used, whether it is reset."""
        for flags, at, ack, data, *wanted in rows:
            place = self.connection(taken)
            owed, silent, copied = place.arrive(Segment(flags, (1001 + at) % 2**32, 5001 + ack, 9, None, data))
            came = [owed, place.una, place.edge == ack + 9, place.reset]
            self.assertEqual((came, silent, copied, len(place.data), place.fin), (wanted, False, [], taken, 0), (flags, at, ack, data))

    def test_zero_window(self):
        self.check(EDGE, [
            ("A", EDGE, 5, b"", False, 5, True, False),
            ("A", EDGE, 5, b"xyz", True, 5, True, False),
            ("AF", EDGE, 5, b"", True, 5, True, False),
            ("AF", EDGE, 5, b"xyz", True, 5, True, False),
            ("A", EDGE, 0, b"xyz", True, 0, True, False),
            ("A", EDGE, -1, b"xyz", True, 0, False, False),
            ("", EDGE, 5, b"xyz", True, 0, False, False),
            ("S", EDGE, 5, b"", True, 0, False, False),
            ("AS", EDGE, 5, b"xyz", True, 0, False, False),
            ("AR", EDGE, 5, b"xyz", True, 0, False, True),
            ("A", EDGE - 1, 5, b"xyz", True, 0, False, False),
            ("A", EDGE - 1, 5, b"", True, 0, False, False),
            ("A", EDGE + 1, 5, b"xyz", True, 0, False, False),
            ("A", EDGE + 1, 5, b"", True, 0, False, False),
            ("R", EDGE + 1, 0, b"", False, 0, False, False),
        ])

    def test_right_edge(self):
        self.check(0, [
            ("A", EDGE, 5, b"", False, 5, True, False),
            ("A", EDGE, 0, b"", False, 0, True, False),
            ("A", EDGE, -1, b"", False, 0, False, False),
            ("", EDGE, 5, b"", False, 0, False, False),
            ("A", EDGE, 5, b"x", True, 0, False, False),
            ("AF", EDGE, 5, b"", True, 0, False, False),
            ("AS", EDGE, 5, b"", True, 0, False, False),
            ("R", EDGE, 0, b"", True, 0, False, False),
            ("AR", EDGE, 5, b"xyz", True, 0, False, False),
            ("A", EDGE - 1, 5, b"", False, 5, True, False),
            ("A", EDGE + 1, 5, b"", True, 0, False, False),
            ("", EDGE + 1, 5, b"", True, 0, False, False),
            ("R", EDGE + 1, 0, b"", False, 0, False, False),
        ])

    def test_before_the_syn_is_acknowledged(self):
        for taken, at, data, wanted in ((EDGE, EDGE, b"xyz", (True, False)), (EDGE, EDGE, b"", (False, True)), (0, EDGE, b"", (False, True))):
            place = self.connection(taken)
            place.counted = False
            self.assertEqual(place.arrive(Segment("A", 1001 + at, 5000, 9, None, data))[:2], wanted)
            self.assertFalse(place.counted)
            place.arrive(Segment("A", 1001 + at, 5001, 9, None, data))
            self.assertEqual((place.counted, place.edge, len(place.data)), (True, 9, taken))

    def test_scripted_client(self):
        for window, at, data in ((0, 0, b"x"), (100, 100, b"")):
            client = Client(KEY, 1000, b"hello")
            client.phase, client.sisn, client.sent, client.edge = "open", 5000, 5, window
            client.receive(Segment("A", 5001 + at, 1006, 9, None, data))
            self.assertEqual((client.acked, len(client.accepted)), (0, 0))


class Timings(unittest.TestCase):
    """The estimate of the round-trip time by RFC 6298, with numbers by hand."""

    def measured(self, *trips):
        it, told = Timing(True), []
        for ticks in trips:
            it.send(1)
            for _ in range(ticks):
                it.tick()
            it.acknowledge(1)
            told.append((it.smoothed, it.variation, it.base))
        return told

    def test_samples(self):
        self.assertEqual(self.measured(2, 4, 3), [(16, 4, 6), (18, 5, 7), (19, 5, 7)])
        self.assertEqual(self.measured(0, 0), [(0, 0, 2), (0, 0, 2)])
        self.assertEqual(self.measured(255, 255), [(2040, 510, 64), (2040, 383, 64)])
        self.assertEqual(self.measured(300), self.measured(255))

    def test_one_unit(self):
        it = Timing(True)
        it.send(3)
        it.send(1)
        it.tick()
        it.acknowledge(2)
        self.assertEqual((it.ahead, it.base, it.sampled), (1, 10, False))
        it.acknowledge(1)
        self.assertEqual((it.ahead, it.base, it.sampled), (None, 3, True))

    def test_sent_again(self):
        """What is sent again isn't measured, and the interval stays doubled until something is."""
        it = Timing(True)
        for again in (it.resend, lambda: it.expire(20)):
            it.send(1)
            again()
            it.acknowledge(1)
            self.assertFalse(it.sampled)
        self.assertEqual((it.base, it.backed_off), (20, True))
        it.send(1)
        it.acknowledge(1)
        self.assertEqual((it.base, it.backed_off), (2, False))

    def test_plain(self):
        it = Timing()
        for act in (lambda: it.send(1), it.tick, lambda: it.acknowledge(1), lambda: it.expire(2), it.tick):
            act()
            self.assertEqual((it.base, it.sampled, it.ahead, it.backed_off), (1, False, None, False))

    def test_delayed_ack(self):
        """In the profile `wan` the ACK of text waits for the log, unless something is held after a gap."""
        for profile, counts in (("plain", [0, 1, 1, 1, 1, 1]), ("wan", [0, 0, 1, 1, 1, 1])):
            place = Connection(KEY, 1000, 5000, 536, "echo", profile=profile)
            place.turn("start")
            came = [text(0, b""), text(0, b"a"), text(0, b"a"), text(3, b"d"), text(1, b"b")]
            sent = [len(place.turn("segment", it)[0]) for it in came]
            logged = Message("Stable", 1, {"key": KEY, "length": 2, "fin": 0, "reads": 0})
            self.assertEqual([*sent, len(place.turn("logged", logged)[0])], counts, profile)


    def test_batches(self):
        """In the profile `wan` each Data of a turn but the last says that another follows; a log keeps such a Data, and answers only the last."""
        for profile, endings in (("plain", [0, 0, 1]), ("wan", [2, 2, 1])):
            place = Connection(KEY, 1000, 5000, 536, "echo", profile=profile)
            place.turn("start")
            for it in (text(0, b""), text(1, b"b" * 1460), text(1461, b"c" * 1460)._replace(flags="AF")):
                place.turn("segment", it)
            log = Log()
            log.answer(Message("Hello", 1, {}))
            log.answer(Message("Open", 1, {"key": KEY, "cisn": 1000, "sisn": 5000, "mss": 536}))
            told = [Message(name, 1, said) for name, said in place.turn("segment", text(0, b"a"))[1] if name == "Data"]
            self.assertEqual([(said.fields["offset"], said.fields["fin"]) for said in told], list(zip((0, 1, 1461), endings)), profile)
            answers = [log.answer(said) for said in told]
            lengths = [answer and answer.fields["length"] for answer in answers]
            self.assertEqual(lengths, [1, 1461, 2921] if profile == "plain" else [None, None, 2921])
            self.assertEqual(log.answer(Message("Data", 0, told[0].fields)).name, "Stale")


class Congestions(unittest.TestCase):
    """The congestion window by RFC 5681. `a` acknowledges so many units, `d` is a duplicate with so many units in flight, `l` a loss by the timer, the first
    one with `f`; behind each the window, the threshold and the count of duplicates."""

    def check(self, mss, *steps, window=None, threshold=65535):
        it = Congestion(mss)
        it.window, it.threshold = window or it.window, threshold
        for what, units, *wanted in steps:
            if what == "a":
                it.acknowledge(units)
            elif what == "d":
                self.assertEqual(it.repeat(units), wanted[2] == 3, (mss, what, units))
            else:
                it.lose(units, what == "f")
            self.assertEqual([it.window, it.threshold, it.dups], wanted, (mss, what, units))

    def test_initial_windows(self):
        for mss, window in ((64, 256), (536, 2144), (1095, 4380), (1096, 3288), (1460, 4380)):
            self.check(mss, ("d", 0, window, 65535, 1))

    def test_slow_start(self):
        self.check(100, ("a", 1, 401, 65535, 0), ("a", 30, 431, 65535, 0), ("a", 100, 531, 65535, 0), ("a", 101, 631, 65535, 0), ("a", 631, 731, 65535, 0))
        self.check(100, ("a", 100, 499, 400, 0), ("a", 1, 519, 400, 0), window=399, threshold=400)

    def test_congestion_avoidance(self):
        self.check(100, ("a", 1, 425, 400, 0), ("a", 425, 448, 400, 0), ("a", 100, 470, 400, 0), threshold=400)
        self.check(64, ("a", 64, 4097, 128, 0), ("a", 64, 4098, 128, 0), window=4096, threshold=128)
        self.check(1460, ("a", 1, WIDEST, 2920, 0), ("a", 1460, WIDEST, 2920, 0), window=WIDEST - 1, threshold=2920)

    def test_recovery(self):
        more = ("d", 650, 650, 250, 4), ("d", 750, 750, 250, 4), ("d", 850, 850, 250, 4)
        self.check(100, ("d", 500, 400, 65535, 1), ("d", 500, 400, 65535, 2), ("d", 500, 550, 250, 3), *more, ("a", 1, 250, 250, 0), ("d", 9, 250, 250, 1))
        self.check(100, ("d", 399, 400, 65535, 1), ("d", 399, 400, 65535, 2), ("a", 1, 401, 65535, 0), ("d", 399, 401, 65535, 1))
        self.check(100, ("d", 1, 400, 65535, 1), ("d", 1, 400, 65535, 2), ("d", 403, 501, 201, 3), ("a", 400, 201, 201, 0), ("a", 100, 250, 201, 0))
        self.check(1460, ("d", 9, 9, 65535, 1), ("d", 9, 9, 65535, 2), ("d", 65535, 37147, 32767, 3), window=9)

    def test_losses(self):
        self.check(100, ("f", 400, 100, 200, 0), ("l", 900, 100, 200, 0), ("a", 400, 200, 200, 0), ("a", 100, 250, 200, 0), ("f", 601, 100, 300, 0))
        self.check(100, ("d", 400, 400, 65535, 1), ("d", 400, 400, 65535, 2), ("d", 400, 500, 200, 3), ("f", 500, 100, 250, 0), ("d", 500, 100, 250, 1))

    def sent(self, place, *came):
        """Where the segments stand that leave at each of these, and how long they are."""
        turns = [place.turn("segment", it) if isinstance(it, Segment) else place.turn(it) for it in came]
        return [[((it.seq - 5001) % 2**32, len(it.text)) for it in segments] for segments, _ in turns]

    def test_partial_acknowledgements(self):
        """By RFC 6582: what was in flight when a loss was noticed is lost until it is acknowledged, and no duplicate is the third until then."""
        it = Congestion(100, recovers=True)
        self.assertEqual([it.repeat(500) for _ in range(3)], [False, False, True])
        self.assertEqual((it.window, it.threshold, it.dups, it.lost), (550, 250, 3, 500))
        steps = [("a", 100, True, 550, 3, 400), ("a", 50, True, 500, 3, 350), ("d", 450, False, 600, 4, 350), ("a", 350, False, 250, 0, 0)]
        steps += [("f", 400, None, 100, 0, 400), *(("d", 400, False, 100, count, 400) for count in (1, 2, 2)), ("a", 100, True, 200, 0, 300)]
        steps += [("a", 300, False, 250, 0, 0), ("d", 200, False, 250, 1, 0), ("d", 200, False, 250, 2, 0), ("d", 200, True, 500, 3, 200)]
        for what, units, *wanted in steps:
            again = it.acknowledge(units) if what == "a" else it.repeat(units) if what == "d" else it.lose(units, True)
            self.assertEqual([again, it.window, it.dups, it.lost], wanted, (what, units))

    def test_restart(self):
        """A restarted connection begins anew, whatever its window was. The client has 1,000 bytes already: at first that acknowledges nothing."""
        requests = b"\0\0\7\xff" * 3
        entry = {"key": KEY, "cisn": 1000, "sisn": 5000, "mss": 536, "length": 12, "fin": 0, "acked": 0, "data": bytearray(requests), "lengths": [12]}
        place = Connection.of_entry(entry, "transfer")
        self.assertEqual(self.sent(place, "live"), [[(0, 0)]])
        knows = text(12, b"", 6001)
        self.assertEqual(self.sent(place, knows), [[(0, 536), (536, 536), (1072, 536), (1608, 536)]])
        self.assertEqual(self.sent(place, knows), [[(2144, 536), (2680, 536), (3216, 464)]])

    def test_unsent(self):
        """An acknowledgement of what was never sent doesn't count: a guessed handshake is dropped, an open connection answers it, and after a restart it counts
        only up to what the earlier server may have sent, and its FIN."""
        place = Connection(KEY, 1000, 5000, 536, "echo")
        place.turn("start")
        for guess in (5000, 5002, 6001, 5001 + 2**31 - 1):
            self.assertEqual((place.turn("segment", text(0, b"hello", guess)), place.counted, place.taken()), (([], []), False, 0))
        self.assertEqual(self.sent(place, text(0, b""), text(0, b"hello", 5002)), [[], [(0, 0)]])
        self.assertEqual((place.counted, place.taken(), place.una), (True, 0, 0))
        for fin, most in (0, 5), (1, 6):
            lengths = [5, 0] if fin else [5]
            entry = {"key": KEY, "cisn": 1000, "sisn": 5000, "mss": 536, "length": 5, "fin": fin, "acked": 0, "data": bytearray(b"hello"), "lengths": lengths}
            place = Connection.of_entry(entry, "echo")
            self.assertEqual(self.sent(place, "live", text(5 + fin, b"", 5001 + most + 1)), [[(0, 0)], [(0, 0)]])
            self.assertEqual(self.sent(place, text(5 + fin, b"", 5001 + most)), [[(0, 5), (5, 0)] if fin else [(0, 5)]])

    def test_duplicates(self):
        """Of 6,141 bytes 2,144 are sent. Neither text, FIN nor another window is in a duplicate, and the third in a row sends the first segment again."""
        place = Connection(KEY, 1000, 5000, 536, "transfer")
        place.turn("start")
        place.turn("segment", text(0, b"\0\0\7\xff" * 3))
        place.turn("logged", said("Reads", key=KEY, length=12, fin=0, reads=1))
        bare, then = text(12, b""), text(13, b"")
        others = bare._replace(window=65534), bare._replace(window=65535), bare._replace(flags=""), bare._replace(ack=5000), bare._replace(text=b"x")
        self.assertEqual(self.sent(place, bare, bare, *others), [[], [], [], [], [], [], [(2144, 0)]])
        self.assertEqual((place.congestion.dups, place.congestion.window), (2, 2144))
        self.assertEqual(self.sent(place, then, then), [[(0, 536), (2144, 536)], [(2680, 536)]])
        self.assertEqual((place.congestion.threshold, place.congestion.window), (1072, 3216))
        self.assertEqual(self.sent(place, "tick", then, then._replace(ack=5001 + 536)), [[(0, 536)], [], []])
        self.assertEqual((place.congestion.threshold, place.congestion.window), (1608, 1072))


class Copies(unittest.TestCase):
    """What a turn tells the log of text that was held."""

    def told(self, *came, answered=0):
        place = Connection(KEY, 1000, 5000, 536, "meter")
        place.turn("start")
        place.answered = answered
        for segment in came:
            _, said = place.turn("segment", segment)
        return [(it["offset"], len(it["bytes"]), it["fin"]) for name, it in said if name == "Data"]

    def test_pieces(self):
        self.assertEqual(self.told(text(2, bytes(1460)), text(1462, bytes(1460)), text(0, b"ab")), [(0, 2, 0), (2, 1460, 0), (1462, 1460, 0)])
        self.assertEqual(self.told(text(2, bytes(1460)), text(1462, b"x"), text(0, b"abcd")), [(0, 4, 0), (4, 1459, 0)])
        self.assertEqual(self.told(text(2, b"cd"), text(0, b"a"), text(1, b"b")), [(1, 1, 0), (2, 2, 0)])

    def test_fins(self):
        fin = Segment("AF", 1003, 5001, 65535, None, b"")
        self.assertEqual(self.told(fin, text(0, b"ab")), [(0, 2, 0), (2, 0, 1)])
        self.assertEqual(self.told(fin._replace(text=b"cd"), text(0, b"ab")), [(0, 2, 0), (2, 2, 1)])
        self.assertEqual(self.told(fin, text(0, b"abcd")), [(0, 2, 0), (2, 0, 1)])

    def test_whole_window(self):
        early = [text(at, bytes(min(1460, EDGE - at))) for at in range(1, EDGE, 1460)]
        told = self.told(*early, text(0, b"a"))
        self.assertEqual((len(told), told[0], told[1], told[-1]), (46, (0, 1, 0), (1, 1460, 0), (64241, 1294, 0)))


class StoredRuns(unittest.TestCase):
    def test_endpoint_script(self):
        folder = pathlib.Path(__file__).parent.parent / "crates" / "part_cases"
        texts = [(folder / name).read_text(errors="replace") for name in ("stdin", "stdout")]
        part, printed_part = (text.partition("= endpoint\n")[2].partition("\n= ")[0] for text in texts)
        script = part.partition("\nscript\n")[0]
        self.assertEqual(play_script(script)[1], [])
        names = re.findall(r"(?m)^case (.*)$", script)
        printed_first = printed_part.splitlines()[: len(names)]
        self.assertEqual(printed_first, [f"ok {name}" for name in names])

    def test_replay_script(self):
        told = {name: (stands, wanted) for name, stands, wanted in printed(*read_part("replay"))}
        self.assertEqual(sum(wanted is not None for _, wanted in told.values()), 271)
        for name, (stands, wanted) in told.items():
            self.assertIn(wanted, (None, stands), name)

        def client(name):
            return [line for line in told[name][0].splitlines() if line.startswith("client 1 ") and " accepted " in line]

        for name in [name for name in told if name.startswith("play reordered_")]:
            self.assertEqual(client(name), client(name.replace("reordered", "in_order")))


class Worlds(unittest.TestCase):
    def test_crash_at_each_turn(self):
        self.check_crashes(FIRST_PATH.split("|"), ["crash"], twin=False)

    def test_crash_and_stop_at_each_turn(self):
        for part in (1, 2):
            self.check_crashes(PAIRED_PATH.split("|"), ["crash", f"stop {part}"], twin=True)

    def check_crashes(self, events, failures, twin):
        """Behind each event of a path the server crashes, and the client goes on as far as it must: it gets its echo, and the log that serves has the read."""
        for count in range(1, len(events) + 1):
            client = Client(KEY, 1000, b"hello")
            world = World("echo", SERVER, [client], twin)
            play(world, *events[:count], *failures, "boot 2 900000")
            start = drain(world, len(world.packets) - 1)
            if client.phase in ("new", "opening"):
                play(world, "open 1 65535")
                start = drain(world, start)
            play(world, "ack 1 65535")
            start = drain(world, start)
            if client.acked == 0:
                play(world, "send 1 0 5")
                start = drain(world, start)
            play(world, "ack 1 65535")
            drain(world, start)
            self.assertEqual((bytes(client.accepted), world.log.entries[KEY].lengths), (b"hello", [5]), (count, failures))

    def test_a_greeting_through_a_crash_at_each_turn(self):
        """The service speaks first. Behind each event, up to the one at which the greeting has left, the server crashes; the client gets greeting and echo once."""
        events = FIRST_PATH.split("|")[:10]
        with mock.patch.dict(GREETINGS, echo=b"220 hi\r\n"):
            for count in range(1, len(events) + 1):
                client = Client(KEY, 1000, b"hello")
                world = World("echo", SERVER, [client], False)
                play(world, *events[:count], "crash", "boot 2 900000")
                start = drain(world, len(world.packets) - 1)
                if client.phase in ("new", "opening"):
                    play(world, "open 1 65535")
                    start = drain(world, start)
                self.assertIn(bytes(client.accepted), (b"", b"220 hi\r\n"), count)
                for _ in range(4):
                    play(world, "ack 1 65535", *["tick"] * 70)
                    start = drain(world, start)
                self.assertEqual(bytes(client.accepted), b"220 hi\r\n", count)
                play(world, "send 1 0 5")
                start = drain(world, start)
                play(world, "ack 1 65535")
                drain(world, start)
                self.assertEqual((bytes(client.accepted), world.log.entries[KEY].lengths), (b"220 hi\r\nhello", [5]), count)

    def test_greetings_are_masked(self):
        for seed in range(25):
            with mock.patch.dict(GREETINGS, {name: bytes(range(1, 9)) for name in ("echo", "line", "transfer", "meter")}):
                drawn_run(seed, 1 + seed % 4, 1000, twin=True, watch=Watch())

    def test_a_forgotten_greeting_is_seen(self):
        """A restart that doesn't make the greeting again is refused in one of these schedules."""
        begin = Connection.of_entry

        def forgetful(entry, service, *rest):
            it = begin(entry, service, *rest)
            it.output, it.after_read = it.output[8:], [(length - 8, closed) for length, closed in it.after_read]
            return it

        greets, forgets = mock.patch.dict(GREETINGS, echo=bytes(range(1, 9))), mock.patch.object(Connection, "of_entry", forgetful)
        with greets, forgets, self.assertRaisesRegex(SystemExit, "failure|otherwise"):
            for seed in range(0, 200, 4):
                drawn_run(seed, 1, 1000, twin=True, watch=Watch())

    def test_segments_out_of_order(self):
        for seed in range(100):
            self.assertEqual(drawn(seed)[1], drawn(seed, in_order=True)[1], seed)

    def test_lost_segments(self):
        for seed in range(40):
            _, accepted, wanted = lossy.drawn(seed)
            self.assertEqual(accepted, wanted, seed)

    def test_masked(self):
        for seed in range(100):
            drawn_run(seed, 1 + seed % 4, 1000, twin=True, watch=Watch())

    def test_sizes(self):
        self.assertEqual(size_of(Forward(1, said("Hello"))), 32)
        self.assertEqual(size_of(Got(1)), 16)
        self.assertEqual(size_of(said("Data", key=KEY, offset=0, acked=0, fin=0, bytes=b"hello")), 0x24)
        self.assertEqual(size_of(text(0, b"hello")), 45)


if __name__ == "__main__":
    unittest.main()
