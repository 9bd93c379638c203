#!/usr/bin/env python3
"""Tests of what tools/model.py knows of marks: numbers computed from the rules by hand, and a crash after each event of a restart from a mark.

It takes seconds. Run it: tools/marks_test.py
"""
import random
import unittest
from xml.etree import ElementTree

from ladder import Ladder
from loggers import NO_MARK, Journaled, Mark, MarkedLog, Message
from mark_model import FORMS, is_form
from marked_runs import drawn, drawn_script
from masked import Watch, unfailing
from model import Client, Connection, Segment, Server, World, size_of
from report_pcap import capture
from report_text import read_report
from schedule_model import Refused, read_schedule
from seed_model import play
from services import Service

KEY, SERVER = "192.0.2.1:40000", "192.0.2.100:7"
SERVICES = ("echo", "line", "transfer", "meter")
HEAD = "service echo\nserver 192.0.2.100:7\nmarks 1\nclient 1 192.0.2.1:40000 1000 hex:68656c6c6f\n"
# The client's five bytes are logged, read and answered. Once it acknowledges the answer, the server sends a mark; it crashes, and restarts from the mark.
EVENTS = "boot 1 5000|deliver 1|deliver 2|open 1 65535|deliver 3|deliver 4|deliver 5|deliver 6|ack 1 65535|deliver 7|send 1 0 5|deliver 8|deliver 10"
EVENTS += "|deliver 12|deliver 11|deliver 14|deliver 15|ack 1 65535|deliver 16|deliver 18|crash|boot 2 900000|deliver 20|deliver 21|deliver 22|deliver 23"
EVENTS += "|deliver 24|deliver 25"
# The packets from that acknowledgement on, and the closing lines.
SENT = """\
packet 16 1>S A seq 1006 ack 5006 window 65535 mss - data -
packet 17 S>L Data boot 1 key 192.0.2.1:40000 offset 5 acked 5 fin 0 bytes -
packet 18 S>L Mark boot 1 key 192.0.2.1:40000 reads 1 length 5 made 5 state -
packet 19 L>S Marked boot 1 key 192.0.2.1:40000 reads 1
packet 20 S>L Hello boot 2
packet 21 L>S Summary boot 2 count 1
packet 22 S>L List boot 2 index 0
packet 23 L>S Entry boot 2 index 0 key 192.0.2.1:40000 cisn 1000 sisn 5000 mss 536 length 5 fin 0 done 0 reads 1 acked 5
packet 24 S>L Ask boot 2 key 192.0.2.1:40000
packet 25 L>S Held boot 2 key 192.0.2.1:40000 reads 1 length 5 made 5 state -
packet 26 S>1 A seq 5006 ack 1006 window 65535 mss - data -
client 1 open accepted 5 68656c6c6f
log 192.0.2.1:40000 length 5 fin 0 acked 5 done 0 reads 5
end 28"""


def said(name, boot=1, **fields):
    return Message(name, boot, fields)


def text(at, data, ack):
    return Segment("A", 1001 + at, 5001 + ack, 65535, None, data)


class Forms(unittest.TestCase):
    """Saved states: services.py makes them from the service's state, mark_model.py from all its input."""

    def test_saved_states(self):
        for seed in range(200):
            dice = random.Random(seed)
            name = SERVICES[seed % 4]
            service, script, at = Service(name), drawn_script(dice, name), 0
            while at < len(script) and not service.closed:
                chunk = script[at : at + dice.choice((1, 5, 100))]
                service.take(chunk)
                at += len(chunk)
            form = FORMS[name](script[:at])
            self.assertEqual(service.closed, form is None, seed)
            if form is not None:
                self.assertEqual(service.form(), form, seed)
                again = Service.of_form(name, form)
                for chunk in (b"\0\0\0\5ab\ncd\n", b""):
                    self.assertEqual((again.take(chunk), again.form()), (service.take(chunk), service.form() if name != "transfer" else again.form()), seed)

    def test_other_bytes(self):
        forms = [b"", b"\0", b"\xfa", b"\xfb", b"\1abc", b"\1abcd", bytes(7), bytes(8), bytes(8) + b"a\nb", bytes(8) + b"a" * 1023, bytes(8) + b"a" * 1024]
        for name in SERVICES:
            for form in forms:
                self.assertEqual(Service.of_form(name, form) is not None, is_form(name, form), (name, form[:9]))


class Logs(unittest.TestCase):
    def log(self):
        log = MarkedLog()
        log.answer(said("Hello"))
        log.answer(said("Open", key=KEY, cisn=1000, sisn=5000, mss=536))
        log.answer(said("Data", key=KEY, offset=0, acked=0, fin=0, bytes=bytes(5000)))
        for index, length in enumerate((2048, 2048, 904)):
            log.answer(said("Read", key=KEY, index=index, length=length))
        return log

    def test_worked_run(self):
        log = self.log()
        marked, held = (said("Marked", key=KEY, reads=2), said("Held", key=KEY, reads=2, length=4096, made=10, state=b"s"))
        self.assertEqual(log.answer(said("Ask", key=KEY)), said("Held", key=KEY, reads=0, length=0, made=0, state=b""))
        self.assertEqual(log.answer(said("Mark", key=KEY, reads=2, length=4096, made=10, state=b"s")), marked)
        self.assertEqual(log.entries[KEY].acked, 10)
        self.assertIsNone(log.answer(said("Bytes", key=KEY, offset=4095)))
        self.assertEqual(len(log.answer(said("Bytes", key=KEY, offset=4096)).fields["bytes"]), 904)
        self.assertIsNone(log.answer(said("Cuts", key=KEY, first=1)))
        self.assertEqual(log.answer(said("Cuts", key=KEY, first=2)).fields["lens"], [904])
        for reads, length in ((1, 2048), (2, 4096), (3, 4999), (4, 5000)):
            self.assertEqual(log.answer(said("Mark", key=KEY, reads=reads, length=length, made=99, state=b"t")), marked)
        self.assertEqual((log.answer(said("Ask", key=KEY)), log.entries[KEY].acked), (held, 10))

    def test_closing_read(self):
        log = self.log()
        log.answer(said("Data", key=KEY, offset=5000, acked=0, fin=1, bytes=b""))
        log.answer(said("Read", key=KEY, index=3, length=0))
        self.assertEqual(log.answer(said("Mark", key=KEY, reads=4, length=5000, made=0, state=b"")).fields["reads"], 0)
        self.assertEqual(log.answer(said("Mark", key=KEY, reads=3, length=5000, made=0, state=b"")).fields["reads"], 3)

    def test_other_boots_and_keys(self):
        log, other = self.log(), "192.0.2.2:40000"
        mark = {"reads": 1, "length": 2048, "made": 0, "state": b""}
        self.assertIsNone(log.answer(said("Mark", key=other, **mark)))
        self.assertIsNone(log.answer(said("Ask", key=other)))
        self.assertIsNone(log.answer(said("Ask", boot=2, key=KEY)))
        log.answer(said("Hello", boot=3))
        self.assertEqual(log.answer(said("Mark", key=KEY, **mark)), said("Stale", newer=3))
        self.assertEqual(log.marks, {})

    def test_journal(self):
        loggers = Journaled()
        mark = said("Mark", key=KEY, reads=1, length=5, made=3, state=b"")
        sent = [said("Hello"), said("Open", key=KEY, cisn=1000, sisn=5000, mss=536), said("Data", key=KEY, offset=0, acked=1, fin=0, bytes=b"hello"), mark]
        for message in [*sent, said("Held", key=KEY, reads=1, length=5, made=5, state=b"")]:
            loggers.deliver("L", "S", message)
        entry = loggers.log.entries[KEY]
        self.assertEqual((entry.acked, entry.lengths, loggers.marked.mark(KEY)), (1, [], NO_MARK))
        loggers.deliver("L", "S", said("Read", key=KEY, index=0, length=5))
        self.assertEqual(loggers.deliver("L", "S", mark), [("L>S", said("Marked", key=KEY, reads=1))])
        self.assertEqual((entry.acked, entry.lengths, bytes(entry.data), entry.fin), (3, [5], b"hello", 0))

    def test_sizes(self):
        self.assertEqual([size_of(said(name, key=KEY, reads=1)) for name in ("Marked", "Ask")], [26, 22])
        self.assertEqual([size_of(said(name, key=KEY, reads=1, length=1, made=1, state=b"xy")) for name in ("Mark", "Held")], [36, 36])


class Servers(unittest.TestCase):
    """A server that restarts from marks."""

    def entry(self, **other):
        head = {"index": 0, "key": KEY, "cisn": 1000, "sisn": 5000, "mss": 536, "length": 6500, "fin": 0, "done": 0, "reads": 4, "acked": 9}
        return said("Entry", **{**head, **other})

    def asked(self, service, *answers):
        """The questions after a Summary of two entries and each of these answers."""
        server = Server(1, 5000, service, every=1)
        questions = [(it[0][1].name, it[0][1].fields) if (it := server.on_message(answer)) else None for answer in (said("Summary", count=2), *answers)]
        return questions[1:], server

    def test_questions(self):
        held = said("Held", key=KEY, reads=2, length=4000, made=7, state=bytes(7) + b"\3" + b"ab")
        answers = [self.entry(), held, said("Lens", key=KEY, first=2, lens=[2048, 452])]
        answers += [said("Part", key=KEY, offset=at, bytes=b"\n" * length) for at, length in ((4000, 1024), (5024, 1024), (6048, 452))]
        questions, server = self.asked("line", *answers)
        at = {"key": KEY}
        wanted = [("Ask", at), ("Cuts", {**at, "first": 2}), *[("Bytes", {**at, "offset": offset}) for offset in (4000, 5024, 6048)], ("List", {"index": 1})]
        self.assertEqual(questions, wanted)
        place = Connection.of_entry(server.entries[0], "line", every=1)
        self.assertEqual((place.lengths, place.consumed, place.una, place.answered), ([None, None, 2048, 452], 6500, 9, 6500))
        self.assertTrue(bytes(place.output[7:]).startswith(b"4 ab\n5 \n6 \n"))
        self.assertEqual((place.service.count, place.service.held, place.marking.last), (3 + 2500, b"", 2))

    def test_no_mark(self):
        """No mark is asked for of an entry that is done or has no reads. A Held of no reads says that there is none, whatever its other fields are."""
        for head in ({"done": 1}, {"reads": 0, "length": 0}):
            self.assertEqual(self.asked("echo", self.entry(**head))[0], [("List", {"index": 1})])
        questions, server = self.asked("line", self.entry(), said("Held", key=KEY, reads=0, length=5, made=5, state=b"odd"))
        self.assertEqual((questions[1], server.entries[0]["mark"]), (("Cuts", {"key": KEY, "first": 0}), NO_MARK))

    def test_other_answers(self):
        """While the question is Ask, the only answer is a mark that the entry can have."""
        held = {"key": KEY, "reads": 4, "length": 6500, "made": 9, "state": b"\1abc"}
        others = {"key": "192.0.2.2:40000"}, {"reads": 5}, {"length": 6501}, {"length": 3}, {"made": 10}, {"state": b""}, {"state": b"\xfb"}
        wrong = [said("Held", **{**held, **other}) for other in others]
        wrong += [said("Held", boot=2, **held), said("Lens", key=KEY, first=0, lens=[1]), self.entry()]
        wrong += [said("Mark", **held), said("Marked", key=KEY, reads=4)]
        questions, server = self.asked("transfer", self.entry(), *wrong, said("Held", **held), said("Held", **{**held, "reads": 1}))
        self.assertEqual(questions[1:-2], [None] * len(wrong))
        self.assertEqual((questions[-2], questions[-1], server.entries[0]["mark"]), (("List", {"index": 1}), None, Mark(4, 6500, 9, b"\1abc")))

    def test_client_while_restarting(self):
        _, server = self.asked("echo", self.entry())
        (_, segment), = server.on_segment(KEY, text(0, b"x", 0))
        self.assertEqual((segment.seq, segment.ack, segment.window), (5001 + 9, 1001 + 6500, 0))


class Marks(unittest.TestCase):
    """When a mark of a connection is sent, and until when it is repeated."""

    def place(self, every, service="echo"):
        place = Connection(KEY, 1000, 5000, 536, service, every)
        place.turn("start")
        return place

    def told(self, place, kind, came=None):
        """The messages that a turn sends: their names, and the reads of a mark."""
        return [(name, said["reads"]) if name == "Mark" else name for name, said in place.turn(kind, came)[1]]

    def say(self, place, data=b"", flags="A", acked=None):
        """A segment with the client's next bytes, which acknowledges all that was sent."""
        acked = place.sent if acked is None else acked
        return self.told(place, "segment", text(place.taken(), data, acked)._replace(flags=flags))

    def logged(self, place, reads=None):
        reads = len(place.lengths) if reads is None else reads
        return self.told(place, "logged", said("Reads", key=KEY, length=len(place.data), fin=place.fin, reads=reads))

    def marked(self, place, reads):
        return self.told(place, "marked", said("Marked", key=KEY, reads=reads))

    def test_quiet(self):
        """A mark is sent once the read is logged and the output acknowledged, and repeated at each tick until a Marked has at least its reads."""
        place = self.place(1)
        self.assertEqual(self.say(place, b"hello"), ["Data", "Read"])
        self.assertEqual(self.told(place, "tick"), ["Read"])
        self.assertEqual(self.logged(place), [])
        self.assertEqual(self.say(place), ["Data", ("Mark", 1)])
        self.assertEqual(self.told(place, "tick"), [("Mark", 1)])
        self.assertEqual(self.say(place, b"more"), ["Data", "Read"])
        self.assertEqual(self.told(place, "tick"), ["Read", ("Mark", 1)])
        self.assertEqual((self.logged(place), self.say(place)), ([], ["Data"]))
        self.assertEqual(self.marked(place, 0), [])
        self.assertEqual(self.told(place, "tick"), [("Mark", 1)])
        self.assertEqual(self.marked(place, 1), [("Mark", 2)])
        self.assertEqual(self.marked(place, 7), [])
        self.assertEqual(self.told(place, "tick"), [])

    def test_every(self):
        place, marks = self.place(3), []
        for _ in range(7):
            self.say(place, b"hello")
            self.logged(place)
            marks += [it for it in self.say(place) if it != "Data"]
            self.marked(place, len(place.lengths))
        self.assertEqual(marks, [("Mark", 3), ("Mark", 6)])
        self.assertEqual(place.marking.last, 6)

    def test_nothing_is_marked(self):
        place = self.place(0)
        self.say(place, b"hello")
        self.logged(place)
        self.assertEqual((self.say(place), self.told(place, "tick")), (["Data"], []))

    def test_not_quiet(self):
        """Output that isn't acknowledged, a closing read, and a service that has closed by itself."""
        place = self.place(1)
        self.say(place, b"hello")
        self.logged(place)
        self.assertEqual(self.say(place, acked=4), ["Data"])
        closing = self.place(1, "meter")
        self.say(closing, b"hello", "AF")
        self.logged(closing)
        self.assertEqual((closing.lengths, self.say(closing)), ([5, 0], ["Data"]))
        bye = self.place(1, "line")
        self.say(bye, b"quit\n")
        self.logged(bye)
        self.assertEqual((self.say(bye), bye.una), (["Data"], 5))

    def test_silent_read(self):
        """If a read makes no output, the mark is sent in the turn in which the read is known to be logged. Its state has the unfinished line."""
        place = self.place(1, "line")
        self.say(place, b"hel")
        _, messages = place.turn("logged", said("Reads", key=KEY, length=3, fin=0, reads=1))
        self.assertEqual(messages, [("Mark", {"key": KEY, "reads": 1, "length": 3, "made": 0, "state": bytes(8) + b"hel"})])

    def test_reset(self):
        """Marks of a connection that its client has reset are still sent, before its Done."""
        place = self.place(1, "line")
        self.say(place, b"hel")
        self.assertEqual(self.say(place, flags="R"), ["Done"])
        self.assertEqual(self.logged(place), [("Mark", 1)])
        self.assertEqual(self.told(place, "tick"), [("Mark", 1), "Done"])
        self.assertEqual((self.marked(place, 1), self.told(place, "tick")), ([], ["Done"]))

    def test_unread_text(self):
        """When the client resets the connection, 32 of its 40 bytes are read. The others never are, and the mark doesn't count them."""
        place = self.place(1, "line")
        for _ in range(40):
            self.say(place, b"a")
        self.say(place, flags="R")
        _, messages = place.turn("logged", said("Reads", key=KEY, length=40, fin=0, reads=32))
        self.assertEqual(messages, [("Mark", {"key": KEY, "reads": 32, "length": 32, "made": 0, "state": bytes(8) + b"a" * 32})])

    def test_order(self):
        """Both streams have ended, and the mark isn't answered yet: it is repeated at each tick, and from the fourth tick on Done follows it."""
        place = self.place(1, "line")
        self.say(place, b"hel")
        self.assertEqual(self.logged(place), [("Mark", 1)])
        self.say(place, flags="AF")
        self.logged(place)
        self.say(place)
        self.assertEqual(self.say(place), [])
        self.assertEqual([self.told(place, "tick") for _ in range(5)], [[("Mark", 1)]] * 3 + [[("Mark", 1), "Done"]] * 2)


class Texts(unittest.TestCase):
    def refusal(self, *lines):
        with self.assertRaises(Refused) as refused:
            read_schedule("\n".join(lines) + "\n")
        return str(refused.exception)

    def test_line_of_marks(self):
        head = ["service echo", "server 192.0.2.100:7"]
        client = "client 1 192.0.2.1:40000 1000 -"
        for line, number in (("marks 1", 1), (" marks   0001000 ", 1000)):
            self.assertEqual(read_schedule("\n".join([*head, "# a comment", "", line, client])).marks, number)
        rows = ("marks", "count"), ("marks 1 2", "count"), ("marks 0", "number"), ("marks 1001", "number"), ("marks x", "number"), ("Marks 1", "word")
        for line, why in rows:
            self.assertEqual(self.refusal(*head, line), f"line 3: {why}")
        for lines in (["twin", "marks 1"], ["marks 1", "twin"], ["marks 1", "marks 1"], [client, "marks 1"], ["tick", "marks 0"], ["marks 1", "twin now"]):
            self.assertEqual(self.refusal(*head, *lines), "line 4: place")
        self.assertEqual(self.refusal("marks 1", *head), "line 1: place")
        self.assertEqual(self.refusal(head[0], "marks 0"), "line 2: place")


class Worlds(unittest.TestCase):
    def test_restart_from_a_mark(self):
        report, why = play(HEAD + EVENTS.replace("|", "\n"))
        self.assertIsNone(why)
        self.assertEqual(report[:5], ["ftreplay 1", *HEAD.splitlines()])
        behind = report[report.index(SENT.splitlines()[0]) :]
        self.assertEqual([line for line in behind if not line.startswith("event ")], SENT.splitlines())

    def test_crash_after_each_event(self):
        """The server crashes after each event and restarts, and nothing is lost from then on: the client gets all that an uncrashed server sends."""
        scripts = {"echo": b"hello world", "line": b"on\nfo\nr\nt", "transfer": b"\0\0\0\3\0\0\0\5\0\0", "meter": b"hello world"}
        for service in SERVICES:
            for count in range(1, EVENTS.count("|") + 2):
                client = Client(KEY, 1000, scripts[service])
                asks = self.proceed(World(service, SERVER, [client], marks=1), client, EVENTS.split("|")[:count])
                self.assertEqual(asks[-2:], ["Ask", f"Held {int(count >= 20)}"] if count >= 15 else [], (service, count))

    def proceed(self, world, client, events):
        """Plays the events, a crash and a restart, and the rest of the client's stream in three pieces. Its Asks and Helds after the crash."""
        watch, asks, start = Watch(), [], 0

        def happen(verb, *words):
            sent = world.step(verb, list(words))
            self.assertEqual([*watch.faults(world, sent)], [], (world.service, events[-1], verb))
            for it in [content for _, content in sent if isinstance(content, Message) and content.name in ("Ask", "Held")]:
                asks.append(f"Held {it.fields['reads']}" if it.name == "Held" else "Ask")

        for line in events:
            verb, *words = line.split()
            happen(verb, *map(int, words))
        if world.server:
            happen("crash")
        asks.clear()
        start = len(world.packets)
        happen("boot", world.last_boot + 1, 900000)
        for part in (0, 0, 6, 8, 8, 8, 9, 9):
            while start < len(world.packets):
                start += 1
                happen("deliver", start)
            if client.phase in ("new", "opening"):
                happen("open", 1, 65535)
            elif client.acked < min(part + 3, len(client.script)):
                happen("send", 1, client.acked, min(part + 3, len(client.script)) - client.acked)
            elif client.acked == len(client.script):
                happen("fin", 1)
            if client.phase in ("open", "ended"):
                happen("ack", 1, 65535)
        sent, _ = unfailing(world.service, client.script, world.log.entries[KEY].lengths)
        self.assertEqual((client.phase, bytes(client.accepted)), ("ended", sent), (world.service, len(events)))
        return asks

    def test_drawn_schedules(self):
        marks = restarts = 0
        for seed in range(1, 21):
            counts = drawn(seed).counts
            marks, restarts = marks + counts["marks"], restarts + counts["restarts from a mark"]
        self.assertGreater(min(marks, restarts), 20)

    def test_texts_of_drawn_schedules(self):
        run = drawn(7)
        report, why = play("\n".join(run.lines()))
        self.assertEqual((why, report[-1]), (None, f"end {len(run.events)}"))
        self.assertEqual(len(read_report("\n".join(report) + "\n").packets), len(run.world.packets))


class Reports(unittest.TestCase):
    """What the tools for reports make of marks."""

    def setUp(self):
        self.report = read_report("\n".join(play(HEAD.replace("echo", "line").replace("68656c6c6f", "6f6e0a666f") + EVENTS.replace("|", "\n"))[0]) + "\n")

    def test_reading(self):
        self.assertEqual((self.report.marks, len(self.report.clients), self.report.packets[18].kind), (1, 1, "Mark"))

    def test_ladder(self):
        drawing = Ladder(self.report, 1, 10**9).draw()
        words = ["".join(it.itertext()) for it in ElementTree.fromstring(drawing).iter("{http://www.w3.org/2000/svg}text")]
        self.assertIn("ftreplay: 1 client, line at 192.0.2.100:7, marks 1, 1 crash", words)
        mark = "reads 1 length 5 made 5 state len 10"
        for label in (f"Mark {mark}", "Marked reads 1", "Ask", f"Held {mark}"):
            self.assertTrue(any(it.endswith(label) for it in words), label)

    def test_capture(self):
        """It has the segments, and no message."""
        segments = [packet.fields for packet in self.report.packets.values() if packet.is_segment]
        sizes = [16 + 40 + 4 * (said["mss"] != "-") + len(said["data"].strip("-")) // 2 for said in segments]
        self.assertEqual(len(capture(self.report)), 24 + sum(sizes))


if __name__ == "__main__":
    unittest.main()
