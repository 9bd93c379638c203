#!/usr/bin/env python3
"""Tests of tools/ladder.py: its pictures are read back here, and compared with what reports say. Run it: tools/ladder_test.py"""
import contextlib
import io
import pathlib
import re
import unittest
from unittest import mock
from xml.etree import ElementTree

import ladder

TOP = pathlib.Path(__file__).resolve().parent.parent
EXAMPLES = sorted((TOP / "examples").glob("*.report"))
SVG = "{http://www.w3.org/2000/svg}"
# What is written at the arrows of examples/crash: of each packet whether it is a segment, a message, or lost (never delivered), and its words.
CRASH = """\
1 message Hello
2 message Summary count 0
3 segment S seq 1000 ack 0
4 message Open cisn 1000 sisn 5000
5 message Opened
6 segment AS seq 5000 ack 1001
7 segment A seq 1001 ack 5001
8 segment A seq 1001 ack 5001 len 5
9 lost A seq 5001 ack 1001
10 message Data offset 0 acked 0 len 5
11 message Read index 0 length 5
12 lost Stable length 5 reads 0
13 lost Reads length 5 reads 1
14 message Hello
15 message Summary count 1
16 message List index 0
17 message Entry index 0 length 5 reads 1 acked 0
18 message Cuts first 0
19 message Lens first 0 lens 5
20 message Bytes offset 0
21 message Part offset 0 len 5
22 segment A seq 5001 ack 1006
23 segment A seq 1006 ack 5001
24 segment A seq 5001 ack 1006 len 5
25 segment A seq 1006 ack 5006
26 lost Data offset 5 acked 5 len 0
"""
HEAD = "ftreplay 1\nservice line\nserver 192.0.2.100:7\n"
CLIENTS = "client 1 192.0.2.1:40000 1000 -\nclient 2 192.0.2.2:40000 2000 -\n"
# Nothing of this is played: a picture shows what a report says.
MADE = f"""\
{HEAD}{CLIENTS}event 1 boot 3 5000
packet 1 S>L Hello boot 3
event 2 open 2 65535
packet 2 2>S S seq 2000 ack 0 window 65535 mss - data -
event 3 crash
event 4 deliver 2
event 5 boot 4 5000
event 6 flip 2 17
packet 3 S>2 AR seq 0 ack 2001 window 0 mss - data -
packet 4 S>L Done boot 3 key 192.0.2.2:40000
packet 5 L>S Stable boot 4 key 192.0.2.1:40000 length 0 fin 1 reads 2
packet 6 L>S Lens boot 4 key 192.0.2.1:40000 first 0 lens 1,2,3,4,5,6,7,8,9
packet 7 2>S F seq 2001 ack 5001 window 17 mss - data 00ff
event 7 deliver 1
event 8 tick
event 9 tick
event 10 tick
event 11 deliver 3
event 12 deliver 3
event 13 deliver 5
client 1 new accepted 0 -
client 2 reset accepted 3 616263
log 192.0.2.1:40000 length 7 fin 0 acked 0 done 0 reads 1,2,3,4,5,6,7,8,9,10,11
log 192.0.2.2:40000 length 0 fin 0 acked 0 done 1 reads -
end 13
"""
NAMES = {"S": "server", "L": "log", "H": "head", "T": "tail"}


def said(element):
    return "".join(element.itertext())


class Picture:
    """A picture, read back: whose lifelines are where, which event has which row, and where arrows end."""

    def __init__(self, text):
        self.root = ElementTree.fromstring(text)
        self.texts = list(self.root.iter(SVG + "text"))
        self.x = {said(it): float(it.get("x")) for it in self.of("text", "actor")}
        rows = {int(said(it)): float(it.get("y")) - 4 for it in self.of("text", "number")}
        self.rows, self.words = rows, {row: said(it) for row, it in zip(rows, self.of("text", "words"))}
        self.bottom = max(float(line.get("y2")) for kind in ("life", "down") for line in self.of("line", kind))
        self.legend = min((float(it.get("y")) for it in self.of("text", "legend")), default=float("inf")) - 10

    def of(self, tag, kind):
        return [it for it in self.root.iter(SVG + tag) if it.get("class", "").split()[:1] == [kind]]

    def at(self, x, y):
        """The lifeline and the event of a point at the end of an arrow, or None."""
        names = [name for name, place in self.x.items() if abs(place - x) in (1, 6)]
        events = [event for event, row in self.rows.items() if row == y]
        return (names[0], events[0]) if names and events else None

    def heads(self):
        """Where arrows have heads: lifeline and event."""
        tips = [tuple(map(float, it.get("points").split()[0].split(","))) for it in self.root.iter(SVG + "polygon")]
        return sorted(self.at(x, y) for x, y in tips if y < self.legend)

    def crosses(self):
        """Where crosses are: at the lifeline and event of a delivery that nobody takes, or None of a packet that is never delivered."""
        found = []
        for path in self.of("path", "crash"):
            if match := re.fullmatch(r"M(\S+) (\S+)l10 10m0 -10l-10 10", path.get("d")):
                x, y = float(match[1]) + 5, float(match[2]) + 5
                found += [self.at(x, y)] if y < self.legend else []
        return found

    def labels(self):
        """What is written at arrows: number, kind and words."""
        return [(said(it), it.get("class").removeprefix("label-")) for it in self.texts if it.get("class").startswith("label-")]

    def printed(self, kind):
        return [said(it) for it in self.of("text", kind)]


def picture(text, *words):
    out = io.StringIO()
    with mock.patch("sys.argv", ["ladder.py", "-", *words]), mock.patch("sys.stdin", io.StringIO(text)), contextlib.redirect_stdout(out):
        ladder.main()
    return Picture(out.getvalue())


def example(name):
    return (TOP / f"examples/{name}.report").read_text()


def deliveries(text):
    """What a report says of deliveries: the lifelines and events of those that are taken, of those that aren't, and how many packets are never delivered.

    A message of the server goes to the head until the head has stopped, and the head and the tail to each other by name (docs/FORMATS.md).
    """
    receiver, taken, lost, never, up, stopped = {}, [], [], set(), False, None
    twin = "\ntwin\n" in text
    for line in text.splitlines():
        words = line.split()
        if words[0] == "packet":
            receiver[words[1]] = words[2].split(">")[1]
            never.add(words[1])
        if words[0] != "event":
            continue
        if words[2] in ("boot", "crash"):
            up = words[2] == "boot"
        if words[2] == "stop":
            stopped = "HT"[int(words[3]) - 1]
        if words[2] in ("deliver", "flip"):
            never.discard(words[3])
            there = receiver[words[3]]
            if there == "L" and twin:
                there = "T" if stopped == "H" else "H"
            is_lost = there == stopped or there == "S" and not up
            (lost if is_lost else taken).append((NAMES.get(there, f"client {there}"), int(words[1])))
    return sorted(taken), sorted(lost), len(never)


class Examples(unittest.TestCase):
    """All stored reports."""

    def test_events(self):
        """Each event has a row, in order, with its words."""
        for path in EXAMPLES:
            text, seen = path.read_text(), picture(path.read_text())
            self.assertEqual(list(seen.words.items()), [(int(n), words) for n, words in re.findall(r"^event (\d+) (.*)$", text, re.M)], path.name)
            self.assertEqual(list(seen.rows.values()), sorted(set(seen.rows.values())), path.name)

    def test_deliveries(self):
        """Each delivery that is taken has an arrow's head in the row of its event, at the lifeline of who receives it; each other one a cross there."""
        for path in EXAMPLES:
            text, seen = path.read_text(), picture(path.read_text())
            taken, lost, never = deliveries(text)
            self.assertEqual(seen.heads(), taken, path.name)
            stops = [("head" if part == "1" else "tail") for part in re.findall(r"^event \d+ stop (\d)", text, re.M)]
            self.assertEqual(sorted(it for it in seen.crosses() if it), lost, path.name)
            self.assertEqual(seen.crosses().count(None), never + len(stops), path.name)

    def test_packets(self):
        """Each packet is labelled once, where it is sent, and otherwise only where it is delivered late or again."""
        for path in EXAMPLES:
            text, seen = path.read_text(), picture(path.read_text())
            numbers = [int(label.split()[0]) for label, kind in seen.labels() if kind != "again" and " sent at event " not in label]
            self.assertEqual(numbers, list(range(1, len(numbers) + 1)), path.name)
            self.assertEqual(len(numbers), len(re.findall("^packet ", text, re.M)), path.name)

    def test_parts(self):
        """Each part of four events has the heads of the whole picture in it, whoever sent earlier what arrives, or is sent what arrives later."""
        for name in ("many_clients", "two_loggers"):
            whole = picture(example(name)).heads()
            for first in range(1, len(re.findall("^event ", example(name), re.M)), 3):
                seen = picture(example(name), "--from", str(first), "--to", str(first + 3))
                self.assertEqual(seen.heads(), [it for it in whole if first <= it[1] <= first + 3], (name, first))

    def test_inside(self):
        """Nothing begins outside of the picture."""
        for path in EXAMPLES:
            seen = picture(path.read_text())
            width, height = float(seen.root.get("width")), float(seen.root.get("height"))
            for it in seen.root.iter():
                for x, y in (("x", "y"), ("x1", "y1"), ("x2", "y2"), ("cx", "cy")):
                    if it.get(x):
                        self.assertTrue(0 <= float(it.get(x)) <= width and 0 <= float(it.get(y)) <= height, (path.name, it.attrib))

    def test_crash(self):
        seen = picture(example("crash"))
        shown = [f"{label.split()[0]} {kind} {label.split(' ', 1)[1]}" for label, kind in seen.labels()]
        self.assertEqual(shown, CRASH.splitlines())
        self.assertEqual(seen.printed("title"), ["ftreplay: 1 client, echo at 192.0.2.100:7, 1 crash"])
        self.assertEqual(list(seen.x), ["client 1", "server", "log"])
        self.assertEqual((seen.printed("boot-label"), seen.printed("crash-label")), (["boot 1", "boot 2"], ["crash"]))
        self.assertEqual(seen.printed("under"), ["192.0.2.1:40000", "192.0.2.100:7", "", "open", "5 bytes", "length 5, reads 5"])
        first, second = [(float(it.get("y")), float(it.get("height"))) for it in seen.of("rect", "up")][:2]
        self.assertEqual((first[0], first[0] + first[1]), (seen.rows[1], seen.rows[15] - 4))
        self.assertEqual((second[0], second[0] + second[1]), (seen.rows[16], seen.bottom))

    def test_arrows(self):
        """Each arrow of examples/crash leads from who sends a packet, in the packet's row below that of its event, to who receives it."""
        text, seen = example("crash"), picture(example("crash"))
        packets, event, below = {}, 0, 0
        for line in text.splitlines():
            words = line.split()
            if words[0] == "event":
                event, below = int(words[1]), int(words[2] == "deliver")
            elif words[0] == "packet":
                packets[words[1]] = (*words[2].split(">"), seen.rows[event] + 22 * below)
                below += 1
        wanted = [(*packets[number], seen.rows[int(at)]) for at, number in re.findall(r"^event (\d+) deliver (\d+)$", text, re.M)]
        places, found = {"1": "client 1", "S": "server", "L": "log"}, []
        for it in seen.of("line", "arrow"):
            if "lost" not in it.get("class") and float(it.get("y2")) < seen.legend:
                ends = [next((name for name, label in places.items() if abs(seen.x[label] - float(it.get(x))) in (1, 6)), None) for x in ("x1", "x2")]
                found.append((*ends, float(it.get("y1")), float(it.get("y2"))))
        self.assertEqual(sorted(found), sorted(wanted))

    def test_legend(self):
        """The legend has the signs that are in the picture, and no others: nothing of examples/crash comes late or again, and no tick passes."""
        wanted = ["segment of a client or the server", "message of the server or a log", "never delivered, or the receiver is down", "the server is up", "crash"]
        self.assertEqual(picture(example("crash")).printed("legend"), wanted)
        self.assertEqual(picture(example("first_path")).printed("legend"), wanted[:4])
        for path in EXAMPLES:
            text, seen = path.read_text(), picture(path.read_text())
            self.assertEqual("tick" in seen.printed("legend"), " tick\n" in text, path.name)
            taken, lost, never = deliveries(text)
            self.assertEqual("never delivered, or the receiver is down" in seen.printed("legend"), bool(lost or never), path.name)
            numbers = re.findall(r"^event \d+ (?:deliver|flip) (\d+)", text, re.M)
            self.assertEqual("delivered again" in seen.printed("legend"), len(numbers) != len(set(numbers)), path.name)

    def test_labels_are_clear(self):
        """The arrow of packet 10 of examples/crash would run through the label of packet 11, and that one's through the label of packet 12: so these two are on the
        other side of their sender's line. In the end no label lies over an arrow."""
        seen = picture(example("crash"))
        places = {said(it).split()[0]: (float(it.get("x")), it.get("text-anchor")) for it in seen.texts if it.get("class").startswith("label-")}
        self.assertEqual(places["10"], (seen.x["server"] + 14, "start"))
        self.assertEqual(places["11"], (seen.x["server"] - 14, "end"))
        self.assertEqual(places["12"], (seen.x["log"] + 14, "start"))
        for ground in seen.of("rect", "ground"):
            left, top, width, height = (float(ground.get(name)) for name in ("x", "y", "width", "height"))
            for arrow in seen.of("line", "arrow"):
                for part in range(1001):
                    x, y = (float(arrow.get(f"{a}1")) + part / 1000 * (float(arrow.get(f"{a}2")) - float(arrow.get(f"{a}1"))) for a in "xy")
                    self.assertFalse(left < x < left + width and top < y < top + height, (ground.attrib, arrow.attrib))

    def test_boxes(self):
        """Whether a line runs through the box from (10, 20) to (30, 26): through it, above it, short of it, through a corner's neighbourhood, straight down."""
        for line, wanted in (
            ((0, 23, 50, 23), True),
            ((0, 19, 50, 19), False),
            ((0, 23, 9, 23), False),
            ((0, 10, 40, 30), True),
            ((0, 24, 20, 34), False),
            ((20, 0, 20, 50), True),
            ((9, 0, 9, 50), False),
        ):
            self.assertEqual(ladder.crosses(line, 10, 20, 20, 6), wanted, line)

    def test_two_loggers(self):
        """The head's line breaks off where it stops; what the server sends then goes to the tail."""
        seen = picture(example("two_loggers"))
        self.assertEqual(list(seen.x), ["client 1", "server", "head", "tail"])
        (broken,) = [it for it in seen.of("line", "life") if float(it.get("y2")) < seen.bottom]
        self.assertEqual((float(broken.get("x1")), float(broken.get("y2"))), (seen.x["head"], seen.rows[23]))
        labels = [label for label, _ in seen.labels()]
        for label in ("2 Forward 1: Hello", "4 Got 1", "16 Forward 3: Data offset 0 acked 0 len 5", "20 Forward 4: Read index 0 length 5"):
            self.assertIn(label, labels)
        self.assertIn(("tail", 26), seen.heads())
        self.assertIn(("head", 17), seen.heads())

    def test_many_clients(self):
        """Where there are more clients, a label says whose a packet is; each has its end below its lifeline."""
        seen = picture(example("many_clients"))
        self.assertEqual(list(seen.x), ["client 1", "client 2", "client 3", "client 4", "server", "log"])
        labels = [label for label, _ in seen.labels()]
        self.assertTrue(any(label.endswith(" 2>S S seq 4294967290 ack 0") for label in labels), labels)
        self.assertTrue(any(" Open of 3 cisn 77 sisn " in label for label in labels), labels)
        ends = {said(it): float(it.get("x")) for it in seen.of("text", "under") if said(it).endswith(" bytes")}
        self.assertEqual(ends, {f"{count} bytes": seen.x[f"client {place}"] for place, count in enumerate((12, 23, 4, 17), 1)})

    def test_stored(self):
        """The picture in docs is that of the example."""
        out = io.StringIO()
        with mock.patch("sys.argv", ["ladder.py", str(TOP / "examples/crash.report")]), contextlib.redirect_stdout(out):
            ladder.main()
        self.assertEqual(out.getvalue(), (TOP / "docs/crash.svg").read_text())


class Made(unittest.TestCase):
    """A report that has what the examples don't."""

    def test_deliveries(self):
        """Packet 2 reaches a server that is down, and then with a bit changed one that is up; packet 3 comes twice; 4, 6 and 7 never come."""
        seen = picture(MADE)
        self.assertEqual(seen.heads(), [("client 2", 11), ("client 2", 12), ("log", 7), ("server", 6), ("server", 13)])
        self.assertEqual(sorted(seen.crosses(), key=str), [("server", 4), None, None, None])
        labels = [label for label, _ in seen.labels()]
        self.assertIn("bit 17 changed", labels)

    def test_labels(self):
        wanted = [
            ("1 Hello", "message"),
            ("2 2>S S seq 2000 ack 0", "segment"),
            ("3 S>2 AR seq 0 ack 2001", "segment"),  # a RST's window says nothing
            ("4 Done of 2 (boot 3)", "lost"),  # of an older boot than the server's
            ("5 Stable of 1 length 0 fin reads 2", "message"),
            ("6 Lens of 1 first 0 lens 1,2,3,4,5,6,..", "lost"),
            ("7 2>S F seq 2001 ack 5001 win 17 len 2", "lost"),
            ("2 again", "again"),
            ("bit 17 changed", "lost"),
            ("1 sent at event 1", "message"),
            ("3 again", "again"),
        ]
        self.assertEqual(sorted(picture(MADE).labels()), sorted(wanted))

    def test_one_client(self):
        """A client of which nothing is shown has no lifeline; a log's entries are named where there are several."""
        seen = picture(MADE)
        self.assertEqual(list(seen.x), ["client 2", "server", "log"])
        under = seen.printed("under")
        logged = [line for line in under if "length" in line]
        self.assertEqual(logged, ["192.0.2.1:40000: length 7, reads 1,2,3,4,5,6,7,8,9..", "192.0.2.2:40000: length 0, reads -"])
        self.assertEqual([line for line in under if "bytes" in line], ["3 bytes"])

    def test_part(self):
        """From one event to another: the rows, arrows and lifelines of these, and no ends."""
        seen = picture(MADE, "--from", "4", "--to", "7")
        self.assertEqual(list(seen.words), [4, 5, 6, 7])
        self.assertEqual(seen.heads(), [("log", 7), ("server", 6)])
        self.assertEqual(seen.printed("title"), ["ftreplay: 2 clients, line at 192.0.2.100:7, events 4 to 7"])
        self.assertEqual([line for line in seen.printed("under") if "bytes" in line or "length" in line], [])
        (bar,) = [it for it in seen.of("rect", "up") if float(it.get("y")) < seen.bottom]
        self.assertEqual(float(bar.get("y")), seen.rows[5], "the server is down in event 4")
        for first, last, wanted in (("4", "4", 0), ("1", "4", 1), ("2", "2", 1), ("2", "6", 2)):
            seen = picture(MADE, "--from", first, "--to", last)
            self.assertEqual(len([it for it in seen.of("rect", "up") if float(it.get("y")) < seen.bottom]), wanted, (first, last))

    def test_ticks(self):
        seen = picture(MADE)
        self.assertEqual([float(it.get("cy")) for it in seen.of("circle", "tick")][:3], [seen.rows[8], seen.rows[9], seen.rows[10]])

    def test_empty(self):
        """A report without events or clients is drawn, too, and so is a part that has no event."""
        self.assertEqual(picture(HEAD + "end 0\n").rows, {})
        self.assertEqual(picture(MADE, "--from", "50").rows, {})


if __name__ == "__main__":
    unittest.main()
