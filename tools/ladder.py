#!/usr/bin/env python3
"""Draws a report of `ftreplay` as a ladder diagram in SVG.

    tools/ladder.py REPORT [--from E] [--to E] > PICTURE.svg      REPORT is a file, or - for standard input

Time runs downwards, with a row for each event and each packet; clients, server and log, or head and tail of two loggers, have vertical lines. An arrow leads from the sending of a packet to its
delivery. The arrow of a packet that is never delivered, or that reaches a server that is down or a logger that has stopped, ends in a cross; that of a packet that is delivered again, or long
after it was sent, begins at a small ring. A segment is labelled with its packet number, flags, sequence and acknowledgement number, bytes of text, and its window
where that isn't 65,535; a message with its name and the fields that differ from one to the next. This file is outside the proofs: it shows what a report says, and
judges nothing.
"""
import argparse
import sys
from dataclasses import dataclass, field
from xml.sax.saxutils import escape

from report_text import report_of

ROW = 22  # the height of a row, in pixels
LETTER = 6.65  # the width of a letter of 11 pixels
EVENTS = 30  # where the words of the events begin
FIRST_LINE = 250  # the first client's lifeline
CLIENT_GAP = 70  # between two clients
GAP = 350  # between the last client and the server, between server and log, and between two loggers
TOP = 118  # the first row
GROUNDS = ("even", "odd")  # the grounds of the events, in turn
LATE_ROWS = 9  # a delivery this far below its sending isn't drawn as one line
SHOWN = ("count", "index", "offset", "first", "length", "reads", "made", "acked", "newer")  # the numbers of messages that are shown

LEGEND = (
    ("segment", "segment of a client or the server"),
    ("message", "message of the server or a log"),
    ("lost", "never delivered, or the receiver is down"),
    ("again", "delivered again"),
)

STYLE = """
text { font: 11px 'DejaVu Sans Mono', Menlo, Consolas, monospace; fill: #222 }
.title { font: bold 15px 'DejaVu Sans', Helvetica, Arial, sans-serif }
.actor { font: bold 13px 'DejaVu Sans', Helvetica, Arial, sans-serif; text-anchor: middle }
.under { font: 11px 'DejaVu Sans', Helvetica, Arial, sans-serif; text-anchor: middle; fill: #555 }
.legend { font: 11px 'DejaVu Sans', Helvetica, Arial, sans-serif; fill: #444 }
.number { fill: #999; text-anchor: end }
.words { fill: #444 }
.life { stroke: #9aa1ab; stroke-width: 1.5 }
.down { stroke: #c3c8cf; stroke-width: 1.5; stroke-dasharray: 2 5 }
.up { fill: #dbe9f6; stroke: #5b84ad; stroke-width: 1 }
.arrow { fill: none; stroke-width: 1.4 }
.segment { stroke: #0b63a8 } .message { stroke: #6d6f75 } .lost { stroke: #c8321f } .again { stroke: #b26a00; stroke-dasharray: 5 3 }
.label-segment { fill: #0b4f86 } .label-message { fill: #55575c } .label-lost { fill: #b02a18 } .label-again { fill: #8a5200 }
.bold { font-weight: bold }
.ground { fill-opacity: .9 } .even { fill: #f6f7f9 } .odd { fill: #fff }
.ring { fill: #fff; stroke-width: 1.4; stroke-dasharray: none }
.head-segment { fill: #0b63a8 } .head-message { fill: #6d6f75 } .head-again { fill: #b26a00 }
.crash { stroke: #c8321f; stroke-width: 2.4; fill: none }
.crash-label { fill: #c8321f; font-weight: bold } .boot-label { fill: #2f6093; font-weight: bold }
.tick { stroke: #5b84ad; stroke-width: 1.4; fill: #fff }
"""


def box(x, words, anchor):
    """Where a label begins, and how wide it is."""
    width = len(words) * LETTER + 6
    return {"start": x - 3, "end": x - width + 3, "middle": x - width / 2}[anchor], width


def crosses(arrow, left, top, width, height):
    """Whether an arrow's line runs through a box: whether its parts within the box's columns and rows have one in common."""
    x1, y1, x2, y2 = arrow
    first, last = 0.0, 1.0
    for begin, end, low, high in ((x1, x2, left, left + width), (y1, y2, top, top + height)):
        if begin == end:
            if not low < begin < high:
                return False
            continue
        ways = sorted(((low - begin) / (end - begin), (high - begin) / (end - begin)))
        first, last = max(first, ways[0]), min(last, ways[1])
    return first < last


@dataclass
class Drawing:
    """The parts of the picture, in the layers in which they lie over one another."""

    under: list = field(default_factory=list)
    lines: list = field(default_factory=list)
    over: list = field(default_factory=list)
    arrows: list = field(default_factory=list)  # the ends of each arrow's line

    def text(self, x, y, words, kind, anchor="start"):
        self.over.append(f'<text class="{kind}" x="{x:.1f}" y="{y:.1f}" text-anchor="{anchor}">{escape(words)}</text>')

    def label(self, x, y, number, words, kind, anchor, ground):
        """What is written at an arrow, with the packet's number in front, on its row's ground so that no line runs through it."""
        left, width = box(x, f"{number} {words}" if number else words, anchor)
        bold = f'<tspan class="bold">{number}</tspan> ' if number else ""
        self.over.append(f'<rect class="ground {ground}" x="{left:.1f}" y="{y - 9.5:.1f}" width="{width:.1f}" height="12.5"/>')
        self.over.append(f'<text class="{kind}" x="{x:.1f}" y="{y:.1f}" text-anchor="{anchor}">{bold}{escape(words)}</text>')

    def line(self, x1, y1, x2, y2, kind):
        if kind.startswith("arrow"):
            self.arrows.append((x1, y1, x2, y2))
        self.lines.append(f'<line class="{kind}" x1="{x1:.1f}" y1="{y1:.1f}" x2="{x2:.1f}" y2="{y2:.1f}"/>')

    def head(self, x, y, from_x, from_y, kind):
        """An arrow's head at a point, for a line that comes from another."""
        length = max(1.0, ((x - from_x) ** 2 + (y - from_y) ** 2) ** 0.5)
        along, across = (x - from_x) / length, (y - from_y) / length
        base_x, base_y = x - 9 * along, y - 9 * across
        points = [(x, y), (base_x - 4 * across, base_y + 4 * along), (base_x + 4 * across, base_y - 4 * along)]
        self.over.append(f'<polygon class="head-{kind}" points="{" ".join(f"{a:.1f},{b:.1f}" for a, b in points)}"/>')

    def cross(self, x, y):
        self.over.append(f'<path class="crash" d="M{x - 5:.1f} {y - 5:.1f}l10 10m0 -10l-10 10"/>')

    def ring(self, x, y, kind):
        self.over.append(f'<circle class="ring {kind}" cx="{x:.1f}" cy="{y:.1f}" r="3.5"/>')


@dataclass
class Delivery:
    """One delivery of a packet: when, to which lifeline, whether that one was there to take it, and whether the packet was delivered before."""

    event: object
    packet: object
    receiver: str
    is_taken: bool
    is_first: bool


def is_server_up(events):
    """For each event, by its number, whether the server is up once it has happened."""
    up, after = False, {}
    for event in events:
        if event.words[0] in ("boot", "crash"):
            up = event.words[0] == "boot"
        after[event.number] = up
    return after


def stopped_in(events):
    """For each event, by its number, which of two loggers has stopped once it has happened, or None."""
    stopped, after = None, {}
    for event in events:
        stopped = "HT"[int(event.words[1]) - 1] if event.words[0] == "stop" else stopped
        after[event.number] = stopped
    return after


def lifeline(report, name, role, stopped):
    """Whose lifeline a name of a way is: of two loggers the head receives what the server sends and the tail answers, until one has stopped."""
    if name != "L" or not report.twin:
        return name
    return {"H": "T", "T": "H"}.get(stopped, "H" if role == "receiver" else "T")


def boots_of(events):
    """For each event, by its number, the boot number of the server's last boot."""
    boot, after = "", {}
    for event in events:
        boot = event.words[1] if event.words[0] == "boot" else boot
        after[event.number] = boot
    return after


def deliveries_of(report):
    """Every delivery of the run, in order."""
    packets, up, stopped, seen, found = report.packets, is_server_up(report.events), stopped_in(report.events), set(), []
    for event in report.events:
        if event.delivers is not None:
            packet = packets[event.delivers]
            receiver = lifeline(report, packet.receiver, "receiver", stopped[event.number])
            is_taken = up[event.number] if receiver == "S" else receiver != stopped[event.number]
            found.append(Delivery(event, packet, receiver, is_taken, packet.number not in seen))
            seen.add(packet.number)
    return found


def bytes_in(text):
    """How many bytes a hexadecimal field has."""
    return 0 if text == "-" else len(text) // 2


def segment_label(packet, report):
    """A segment in words: its way where there are more clients, flags, both numbers, bytes of text, and a window that isn't the whole one."""
    said = packet.fields
    way = f"{packet.sender}>{packet.receiver} " if len(report.clients) > 1 else ""
    window = "" if said["window"] == "65535" or "R" in packet.kind else f" win {said['window']}"
    text = bytes_in(said["data"])
    return f"{way}{packet.kind} seq {said['seq']} ack {said['ack']}{window}{f' len {text}' if text else ''}"


def field_label(kind, name, value):
    """A field of a message in words, or nothing of one that the picture leaves out."""
    if name == "bytes":
        return [f"len {bytes_in(value)}"]
    if name == "state":
        return [f"state len {bytes_in(value)}"] if value != "-" else []
    if name == "lens":
        return [f"lens {value if len(value) < 16 else value[:12] + '..'}"]
    if name in ("fin", "done"):
        return [name] if value == "1" else []
    if name in ("sisn", "cisn"):
        return [f"{name} {value}"] if kind == "Open" else []
    return [f"{name} {value}"] if name in SHOWN else []


def message_label(packet, report, boot):
    """A message in words: name, whose it is where there are more clients, what it tells, and its boot number where another is the server's."""
    if packet.forwarded:
        return f"Forward {packet.fields['number']}: {message_label(packet.forwarded, report, boot)}"
    said = packet.fields
    if packet.kind == "Got":
        return f"Got {said['number']}"
    told = [packet.kind]
    if len(report.clients) > 1 and "key" in said:
        told.append("of " + next((name for name, address in report.clients.items() if address == said["key"]), said["key"]))
    for name, value in said.items():
        told += field_label(packet.kind, name, value)
    if said["boot"] != boot:
        told.append(f"(boot {said['boot']})")
    return " ".join(told)


class Ladder:
    """The picture of the events from one to another."""

    def __init__(self, report, first, last):
        self.report = report
        self.events = [event for event in report.events if first <= event.number <= last]
        self.is_front = self.events[:1] == report.events[:1]
        self.is_end = self.events[-1:] == report.events[-1:]
        self.numbers = {event.number for event in self.events}
        self.up = is_server_up(report.events)
        self.stopped = stopped_in(report.events)
        self.boot = boots_of(report.events)
        self.deliveries = deliveries_of(report)
        self.drawing = Drawing()
        self.labels, self.kinds = [], set()
        self.place_actors()
        self.place_rows()

    def place_actors(self):
        """Where each lifeline stands. Clients of which nothing is shown are left out."""
        packets = [packet for event in self.events for packet in event.packets]
        packets += [delivery.packet for delivery in self.deliveries if delivery.event.number in self.numbers]
        shown = {end for packet in packets for end in (packet.sender, packet.receiver)}
        clients = [name for name in self.report.clients if name in shown] or list(self.report.clients)[:1]
        self.x = {name: FIRST_LINE + CLIENT_GAP * place for place, name in enumerate(clients)}
        self.gap_left = max(self.x.values(), default=FIRST_LINE)
        self.x["S"] = self.gap_left + GAP
        for place, name in enumerate("HT" if self.report.twin else "L", 1):
            self.x[name] = self.x["S"] + place * GAP
        self.width = max(self.x.values()) + 90

    def place_rows(self):
        """Where each event and each packet's sending stands. A delivery has a row of its own above what is sent in it."""
        self.event_y, self.sent_y, y = {}, {}, TOP
        self.bands = []
        for event in self.events:
            self.event_y[event.number] = y
            rows = [y + ROW * (place + (event.delivers is not None)) for place in range(len(event.packets))]
            self.sent_y.update({packet.number: row for packet, row in zip(event.packets, rows)})
            bottom = max([y, *rows]) + ROW
            self.bands.append((y - ROW / 2 - 3, bottom - y))
            y = bottom
        self.bottom = y

    def draw(self):
        self.draw_events()
        self.draw_actors()
        self.draw_server()
        for event in self.events:
            for packet in event.packets:
                self.draw_sending(packet)
        for delivery in self.deliveries:
            if delivery.event.number in self.numbers:
                self.draw_delivery(delivery)
        self.draw_labels()
        self.draw_ends()
        self.draw_legend()
        self.draw_bands()
        return self.svg()

    def draw_bands(self):
        """The grounds of the events, as wide as the picture has become."""
        for place, (top, height) in enumerate(self.bands):
            self.drawing.under.append(f'<rect class="{GROUNDS[place % 2]}" x="0" y="{top:.1f}" width="{self.width:.0f}" height="{height}"/>')

    def draw_events(self):
        for event in self.events:
            y = self.event_y[event.number] + 4
            self.drawing.text(EVENTS, y, str(event.number), "number", "end")
            self.drawing.text(EVENTS + 10, y, " ".join(event.words), "words")

    def draw_actors(self):
        report, drawing = self.report, self.drawing
        names = [f"{len(report.clients)} client{'s' if len(report.clients) != 1 else ''}", f"{report.service} at {report.server}"]
        names += [f"marks {report.marks}"] * (report.marks > 0)
        for word, said in (("crash", "crashes"), ("stop", "stops")):
            count = sum(event.words[0] == word for event in self.events)
            names += [f"{count} {said if count > 1 else word}"] * (count > 0)
        shown = "" if self.is_front and self.is_end else f", events {self.events[0].number} to {self.events[-1].number}" if self.events else ""
        drawing.text(20, 28, f"ftreplay: {', '.join(names)}{shown}", "title")
        for name, x in self.x.items():
            drawing.text(x, TOP - 44, {"S": "server", "L": "log", "H": "head", "T": "tail"}.get(name, f"client {name}"), "actor", "middle")
            if name == "S" or len(self.x) == 3 + report.twin:
                drawing.text(x, TOP - 29, report.server if name == "S" else report.clients.get(name, ""), "under", "middle")
            if name != "S":
                self.draw_life(name, x)

    def draw_life(self, name, x):
        """The lifeline of a client or a logger, down to where it stops."""
        end = next((event for event in self.report.events if self.stopped[event.number] == name), None)
        if end is None or self.events and end.number > self.events[-1].number:
            self.drawing.line(x, TOP - 20, x, self.bottom, "life")
            return
        y = self.event_y.get(end.number, TOP - 20)
        self.drawing.line(x, TOP - 20, x, y, "life")
        self.drawing.line(x, y, x, self.bottom, "down")
        if end.number in self.numbers:
            self.drawing.cross(x, y)
            self.drawing.text(x - 12, y + 4, "stop", "crash-label", "end")

    def draw_server(self):
        """The server's lifeline: a bar while it is up, dots while it is down, with crash and boot where they break it."""
        x, drawing = self.x["S"], self.drawing
        drawing.line(x, TOP - 20, x, self.bottom, "down")
        first = self.events[0].number if self.events else 1
        up_since = TOP - 20 if self.up.get(first - 1) else None
        for event in self.events:
            y, word = self.event_y[event.number], event.words[0]
            if word == "boot":
                up_since = y
                drawing.text(x - 12, y + 4, f"boot {event.words[1]}", "boot-label", "end")
            elif word == "crash":
                self.draw_bar(up_since, y - 4)
                up_since = None
                drawing.over.append(f'<path class="crash" d="M{x - 14} {y - 1}l7 -6l7 6l7 -6l7 6"/>')
                drawing.text(x - 20, y + 2, "crash", "crash-label", "end")
            elif word == "tick":
                drawing.over.append(f'<circle class="tick" cx="{x}" cy="{y}" r="4.5"/>')
        if up_since is not None:
            self.draw_bar(up_since, self.bottom)

    def draw_bar(self, top, bottom):
        x = self.x["S"]
        self.drawing.lines.append(f'<rect class="up" x="{x - 5}" y="{top:.1f}" width="10" height="{bottom - top:.1f}" rx="2"/>')

    def ground(self, event):
        return GROUNDS[(event - self.events[0].number) % 2]

    def edge(self, name, other):
        """The side of a lifeline that faces another."""
        room = 6 if name == "S" else 1
        return self.x[name] + (room if self.x[other] > self.x[name] else -room)

    def first_delivery(self, packet):
        return next((d for d in self.deliveries if d.packet.number == packet.number), None)

    def is_one_line(self, delivery):
        """Whether the packet's way from its sending to this delivery is drawn as one arrow."""
        if not delivery.is_first or delivery.packet.number not in self.sent_y or delivery.event.number not in self.numbers:
            return False
        return self.event_y[delivery.event.number] - self.sent_y[delivery.packet.number] <= LATE_ROWS * ROW

    def draw_sending(self, packet):
        """A packet's label, and its line as far as no delivery draws it."""
        delivery = self.first_delivery(packet)
        kind = "segment" if packet.is_segment else "message"
        words = segment_label(packet, self.report) if packet.is_segment else message_label(packet, self.report, self.boot[packet.event])
        sender, receiver = (lifeline(self.report, getattr(packet, role), role, self.stopped[packet.event]) for role in ("sender", "receiver"))
        y, start = self.sent_y[packet.number], self.edge(sender, receiver)
        to_right = self.x[receiver] > self.x[sender]
        near = max(start, self.gap_left) + 8 if to_right else start - 8
        if delivery is None or not self.is_one_line(delivery):
            room = max(0.35 * GAP, len(f"{packet.number} {words}") * LETTER + 12)
            stop = near + room if to_right else near - room
            self.drawing.line(start, y, stop, y + 5, f"arrow {kind if delivery else 'lost'}")
            if delivery:
                self.drawing.ring(stop, y + 5, kind)
            else:
                self.drawing.cross(stop, y + 5)
        self.kinds.add(kind if delivery else "lost")
        ink = f"label-{kind if delivery else 'lost'}"
        other = self.x[sender] - 14 if to_right else self.x[sender] + 14
        self.labels.append(((start, y), near, other, packet, words, ink, to_right))

    def draw_labels(self):
        """The labels of what is sent: at the beginning of the arrow, or on the other side of the sender's line if another arrow runs there and none here."""
        for start, near, other, packet, words, ink, to_right in self.labels:
            y = start[1] - 4
            place = near, "start" if to_right else "end"
            if self.is_crossed(*place, y, packet, words, start) and self.has_room(other, packet):
                beside = other, "end" if to_right else "start"
                place = place if self.is_crossed(*beside, y, packet, words, start) else beside
            left, width = box(place[0], f"{packet.number} {words}", place[1])
            self.width = max(self.width, left + width + 12)
            self.drawing.label(place[0], y, packet.number, words, ink, place[1], self.ground(packet.event))

    def is_crossed(self, x, anchor, y, packet, words, start):
        """Whether the line of another packet runs through a label."""
        left, width = box(x, f"{packet.number} {words}", anchor)
        return any(crosses(arrow, left, y - 9.5, width, 12.5) for arrow in self.drawing.arrows if arrow[:2] != start)

    def has_room(self, x, packet):
        """Whether nothing is written here in the row: left of the first lifeline are the words of the events, and right of the last one there is nothing."""
        return min(self.x.values()) < x and self.sent_y[packet.number] != self.event_y[packet.event]

    def draw_delivery(self, delivery):
        """The arrow that ends in a delivery: from the packet's sending, or out of a ring."""
        packet, y = delivery.packet, self.event_y[delivery.event.number]
        kind = "segment" if packet.is_segment else "message"
        sender = lifeline(self.report, packet.sender, "sender", self.stopped[packet.event])
        start, end = self.edge(sender, delivery.receiver), self.edge(delivery.receiver, sender)
        ground = self.ground(delivery.event.number)
        flipped = delivery.event.words[2:] if delivery.event.words[0] == "flip" else []
        if self.is_one_line(delivery):
            from_x, from_y = start, self.sent_y[packet.number]
        else:
            kind = kind if delivery.is_first else "again"
            to_right = end > start
            from_x, from_y = end + (-0.35 if to_right else 0.35) * GAP, y - 6
            words, anchor = f"sent at event {packet.event}" if delivery.is_first else "again", "end" if to_right else "start"
            self.drawing.label(from_x + (-9 if to_right else 9), y - 3, packet.number, words, f"label-{kind}", anchor, ground)
            self.drawing.ring(from_x, from_y, kind)
        self.kinds.add(kind if delivery.is_taken else "lost")
        if not self.is_one_line(delivery) and delivery.is_first:
            self.kinds.add("late")
        self.drawing.line(from_x, from_y, end, y, f"arrow {kind if delivery.is_taken else 'lost'}")
        if flipped:
            self.drawing.label((from_x + end) / 2, y - 3, "", f"bit {flipped[0]} changed", "label-lost", "middle", ground)
        if delivery.is_taken:
            self.drawing.head(end, y, from_x, from_y, kind)
        else:
            self.drawing.cross(end, y)

    def draw_ends(self):
        """What the report says last of clients and log, below their lifelines."""
        if not self.is_end:
            return
        y = self.bottom + 16
        for words in self.report.closing:
            if words[0] == "client" and words[1] in self.x:
                self.drawing.text(self.x[words[1]], y, words[2], "under", "middle")
                self.drawing.text(self.x[words[1]], y + 14, f"{words[4]} bytes", "under", "middle")
        entries = [words for words in self.report.closing if words[0] == "log"]
        for place, words in enumerate(entries):
            who = f"{words[1]}: " if len(entries) > 1 else ""
            said = f"{who}length {words[3]}, reads {words[11] if len(words[11]) < 20 else words[11][:17] + '..'}"
            self.drawing.text(self.x[lifeline(self.report, "L", "sender", self.stopped[self.events[-1].number])], y + 14 * place, said, "under", "middle")
        self.bottom += 14 * max(1, len(entries))

    def draw_legend(self):
        """What the signs mean that are in the picture."""
        y, x, drawing = self.bottom + 52, 30, self.drawing
        words = {event.words[0] for event in self.events}
        for kind, said in LEGEND:
            if kind in self.kinds:
                drawing.line(x, y, x + 34, y, f"arrow {kind}")
                if kind == "lost":
                    drawing.cross(x + 34, y)
                else:
                    drawing.head(x + 40, y, x, y, kind)
                if kind == "again":
                    drawing.ring(x, y, kind)
                drawing.text(x + 48, y + 4, said, "legend")
                x += 74 + len(said) * 5.9
        y, x = y + 22, 30
        if "late" in self.kinds:
            drawing.line(x, y, x + 14, y, "arrow segment")
            drawing.ring(x + 14, y, "segment")
            drawing.ring(x + 22, y, "segment")
            drawing.line(x + 26, y, x + 34, y, "arrow segment")
            drawing.head(x + 40, y, x, y, "segment")
            drawing.text(x + 48, y + 4, "under way for long", "legend")
            x += 200
        if any(self.up[number] for number in self.numbers):
            drawing.lines.append(f'<rect class="up" x="{x}" y="{y - 8}" width="10" height="16" rx="2"/>')
            drawing.text(x + 18, y + 4, "the server is up", "legend")
            x += 140
        if "tick" in words:
            drawing.over.append(f'<circle class="tick" cx="{x}" cy="{y}" r="4.5"/>')
            drawing.text(x + 12, y + 4, "tick", "legend")
            x += 60
        if "crash" in words:
            drawing.over.append(f'<path class="crash" d="M{x} {y + 3}l7 -6l7 6l7 -6l7 6"/>')
            drawing.text(x + 36, y + 4, "crash", "legend")

    def svg(self):
        height = self.bottom + 96
        layers = "\n".join(self.drawing.under + self.drawing.lines + self.drawing.over)
        size = f'width="{self.width:.0f}" height="{height:.0f}" viewBox="0 0 {self.width:.0f} {height:.0f}"'
        ground = f'<rect width="{self.width:.0f}" height="{height:.0f}" fill="#fff"/>'
        return f'<svg xmlns="http://www.w3.org/2000/svg" {size}>\n<style>{STYLE}</style>\n{ground}\n{layers}\n</svg>\n'


def main():
    parser = argparse.ArgumentParser(description=__doc__, formatter_class=argparse.RawDescriptionHelpFormatter)
    parser.add_argument("report", help="a file, or - for standard input")
    parser.add_argument("--from", dest="first", type=int, default=1, metavar="E", help="the first event that is drawn")
    parser.add_argument("--to", dest="last", type=int, default=10**9, metavar="E", help="the last event that is drawn")
    words = parser.parse_args()
    ladder = Ladder(report_of(words.report), words.first, words.last)
    sys.stdout.write(ladder.draw())


if __name__ == "__main__":
    main()
