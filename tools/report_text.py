"""Reads a report of `ftreplay` (docs/FORMATS.md), for the other tools in this folder."""
import re
import sys
from dataclasses import dataclass, field, replace

WAY = re.compile(r"(\d+|S)>(\d+|S)|S>L|L>S|H>T|T>H")
LOGGERS = {"L", "H", "T"}


class BadReport(Exception):
    """The text is no report, or has a line that these tools don't know."""


@dataclass
class Packet:
    """A packet of the run: who sent it to whom (`S`, `L`, of two loggers `H` or `T`, or a client's number as text), and the words of its content."""

    number: int
    sender: str
    receiver: str
    words: list
    event: int

    @property
    def is_segment(self):
        return not {self.sender, self.receiver} & LOGGERS

    @property
    def forwarded(self):
        """Of a Forward the message in it, as a packet of its own; or None."""
        return replace(self, words=self.words[3:]) if self.kind == "Forward" else None

    @property
    def kind(self):
        """The letters of a segment's flags, or the name of a message or of a datagram between two loggers."""
        return self.words[0]

    @property
    def fields(self):
        """The content behind the flags or the name: names and values in turn; of a Forward its number."""
        words = self.words[:3] if self.kind == "Forward" else self.words
        return dict(zip(words[1::2], words[2::2]))

    @property
    def stamps(self):
        """A segment's timestamps, TSval and TSecr, which are the last three words of its line; or None."""
        return (int(self.words[-2]), int(self.words[-1])) if self.is_segment and self.words[-3] == "ts" else None


@dataclass
class Event:
    """An event of the run, with its words and the packets that were sent in it."""

    number: int
    words: list
    packets: list = field(default_factory=list)

    @property
    def delivers(self):
        """The number of the packet that it hands over, changed or not, or None."""
        return int(self.words[1]) if self.words[0] in ("deliver", "flip") else None


@dataclass
class Report:
    """A whole report: the header's words by line, the events in order, and the lines behind them."""

    service: str = ""
    server: str = ""
    profile: str = "plain"
    twin: bool = False
    marks: int = 0  # after how many reads the server marks a connection
    lasting: tuple = ()  # the ticks of a quarantine and of a silence, of a server that lasts
    clients: dict = field(default_factory=dict)
    events: list = field(default_factory=list)
    closing: list = field(default_factory=list)

    @property
    def packets(self):
        return {packet.number: packet for event in self.events for packet in event.packets}


def read_packet(words, event):
    way = WAY.fullmatch(words[2])
    if not way:
        raise BadReport(f"the way {words[2]} is none between clients, server and loggers")
    return Packet(int(words[1]), *words[2].split(">"), words[3:], event)


def take_line(report, words):
    """Puts one line, behind the first, into the report."""
    head = words[0]
    if head == "event":
        report.events.append(Event(int(words[1]), words[2:]))
    elif head == "packet":
        report.events[-1].packets.append(read_packet(words, report.events[-1].number))
    elif report.events or head in ("end", "log", "gone"):
        report.closing.append(words)
    elif head == "service":
        report.service = words[1]
    elif head == "server":
        report.server = words[1]
    elif head == "profile":
        report.profile = words[1]
    elif head == "twin":
        report.twin = True
    elif head == "marks":
        report.marks = int(words[1])
    elif head == "lasting":
        report.lasting = int(words[1]), int(words[2])
    elif head == "client" and words[3] != "accepted":
        report.clients[words[1]] = words[2]
    elif head == "client":
        report.closing.append(words)
    else:
        raise BadReport(f"a line that begins with '{head}' isn't known here")


def read_report(text):
    """The report that the text is; `BadReport` names the line that isn't understood."""
    lines = text.split("\n")
    if lines[0] != "ftreplay 1":
        raise BadReport("line 1: a report begins with 'ftreplay 1'")
    report = Report()
    for number, line in enumerate(lines[1:], 2):
        try:
            if line:
                take_line(report, line.split(" "))
        except (IndexError, ValueError) as why:
            raise BadReport(f"line {number}: too few words, or no number where one belongs: {line}") from why
        except BadReport as why:
            raise BadReport(f"line {number}: {why}") from why
    return report


def report_of(path):
    """The report in a file, or in standard input for `-`; ends the program where there is none."""
    try:
        if path == "-":
            return read_report(sys.stdin.read())
        with open(path, encoding="utf-8") as file:
            return read_report(file.read())
    except (OSError, UnicodeDecodeError, BadReport) as why:
        sys.exit(f"{path}: {why}")
