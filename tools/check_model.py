#!/usr/bin/env python3
"""What a checker of reports must say, by the model in tools/model.py: another way than a checker's, since it plays the events that a report tells.

    tools/check_model.py FILE..           the verdict on each report
    tools/check_model.py damage FILE..    the verdicts on many damaged copies of each, by law

A report is legal, or it is rejected: at the first line that no report of a legal run can have there, counted from 1, by the law that it breaks. The end of
the text counts as a line.
"""
import collections
import re
import sys

from loggers import FOLLOWED
from model import LIMIT, PACKETS, Client, World
from seed_model import closing, packet_words, script_of

EVENTS = 100_000  # of a report
TEXT = 8_388_608  # bytes of a schedule
VERDICT = collections.namedtuple("VERDICT", "law line events packets", defaults=(0, 0))

NUMBER = r"(0|[1-9]\d*)"
OCTET = r"(?:0|[1-9]\d?|1\d\d|2[0-4]\d|25[0-5])"
PORT = r"(?:0|[1-9]\d{0,4})"
ADDRESS = rf"((?:{OCTET}\.){{3}}{OCTET}:{PORT})"
HEX = r"(-|(?:[0-9a-f]{2})+)"

# The numbers of an event behind its word, each with its range.
CLIENT, WINDOW, LONG, COUNTED = (1, 16), (0, 65535), (0, 2**32 - 1), (1, 2**32 - 1)
VERBS = {"boot": [(1, 2**64 - 1), LONG], "crash": [], "tick": [], "deliver": [COUNTED], "flip": [COUNTED, LONG], "open": [CLIENT, WINDOW]}
VERBS |= {"send": [CLIENT, LONG, LONG], "fin": [CLIENT], "ack": [CLIENT, WINDOW], "reset": [CLIENT], "stop": [(1, 2)]}

# The fields of a message behind its boot number, each with its spelling and range; a message with bytes or lengths ends with them.
BIT, UNITS, MSS, KEY = (0, 1), (0, LIMIT + 1), (64, 1460), "key"
OPENING = {"key": KEY, "cisn": LONG, "sisn": LONG, "mss": MSS}
KEPT = {"key": KEY, "length": (0, LIMIT), "fin": BIT, "reads": UNITS}
MESSAGES = {"Hello": {}, "Summary": {"count": (0, 64)}, "List": {"index": (0, 63)}, "Stale": {"newer": (1, 2**64 - 1)}, "Open": OPENING, "Opened": OPENING}
MESSAGES |= {"Entry": {"index": (0, 63), **OPENING, "length": (0, LIMIT), "fin": BIT, "done": BIT, "reads": UNITS, "acked": UNITS}}
MESSAGES |= {"Bytes": {"key": KEY, "offset": (0, LIMIT)}, "Part": {"key": KEY, "offset": (0, LIMIT), "bytes": (1, 1024)}}
MESSAGES |= {"Cuts": {"key": KEY, "first": UNITS}, "Lens": {"key": KEY, "first": UNITS, "lens": (1, 512)}, "Stable": KEPT, "Reads": KEPT}
MESSAGES |= {"Data": {"key": KEY, "offset": (0, LIMIT), "acked": UNITS, "fin": BIT, "bytes": (0, 1460)}}
WIDE_DATA = {**MESSAGES["Data"], "fin": (0, FOLLOWED)}
MESSAGES |= {"Read": {"key": KEY, "index": UNITS, "length": (0, 2048)}, "Done": {"key": KEY}, "Ended": {"key": KEY}, "Full": {"key": KEY}}


def number_in(word, least, most):
    """The number that a word is in its one spelling, if it is in its range."""
    found = re.fullmatch(NUMBER, word)
    return int(word) if found and len(word) <= 20 and least <= int(word) <= most else None


def has_address(word, least_port):
    return bool(re.fullmatch(ADDRESS, word)) and least_port <= int(word.split(":")[1]) <= 65535


def byte_count(word):
    return 0 if word == "-" else len(word) // 2 if re.fullmatch(HEX, word) else None


def is_segment(words):
    """Whether these are a segment's words: its flags by letter, its numbers, its option, its text, and its timestamps if it has them."""
    options = 0
    if words[-3:-2] == ["ts"]:
        if None in (number_in(it, *LONG) for it in words[-2:]):
            return False
        words, options = words[:-3], 12
    if len(words) != 11 or words[1::2] != ["seq", "ack", "window", "mss", "data"]:
        return False
    flags, seq, ack, window, mss, data = words[0], *words[2::2]
    held = byte_count(data)
    numbers = [number_in(seq, *LONG), number_in(ack, *LONG), number_in(window, *WINDOW), 0 if mss == "-" else number_in(mss, *WINDOW)]
    spelled = flags == "-" or re.fullmatch("C?E?U?A?P?R?S?F?", flags) and flags
    return bool(spelled) and None not in numbers and held is not None and held <= 1460 - options - (0 if mss == "-" else 4)


def is_field(name, word, rule):
    if rule == KEY:
        return has_address(word, 0)
    if name == "bytes":
        return byte_count(word) is not None and rule[0] <= byte_count(word) <= rule[1]
    if name == "lens":
        lens = word.split(",")
        return rule[0] <= len(lens) <= rule[1] and all(number_in(it, 0, 2048) is not None for it in lens)
    return number_in(word, *rule) is not None


def is_message(words, profile="plain"):
    """Whether these are a message's words: its name, its boot number and its fields by name. Only in the profile wan a Data may say that another follows."""
    fields = WIDE_DATA if words[0] == "Data" and profile == "wan" else MESSAGES.get(words[0])
    if fields is None or len(words) != 3 + 2 * len(fields) or words[1] != "boot" or number_in(words[2], 1, 2**64 - 1) is None:
        return False
    told = dict(zip(words[3::2], words[4::2]))
    if list(told) != list(fields) or not all(is_field(name, told[name], rule) for name, rule in fields.items()):
        return False
    held = byte_count(told.get("bytes", "-"))
    return int(told.get("offset", 0)) + held <= LIMIT and ("newer" not in told or int(words[2]) < int(told["newer"]))


def is_packet_line(line, n, clients, profile="plain"):
    """Whether a line tells packet n of the run, between the server and a client, or the server and the logger."""
    words = line.split(" ")
    if n > PACKETS or len(words) < 4 or words[:2] != ["packet", str(n)]:
        return False
    way = re.fullmatch(r"(?:([1-9]\d?)>S|S>([1-9]\d?)|S>L|L>S)", words[2])
    if not way:
        return False
    if way[1] or way[2]:
        return int(way[1] or way[2]) <= clients and is_segment(words[3:])
    return is_message(words[3:], profile)


class Rejected(Exception):
    """A line breaks a law."""


class Report:
    """A report that is read line by line, and played as it is read."""

    def __init__(self, text):
        self.lines = split(text)
        self.at, self.own, self.world, self.clients, self.events, self.packets = 0, 0, None, [], 0, 0

    def line(self):
        """The next line without its feed; None at the end, and where the feed is missing, `\\n` stands in its place at the front."""
        if self.at == len(self.lines):
            return None
        line = self.lines[self.at]
        return line[:-1] if line.endswith("\n") else "\n" + line

    def count_own(self, length):
        """Counts a line, with its feed, that the schedule's own text has too."""
        self.own += length + 1
        if self.own - 1 > TEXT:
            raise Rejected("text")
        self.at += 1

    def header_line(self, pattern):
        line = self.line()
        if line is None:
            raise Rejected("end")
        found = re.fullmatch(pattern, line)
        if not found:
            raise Rejected("text")
        return found

    def header(self):
        self.header_line("ftreplay 1")
        self.at += 1
        service = self.header_line("service (echo|line|transfer|meter)")
        self.count_own(len(service[0]))
        server = self.header_line(f"server {ADDRESS}")
        if not has_address(server[1], 1):
            raise Rejected("text")
        self.count_own(len(server[0]))
        profile = self.profile()
        while self.heads():
            self.client(server[1])
        self.world = World(service[1], server[1], self.clients, profile=profile)

    def profile(self):
        """The profile, which has a line only where it isn't the plain one."""
        if self.words()[0] != "profile":
            return "plain"
        named = self.header_line("profile (wan)")
        self.count_own(len(named[0]))
        return named[1]

    def words(self):
        return (self.line() or "").removeprefix("\n").split(" ")

    def heads(self):
        """Whether the next line belongs to the header: a client's with the next number, or one of words that no schedule of a report has here."""
        words = self.words()
        return words[0] in ("profile", "twin", "marks", "lasting") or words[:2] == ["client", str(len(self.clients) + 1)]

    def client(self, server):
        found = self.header_line(rf"client {NUMBER} {ADDRESS} {NUMBER} (-|hex:(?:[0-9a-f]{{2}})+|fill:{NUMBER})")
        count, key, isn, script, fill = found.groups()
        taken = [server, *(client.key for client in self.clients)]
        allowed = int(count) <= 16 and has_address(key, 1) and key not in taken and int(isn) < 2**32
        if not allowed or fill and not 1 <= int(fill) <= LIMIT or script.startswith("hex:") and len(script) - 4 > 2 * LIMIT:
            raise Rejected("text")
        self.count_own(len(found[0]))
        self.clients.append(Client(key, int(isn), script_of(script)))

    def event(self):
        """The next event, or None where its line isn't spelled as that of the next one."""
        start, words = f"event {self.events + 1} ", self.line().split(" ")
        if not self.line().startswith(start) or words[2] not in VERBS or len(words) != 3 + len(VERBS[words[2]]):
            return None
        numbers = [number_in(word, *rule) for word, rule in zip(words[3:], VERBS[words[2]])]
        return None if None in numbers else (words[2], numbers)

    def turn(self):
        """Plays the next event, and compares what is sent in it with the packet lines that follow."""
        event = self.event()
        if event is None:
            raise Rejected("text")
        start = f"event {self.events + 1} "
        self.count_own(len(self.line()) - len(start))
        if self.events >= EVENTS or self.world.refuses(*event):
            self.at -= 1
            raise Rejected("event")
        law = self.actor(*event)
        wanted = [f"{way} {packet_words(content)}" for way, content in self.world.step(*event)]
        self.events += 1
        told = []
        while self.line() is not None and is_packet_line(self.line(), self.packets + 1, len(self.clients), self.world.profile):
            told.append(self.line().split(" ", 2)[2])
            self.packets, self.at = self.packets + 1, self.at + 1
        if told != wanted:
            raise Rejected(law)

    def actor(self, verb, numbers):
        """Whose turn an event is."""
        if verb not in ("deliver", "flip"):
            return "server" if verb in ("boot", "crash", "tick") else "client"
        receiver = self.world.packets[numbers[0] - 1][0].split(">")[1]
        return {"S": "server", "L": "log"}.get(receiver, "client")

    def read(self):
        self.header()
        while (self.line() or "").removeprefix("\n").startswith("event "):
            self.turn()
        if self.events and (self.line() or "").removeprefix("\n").startswith("packet "):
            raise Rejected("packet")
        for due in closing(self.world, self.events):
            if self.line() != due:
                raise Rejected("end")
            self.at += 1
        if self.line() is not None:
            raise Rejected("end")


def split(text):
    """The lines of a text, each with its feed."""
    lines = [part + b"\n" for part in text.split(b"\n")]
    lines[-1] = lines[-1][:-1]
    return [line.decode("latin-1") for line in lines if line]


def verdict(text):
    """The verdict on a text, as bytes."""
    report = Report(text)
    try:
        report.read()
    except Rejected as law:
        return VERDICT(str(law), report.at + 1)
    return VERDICT("legal", 0, report.events, report.packets)


def told(it):
    return f"legal events {it.events} packets {it.packets}" if it.law == "legal" else f"line {it.line}: {it.law}"


def damaged(lines):
    """Copies of a report with one line damaged, each with what was done."""
    for at, line in enumerate(lines):
        before, behind = lines[:at], lines[at + 1 :]

        def put(*middle):
            return b"".join([*before, *middle, *behind])

        yield f"drop {at + 1}", put()
        yield f"double {at + 1}", put(line, line)
        yield f"cut {at + 1}", b"".join(before) + line[:-1]
        yield f"stop {at + 1}", b"".join(before)
        if behind:
            yield f"exchange {at + 1}", b"".join([*before, behind[0], line, *behind[1:]])
        for place in sorted({0, len(line) // 3, len(line) // 2, len(line) - 2} & set(range(len(line) - 1))):
            for other in (b"0", b"7", b"f", b"F", b" ", b"\r", b"\n", b"\xc3", b""):
                if other != line[place : place + 1]:
                    yield f"put {other!r} at {place} of {at + 1}", put(line[:place] + other + line[place + 1 :])
        for old, new in ((b" 1 ", b" 01 "), (b" 0 ", b" 1 "), (b"boot 1", b"boot 2"), (b"S>", b">S"), (b" -", b" 00")):
            if old in line:
                yield f"write {new!r} for {old!r} in {at + 1}", put(line.replace(old, new, 1))


def main():
    words = sys.argv[1:]
    damages = words[:1] == ["damage"]
    for path in words[damages:]:
        with open(path, "rb") as file:
            text = file.read()
        print(f"{path}: {told(verdict(text))}")
        if damages:
            lines = [line.encode("latin-1") for line in split(text)]
            laws = collections.Counter(verdict(copy).law for _, copy in damaged(lines) if copy != text)
            print(", ".join(f"{law} {count}" for law, count in sorted(laws.items())))


if __name__ == "__main__":
    main()
