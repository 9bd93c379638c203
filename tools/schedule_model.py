"""Reads a schedule by the rules of docs/FORMATS.md, and not by the program: the schedule that a text is, or the line that is refused and why.
"""
import re
from collections import namedtuple

LIMIT = 1 << 24  # bytes of a script
TEXT = 8_388_608  # bytes of a text
EVENTS = 100_000
CLIENTS = 16
WAITS = 100_000  # ticks for which a server that lasts may wait
SERVICES = ("echo", "line", "transfer", "meter")
PROFILES = ("wan",)  # those that are named; a schedule that names none has the plain one

# The numbers behind the first word of an event, each with its range.
LONG, PACKET, CLIENT, WINDOW = (0, 2**32 - 1), (1, 2**32 - 1), (1, CLIENTS), (0, 65535)
VERBS = {"boot": [(1, 2**64 - 1), LONG], "crash": [], "tick": [], "deliver": [PACKET], "flip": [PACKET, LONG], "open": [CLIENT, WINDOW]}
VERBS |= {"send": [CLIENT, LONG, LONG], "fin": [CLIENT], "ack": [CLIENT, WINDOW], "reset": [CLIENT], "stop": [(1, 2)]}
HEADS = {"service": 2, "server": 2, "profile": 2, "twin": 1, "marks": 2, "lasting": 3, "client": 5}  # how many words they have

# A script is as a report spells it; a client has its address, its initial number and its script; `lasting` has the ticks of a quarantine and of a silence.
Schedule = namedtuple("Schedule", "service server profile twin marks lasting clients events")


class Refused(Exception):
    """Why a line, or the whole text, is refused."""


def number_of(word, least, most):
    """The number that a word spells."""
    if not re.fullmatch("[0-9]{1,20}", word) or not least <= int(word) <= most:
        raise Refused("number")
    return int(word)


def address_of(word, taken):
    """An address, as a report spells it, which nobody has yet."""
    found = re.fullmatch(r"(\d{1,5})\.(\d{1,5})\.(\d{1,5})\.(\d{1,5}):(\d{1,5})", word, re.ASCII)
    *octets, port = map(int, found.groups()) if found else (0,)
    address = f"{'.'.join(map(str, octets))}:{port}"
    if not found or max(octets) > 255 or not 1 <= port <= 65535 or address in taken:
        raise Refused("address")
    return address


def script_of(word):
    """A script, as a report spells it."""
    if word == "-" or re.fullmatch(rf"hex:(?:[0-9a-fA-F]{{2}})+", word) and len(word) <= 4 + 2 * LIMIT:
        return word.lower()
    if re.fullmatch("fill:[0-9]{1,20}", word) and 1 <= int(word[5:]) <= LIMIT:
        return f"fill:{int(word[5:])}"
    raise Refused("script")


class Reader:
    """What was read so far of a schedule."""

    def __init__(self):
        self.service = self.server = None
        self.profile, self.twin, self.marks, self.lasting, self.clients, self.events = "plain", False, 0, None, [], []
        self.last = None  # the first word of the last line that counted

    def take(self, line):
        """One line, tested in the order in which refusals are given."""
        words = [word for word in line.split(" ") if word]
        if not words or line[0] == "#":
            return
        if words[0] in VERBS and self.may_stand(words) and len(self.events) == EVENTS:
            raise Refused("too long: events")
        if re.search("[^ -~]", line):
            raise Refused("character")
        named = {"service": SERVICES, "profile": PROFILES}.get(words[0], words[1:2])
        if words[0] not in {*HEADS, *VERBS} or len(words) > 1 and words[1] not in named:
            raise Refused("word")
        if not self.may_stand(words):
            raise Refused("place")
        if len(words) != (HEADS.get(words[0]) or 1 + len(VERBS[words[0]])):
            raise Refused("count")
        self.keep(*words)
        self.last = words[0]

    def may_stand(self, words):
        if words[0] == "service":
            return self.service is None
        if words[0] == "server":
            return self.last == "service"
        if words[0] == "profile":
            return self.last == "server"
        if words[0] in ("twin", "marks", "lasting"):
            return self.last in ("server", "profile")
        if words[0] != "client":
            return self.server is not None
        is_next = len(words) == 1 or not re.fullmatch("[0-9]{1,20}", words[1]) or int(words[1]) == len(self.clients) + 1
        return self.server is not None and not self.events and len(self.clients) < CLIENTS and is_next

    def keep(self, head, *words):
        if head == "service":
            self.service = words[0]
        elif head == "server":
            self.server = address_of(words[0], [])
        elif head == "profile":
            self.profile = words[0]
        elif head == "twin":
            self.twin = True
        elif head == "marks":
            self.marks = number_of(words[0], 1, 1000)
        elif head == "lasting":
            self.lasting = number_of(words[0], 1, WAITS), number_of(words[1], 0, WAITS)
        elif head == "client":
            number_of(words[0], 1, CLIENTS)
            isn = number_of(words[2], *LONG)
            others = [client[0] for client in self.clients if not self.lasting or client[1] == isn]
            address = address_of(words[1], [self.server, *others])
            self.clients.append((address, isn, script_of(words[3])))
        else:
            self.events.append((head, [number_of(word, *rule) for word, rule in zip(words, VERBS[head])]))


def read_schedule(text):
    """The schedule of a text, whose characters are bytes; or `Refused`, which says as `ftreplay` does why there is none."""
    if len(text) > TEXT:
        raise Refused("too long: text")
    reader, lines = Reader(), text.removesuffix("\n").split("\n") if text else []
    for number, line in enumerate(lines, 1):
        try:
            reader.take(line)
        except Refused as why:
            raise why if str(why).startswith("too long") else Refused(f"line {number}: {why}") from None
    if reader.server is None:
        raise Refused(f"line {len(lines) + 1}: place")
    return Schedule(reader.service, reader.server, reader.profile, reader.twin, reader.marks, reader.lasting, reader.clients, reader.events)
