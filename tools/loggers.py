"""The loggers in plain Python, by the rules and not by the program: a log, a log with marks, and a head and a tail that are seen as one.

tools/model.py has the rest.
"""
from collections import namedtuple

OPENINGS = 64  # the entries of a log, and the connections that a server opens at once
UNCONFIRMED = 64  # messages that a head has forwarded and the tail hasn't confirmed

Message = namedtuple("Message", "name boot fields")
Forward = namedtuple("Forward", "number message")  # what a head sends to the tail
Got = namedtuple("Got", "number")  # .. and the tail to the head

# A service's state after so many reads of a connection, which took `length` bytes, when the service had made so many bytes of output.
Mark = namedtuple("Mark", "reads length made state")
NO_MARK = Mark(0, 0, 0, b"")

# The messages that a log sends, and no server.
FOLLOWED = 2  # the ending of a Data that a later one of the same turn follows
ANSWERS = {"Summary", "Entry", "Part", "Lens", "Opened", "Stable", "Reads", "Ended", "Stale", "Full", "Marked", "Held"}


class Entry:
    """What the log keeps of one connection."""

    def __init__(self, key, cisn, sisn, mss):
        self.key, self.cisn, self.sisn, self.mss = key, cisn, sisn, mss
        self.data, self.fin, self.lengths, self.acked, self.done = bytearray(), 0, [], 0, 0

    def keep_data(self, said):
        self.acked = max(self.acked, said["acked"])
        if not self.fin and said["offset"] <= len(self.data):
            self.data += said["bytes"][len(self.data) - said["offset"] :]
            self.fin = int(said["fin"] == 1 and said["offset"] + len(said["bytes"]) == len(self.data))

    def keep_read(self, index, length):
        total = sum(self.lengths) + length
        closes = self.fin and total == len(self.data)
        if index == len(self.lengths) and 0 not in self.lengths and total <= len(self.data) and (length or closes):
            self.lengths.append(length)

    def counts(self):
        return {"key": self.key, "length": len(self.data), "fin": self.fin, "reads": len(self.lengths)}

    def told(self, index):
        said = {"index": index, "key": self.key, "cisn": self.cisn, "sisn": self.sisn, "mss": self.mss, "length": len(self.data)}
        return {**said, "fin": self.fin, "done": self.done, "reads": len(self.lengths), "acked": self.acked}


class Log:
    """The logger: entries in the order of opening, and the largest boot number that said Hello."""

    def __init__(self):
        self.boot, self.entries = 0, {}

    def answer(self, asked):
        """What it answers to a message, or None."""
        if asked.boot < self.boot:
            return Message("Stale", asked.boot, {"newer": self.boot})
        if asked.name == "Hello":
            self.boot = asked.boot
            return Message("Summary", asked.boot, {"count": len(self.entries)})
        if asked.boot > self.boot:
            return None
        said = getattr(self, "on_" + asked.name.lower())(asked.fields)
        return said and Message(said[0], asked.boot, said[1])

    def on_list(self, said):
        entries = list(self.entries.values())
        return ("Entry", entries[said["index"]].told(said["index"])) if said["index"] < len(entries) else None

    def on_bytes(self, said):
        entry, at = self.entries.get(said["key"]), said["offset"]
        if entry is None or at >= len(entry.data):
            return None
        return "Part", {"key": entry.key, "offset": at, "bytes": bytes(entry.data[at : at + 1024])}

    def on_cuts(self, said):
        entry, first = self.entries.get(said["key"]), said["first"]
        if entry is None or first >= len(entry.lengths):
            return None
        return "Lens", {"key": entry.key, "first": first, "lens": entry.lengths[first : first + 512]}

    def on_open(self, said):
        if said["key"] not in self.entries:
            if len(self.entries) == OPENINGS:
                return "Full", {"key": said["key"]}
            self.entries[said["key"]] = Entry(said["key"], said["cisn"], said["sisn"], said["mss"])
        entry = self.entries[said["key"]]
        return "Opened", {"key": entry.key, "cisn": entry.cisn, "sisn": entry.sisn, "mss": entry.mss}

    def on_data(self, said):
        entry = self.entries.get(said["key"])
        if entry is None:
            return None
        entry.keep_data(said)
        return None if said["fin"] == FOLLOWED else ("Stable", entry.counts())

    def on_read(self, said):
        entry = self.entries.get(said["key"])
        return entry and (entry.keep_read(said["index"], said["length"]), ("Reads", entry.counts()))[1]

    def on_done(self, said):
        entry = self.entries.get(said["key"])
        if entry is None:
            return None
        entry.done = 1
        return "Ended", {"key": entry.key}


class MarkedLog(Log):
    """A log that keeps at most one mark of each entry. It drops nothing, but no answer reports what is below a mark."""

    def __init__(self):
        super().__init__()
        self.marks = {}

    def mark(self, key):
        return self.marks.get(key, NO_MARK)

    def on_bytes(self, said):
        return None if said["offset"] < self.mark(said["key"]).length else super().on_bytes(said)

    def on_cuts(self, said):
        return None if said["first"] < self.mark(said["key"]).reads else super().on_cuts(said)

    def on_mark(self, said):
        key, entry = said["key"], self.entries.get(said["key"])
        if entry is None:
            return None
        mark = Mark(said["reads"], said["length"], said["made"], said["state"])
        if self.keeps(entry, mark):
            self.marks[key], entry.acked = mark, max(entry.acked, mark.made)
        return "Marked", {"key": key, "reads": self.mark(key).reads}

    def keeps(self, entry, mark):
        """Whether a mark follows the one before: of more reads, all of them logged, and none the closing one."""
        below = entry.lengths[: mark.reads]
        return self.mark(entry.key).reads < mark.reads == len(below) and sum(below) == mark.length and 0 not in below

    def on_ask(self, said):
        return ("Held", {"key": said["key"], **self.mark(said["key"])._asdict()}) if said["key"] in self.entries else None


class Alone:
    """The only logger of a world."""

    def __init__(self):
        self.log, self.stopped = Log(), None

    def deliver(self, _receiver, _sender, message):
        """What it sends where a message arrives: ways and contents."""
        return [("L>S", answer) for answer in answers_of(self.log, message)]


class Journaled:
    """The only logger of a world with marks: a log with marks, and a journal beside it, a log that has all that is logged."""

    def __init__(self):
        self.marked, self.log, self.stopped = MarkedLog(), Log(), None

    def deliver(self, _receiver, _sender, message):
        """What is sent where a message arrives. Of a mark that is kept the journal has what it says of acknowledged output, as a Data without bytes."""
        key = message.fields.get("key")
        before = self.marked.mark(key)
        sent = answers_of(self.marked, message)
        if message.name not in ("Mark", "Ask"):
            answers_of(self.log, message)
        elif self.marked.mark(key) != before:
            length = len(self.marked.entries[key].data)
            self.log.answer(Message("Data", message.boot, {"key": key, "offset": length, "acked": message.fields["made"], "fin": 0, "bytes": b""}))
        return [("L>S", answer) for answer in sent]


def answers_of(log, message):
    """What a log answers to a message of a server; a message that only a log sends is passed over."""
    answer = None if message.name in ANSWERS else log.answer(message)
    return [answer] if answer else []


class Head:
    """The head of two loggers: its log, all messages that it took, in order, and how many of them the tail has confirmed.

    `read` makes of what the server sent, and what goes on to the tail as it came, the message that it is; or None. A new message that is `wide` is forwarded
    once; all that waits goes again where the server repeats one of these, or where there is no room.
    """

    def __init__(self, read=lambda sent: sent, wide=False):
        self.read, self.wide, self.log, self.taken, self.confirmed, self.alone = read, wide, Log(), [], 0, False

    def receive_server(self, sent):
        message = self.read(sent)
        if message is None or message.name in ANSWERS:
            return []
        if self.alone:
            return answers_of(self.log, message)
        waiting = self.taken[self.confirmed :]
        if len(waiting) < UNCONFIRMED:
            self.taken.append(sent)
            self.log.answer(message)
            if self.wide and sent not in waiting:
                return [Forward(len(self.taken), sent)]
        return [Forward(place + 1, self.taken[place]) for place in range(self.confirmed, len(self.taken))]

    def receive_other(self, said):
        if not self.alone and isinstance(said, Got) and self.confirmed < said.number <= len(self.taken):
            self.confirmed = said.number
        return []


class Tail:
    """The tail of two loggers: its log, and how many of the head's messages it has applied."""

    def __init__(self, read=lambda sent: sent):
        self.read, self.log, self.applied, self.alone = read, Log(), 0, False

    def receive_server(self, sent):
        message = self.read(sent)
        return answers_of(self.log, message) if self.alone and message else []

    def receive_other(self, said):
        if self.alone or not isinstance(said, Forward) or said.number > self.applied + 1:
            return []
        answers = []
        if said.number == self.applied + 1:
            answers = answers_of(self.log, self.read(said.message))
            self.applied += 1
        return [*answers, Got(self.applied)]


class Pair:
    """A head and a tail, by the letters that a report has for them. Where one has stopped, the other serves alone."""

    def __init__(self, wide=False):
        self.parts, self.stopped = {"H": Head(wide=wide), "T": Tail()}, None

    @property
    def log(self):
        """The log that serves: the tail's, until the tail stops."""
        return self.parts["H" if self.stopped == "T" else "T"].log

    def stop(self, part):
        self.stopped = part
        self.parts[other_part(part)].alone = True

    def deliver(self, receiver, sender, content):
        """What is sent where a message of the server or of the other logger arrives. What reaches a logger that has stopped is lost."""
        part = ("T" if self.stopped == "H" else "H") if receiver == "L" else receiver
        if part == self.stopped:
            return []
        sent = self.parts[part].receive_server(content) if sender == "S" else self.parts[part].receive_other(content)
        return [("L>S" if isinstance(it, Message) else f"{part}>{other_part(part)}", it) for it in sent]


def other_part(part):
    return "T" if part == "H" else "H"
