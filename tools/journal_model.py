#!/usr/bin/env python3
"""A log in a journal's file, in plain Python, written from the rules and not from the program.

journal_model.py lines      reads lines of `log_script` on a journal's file from standard input, and writes what it must print
journal_model.py cases      writes the lines on a journal's file that are stored beside the program
journal_model.py make FILE BYTES    writes a journal of so many bytes or a few more: a Data of 1,460 bytes and its Read by turns, some 250 messages in a block

A file is read as a whole, from its beginning; whether a message changes the log is found by comparing the whole log before and after. The log is that of model.py,
the messages are those of twin_model.py.
"""
import copy
import hashlib
import random
import sys
from struct import pack

from lasting_model import Forget, Named, read_forget
from lasting_model import Log as LastingLog
from lasting_model import spelled as forget_spelled
from loggers import Log, Message
from twin_model import ANSWERS, PLAIN, WIDE, read_message, spell_message, spelled

MAGIC, OLDER = b"ftlog 2\n", b"ftlog 1\n"
HEADER, HEAD = 32, 44  # bytes of the file's header, and of what comes before a block's body
ROUND = 256 * 1491  # bytes of a block's messages, at most
MADE = pack(">Q", 1_790_000_000_123_456_789)  # when the files of the tests were made


class Wrong(Exception):
    """The place of the first byte that is neither in a whole block nor in what a death leaves."""


class Refused(Exception):
    """Why a file is refused that isn't damaged: `empty`, `unfinished`, `older` or `other` (its first message is of the other profile's grammar)."""


def digest(data):
    return hashlib.sha256(data).digest()[:16]


def header(made=MADE):
    return MAGIC + made + digest(MAGIC + made)


def block(salt, number, previous, body):
    """A block, and its digest."""
    counted = pack(">I", len(body)) + body
    own = digest(previous + pack(">Q", number) + counted)
    return salt + pack(">Q", number) + own + counted, own


def is_followed(salt, number, rest):
    """Whether a block begins in these bytes that isn't the next one: a later one, or the next one further on."""
    at = rest.find(salt)
    while at >= 0:
        found = rest[at + 16 : at + 24]
        if len(found) == 8 and (int.from_bytes(found, "big"), at) > (number, 0):
            return True
        at = rest.find(salt, at + 1)
    return False


def number(data):
    total = 0
    for byte in data:
        total = (31 * total + byte) % 2**32
    return total


def shown(data):
    return data.hex() if len(data) <= 256 else f"{len(data)} bytes {number(data)}"


def first(body):
    """The first message of a body and its version, if it is one of the log, and how long it is; or None."""
    size = int.from_bytes(body[4:6], "big") if len(body) >= 6 else 0
    for version in (PLAIN, WIDE):
        message = read_message(body[:size], version)
        if message is not None and size <= len(body):
            return message, version, size
    message = read_forget(body[:size])
    return None if message is None or size > len(body) else (message, None, size)


def apart(body):
    """The messages of a body, or None."""
    said = []
    while body:
        found = first(body)
        if found is None:
            return None
        said.append(found[0])
        body = body[found[2] :]
    return said


def is_other(bodies, version):
    found = first(bodies[0]) if bodies else None
    return found is not None and found[1] not in (None, version)


def walk(data):
    """The bodies of the blocks of a file, and where its next block begins: the place, its number and the digest before it."""
    salt = data[16:HEADER]
    bodies, at, number, previous = [], HEADER, 1, salt
    while len(data) >= at + HEAD:
        size = int.from_bytes(data[at + 40 : at + HEAD], "big")
        body = data[at + HEAD : at + HEAD + size]
        if size > ROUND or len(body) < size:
            break
        wanted, own = block(salt, number, previous, body)
        if data[at : at + HEAD + size] != wanted:
            break
        bodies, at, number, previous = bodies + [body], at + len(wanted), number + 1, own
    return bodies, at, number, previous


def reading(data, version=None):
    """The messages of a whole file of this version's grammar, or of either, where its next block begins, and what comes after the blocks."""
    if not data:
        raise Refused("empty")
    if data.startswith(OLDER):
        raise Refused("older")
    if len(data) < HEADER and (MAGIC.startswith(data) or data.startswith(MAGIC)):
        raise Refused("unfinished")
    if data[:HEADER] != header(data[8:16]):
        raise Wrong(0)
    said, place = [], HEADER
    bodies, at, number, previous = walk(data)
    if version is not None and is_other(bodies, version):
        raise Refused("other")
    for body in bodies:
        if apart(body) is None:
            raise Wrong(place)
        said += apart(body)
        place += HEAD + len(body)
    tail = data[at:]
    if len(tail) > HEAD + ROUND or is_followed(data[16:HEADER], number, tail):
        raise Wrong(at)
    return said, (at, number, previous), tail


def reads(data, version):
    """How many reads a reading makes, if the first gives the whole file, which is shorter than the longest block."""
    if not data:
        return 1
    if len(data) < HEADER or data.startswith(OLDER) or data[:HEADER] != header(data[8:16]):
        return 2
    bodies, at, _, _ = walk(data)
    if is_other(bodies, version) or any(apart(body) is None for body in bodies):
        return 2
    rest = data[at:]
    size = int.from_bytes(rest[40:HEAD], "big")
    return 4 if len(rest) < HEAD or (size <= ROUND and len(rest) < HEAD + size) else 3


class Failed(Exception):
    pass


class Disk:
    """Its calls, of which one fails."""

    def __init__(self, first, read, call):
        self.first, self.read, self.fails, self.count, self.calls = first, read, call, 0, []

    def call(self, name, *what):
        self.count += 1
        failed = self.count == self.fails
        self.calls.append((name, what, failed))
        if failed:
            raise Failed

    def aside(self):
        """A call on the new file beside it, of which nothing is told."""
        self.count += 1
        if self.count == self.fails:
            raise Failed

    def left(self, count, kept, put):
        """What a death leaves: what the calls did whose sync came, and of the others what the choice says."""
        seen = held = self.first
        for name, what, failed in self.calls[:count]:
            before = seen
            if name == "append":
                seen = seen + what[0]
                held = held + what[0][:kept] if len(held) == len(before) else held
            elif name == "cut":
                seen, held = seen[: what[0]], held[: what[0]]
            elif name == "put":
                byte = lambda data: data[: what[0]] + bytes([what[1]]) + data[what[0] + 1 :]
                seen, held = byte(seen), byte(held) if put else held
            elif name == "replace":
                seen, held = seen if failed else what[0], what[0] if put else held
            elif not failed:
                held = seen
        return held


def calls_text(calls):
    words = {"append": lambda data: f"append {shown(data)}", "put": lambda at, byte: f"put {at} {byte}", "cut": lambda at: f"cut {at}", "sync": lambda: "sync", "replace": lambda data: f"replace {shown(data)}"}
    return "".join("; " + "failed " * failed + words[name](*what) for name, what, failed in calls)


class Kept:
    """The log, where the next block begins, and what waits."""

    def __init__(self, version):
        self.log, self.salt, self.tip, self.round, self.version = LastingLog(), b"", (HEADER, 1, b""), b"", version

    def hear(self, message):
        return None if message.name in ANSWERS else self.log.answer(message)

    def begin(self, disk, made):
        disk.call("append", header(made))
        disk.call("sync")
        self.salt = header(made)[16:]
        self.tip = HEADER, 1, self.salt

    def open(self, disk):
        """How many bytes were cut off."""
        if 0 < disk.read <= reads(disk.first, self.version):
            raise Failed
        said, self.tip, tail = reading(disk.first, self.version)
        self.salt = disk.first[16:HEADER]
        for message in said:
            self.hear(message)
        if tail:
            disk.call("cut", self.tip[0])
            disk.call("sync")
        return len(tail)

    def take(self, data, message):
        before = copy.deepcopy(self.state())
        answer = self.hear(message)
        if self.state() != before:
            self.round += data
        if isinstance(answer, Forget):
            return forget_spelled(answer, data[16:22])
        return b"" if answer is None else spell_message(answer, self.version)

    def state(self):
        return self.log.boot, [vars(entry) for entry in self.log.entries.values()]

    def commit(self, disk):
        if self.round:
            at, number, previous = self.tip
            new, own = block(self.salt, number, previous, self.round)
            disk.call("append", new)
            disk.call("sync")
            self.tip, self.round = (at + len(new), number + 1, own), b""

    def snapshot(self):
        """The messages that make the log again."""
        said = [hello(self.log.boot)]
        for key, entry in self.log.entries.items():
            own = pack(">IH", key >> 16, key & 0xFFFF)
            said.append(spelled(b"FT", 9, self.log.boot, own + pack(">IIH", entry.cisn, entry.sisn, entry.mss)))
            for at in range(0, len(entry.data), 1024):
                said.append(data(self.log.boot, at, bytes(entry.data[at : at + 1024]), key=own))
            said.append(data(self.log.boot, len(entry.data), b"", entry.acked, int(entry.fin), own))
            said += [read(self.log.boot, index, length, own) for index, length in enumerate(entry.lengths)]
            if entry.done:
                said.append(done(self.log.boot, own))
        return [spell_message(read_message(message), self.version) for message in said]

    def compact(self, disk, made):
        """Puts a new file in the place of the old one, and says whether it could be written."""
        if not self.log.boot:
            return False
        bodies = [b""]
        for message in self.snapshot():
            if len(bodies[-1]) + len(message) > ROUND:
                bodies.append(b"")
            bodies[-1] += message
        try:
            for _ in range(len(bodies) + 3):  # it is begun, gets its header and its blocks, and is synced
                disk.aside()
        except Failed:
            return False
        new = file_of(*bodies, made=made)
        disk.call("replace", new)
        disk.call("sync")
        self.salt, self.tip = new[16:HEADER], walk(new)[1:]
        return True

    def text(self):
        return f"boot {self.log.boot} count {len(self.log.entries)} end {self.tip[0]}"


def long_data(boot, piece):
    key, at = pack(">IH", 0xC0000201, 40000), 1460 * piece
    return spelled(b"FT", 11, boot, key + pack(">IIB", at, 0, 0) + bytes((at + i) % 251 for i in range(1460)))


class Bench:
    def __init__(self):
        self.file, self.fails, self.disk, self.kept, self.shown, self.version = b"", (0, 0), Disk(b"", 0, 0), None, 0, PLAIN

    def opened(self, data):
        disk, kept = Disk(data, *self.fails), Kept(self.version)
        try:
            cut = kept.open(disk)
            text = f"{kept.text()} cut {cut}"
        except Wrong as wrong:
            kept, text = None, f"wrong {wrong.args[0]}"
        except Refused as refused:
            kept, text = None, refused.args[0]
        except Failed:
            kept, text = None, "failed"
        return disk, kept, text + calls_text(disk.calls)

    def play(self, line):
        word, _, rest = line.partition(" ")
        return getattr(self, "on_" + word)(rest)

    def on_file(self, rest):
        self.file = bytes.fromhex(rest)
        return f"file {len(self.file)}"

    def on_more(self, rest):
        count, byte = map(int, rest.split())
        self.file += bytes([byte]) * count
        return f"file {len(self.file)}"

    def on_fail(self, rest):
        self.fails = tuple(map(int, rest.split()))
        return f"fail {rest}"

    def on_profile(self, rest):
        self.version = {"plain": PLAIN, "wan": WIDE}[rest]
        return f"profile {rest}"

    def on_begin(self, rest):
        self.disk, self.kept = Disk(b"", *self.fails), Kept(self.version)
        try:
            self.kept.begin(self.disk, pack(">Q", int(rest)))
            text = self.kept.text()
        except Failed:
            self.kept, text = None, "failed"
        self.shown = len(self.disk.calls)
        return f"begin {text}{calls_text(self.disk.calls)}"

    def on_open(self, rest):
        self.disk, self.kept, text = self.opened(self.file)
        self.shown = len(self.disk.calls)
        return f"open {text}"

    def on_cuts(self, rest):
        return "\n".join(["cuts"] + [f"{n} {self.opened(self.file[:n])[2]}" for n in range(len(self.file) + 1)])

    def on_flips(self, rest):
        lines = ["flips"]
        for at, byte in enumerate(self.file):
            for bit in range(8):
                data = self.file[:at] + bytes([byte ^ 1 << bit]) + self.file[at + 1 :]
                lines.append(f"{at} {bit} {self.opened(data)[2]}")
        return "\n".join(lines)

    def on_in(self, rest):
        data = bytes.fromhex(rest)
        if self.kept is None:
            return "no log"
        message = read_message(data, self.kept.version) or read_forget(data)
        if message is None:
            return "no message"
        if len(self.kept.round) + 1491 > ROUND:
            return "full"
        return f"out {self.kept.take(data, message).hex()}"

    def on_long(self, rest):
        count, first = map(int, (rest + " 0").split()[:2])
        for piece in range(count):
            if len(self.kept.round) + 1491 > ROUND:
                return f"full behind {piece}"
            data = long_data(self.kept.log.boot, first + piece)
            self.kept.take(data, read_message(data))
        return f"took {count}"

    def on_commit(self, rest):
        if self.kept is None:
            return "no log"
        try:
            self.kept.commit(self.disk)
            text = "commit"
        except Failed:
            self.kept, text = None, "failed"
        new, self.shown = self.disk.calls[self.shown :], len(self.disk.calls)
        return text + calls_text(new)

    def on_compact(self, rest):
        if self.kept is None:
            return "no log"
        try:
            self.kept.commit(self.disk)
            text = "compact" if self.kept.compact(self.disk, pack(">Q", int(rest))) else "stays"
        except Failed:
            self.kept, text = None, "failed"
        new, self.shown = self.disk.calls[self.shown :], len(self.disk.calls)
        return text + calls_text(new)

    def on_state(self, rest):
        return "no log" if self.kept is None else self.kept.text()

    def on_entry(self, rest):
        if self.kept is None:
            return "no log"
        entries = list(self.kept.log.entries.values())
        if int(rest) >= len(entries):
            return f"entry {rest} none"
        said = entries[int(rest)].told(0)
        ip, port = said["key"] >> 16, said["key"] & 0xFFFF
        return f"entry {rest} ip {ip} port {port} length {said['length']} fin {said['fin']} done {said['done']} reads {said['reads']} acked {said['acked']}"

    def on_death(self, rest):
        count, kept, put = map(int, rest.split())
        self.file, self.kept = self.disk.left(count, kept, put == 1), None
        return f"left {shown(self.file)}"


def lines():
    bench = Bench()
    for line in sys.stdin.read().split("\n")[:-1]:
        print(line if line.startswith("#") else bench.play(line.removeprefix("journal ")))


KEY = pack(">IH", 0xC0000201, 40000)
OTHER = pack(">IH", 0xC0000202, 40001)


def said(kind, boot, behind=b""):
    return spelled(b"FT", kind, boot, behind)


def hello(boot):
    return said(1, boot)


def opening(boot, key=KEY):
    return said(9, boot, key + pack(">IIH", 1000, 5000, 536))


def data(boot, at, text, acked=0, fin=0, key=KEY):
    return said(11, boot, key + pack(">IIB", at, acked, fin) + text)


def read(boot, index, length, key=KEY):
    return said(13, boot, key + pack(">IH", index, length))


def done(boot, key=KEY):
    return said(15, boot, key)


def blocks(*bodies, salt=None, number=1, previous=None):
    """Blocks after one another, from this number on."""
    salt = header()[16:] if salt is None else salt
    data, previous = b"", salt if previous is None else previous
    for body in bodies:
        new, previous = block(salt, number, previous, body)
        data, number = data + new, number + 1
    return data


def file_of(*bodies, tail=b"", made=MADE):
    return header(made) + blocks(*bodies, salt=header(made)[16:]) + tail


def order(text):
    """Writes lines of the script. All but comments begin with the word `journal`."""
    for line in text.split("\n"):
        print(line if line.startswith("#") else f"journal {line}")


def given(*messages):
    for message in messages:
        order(f"in {message.hex()}")


def changes():
    """Each kind of message, those that change the log and those that don't, with a commit behind each."""
    order("# What changes the log is kept, and nothing else: a commit behind each message.\nbegin 7")
    steps = [opening(5), hello(5), hello(5), hello(4), opening(4), opening(6), opening(5), opening(5), data(5, 0, b"abc"), data(5, 0, b"abc"), data(5, 0, b"ab"), data(5, 1, b"bcd")]
    steps += [data(5, 9, b"z"), data(5, 4, b""), data(5, 0, b"", acked=3), data(5, 0, b"", acked=3), data(5, 0, b"", acked=2), data(5, 9, b"z", acked=4), data(5, 0, b"abcde", acked=5)]
    steps += [read(5, 0, 2), read(5, 0, 2), read(5, 2, 1), read(5, 1, 9), read(5, 1, 0), read(5, 1, 3), read(5, 2, 0), data(5, 2, b"c", fin=1), data(5, 9, b"", fin=1), data(5, 5, b"", fin=1)]
    steps += [data(5, 5, b"", fin=1), data(5, 5, b"f"), data(5, 5, b"f", acked=6), read(5, 2, 0), read(5, 2, 0), read(5, 3, 0), done(5, OTHER), done(5), done(5), data(5, 0, b"", acked=7)]
    steps += [data(5, 0, b"x", key=OTHER), read(5, 0, 1, OTHER), opening(5, OTHER), said(3, 5, pack(">H", 0)), said(5, 5, KEY + pack(">I", 0)), said(7, 5, KEY + pack(">I", 0)), said(2, 5, b"\0\1")]
    steps += [said(12, 5, KEY + pack(">IBI", 9, 0, 9)), said(16, 5, KEY), said(17, 5, pack(">Q", 9)), hello(7), opening(5, pack(">IH", 1, 1)), opening(7, pack(">IH", 1, 1)), data(7, 6, b"g")]
    for message in steps:
        given(message)
        order("commit")
    for i in range(64):
        given(opening(7, pack(">IH", 7, i)))
    order("state\ncommit")
    given(opening(7, pack(">IH", 8, 8)))
    order("commit\nentry 0\nentry 1\nentry 2\ndeath 9999 0 0\nopen\nentry 0\nentry 1\nentry 2\nentry 63\nentry 64")


def drawn():
    """Messages that are drawn: numbers are small, so that many repeat, meet or miss."""
    draw = random.Random(50)
    order("# Messages that are drawn, in rounds of 1 to 12, and an opening behind every 20 rounds.\nbegin 1790000000123456789")
    given(hello(1))
    boot = 1
    for turn in range(200):
        for _ in range(draw.randint(1, 12)):
            key = draw.choice([KEY, OTHER, pack(">IH", 3, 3)])
            kind, own = draw.randint(0, 11), draw.choice([boot] * 9 + [boot + 1, max(boot - 1, 1)])
            if kind == 0 and draw.randint(0, 3) == 0:
                boot += draw.randint(0, 2)
                given(hello(boot))
            elif kind <= 2:
                given(opening(own, key))
            elif kind <= 6:
                text = bytes(draw.randint(97, 99) for _ in range(draw.randint(0, 4)))
                given(data(own, draw.randint(0, 12), text, draw.randint(0, turn // 8), draw.randint(0, 20) == 0, key))
            elif kind <= 10:
                given(read(own, draw.randint(0, 6), draw.choice([0, 1, 2, 3, 5]), key))
            elif draw.randint(0, 15) == 0:
                given(done(own, key))
        order("commit")
        if turn % 20 == 19:
            order("death 9999 0 0\nopen\nstate\nentry 0\nentry 1\nentry 2")


SMALL = [hello(5) + opening(5), data(5, 0, b"abc") + read(5, 0, 2)]


def damage():
    order("# No file, each front of a header, and a file that is cut at each byte or has one bit changed.")
    whole = file_of(*SMALL, tail=b"\x03\xd1.")
    order(f"file \ncuts\nfile {whole.hex()}\nopen\nentry 0\nentry 1\ncuts\nflips")
    order("# Bytes that are no journal, or have a block that is none.")
    draw = random.Random(51)
    files = [bytes(draw.randrange(256) for _ in range(draw.randint(1, 60))) for _ in range(20)]
    files += [header() + bytes(draw.randrange(256) for _ in range(draw.randint(1, 60))) for _ in range(10)]
    files += [MAGIC + bytes(draw.randrange(256) for _ in range(draw.randint(1, 60))) for _ in range(10)]
    files += [b"\0" * n for n in (1, 8, 9, 31, 32, 90)] + [MAGIC[:-1] + b"\r", MAGIC + b"\0", MAGIC + MAGIC, b"ftlog 3\n."]
    files += [OLDER, OLDER + b".", OLDER + bytes(100), OLDER[:-1], header(bytes(8)), header(b"\xff" * 8)]
    good = hello(5)
    files += [file_of(b""), file_of(good, b"", good), file_of(said(2, 5, b"\0\1")), file_of(good + good[:-1]), file_of(good + b"\0"), file_of(good[:6]), file_of(good[:5])]
    files += [file_of(good, good[:-1] + b"\6"), file_of(hello(4), hello(9), hello(6)), file_of(good, tail=MAGIC), file_of(good, tail=header())]
    for content in files:
        order(f"file {content.hex()}\nopen\nstate")
    order("# Blocks that were dropped, repeated, exchanged or taken from another journal; words that were exchanged; and whole blocks of the right salt further on.")
    bodies = [hello(5), opening(5), data(5, 0, b"abc"), read(5, 0, 2)]
    parts = [header()] + [blocks(*bodies)[len(blocks(*bodies[:n])) : len(blocks(*bodies[: n + 1]))] for n in range(4)]
    other = [header(bytes(8))] + [blocks(*bodies, salt=header(bytes(8))[16:])[len(blocks(*bodies[:n])) : len(blocks(*bodies[: n + 1]))] for n in range(4)]
    for n in range(5):
        for kind in ([*parts[:n], *parts[n + 1 :]], [*parts[: n + 1], *parts[n:]], [*parts[:n], other[n], *parts[n + 1 :]], [*other[:n], parts[n], *other[n + 1 :]]):
            order(f"file {b''.join(kind).hex()}\nopen")
        for m in range(n):
            moved = parts[:]
            moved[n], moved[m] = moved[m], moved[n]
            order(f"file {b''.join(moved).hex()}\nopen")
    whole = b"".join(parts)
    for at in range(0, len(whole) - 8, 4):
        exchanged = whole[:at] + whole[at + 4 : at + 8] + whole[at : at + 4] + whole[at + 8 :]
        order(f"file {exchanged.hex()}\nopen")
    torn = bytes(30)
    for number in (0, 4, 5, 6, 2**64 - 1):
        for place in (b"", b"\0", torn):
            order(f"file {(whole + place + header()[16:] + pack('>Q', number) + torn).hex()}\nopen")
        order(f"file {(whole + torn + header()[16:] + pack('>Q', number)[:7]).hex()}\nopen")
    order("# What a death leaves is at most the longest block, and a body is no longer than that.")
    for base in (file_of(), file_of(*SMALL)):
        for count in (1, 43, 44, 381739, 381740, 381741, 400000):
            order(f"file {base.hex()}\nmore {count} 0\nopen")
    for size in (381696, 381697, 2**32 - 1):
        order(f"file {(file_of() + header()[16:] + pack('>Q', 1) + bytes(16) + pack('>I', size)).hex()}\nopen\nmore 381696 0\nopen\nmore 1 0\nopen")


def deaths():
    order("# A death at each call of an opening and of a commit, with none, some or all of what was appended there.")
    for start in (None, file_of(SMALL[0]), file_of(SMALL[0], tail=b"\0\0\0")):
        calls = 0 if start and start[-1] != 0 else 2
        for count in range(calls + 3):
            for kept in (0, 1, 31, 32, 43, 44, 45, 100, 9999):
                order("begin 5" if start is None else f"file {start.hex()}\nopen")
                given(hello(5), opening(5), data(5, 0, b"abc"))
                order(f"commit\ndeath {count} {kept} 0\nopen\nentry 0")
    order("# Each call fails in turn: what a death then leaves is opened.")
    for start in (None, file_of(SMALL[0]), file_of(SMALL[0], tail=b".")):
        for call in range(1, 6):
            order(f"fail 0 {call}\nbegin 5" if start is None else f"file {start.hex()}\nfail 0 {call}\nopen")
            given(hello(6), opening(6, OTHER))
            order("commit\nstate\nfail 0 0\ndeath 9999 3 0\nopen\ndeath 9999 9999 1\nopen")
    order("# Each read fails in turn.")
    for start in (b"", MAGIC, OLDER, OLDER + bytes(40), file_of(), file_of(SMALL[0]), file_of(SMALL[0], tail=b"."), b"none at all", header() + bytes(60), file_of(good_after())):
        for call in (1, 2, 3, 4, 5):
            order(f"file {start.hex()}\nfail {call} 0\nopen\nfail 0 0")


def good_after():
    return hello(5)[:-1]


def rounds():
    order("# A round takes 256 of the longest messages, and no more; it is one block.\nbegin 1790000000123456789")
    given(hello(5), opening(5))
    order("commit\nlong 300\nin " + data(5, 0, b"", acked=1).hex() + "\ncommit\nstate\nentry 0\nlong 300\ncommit\ndeath 9999 0 0\nopen\nentry 0\nmore 381740 1\nopen\nentry 0")
    order("# A round that isn't committed is gone.")
    order(f"file {file_of(SMALL[0]).hex()}\nopen")
    given(data(5, 0, b"abc"))
    order("entry 0\ndeath 9999 0 0\nopen\nentry 0\nin 00\ndeath 0 0 0\nin 00\ncommit\nstate")


def replaced():
    order("# A new file with the log takes the old one's place: of an empty log, of one with entries in each state, and of one whose snapshot has several blocks.")
    order("begin 7\ncompact 8\nstate")
    given(hello(5))
    order("compact 8\nstate\ndeath 9999 0 0\nopen")
    given(opening(5), data(5, 0, b"abc", acked=2), read(5, 0, 2), opening(5, OTHER), data(5, 0, bytes(range(256)) * 5, key=OTHER), read(5, 0, 900, OTHER), read(5, 1, 0, OTHER))
    given(data(5, 1280, b"", 7, 1, OTHER), opening(5, pack(">IH", 9, 9)), data(5, 0, b"", 1, 1, pack(">IH", 9, 9)), read(5, 0, 0, pack(">IH", 9, 9)), done(5, pack(">IH", 9, 9)))
    tell = "\n".join(f"entry {i}" for i in range(4))
    order(f"compact 9\nstate\n{tell}\ndeath 9999 0 0\nopen\n{tell}")
    given(data(5, 3, b"def"), read(5, 1, 1))
    order(f"commit\nlong 256 0\ncommit\nlong 256 256\ncommit\ncompact 10\nstate\n{tell}\ndeath 9999 0 0\nopen\n{tell}")
    order("# A death at each call of a replacement: until the folder is synced the name may be the old file's. And each call fails in turn.")
    for put in (0, 1):
        for count in range(4):
            order(f"file {file_of(SMALL[0]).hex()}\nopen")
            given(data(5, 0, b"abc"))
            order(f"compact 9\ndeath {count + 1} 0 {put}\nopen\nentry 0")
    for call in range(1, 10):
        for put in (0, 1):
            order(f"file {file_of(SMALL[0]).hex()}\nfail 0 {call}\nopen")
            given(data(5, 0, b"abc"))
            order(f"compact 9\nstate\ncompact 10\nfail 0 0\ndeath 9999 9999 {put}\nopen\nentry 0")


def wide(message, ending=None):
    """A plain message in the wide grammar; a Data with this ending."""
    whole = spell_message(read_message(message), WIDE)
    return whole if ending is None else spelled(b"FT", 11, int.from_bytes(whole[8:16], "big"), whole[16:30] + bytes([ending]) + whole[31:], WIDE)


def grammars():
    order("# A journal of the profile wan: of two Data of one turn the last is answered, both are kept, and a new file has the same grammar.\nprofile wan\nbegin 7")
    given(*map(wide, (hello(5), opening(5))), wide(data(5, 0, b"abc"), 2), wide(data(5, 3, b"d"), 0), wide(data(5, 4, b"e", fin=1)), wide(data(5, 9, b"z"), 2), wide(data(4, 0, b"z"), 2), wide(read(5, 0, 2)), hello(6))
    order("commit\nstate\nentry 0\ncompact 8\nstate\nentry 0")
    given(wide(data(5, 0, b"", acked=3)), data(5, 0, b"", acked=4))
    order("commit\ndeath 9999 0 0\nopen\nentry 0\nprofile plain\nopen\nprofile wan\nopen")
    order("# A journal of the other profile is refused as such, however it goes on; one without a message is opened.")
    small = [wide(hello(5)) + wide(opening(5)), wide(data(5, 0, b"abc"), 2) + wide(data(5, 3, b"d"))]
    files = [file_of(*small, tail=b"\x03\xd1."), file_of(*SMALL), file_of(small[0], SMALL[1]), file_of(SMALL[0], small[1]), file_of(SMALL[0] + small[1]), file_of(), file_of(b""), file_of(b"", *small), file_of(small[0] + b"."), file_of(small[0][:20])]
    files += [header() + bytes(60), file_of(tail=blocks(small[0])[:-1]), file_of(small[0], tail=bytes(400000)), header() + bytes(400000)]
    for content in files:
        shape = content.rstrip(b"\0") + bytes(min(60, len(content) - len(content.rstrip(b"\0"))))
        order(f"file {shape.hex()}" + (f"\nmore {len(content) - len(shape)} 0" if len(content) > len(shape) else "") + "\nprofile plain\nopen\nprofile wan\nopen")
    order(f"profile plain\nfile {files[0].hex()}\ncuts\nprofile wan\ncuts\nfile {file_of(small[0]).hex()}\nprofile plain\nflips\nprofile wan\nflips")
    for call in (1, 2, 3, 4):
        order(f"file {files[1].hex()}\nfail {call} 0\nopen\nfail 0 0")
    order("profile plain")


def large():
    order("# A journal of over two million bytes is opened.\nbegin 7")
    given(hello(5), opening(5))
    order("commit")
    for turn in range(6):
        order(f"long 256 {256 * turn}\ncommit")
    order("death 9999 0 0\nopen\nentry 0")


def about(kind, boot=5, cisn=1000, sisn=5000, key=KEY):
    """A message about forgetting."""
    return forget_spelled(Forget(kind, boot, Named(key, cisn, sisn)), key)


def forgotten():
    order("# A Forget that recycles an entry is kept, and no other: a commit behind each message. A log that gave entries up is read again as such.\nbegin 7")
    given(hello(5), opening(5), opening(5, OTHER), data(5, 0, b"abc"), about("Forget"), about("Forgotten"))
    order("commit")
    given(done(5))
    order("commit")
    for message in (about("Forget", 4), about("Forget", 6), about("Forget", 5, 1001), about("Forget", 5, 1000, 5001), about("Forget", key=OTHER), about("Forgotten"), about("Forget"), about("Forget")):
        given(message)
        order("commit\nstate")
    given(opening(5), data(5, 0, b"defg"))
    order("entry 0\nentry 1\nentry 2\ncommit\ndeath 9999 0 0\nopen\nentry 0\nentry 1\nentry 2")
    given(done(5), about("Forget"))
    order("compact 8\nstate\nentry 0\ndeath 9999 0 0\nopen\nentry 0\nentry 1")
    order("# Places that come back: 200 connections, one after another, with a new file at each fiftieth.\nbegin 7")
    given(hello(5))
    for turn in range(200):
        key = pack(">IH", 7, turn % 3)
        given(opening(5, key), data(5, 0, b"x", key=key), done(5, key), about("Forget", key=key))
        order("commit" + f"\ncompact {turn}" * (turn % 50 == 49))
    order("state\ndeath 9999 0 0\nopen")
    order("# In a file: a Forget at the beginning of a block, of a connection without an entry, of another boot, damaged, and cut.")
    begun = hello(5) + opening(5) + done(5)
    for bodies in ((begun, about("Forget")), (begun + about("Forget") + opening(5),), (about("Forget"), begun), (begun, about("Forget", 4)), (begun, about("Forget")[:-1] + b"."), (begun + about("Forget")[:20],)):
        order(f"file {file_of(*bodies).hex()}\nopen\nstate\nentry 0\nprofile wan\nopen\nprofile plain")


def cases():
    changes()
    damage()
    deaths()
    rounds()
    drawn()
    large()
    replaced()
    grammars()
    forgotten()


def make():
    """Writes a journal of 2^24 bytes of text for each of as many connections as it takes."""
    size, texts, number, port, piece = HEADER, 1 << 24, 1, 40000, 0
    salt = previous = header()[16:]
    with open(sys.argv[2], "wb") as file:
        file.write(header())
        body = hello(1)
        while size < int(sys.argv[3]):
            while len(body) <= ROUND - 3 * 1491:
                key = pack(">IH", 0xC0000201, port)
                if piece == 0:
                    body += opening(1, key)
                body += data(1, 1460 * piece, b"a" * 1460, key=key) + read(1, piece, 1460, key)
                piece += 1
                if piece == texts // 1460:
                    piece, port = 0, port + 1
            new, previous = block(salt, number, previous, body)
            file.write(new)
            size, number, body = size + len(new), number + 1, b""


if __name__ == "__main__":
    {"lines": lines, "cases": cases, "make": make}[sys.argv[1]]()
