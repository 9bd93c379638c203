#!/usr/bin/env python3
"""Two loggers that act as one, in plain Python, written from the rules and not from the program: what a head and a tail do with each datagram.

twin_model.py lines      reads lines of `log_script` on two loggers from standard input, and writes what it must print
twin_model.py cases      writes the lines that are stored beside the program

It stores a head's whole history and spells each datagram again; the program stores only what is unconfirmed. Log, head and tail are those of loggers.py.
"""
import sys
from struct import pack, unpack

from loggers import ANSWERS, FOLLOWED, Forward, Got, Head, Message, Tail

PLAIN, WIDE = 1, 2  # the versions of messages: only in a wide one may a Data say that another of its turn follows
KINDS = "Hello Summary List Entry Bytes Part Cuts Lens Open Opened Data Stable Read Reads Done Ended Stale Full".split()
LIMIT = 1 << 24
KEY, OPEN, KEPT = [("key", 6)], [("key", 6), ("cisn", 4), ("sisn", 4), ("mss", 2)], [("key", 6), ("length", 4), ("fin", 1), ("reads", 4)]
FIELDS = {
    "Hello": [],
    "Summary": [("count", 2)],
    "List": [("index", 2)],
    "Entry": [("index", 2), *OPEN, ("length", 4), ("fin", 1), ("done", 1), ("reads", 4), ("acked", 4)],
    "Bytes": [("key", 6), ("offset", 4)],
    "Part": [("key", 6), ("offset", 4)],
    "Cuts": [("key", 6), ("first", 4)],
    "Lens": [("key", 6), ("first", 4)],
    "Open": OPEN,
    "Opened": OPEN,
    "Data": [("key", 6), ("offset", 4), ("acked", 4), ("fin", 1)],
    "Stable": KEPT,
    "Read": [("key", 6), ("index", 4), ("length", 2)],
    "Reads": KEPT,
    "Done": KEY,
    "Ended": KEY,
    "Stale": [("newer", 8)],
    "Full": KEY,
}
BEHIND = {"Part": (1, 1024), "Lens": (2, 1024), "Data": (0, 1460)}  # bytes behind the fields, at least and at most


def folded(data):
    """The one's complement sum of the words of a string, an odd end padded with a zero byte (RFC 1071)."""
    total = sum(unpack(f">{(len(data) + 1) // 2}H", data + b"\0" * (len(data) % 2)))
    while total >> 16:
        total = (total & 0xFFFF) + (total >> 16)
    return total


def spelled(magic, kind, number, behind, version=PLAIN):
    """A datagram with its length and checksum."""
    head = lambda check: pack(">2sBBHHQ", magic, version, kind, 16 + len(behind), check, number)
    return head(0xFFFF - folded(head(0) + behind)) + behind


def header(data, magic, kinds, version=PLAIN):
    """The kind and the number of a datagram, or None where its header is wrong."""
    if len(data) < 16 or data[:2] != magic or data[2] != version or data[3] not in range(1, kinds + 1):
        return None
    return data[3], unpack(">Q", data[8:16])[0]


def whole(data):
    return unpack(">H", data[4:6])[0] == len(data) and folded(data) == 0xFFFF


def in_range(name, boot, said, behind, version):
    most = {"count": 64, "index": 63 if name in ("List", "Entry") else LIMIT + 1, "first": LIMIT + 1, "reads": LIMIT + 1, "acked": LIMIT + 1}
    most |= {"fin": FOLLOWED if name == "Data" and version == WIDE else 1, "done": 1, "mss": 1460, "length": 2048 if name == "Read" else LIMIT, "offset": LIMIT - len(behind)}
    ok = boot >= 1 and all(said[field] <= most[field] for field in said if field in most)
    return ok and said.get("mss", 64) >= 64 and said.get("newer", boot + 1) > boot


def read_message(data, version=PLAIN):
    """The message of a version that bytes are, or None."""
    front = header(data, b"FT", 18, version)
    if front is None or not whole(data):
        return None
    name, boot = KINDS[front[0] - 1], front[1]
    least, most = BEHIND.get(name, (0, 0))
    size = 16 + sum(width for _, width in FIELDS[name])
    behind = data[size:]
    if len(data) < size or not least <= len(behind) <= most or (name == "Lens" and len(behind) % 2):
        return None
    said, at = {}, 16
    for field, width in FIELDS[name]:
        said[field] = int.from_bytes(data[at : at + width], "big")
        at += width
    lens = [unpack(">H", behind[i : i + 2])[0] for i in range(0, len(behind), 2)] if name == "Lens" else []
    if not in_range(name, boot, said, behind, version) or any(length > 2048 for length in lens):
        return None
    return Message(name, boot, {**said, "bytes": behind, "lens": lens})


def spell_message(message, version=PLAIN):
    said = message.fields
    body = b"".join(int(said[field]).to_bytes(width, "big") for field, width in FIELDS[message.name])
    behind = b"".join(pack(">H", n) for n in said["lens"]) if message.name == "Lens" else said.get("bytes", b"")
    return spelled(b"FT", KINDS.index(message.name) + 1, message.boot, body + bytes(behind), version)


def is_asking(data, version):
    message = read_message(data, version)
    return message is not None and message.name not in ANSWERS


def read_twin(data, version=PLAIN):
    """("Forward", number, message), ("Got", number), ("Alone",) or None. The version is that of the loggers' messages; what goes between them has version 1."""
    front = header(data, b"FU", 3)
    if front is None or not whole(data):
        return None
    kind, number = front
    if kind == 1:
        return ("Forward", number, data[16:]) if 32 <= len(data) <= 1507 and number >= 1 and is_asking(data[16:], version) else None
    if len(data) != 16:
        return None
    if kind == 2:
        return ("Got", number) if number >= 1 else None
    return ("Alone",) if number == 0 else None


def told(data, version=PLAIN):
    """What a datagram of the other logger says, as the model has it, or None."""
    said, kinds = read_twin(data, version), {"Forward": Forward, "Got": Got}
    return kinds[said[0]](*said[1:]) if said and said[0] in kinds else None


def spell(sent, version=PLAIN):
    """To whom something goes, and its bytes."""
    if isinstance(sent, Message):
        return "server", spell_message(sent, version)
    return "other", spelled(b"FU", 1, sent.number, sent.message) if isinstance(sent, Forward) else spelled(b"FU", 2, sent.number, b"")


class Pair:
    """A head and a tail, with what each of them ever sent to the other."""

    def __init__(self, version=PLAIN):
        read = lambda data: read_message(data, version)
        self.version, self.parts = version, {"head": Head(read, version == WIDE), "tail": Tail(read)}
        self.sent, self.stopped = {"head": [], "tail": []}, None
        self.passed = {"head": 0, "tail": 0}  # how much of what was sent to each has come in order

    def deliver(self, part, side, data):
        """What goes out; nothing of a part that has stopped."""
        if self.stopped == part:
            return []
        logger = self.parts[part]
        sent = logger.receive_server(data) if side == "server" else logger.receive_other(told(data, self.version))
        out = [spell(it, self.version) for it in sent]
        self.sent[part] += [bytes_ for to, bytes_ in out if to == "other"]
        return out

    def stop(self, part):
        if self.stopped is None:
            self.stopped = part
            self.parts[other_of(part)].alone = True

    def number(self, part):
        """How many messages the head has taken, or the tail has applied."""
        return len(self.parts["head"].taken) if part == "head" else self.parts["tail"].applied


def other_of(part):
    return "tail" if part == "head" else "head"


class Draws:
    """The numbers that `Generator` of seq_arith draws (docs/FORMATS.md)."""

    def __init__(self, seed):
        self.state = seed

    def below(self, bound):
        self.state = (self.state * 6364136223846793005 + 1442695040888963407) % (1 << 64)
        return (self.state >> 33) % bound


DRAWN = [1, 1, 1, 9, 9, 9, 13, 13, 15, 5, 7, 16, 11, 11, 11, 11]  # kinds, each as often as it is drawn


def drawn_message(draws, boot, version):
    """A message of a server, or now and then one that only a logger sends. In a wide one a Data may say that another of its turn follows."""
    of = lambda kind, boot, body: spelled(b"FT", kind, boot, body, version)
    kind = DRAWN[draws.below(16)]
    key = pack(">IH", 0xC0000201, 40000 + draws.below(3))
    if kind == 1:
        return of(1, boot + draws.below(8) // 7, b"")
    if kind == 9:
        return of(9, boot, key + pack(">IIH", draws.below(256), draws.below(256), 536))
    if kind == 13:
        return of(13, boot, key + pack(">IH", draws.below(4), draws.below(8)))
    if kind == 5:
        return of(5, boot, key + pack(">I", draws.below(16)))
    if kind == 7:
        return of(7, boot, key + pack(">I", draws.below(4)))
    if kind in (15, 16):
        return of(kind, boot, key)
    offset, acked, ending, size = draws.below(16), draws.below(64), draws.below(8), draws.below(12)
    fin = 1 if ending == 7 else FOLLOWED if ending == 6 and version == WIDE else 0
    return of(11, boot, key + pack(">IIB", offset, acked, fin) + bytes(97 + draws.below(26) for _ in range(size)))


def drawn_delivery(draws, pair):
    """One delivery, and what goes out."""
    kind = draws.below(40)
    if kind == 0 and draws.below(4) == 0:
        pair.stop("head" if draws.below(2) == 0 else "tail")
        return []
    if kind < 8:
        part = "tail" if pair.stopped == "head" or draws.below(16) == 0 else "head"
        return pair.deliver(part, "server", drawn_message(draws, 1, pair.version))
    part = "head" if kind < 16 else "tail"
    sent = pair.sent[other_of(part)]
    if not sent:
        return []
    if draws.below(4) == 0:
        place = draws.below(len(sent))
    else:
        place = min(pair.passed[part] + draws.below(8) // 7, len(sent) - 1)
        pair.passed[part] = place + 1
    data = sent[place]
    if kind == 39:
        bit = draws.below(8 * len(data))
        data = data[: bit // 8] + bytes([data[bit // 8] ^ (1 << bit % 8)]) + data[bit // 8 + 1 :]
    return pair.deliver(part, "other", data)


def tally(version, count, length, seed):
    """What `lists` prints: what went to the server and to the other, the numbers at the end, and a number that follows from all bytes."""
    draws, answers, others, numbers, sum_ = Draws(seed), 0, 0, 0, 0
    for _ in range(count):
        pair = Pair(version)
        for _ in range(length):
            for to, data in drawn_delivery(draws, pair):
                answers, others = answers + (to == "server"), others + (to == "other")
                for byte in data:
                    sum_ = (sum_ * 31 + byte) % (1 << 32)
        numbers += pair.number("head") + pair.number("tail")
    return f"lists {count}: answers {answers} others {others} numbers {numbers} bytes {sum_}"


def line_of(out):
    return " ".join(f"{to} {data.hex()}" for to, data in out) or "-"


def played(pair, line):
    """What a line prints."""
    words = line.split()
    version = WIDE if words[1:2] == ["wide"] else PLAIN
    if words[0] == "pair":
        pair.__init__(version)
        return line
    if words[0] == "lists":
        return tally(version, *(int(word) for word in words[1:] if word != "wide"))
    if words[0] == "stop":
        pair.stop({"1": "head", "2": "tail"}[words[1]])
        return line
    part, side = words[0], words[1]
    if side == "log":
        log = pair.parts[part].log
        return f"{line} number {pair.number(part)} boot {log.boot} count {len(log.entries)}"
    if side == "sent":
        sent = pair.sent[other_of(part)]
        data = sent[int(words[2]) - 1] if 1 <= int(words[2]) <= len(sent) else None
        return f"{part} -" if data is None else f"{part} {line_of(pair.deliver(part, 'other', data))}"
    return f"{part} {line_of(pair.deliver(part, side, bytes.fromhex(words[2])))}"


def lines():
    pair = Pair()
    for line in sys.stdin.read().split("\n")[:-1]:
        print(line if line.startswith("#") else played(pair, line))


def cases():
    """The stored script: the worked run, each refusal, a head that is full, both stops, hostile datagrams, and random lists."""
    key = pack(">IH", 0xC0000201, 40000)
    hello, opening = spelled(b"FT", 1, 1, b""), spelled(b"FT", 9, 1, key + pack(">IIH", 1000, 5000, 536))
    data = lambda at, text: spelled(b"FT", 11, 1, key + pack(">IIB", at, 0, 0) + text)
    summary = spelled(b"FT", 2, 1, b"\0\0")
    print("# The head takes, numbers and forwards; the tail applies, answers and confirms.")
    print("pair")
    print(f"head server {hello.hex()}\ntail sent 1\nhead sent 1\nhead server {opening.hex()}")
    print("head log\ntail log\nstop 1")
    print(f"# The head has stopped with the Open unapplied: the server sends it again, and the tail answers.\ntail sent 2\ntail server {opening.hex()}\ntail log")
    print("# The tail stops instead: the head has all that it took.")
    print(f"pair\nhead server {hello.hex()}\ntail sent 1\nhead server {opening.hex()}\nstop 2\nhead sent 1\nhead log\nhead server {opening.hex()}")
    print("# Out of order nothing is applied; what is applied is confirmed once more, with the newest number.")
    print(f"pair\nhead server {hello.hex()}\nhead server {opening.hex()}\nhead server {data(0, b'abc').hex()}")
    print("tail sent 3\ntail sent 6\ntail sent 1\ntail sent 1\ntail sent 3\ntail sent 6\ntail sent 2\nhead sent 4\nhead sent 1\nhead log")
    print("# What only a logger sends is neither taken nor forwarded, and a tail of a pair doesn't hear the server.")
    print(f"head server {summary.hex()}\ntail server {hello.hex()}\nhead server 00\nhead server {spelled(b'FU', 3, 0, b'').hex()}")
    print("# Refusals: short, magic, version, kind, length, sum, number, and a Forward of what no server sends.")
    forward = spelled(b"FU", 1, 4, data(3, b"d"))
    wrong = [forward[:15], b"FT" + forward[2:], forward[:2] + b"\2" + forward[3:], forward[:3] + b"\4" + forward[4:], forward[:-1], forward + b"\0"]
    wrong += [forward[:-1] + b"e", spelled(b"FU", 1, 0, data(3, b"d")), spelled(b"FU", 1, 4, summary), spelled(b"FU", 1, 4, b"\0" * 16)]
    wrong += [spelled(b"FU", 1, 4, data(3, b"d")[:-1]), spelled(b"FU", 2, 4, b"\0"), spelled(b"FU", 3, 0, b""), spelled(b"FU", 3, 1, b"")]
    for datagram in wrong:
        print(f"tail other {datagram.hex()}\nhead other {datagram.hex()}")
    print(f"tail other {forward.hex()}")
    print("# Numbers: 0, above what was taken, and the largest.")
    for number in (0, 4, 5, 2**64 - 1):
        print(f"head other {spelled(b'FU', 2, number, b'').hex()}")
    for number in (0, 6, 2**64 - 1):
        print(f"tail other {spelled(b'FU', 1, number, hello).hex()}")
    print("head log\ntail log")
    print("# A head that is full forwards all 64 and takes no further message, until some are confirmed.")
    print("pair")
    for i in range(66):
        print(f"head server {(hello if i == 0 else opening if i == 1 else data(i - 2, b'x')).hex()}")
    print("head log")
    print(f"head other {spelled(b'FU', 2, 2, b'').hex()}\nhead server {data(64, b'y').hex()}\nhead log")
    print("# The largest Data, and a message whose checksum folds to zero, which goes on in the bytes in which it came.")
    print(f"pair\nhead server {hello.hex()}\nhead server {opening.hex()}\nhead server {data(0, bytes(range(256)) * 5 + bytes(180)).hex()}\ntail sent 1\ntail sent 5\ntail sent 6")
    zero = bytearray(spelled(b"FT", 11, 1, key + pack(">IIB", 0, 0, 0) + b"\0\0\0"))
    rest = folded(bytes(zero[:6] + b"\0\0" + zero[8:]))
    zero[-2:] = pack(">H", 0xFFFF - rest)
    zero[6:8] = b"\xff\xff" if zero[6:8] != b"\xff\xff" else b"\0\0"
    print(f"head server {bytes(zero).hex()}")
    print("# Random lists of deliveries with losses, repeats, flipped bits and stops.")
    for seed in range(1, 11):
        print(f"lists 1000 60 {seed}")
    print("# A wide message is forwarded once. All that waits goes again where the server repeats one of these, even if it isn't the last, or where 64 wait.")
    wide = lambda at, text: spelled(b"FT", 11, 1, key + pack(">IIB", at, 0, 0) + text, WIDE)
    first = [spelled(b"FT", 1, 1, b"", WIDE), spelled(b"FT", 9, 1, key + pack(">IIH", 1000, 5000, 536), WIDE), wide(0, b"abc")]
    print("pair wide\n" + "\n".join(f"head server {data.hex()}" for data in first))
    print(f"# The second Forward is lost, and the third comes before it.\ntail sent 1\nhead sent 1\ntail sent 3\nhead server {first[2].hex()}")
    print(f"tail sent 4\ntail sent 5\ntail sent 6\nhead sent 2\nhead sent 3\nhead sent 4\nhead server {first[1].hex()}\nhead log\ntail log")
    print("pair wide")
    for i in range(66):
        print(f"head server {(first[i] if i < 2 else wide(i - 2, b'x')).hex()}")
    print("# To a pair of wide messages a plain one is noise.")
    print(f"head server {hello.hex()}\nhead log")
    for seed in range(1, 11):
        print(f"lists wide 1000 60 {seed}")


if __name__ == "__main__":
    {"lines": lines, "cases": cases}[sys.argv[1]]()
