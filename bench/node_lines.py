"""Lines of node_script and what each must print: packets and messages, spelled independently of the repository's codecs; a server that the model in tools/model.py
plays; and clients that guess acknowledgements. node_script.py and guesses.py use it.
"""
import pathlib
import struct
import sys

sys.path.insert(0, str(pathlib.Path(__file__).parent.parent / "tools"))
sys.dont_write_bytecode = True

import loggers  # noqa: E402
import model  # noqa: E402
from seed_model import Generator, packet_words  # noqa: E402

SERVER = (0xC0000264, 7)
K = "192.0.2.1:40000"
SERVICES = {"echo": 1, "line": 2, "transfer": 3, "meter": 4}
BOOTS = {"plain": "boot", "wan": "boot-wan"}  # the word that boots a server with a profile
VERSIONS = {"plain": 1, "wan": 2}  # the version of a profile's messages
FLAGS = {"F": 1, "S": 2, "R": 4, "P": 8, "A": 16}
KINDS = "Hello Summary List Entry Bytes Part Cuts Lens Open Opened Data Stable Read Reads Done Ended Stale Full".split()

def ones(data):
    if len(data) % 2:
        data += b"\0"
    total = sum(struct.unpack(f">{len(data)//2}H", data))
    while total >> 16:
        total = (total & 0xFFFF) + (total >> 16)
    return 0xFFFF - total

def ip_of(text):
    a, b, c, d = map(int, text.split("."))
    return a << 24 | b << 16 | c << 8 | d

def key_of(text):
    ip, port = text.split(":")
    return (ip_of(ip), int(port))

def stamps_option(value, echo):
    """The timestamps option behind the two NOPs that align it (RFC 7323, appendix A)."""
    return struct.pack(">BBBBII", 1, 1, 8, 10, value, echo)

def packet(src, dst, flags, seq, ack, window, mss, data, options=b""):
    """A packet. `options` stand behind the segment size."""
    options = (b"" if mss is None else struct.pack(">BBH", 2, 4, mss)) + options
    bits = sum(FLAGS[f] for f in flags if f != "-")
    def tcp(check):
        return struct.pack(">HHIIBBHHH", src[1], dst[1], seq, ack, (20 + len(options)) // 4 << 4, bits, window, check, 0) + options + data
    pseudo = struct.pack(">IIBBH", src[0], dst[0], 0, 6, len(tcp(0)))
    body = tcp(ones(pseudo + tcp(0)))
    def ip(check):
        return struct.pack(">BBHHHBBHII", 0x45, 0, 20 + len(body), 0, 0x4000, 64, 6, check, src[0], dst[0])
    return ip(ones(ip(0))) + body

def message(kind, boot, body=b"", version=1):
    number = KINDS.index(kind) + 1
    def whole(check):
        return struct.pack(">BBBBHHQ", 0x46, 0x54, version, number, 16 + len(body), check, boot) + body
    return whole(ones(whole(0)))

def key_bytes(key):
    return struct.pack(">IH", *key)

def hex_bytes(text):
    return b"" if text == "-" else bytes.fromhex(text)

def fields(words):
    return dict(zip(words[::2], words[1::2]))

def told(kind, words, version=1):
    """A message by the words behind its kind in a report."""
    f = fields(words)
    return message(kind, int(f["boot"]), body_of(kind, f), version)

def body_of(kind, f):
    """The fields of a message, and what follows them."""
    n = lambda name: int(f[name])
    k = key_bytes(key_of(f["key"])) if "key" in f else b""
    if kind == "Hello":
        return b""
    if kind == "Summary":
        return struct.pack(">H", n("count"))
    if kind == "List":
        return struct.pack(">H", n("index"))
    if kind == "Entry":
        return struct.pack(">H", n("index")) + k + struct.pack(
            ">IIHIBBII", n("cisn"), n("sisn"), n("mss"), n("length"), n("fin"), n("done"), n("reads"), n("acked"))
    if kind == "Bytes":
        return k + struct.pack(">I", n("offset"))
    if kind == "Part":
        return k + struct.pack(">I", n("offset")) + hex_bytes(f["bytes"])
    if kind == "Cuts":
        return k + struct.pack(">I", n("first"))
    if kind == "Lens":
        return k + struct.pack(">I", n("first")) + b"".join(struct.pack(">H", int(x)) for x in f["lens"].split(","))
    if kind in ("Open", "Opened"):
        return k + struct.pack(">IIH", n("cisn"), n("sisn"), n("mss"))
    if kind == "Data":
        return k + struct.pack(">IIB", n("offset"), n("acked"), n("fin")) + hex_bytes(f["bytes"])
    if kind in ("Stable", "Reads"):
        return k + struct.pack(">IBI", n("length"), n("fin"), n("reads"))
    if kind == "Read":
        return k + struct.pack(">IH", n("index"), n("length"))
    if kind in ("Done", "Ended", "Full"):
        return k
    if kind == "Stale":
        return struct.pack(">Q", n("newer"))
    raise ValueError(kind)

def segment(way, words, clients, options=None):
    """A segment by the words behind its way in a report. `options` take the place of those that its timestamps are."""
    if words[-3:-2] == ["ts"]:
        words, options = words[:-3], stamps_option(*map(int, words[-2:])) if options is None else options
    flags, f = words[0], fields(words[1:])
    data = hex_bytes(f["data"])
    mss = None if f["mss"] == "-" else int(f["mss"])
    left, right = way.split(">")
    src = SERVER if left == "S" else clients[left]
    dst = SERVER if right == "S" else clients[right]
    return packet(src, dst, flags, int(f["seq"]), int(f["ack"]), int(f["window"]), mss, data, options or b"")


lines, prints = [], []

def say(line, *answers):
    """A line of the script, and what it prints."""
    lines.append(line)
    prints.extend([line] if line.startswith("#") else answers or ["-"])

def to_client(key, data):
    return f"client {key[0]} {key[1]} {data.hex()}"

def to_logger(data):
    return f"logger {data.hex()}"

def conn(key):
    return f"conn {key[0]} {key[1]}"

def numbers(delta, taken, answered, read, reads, una, sent):
    return f"delta {delta} taken {taken} answered {answered} read {read} reads {reads} una {una} sent {sent}"

def msg(data):
    return f"message {data.hex()}"

def pkt(data):
    return f"packet {data.hex()}"

class Played:
    """A server and a log of the model, and a client that says what it is told to. Each turn is a line of the script, with what the model sends in it."""

    def __init__(self, service, profile="plain"):
        self.service, self.profile, self.log, self.sent = service, profile, loggers.Log(), []
        self.version = VERSIONS[profile]
        self.boot(1, 5000)

    def boot(self, boot, isn):
        self.server = model.Server(boot, isn, self.service, profile=self.profile)
        self.turn(f"{BOOTS[self.profile]} {SERVICES[self.service]} {boot} {isn}", self.server.asked())
        self.drain()
        self.knows_deltas(isn)

    def knows_deltas(self, isn):
        """The TCP inside the nth restored connection counts from an initial number of this boot, from the unit on with which output goes on."""
        restored = [(key, place) for key, place in self.server.places.items() if isinstance(place, model.Connection)]
        self.deltas = {key: (place.sisn + place.una - (isn + 65536 * n)) % 2**32 for n, (key, place) in enumerate(restored)}

    def turn(self, line, sent):
        says = []
        for key, content in sent:
            words = packet_words(content).split()
            says.append(to_client(key_of(key), segment("S>1", words, {"1": key_of(key)})) if key else to_logger(told(words[0], words[1:], self.version)))
        say(line, *says)
        self.sent = [content for key, content in sent if key is None]

    def drain(self):
        """The log answers what was sent to it, in order."""
        waiting = self.sent
        while waiting:
            answer, waiting = self.log.answer(waiting[0]), waiting[1:]
            if answer:
                words = packet_words(answer).split()
                self.turn(msg(told(words[0], words[1:], self.version)), self.server.on_message(answer))
                waiting = waiting + self.sent

    def ticks(self, times):
        for _ in range(times):
            self.turn("tick", self.server.on_tick())

    def comes(self, at, text=b"", flags="A", ack=0, key=K, stamps=None, options=None, mss=None):
        """A segment of the client at an offset of its stream, whose initial number is 4294967290. Nothing of it is logged yet. `stamps` are its timestamps, and
        `options` the bytes that say so, if they aren't the usual ones."""
        it = model.Segment(flags, (4294967291 + at) % 2**32, (5001 + ack) % 2**32 if "A" in flags else 0, 65535, mss, text, stamps)
        self.turn(pkt(segment("1>S", packet_words(it).split(), {"1": key_of(key)}, options)), self.server.on_segment(key, it))

    def begins(self, key=K):
        self.comes(-1, flags="S", key=key)
        self.drain()
        self.comes(0, ack=0 if key == K else 65536, key=key)

    def shows(self, key=K):
        place = self.server.places[key]
        delta = self.deltas.get(key, 0)  # A new connection's TCP has the number that the client knows.
        say(conn(key_of(key)), numbers(delta, place.taken(), place.answered, place.consumed, len(place.lengths), place.una, place.sent))

HOSTILE = "192.0.2.66:666"
ODD = ["AF", "AR", "AS", "F", "A"]

def digest_of(sent, version=1):
    """How many packets, and a polynomial hash of them at 257, modulo 2^32 - 5: of each the client's address, if it goes to one, and its bytes."""
    total = 0
    for key, content in sent:
        words = packet_words(content).split()
        data = key_bytes(key_of(key)) + segment("S>1", words, {"1": key_of(key)}) if key else told(words[0], words[1:], version)
        for byte in data:
            total = (total * 257 + byte + 1) % (2**32 - 5)
    return f"sent {len(sent)} digest {total}"

def hostile(draws, kinds, seq, ack, stamped=False):
    """Acknowledgements far ahead, wrong edges, RSTs beside the number, text that overlaps with other bytes, odd flags, and SYNs; with timestamps or without."""
    below = lambda bound: draws.draw() % bound
    kind = below(kinds)
    if kind == 0:
        flags, ack, room = "A", ack + 1 + below(1 << 30), 1
    elif kind == 1:
        flags, seq, room = "A", seq + 65534 + below(4), 2
    elif kind == 2:
        flags, seq, room = "R", seq + [-1, 64, 65, 65534, 65536][below(5)], 1
    elif kind == 3:
        flags, seq, ack, room = "A", seq - 12 + below(12), ack, 20
        ack = ack - 3 + below(3)
    elif kind == 4:
        flags, seq, room = ODD[below(5)], seq + 2 + below(7), 20
        ack = draws.draw()
    else:
        flags, seq, room = "S", seq + [-1, -1, 0, 69999][below(4)], 1
    window = below(65536)
    stamps = ((2**32 - 8 + below(16)) % 2**32, draws.draw()) if stamped else None
    text = bytes([below(256)]) * 20
    text = text[: below(room)]
    return model.Segment(flags, seq % 2**32, ack % 2**32 if "A" in flags else 0, window, None, text, stamps)

class Target(Played):
    """The same, with a further client that sends hostile segments."""

    def blows(self, count, seed, kinds, stamped=False):
        """So many hostile segments, in one line, round the numbers that this client's connection has before them. Returns what is sent."""
        place = self.server.places.get(HOSTILE)
        live = isinstance(place, model.Connection)
        seq = ((place.cisn if live else 77) + 1 + (place.taken() if live else 0)) % 2**32
        ack = ((place.sisn if live else 5000) + 1 + (place.sent if live else 0)) % 2**32
        draws, sent = Generator(seed), []
        for _ in range(count):
            sent += self.server.on_segment(HOSTILE, hostile(draws, kinds, seq, ack, stamped))
        say(f"{'strike-stamped' if stamped else 'strike'} {count} {seed} {kinds} {seq} {ack}", digest_of(sent, self.version))
        return sent

class Guesser(Played):
    """A client that sends text with acknowledgements that are drawn over all numbers, and so almost never those of what it was sent."""

    def guesses(self, draws, count, text):
        """So many segments with this text, at the next number."""
        for _ in range(count):
            place = self.server.places[K]
            guess = draws.draw() << 16 ^ draws.draw()
            self.comes(place.taken() if isinstance(place, model.Connection) else 0, text, ack=(guess - 5001) % 2**32)
            self.sent = []

    def place(self):
        return self.server.places[K]

def guess_in_each_state(count):
    """So many guesses in each of five states: before the handshake, after it, with output sent, after a restart, and with the client's FIN taken."""
    say("# guessed acknowledgements: no handshake is completed by one, and text with one of what was never sent isn't taken, in each state of a connection")
    it, draws = Guesser("echo"), Generator(73)
    it.comes(-1, flags="S")
    it.drain()
    it.guesses(draws, count, b"blind")
    assert (it.place().counted, it.place().taken(), it.place().sent) == (False, 0, 0)
    it.shows()
    it.comes(0)
    it.guesses(draws, count, b"a")
    it.shows()
    it = Guesser("echo")
    it.begins()
    it.comes(0, b"hello")
    it.drain()
    it.guesses(draws, count, b"b")
    it.shows()
    it = Guesser("echo")
    it.begins()
    it.comes(0, b"hello")
    it.drain()
    it.boot(2, 900000)
    it.guesses(draws, count, b"c")
    it.comes(it.place().taken(), ack=5)
    it.shows()
    it = Guesser("echo")
    it.begins()
    it.comes(0, b"hello", "AF")
    it.drain()
    it.guesses(draws, count, b"")
    it.shows()
