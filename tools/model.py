"""The whole system in plain Python: clients, log, server and world, by the rules and not by the program.

It follows the laws of docs/MODEL.md in stream offsets, with whole streams in memory and without an inner TCP: a second implementation, outside the proofs. Its
report of a schedule is compared with that of `ftreplay` (tools/seed_model.py), so no line here may be copied from the program.
"""
from collections import namedtuple

from loggers import FOLLOWED, NO_MARK, OPENINGS, Alone, Forward, Got, Journaled, Mark, Message, Pair
from sender_model import LONGEST, PROFILES, Congestion, Timing
from services import Service

LIMIT = 1 << 24  # bytes of a stream, each way
WINDOW = 65535
READ = 2048  # bytes of a read
UNANSWERED = 32  # reads on their way to the log
PACKETS = 200_000  # packets of a run
RUNS = 16  # runs of bytes that are held behind a gap
PIECE = 1460  # the most bytes of a Data

# The bytes of a message without what follows its fields.
SIZES = {"Hello": 16, "Summary": 18, "List": 18, "Entry": 48, "Bytes": 26, "Part": 26, "Cuts": 26, "Lens": 26, "Open": 32, "Opened": 32}
SIZES |= {"Data": 31, "Stable": 31, "Read": 28, "Reads": 31, "Done": 22, "Ended": 22, "Stale": 24, "Full": 22}
SIZES |= {"Mark": 34, "Marked": 26, "Ask": 22, "Held": 34}

STAMPED = 12  # the bytes of the timestamps option with its two NOPs

# `stamps` is the timestamps option, TSval and TSecr, or None.
Segment = namedtuple("Segment", "flags seq ack window mss text stamps", defaults=(None,))


def number(value):
    return value % (1 << 32)


def gap(value, start):
    """The signed way from one number to another, modulo 2^32."""
    return (value - start + (1 << 31)) % (1 << 32) - (1 << 31)


def refusal(ack_of, ack=None):
    """A RST: at a segment's acknowledgement, or at 0 where it acknowledges something itself."""
    return Segment("R", ack_of, 0, 0, None, b"") if ack is None else Segment("AR", 0, number(ack), 0, None, b"")


def size_of(content):
    """The bytes of a packet, a message or a datagram between two loggers."""
    if isinstance(content, Segment):
        return 40 + (4 if content.mss is not None else 0) + (STAMPED if content.stamps else 0) + len(content.text)
    if isinstance(content, (Forward, Got)):
        return 16 + (size_of(content.message) if isinstance(content, Forward) else 0)
    said = content.fields
    return SIZES[content.name] + len(said.get("bytes", b"")) + 2 * len(said.get("lens", [])) + len(said.get("state", b""))


class Client:
    """A scripted client: what it may do, and what it takes of what comes."""

    def __init__(self, key, isn, script):
        self.key, self.isn, self.script = key, isn, script
        self.phase, self.sisn, self.sent, self.acked, self.edge, self.accepted = "new", 0, 0, 0, 0, bytearray()

    def taken(self):
        """The units of the server's stream that it has."""
        return len(self.accepted) + (self.phase == "ended")

    def segment(self, flags, at, window, text=b""):
        return Segment(flags, number(self.isn + 1 + at), number(self.sisn + 1 + self.taken()), window, None, text)

    def room(self):
        return min(WINDOW, self.edge - len(self.accepted))

    def refuses(self, move, words):
        """Why it may not make a move, or None."""
        phases = {"open": ("new", "opening"), "reset": ("opening", "open", "ended")}.get(move, ("open", "ended"))
        if self.phase not in phases or move in ("send", "fin") and self.acked > len(self.script):
            return "state"
        if move == "send":
            start, length = words
            if not (self.acked <= start <= self.sent and 1 <= length <= 1460 and start + length <= len(self.script)):
                return "range"
        return "range" if move == "fin" and self.sent < len(self.script) else None

    def make(self, move, words):
        """The segment of a move that it may make."""
        if move == "open":
            self.phase, self.edge = "opening", max(self.edge, words[0])
            return Segment("S", self.isn, 0, words[0], None, b"")
        if move == "send":
            start, length = words
            self.sent = max(self.sent, start + length)
            return self.segment("A", start, self.room(), self.script[start : start + length])
        if move == "fin":
            self.sent = len(self.script) + 1
            return self.segment("AF", len(self.script), self.room())
        if move == "ack":
            self.edge = max(self.edge, len(self.accepted) + words[0])
            return self.segment("A", self.sent, words[0])
        self.phase = "reset"
        return Segment("R", number(self.isn + 1 + self.sent), 0, 0, None, b"")

    def receive(self, came):
        if self.phase == "opening":
            if "A" in came.flags and came.ack == number(self.isn + 1):
                if "R" in came.flags:
                    self.phase = "reset"
                elif "S" in came.flags:
                    self.phase, self.sisn = "open", came.seq
        elif self.phase in ("open", "ended"):
            self.receive_connected(came)

    def receive_connected(self, came):
        ended = self.phase == "ended"
        first, upto = gap(came.seq, self.sisn + 1), self.edge + ended
        if not is_acceptable(first, length_of(came), self.taken(), upto):
            return
        if "R" in came.flags:
            self.phase = "reset" if first == self.taken() else self.phase
            return
        acked = gap(came.ack, self.isn + 1)
        if "S" in came.flags or "A" not in came.flags or acked > self.sent:
            return
        self.acked = max(self.acked, acked)
        if not ended and first <= len(self.accepted):
            self.accepted += came.text[len(self.accepted) - first :][: self.edge - len(self.accepted)]
            if "F" in came.flags and first + len(came.text) == len(self.accepted) < self.edge:
                self.phase = "ended"


def length_of(came):
    """SEG.LEN: a SYN has 1, a RST 0."""
    if "R" in came.flags:
        return 0
    return 1 if "S" in came.flags else len(came.text) + ("F" in came.flags)


def is_acceptable(first, length, following, edge):
    """The four cases of RFC 9293, in offsets."""
    if length == 0:
        return following <= first < edge or first == following == edge
    return following < edge and (following <= first < edge or following <= first + length - 1 < edge)


def is_at_right_edge(first, length, following, edge):
    """A segment of length 0 at the right edge of a window that isn't zero: acceptable besides the four cases, but for a scripted client."""
    return length == 0 and following < edge == first


def is_at_zero_window(came, first, following, edge):
    """A segment at the next number while the window is zero: its acknowledgement and window are used, though it may be unacceptable."""
    return first == following == edge and "A" in came.flags and not {"S", "R"} & set(came.flags)


class Stream:
    """A peer's stream as it is received: the bytes taken, whether its FIN is, and what stands behind a gap: bytes and a FIN by their offsets."""

    def __init__(self):
        self.data, self.fin = bytearray(), 0
        self.held, self.held_fin = {}, None

    def come(self, first, text, has_fin, edge):
        """The text and the FIN of a segment that counts. Nothing from the edge on is taken or held."""
        end = len(self.data)
        start = max(first, end)
        stop = end if self.fin else edge if self.held_fin is None else min(edge, self.held_fin)
        new = text[start - first : max(start, stop) - first]
        if start > end:
            self.hold(start, new)
        else:
            self.data += new
            self.held = {at: byte for at, byte in self.held.items() if at >= len(self.data)}
        if has_fin and self.may_hold_fin(first + len(text), edge):
            self.held_fin = first + len(text)
        while len(self.data) in self.held:
            self.data.append(self.held.pop(len(self.data)))
        if self.held_fin == len(self.data):
            self.fin, self.held_fin = 1, None

    def hold(self, start, text):
        """Text behind a gap, where the held bytes form at most 16 runs then."""
        held = {**self.held, **dict(enumerate(text, start))}
        if sum(at - 1 not in held for at in held) <= RUNS:
            self.held = held

    def may_hold_fin(self, at, edge):
        return not self.fin and self.held_fin is None and len(self.data) <= at < edge and at > max(self.held, default=-1)


class Marking:
    """A connection's marks at a server that sends one after each `every` reads: how many reads the last one has, and which one isn't answered yet."""

    def __init__(self, every, last=0):
        self.every, self.last, self.outstanding = every, last, None

    def hear(self, reads):
        """The log has a mark of so many reads."""
        if self.outstanding and self.outstanding.reads <= reads:
            self.outstanding = None

    def marks(self, place, is_tick):
        """The marks that are sent in a turn after which a connection is like this: at a tick the outstanding one again, and a new one if it is due."""
        again = [self.outstanding] if is_tick and self.outstanding else []
        reads = len(place.lengths)
        if not self.every or self.outstanding or reads < self.last + self.every or not place.is_quiet():
            return again
        self.last, self.outstanding = reads, Mark(reads, place.consumed, len(place.output), place.service.form())
        return [*again, self.outstanding]


class Connection(Stream):
    """A live connection of one incarnation, as its point: what is taken, logged, read, sent and acknowledged, in offsets."""

    def __init__(self, key, cisn, sisn, mss, service, every=0, profile="plain", recent=None):
        super().__init__()
        self.key, self.cisn, self.sisn, self.mss = key, cisn, sisn, mss
        self.service = Service(service)
        self.output, self.after_read = bytearray(self.service.greeting), [(len(self.service.greeting), False)]
        self.fetched, self.fetched_output, self.answered = 0, 0, 0
        self.lengths, self.consumed, self.reads_answered = [], 0, 0
        self.una = self.sent = self.edge = self.wl1 = self.wl2 = 0
        measures, self.delays, self.batches, _ = PROFILES[profile]
        self.stamped, self.recent = recent is not None and mss + STAMPED <= PIECE, recent
        self.timing, self.congestion, self.again = Timing(measures), Congestion(mss, measures), False
        self.counted, self.interval, self.rest = False, self.timing.base, self.timing.base
        self.end_ticks, self.reset = 0, False
        self.marking = Marking(every)

    @classmethod
    def of_entry(cls, entry, service, every=0, profile="plain"):
        """Where a connection stands that is restarted from what was fetched."""
        it = cls(entry["key"], entry["cisn"], entry["sisn"], entry["mss"], service, every, profile)
        it.begin_at(entry.get("mark", NO_MARK))
        it.stamped = PROFILES[profile].stamps and it.mss + STAMPED <= PIECE
        it.data += entry["data"]
        it.fin, it.fetched, it.answered = entry["fin"], entry["length"], entry["length"] + entry["fin"]
        for length in entry["lengths"]:
            it.read(length)
        it.reads_answered = len(it.lengths)
        it.fetched_output = it.target()
        it.una = it.sent = it.edge = it.wl2 = min(entry["acked"], it.released())
        it.wl1, it.counted = it.fetched, True
        it.rest = it.timing.base if it.must_run() else 0
        return it

    def begin_at(self, mark):
        """What is below a mark isn't known: it is filled with zeros and `None`. The service continues from the mark's state."""
        if mark.reads:
            self.service = Service.of_form(self.service.name, mark.state)
            self.data, self.consumed, self.lengths = bytearray(mark.length), mark.length, [None] * mark.reads
            self.output, self.after_read = bytearray(mark.made), [None] * mark.reads + [(mark.made, False)]
            self.marking.last = mark.reads

    def is_quiet(self):
        """Whether a mark may be made: all reads are known to be logged, all output is acknowledged, and the service hasn't closed."""
        return self.reads_answered == len(self.lengths) and self.una == len(self.output) and not self.service.closed

    def read(self, length):
        self.output += self.service.take(bytes(self.data[self.consumed : self.consumed + length]))
        self.consumed += length
        self.lengths.append(length)
        self.after_read.append((len(self.output), self.service.closed))

    def taken(self):
        return len(self.data) + self.fin

    def right(self):
        """The right edge that is announced: of the bytes read, and one behind a FIN."""
        return min(max(self.fetched, self.consumed) + WINDOW, LIMIT) + self.fin

    def released(self):
        return self.after_read[self.reads_answered][0]

    def target(self):
        length, closed = self.after_read[self.reads_answered]
        return length + closed

    def must_run(self):
        return not self.counted or max(self.sent, self.target()) > self.una

    def is_over(self):
        length, closed = self.after_read[self.reads_answered]
        return bool(self.fin) and closed and self.una == length + 1

    def told(self):
        """What a segment acknowledges, which is both taken and logged, and the window that it announces."""
        acked = min(self.taken(), self.answered)
        return acked, min(WINDOW, self.right() - acked)

    def out(self, flags, at, text=b"", mss=None):
        acked, window = self.told()
        stamps = (1, self.recent) if self.stamped and self.recent is not None else None
        return Segment(flags, number(self.sisn + 1 + at), number(self.cisn + 1 + acked), window, mss, text, stamps)

    def syn_ack(self):
        return self.out("AS", -1, mss=1460)

    def part(self, start, end):
        return self.out("A", start, bytes(self.output[start:end]))

    def message(self, name, **said):
        return name, {"key": self.key, **said}

    def turn(self, kind, came=None):
        """One turn: `start`, `live` (behind a restart), `segment`, `logged`, `marked` or `tick`. It sends segments, then messages; marks precede a Done."""
        if kind == "marked":
            self.marking.hear(came.fields["reads"])
        segments, told = ([], []) if kind == "marked" else self.turn_unmarked(kind, came)
        marks = [self.message("Mark", **mark._asdict()) for mark in self.marking.marks(self, kind == "tick")]
        return segments, [it for it in told if it[0] != "Done"] + marks + [it for it in told if it[0] == "Done"]

    def turn_unmarked(self, kind, came):
        if self.reset:
            return self.turn_reset(kind, came)
        una, taken, right, answered, was_over, told = self.una, self.taken(), self.right(), self.answered, self.is_over(), self.told()
        segments, owed, copied, silent = [], kind == "live", [], False
        self.again = False
        if kind == "segment":
            self.note(came)
            if self.is_repeated_syn(came):
                segments, owed = [self.syn_ack()], False
            else:
                owed, silent, copied = self.arrive(came)
                owed = owed or was_over and "R" not in came.flags
                if self.reset:
                    return [], [self.message("Done")]
        elif kind == "logged":
            self.hear(came)
        elif kind == "start":
            segments = [self.syn_ack()]
        made = self.make_reads()
        expired = kind == "tick" and self.rest == 1
        if kind == "tick" and not expired:
            self.rest = max(0, self.rest - 1)
            self.timing.tick()
        if expired:
            segments += self.expire()
        elif self.again:
            segments.append(self.first_again())
        segments += self.send_more()
        owed = owed or self.answered > answered or (self.taken(), self.right()) != (taken, right)
        waits = kind == "segment" and self.delays and self.taken() > taken and not self.held and self.held_fin is None and self.told() == told
        if owed and not segments and not silent and not waits:
            segments = [self.out("A", self.sent)]
        return segments, self.tell(kind, copied, self.una > una, made)

    def turn_reset(self, kind, came):
        if kind == "logged":
            self.hear(came)
        return [], [self.message("Done")] if kind == "tick" else []

    def is_repeated_syn(self, came):
        return came.flags == "S" and came.seq == self.cisn and self.taken() == 0 and self.una == 0

    def note(self, came):
        """TS.Recent (RFC 7323, 4.3): the newest value of the acceptable segments that begin at or before the last acknowledgement."""
        first, length, following, edge = gap(came.seq, self.cisn + 1), length_of(came), self.taken(), self.right()
        fits = is_acceptable(first, length, following, edge) or is_at_right_edge(first, length, following, edge)
        if not self.stamped or came.stamps is None or "R" in came.flags or not fits or first > self.told()[0]:
            return
        if self.recent is None or gap(came.stamps[0], self.recent) >= 0:
            self.recent = came.stamps[0]

    def arrive(self, came):
        """A segment comes: whether one is owed, whether nothing is to leave, and which parts of the stream the log is to have."""
        first, length, following, edge = gap(came.seq, self.cisn + 1), length_of(came), self.taken(), self.right()
        had, had_fin = len(self.data), self.fin
        fits = is_acceptable(first, length, following, edge) or is_at_right_edge(first, length, following, edge)
        if "R" in came.flags:
            self.reset = fits and first == following
            return fits, False, []
        if "S" in came.flags:
            return True, False, []
        acked = gap(came.ack, self.sisn + 1)
        unsent = "A" in came.flags and acked > max(self.sent, self.fetched_output)
        below_syn = not self.counted and acked < 0
        if fits and "A" in came.flags and (below_syn or unsent and not self.counted):
            return False, True, self.copies(came, first, had, had_fin)
        if "A" in came.flags and not below_syn and not unsent and (fits or is_at_zero_window(came, first, following, edge)):
            self.take(came, first, acked)
        return not fits or length > 0 or unsent, False, self.copies(came, first, had, had_fin)

    def take(self, came, first, acked):
        """A segment that counts: its text and FIN, its acknowledgement and window."""
        self.come(first, came.text, "F" in came.flags, self.right() - self.fin)
        una, lowered = self.una, min(acked, self.sent)
        window = min(WINDOW, came.window + acked - lowered)
        repeats = not came.text and "F" not in came.flags and lowered == una < self.sent and lowered + window == self.edge
        if lowered >= una and (not self.counted or self.wl1 < first or self.wl1 == first and self.wl2 <= lowered):
            self.edge, self.wl1, self.wl2 = lowered + window, first, lowered
        self.una = max(una, lowered)
        self.timing.acknowledge(self.una - una)
        if self.una > una or not self.counted:
            self.interval = self.rest = self.timing.base
        if self.una > una:
            self.again = self.congestion.acknowledge(self.una - una)
        elif repeats:
            self.again = self.congestion.repeat(self.sent - una)
        if self.again:
            self.timing.resend()
        self.counted = True

    def copies(self, came, first, had, had_fin):
        """The parts of the stream that go to the log, each with its offset and whether the FIN is with it: of the segment, what is taken and not known to
        be logged; then what the turn took out of what was held. `had` bytes were taken before the turn."""
        end, taken = first + len(came.text), len(self.data)
        start = max(first, 0, self.answered)
        own = came.text[start - first : max(start, taken) - first]
        own_fin = int("F" in came.flags and self.fin and end == taken and self.answered <= taken)
        parts = [(start, own, own_fin)] if own or own_fin else []
        start = max(self.answered, had, min(end, taken))
        fin = int(self.fin and not had_fin and not own_fin and self.answered <= taken)
        parts += [(at, bytes(self.data[at : at + PIECE]), fin * (at + PIECE >= taken)) for at in range(start, taken, PIECE)]
        return parts + ([(start, b"", 1)] if fin and start >= taken else [])

    def hear(self, came):
        said = came.fields
        self.answered = max(self.answered, said["length"] + said["fin"])
        self.reads_answered = max(self.reads_answered, min(said["reads"], len(self.lengths)))

    def next_length(self):
        if self.consumed < self.fetched:
            return min(READ, self.fetched - self.consumed)
        if self.consumed < len(self.data):
            return min(READ, len(self.data) - self.consumed)
        return 0 if self.fin and 0 not in self.lengths else None

    def make_reads(self):
        made = []
        while self.next_length() is not None and len(self.lengths) - self.reads_answered < UNANSWERED:
            output = len(self.output)
            if output > min(self.released(), self.una + WINDOW) or output > LIMIT - (1 << 20):
                break
            made.append(len(self.lengths))
            self.read(self.next_length())
        return made

    def expire(self):
        """The timer is out: the first segment again, or a probe."""
        first = not self.timing.backed_off if self.timing.measures else self.interval == 1
        self.interval = self.rest = min(LONGEST, 2 * self.interval)
        self.timing.expire(self.interval)
        if not self.counted:
            return [self.syn_ack()]
        if self.una < self.sent:
            if self.una < self.edge:
                self.congestion.lose(self.sent - self.una, first)
            return [self.first_again()]
        at, self.sent = self.sent, self.sent + 1
        return [self.part(at, at + 1) if at < self.released() else self.out("AF", at)]

    def first_again(self):
        """The first segment that isn't acknowledged, as far as the edge has room for it, but at least one byte."""
        output = self.released()
        if self.una == output:
            return self.out("AF", self.una)
        length = min(self.mss, min(self.sent, output) - self.una, max(1, self.edge - self.una))
        return self.part(self.una, self.una + length)

    def send_more(self):
        """All that the edge and the congestion window allow and wasn't sent, and the timer as it stands then."""
        start = self.sent
        self.sent = max(self.sent, min(self.target(), self.edge, self.una + self.congestion.window)) if self.counted else self.sent
        if self.sent > start:
            self.timing.send(start + 1 - self.una)
        end = min(self.sent, self.released())
        segments = [self.part(at, min(at + self.mss, end)) for at in range(start, end, self.mss)]
        if self.sent > max(start, self.released()):
            segments.append(self.out("AF", self.sent - 1))
        if not self.must_run():
            self.rest = 0
        elif self.rest == 0:
            self.interval = self.rest = self.timing.base
        return segments

    def tell(self, kind, copied, rose, made):
        """What the log is told: the copies, or that more is acknowledged; the reads; that the connection has ended."""
        if rose and not copied:
            copied = [(min(self.answered, len(self.data)), b"", 0)]
        endings = [FOLLOWED if self.batches else fin for _, _, fin in copied[:-1]] + [fin for _, _, fin in copied[-1:]]
        told = [self.message("Data", offset=offset, acked=self.una, fin=end, bytes=data) for (offset, data, _), end in zip(copied, endings)]
        indexes = range(self.reads_answered, len(self.lengths)) if kind == "tick" else made
        told += [self.message("Read", index=index, length=self.lengths[index]) for index in indexes]
        if kind == "tick" and self.is_over() and self.answered >= self.taken():
            self.end_ticks += 1
        if kind == "tick" and self.end_ticks >= 4:
            told.append(self.message("Done"))
        return told


class Server:
    """One incarnation: it asks for the log, restarts what is in it, and serves. It sends a mark after each `every` reads of a connection; 0 for none."""

    def __init__(self, boot, isn, service, every=0, profile="plain"):
        self.boot, self.isn, self.service, self.every, self.profile = boot, isn, service, every, profile
        self.places, self.openings = {}, 0
        self.recents = {}  # of pending openings: the value of the SYN's timestamps
        self.count, self.entries = None, []
        self.serves, self.question = False, ("Hello", {})

    def next_isn(self):
        self.openings += 1
        return number(self.isn + 65536 * (self.openings - 1))

    def asked(self):
        return [(None, Message(self.question[0], self.boot, self.question[1]))]

    def sent_by(self, place, segments, messages):
        """The packets of a connection's turn: to its client, then to the log."""
        return [(place.key, it) for it in segments] + [(None, Message(name, self.boot, said)) for name, said in messages]

    def open_of(self, key, opening):
        return [(None, Message("Open", self.boot, {"key": key, **opening}))]

    def on_tick(self):
        if not self.serves:
            return self.asked()
        sent = []
        for place in self.places.values():
            if isinstance(place, Connection):
                sent += self.sent_by(place, *place.turn("tick"))
        for key, place in self.places.items():
            if isinstance(place, dict):
                sent += self.open_of(key, place)
        return sent

    def on_segment(self, key, came):
        if not self.serves:
            return self.hold_off(key, came)
        place = self.places.get(key)
        if isinstance(place, Connection):
            return self.sent_by(place, *place.turn("segment", came))
        if "R" in came.flags:
            return []
        if place == "done":
            behind = came.seq + length_of(came)
            return [(key, refusal(came.ack) if "A" in came.flags else refusal(0, behind))]
        if isinstance(place, dict):
            return self.open_of(key, place) if came.flags == "S" and came.seq == place["cisn"] else []
        if "A" in came.flags:
            return [(key, refusal(came.ack))]
        if "S" not in came.flags or sum(isinstance(it, dict) for it in self.places.values()) == OPENINGS:
            return []
        mss = 536 if came.mss is None else min(1460, max(64, came.mss))
        if came.stamps and PROFILES[self.profile].stamps:
            self.recents[key], mss = came.stamps[0], max(64, mss - STAMPED)
        self.places[key] = {"cisn": came.seq, "sisn": self.next_isn(), "mss": mss}
        return self.open_of(key, self.places[key])

    def hold_off(self, key, came):
        """While it fetches, a client whose entry has come hears that its window is closed."""
        for entry in self.entries:
            if entry["key"] == key and not entry["done"] and "R" not in came.flags:
                at, behind = entry["sisn"] + 1 + entry["acked"], entry["cisn"] + 1 + entry["length"] + entry["fin"]
                return [(key, Segment("A", number(at), number(behind), 0, None, b""))]
        return []

    def on_message(self, came):
        if came.boot != self.boot:
            return []
        if not self.serves:
            return self.fetch(came)
        key = came.fields.get("key")
        place = self.places.get(key)
        if isinstance(place, dict) and came.name in ("Opened", "Full"):
            return self.on_opening(key, place, came)
        if isinstance(place, Connection) and came.name in ("Stable", "Reads", "Marked"):
            return self.sent_by(place, *place.turn("marked" if came.name == "Marked" else "logged", came))
        if isinstance(place, Connection) and came.name == "Ended":
            self.places[key] = "done"
        return []

    def on_opening(self, key, opening, came):
        said, recent = came.fields, self.recents.pop(key, None)
        if came.name == "Full" or said["cisn"] != opening["cisn"]:
            del self.places[key]
            return [(key, refusal(0, opening["cisn"] + 1))] if came.name == "Full" else []
        place = self.places[key] = Connection(key, said["cisn"], said["sisn"], said["mss"], self.service, self.every, self.profile, recent)
        return self.sent_by(place, *place.turn("start"))

    def fetch(self, came):
        """An answer while it fetches; another than to its question changes nothing."""
        name, asked = self.question
        said = came.fields
        if (name, came.name) == ("Hello", "Summary"):
            self.count = said["count"]
        elif (name, came.name) == ("List", "Entry") and said["index"] == asked["index"] and said["key"] not in [it["key"] for it in self.entries]:
            has_mark = self.every and said["reads"] and not said["done"]
            self.entries.append({**said, "data": bytearray(), "lengths": [], "mark": None if has_mark else NO_MARK})
        elif (name, came.name) == ("Ask", "Held") and said["key"] == asked["key"] and may_hold(self.service, self.entries[-1], said):
            self.entries[-1]["mark"] = Mark(*(said[field] for field in Mark._fields)) if said["reads"] else NO_MARK
        elif (name, came.name) == ("Bytes", "Part") and (said["key"], said["offset"]) == (asked["key"], asked["offset"]):
            self.entries[-1]["data"] += said["bytes"]
        elif (name, came.name) == ("Cuts", "Lens") and (said["key"], said["first"]) == (asked["key"], asked["first"]):
            self.entries[-1]["lengths"] += said["lens"]
        else:
            return []
        self.question = self.next_question()
        return self.asked() if self.question else self.go_live()

    def next_question(self):
        """The mark first; lengths before bytes, but the bytes of the fetched lengths first; then the next entry; None where nothing is missing."""
        if self.entries and not self.entries[-1]["done"]:
            entry, mark = self.entries[-1], self.entries[-1]["mark"]
            if mark is None:
                return "Ask", {"key": entry["key"]}
            have, reads = mark.length + len(entry["data"]), mark.reads + len(entry["lengths"])
            if have < mark.length + sum(entry["lengths"]):
                return "Bytes", {"key": entry["key"], "offset": have}
            if reads < entry["reads"]:
                return "Cuts", {"key": entry["key"], "first": reads}
            if have < entry["length"]:
                return "Bytes", {"key": entry["key"], "offset": have}
        return ("List", {"index": len(self.entries)}) if len(self.entries) < self.count else None

    def go_live(self):
        self.serves, sent = True, []
        for entry in self.entries:
            if entry["done"]:
                self.places[entry["key"]] = "done"
            else:
                self.next_isn()
                place = self.places[entry["key"]] = Connection.of_entry(entry, self.service, self.every, self.profile)
                sent += self.sent_by(place, *place.turn("live"))
        return sent


def may_hold(service, entry, said):
    """Whether an entry can have a mark: no more reads and bytes than its own, a byte for each read, no unacknowledged output, and the state of some service."""
    fits = said["reads"] <= min(entry["reads"], said["length"]) and said["length"] <= entry["length"] and said["made"] <= entry["acked"]
    return fits and (said["reads"] == 0 or Service.of_form(service, said["state"]) is not None)


class World:
    """Clients, one logger or two, network and server, event by event. With `marks` there is one logger, and the server sends a mark after so many reads."""

    def __init__(self, service, server, clients, twin=False, marks=0, profile="plain"):
        self.service, self.address, self.clients, self.profile = service, server, clients, profile
        self.of_key = {client.key: place for place, client in enumerate(clients, 1)}
        self.twin, self.marks, self.loggers = twin, marks, Pair(profile == "wan") if twin else Journaled() if marks else Alone()
        self.server, self.packets = None, []
        self.boots, self.crashes, self.last_boot = 0, 0, 0

    @property
    def log(self):
        """The log that serves; with marks the journal, which has all that was logged."""
        return self.loggers.log

    def refuses(self, verb, words):
        """Why an event isn't allowed, by the tests in their order, or None."""
        if verb == "boot":
            return "up" if self.server else "boot" if words[0] <= self.last_boot else None
        if verb in ("crash", "tick"):
            return None if self.server else "down"
        if verb in ("deliver", "flip"):
            if not 1 <= words[0] <= len(self.packets):
                return "packet"
            return "bit" if verb == "flip" and words[1] >= 8 * size_of(self.packets[words[0] - 1][1]) else None
        if verb == "stop":
            return "stop" if not self.twin or self.loggers.stopped else None
        if not 1 <= words[0] <= len(self.clients):
            return "client"
        return self.clients[words[0] - 1].refuses(verb, words[1:])

    def step(self, verb, words):
        """Plays an event that is allowed: the packets that are sent in it, each as a pair of its way and its content."""
        sent = self.happen(verb, words)
        self.packets += sent
        return sent

    def by_server(self, sent):
        return [(f"S>{self.of_key[key]}" if key else "S>L", content) for key, content in sent]

    def happen(self, verb, words):
        if verb == "boot":
            self.server, self.last_boot, self.boots = Server(*words, self.service, self.marks, self.profile), words[0], self.boots + 1
            return self.by_server(self.server.asked())
        if verb == "crash":
            self.server, self.crashes = None, self.crashes + 1
            return []
        if verb == "flip":
            return []  # a packet or message with one bit changed has a wrong sum, or is refused before, whoever gets it
        if verb == "stop":
            self.loggers.stop("HT"[words[0] - 1])
            return []
        if verb == "tick":
            return self.by_server(self.server.on_tick())
        if verb == "deliver":
            return self.deliver(*self.packets[words[0] - 1])
        return [(f"{words[0]}>S", self.clients[words[0] - 1].make(verb, words[1:]))]

    def deliver(self, way, content):
        sender, receiver = way.split(">")
        if receiver in ("L", "H", "T"):
            return self.loggers.deliver(receiver, sender, content)
        if receiver != "S":
            self.clients[int(receiver) - 1].receive(content)
            return []
        if self.server is None:
            return []
        if sender == "L":
            return self.by_server(self.server.on_message(content))
        return self.by_server(self.server.on_segment(self.clients[int(sender) - 1].key, content))
