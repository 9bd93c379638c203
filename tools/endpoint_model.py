#!/usr/bin/env python3
"""One endpoint of TCP in Python, by RFC 9293, RFC 5681 and, where it measures, RFC 6298 and RFC 6582, in stream offsets and independent of the program.
It plays scripts for `endpoint_script`.

    tools/endpoint_model.py check < SCRIPT   prints the lines at which it differs from what the script expects
    tools/endpoint_model.py write < SCRIPT   writes the script with its own results as what is expected
    tools/endpoint_model.py draw SEED STEPS  writes a case with out-of-order segments from a seed, with its results
    tools/endpoint_model.py acks SEED STEPS  the same with acknowledgements: new, repeated, partial, too high, with another window
    tools/endpoint_model.py trips SEED STEPS the same of an endpoint that measures round trips, with more ticks
    tools/endpoint_model.py measure < SCRIPT writes the script of endpoints that measure, with its own results

It skips the lines that play many packets at once (`join`, `hostile`, `tally`), and the scripts after the first one, which must be refused.
"""
import random
import sys

from model import LIMIT, STAMPED, WINDOW, Segment, Stream, gap, is_acceptable, is_at_right_edge, is_at_zero_window, length_of, number
from sender_model import LONGEST, Congestion, Timing

ACTS = ("in", "tick", "flush")
SHOWN = ("out", "nothing", "segments")


class Endpoint(Stream):
    """A connection: the peer's stream, the own one, and the state. Offsets count from the first byte of each stream; a FIN has one more."""

    def __init__(self, isn, limit, active, measures=False):
        super().__init__()
        self.isn, self.limit, self.peer, self.mss = isn, limit, 0, 536
        self.timing, self.congestion = Timing(measures), Congestion(536, measures)
        self.state, self.reset, self.closed = "SYN-SENT" if active else "LISTEN", False, False
        self.consumed, self.written = 0, bytearray()
        self.una = self.sent = self.edge = self.wl1 = self.wl2 = 0
        self.opened, self.interval, self.rest, self.wait = False, self.timing.base, 0, 0
        self.owed, self.answer, self.again, self.probe = False, None, active, False
        self.told = None

    def end(self):
        """The receive edge: nothing from here on is taken."""
        return min(self.consumed + WINDOW, self.limit)

    def following(self):
        return len(self.data) + self.fin

    def ending(self):
        return len(self.written) + self.closed

    def speaks(self):
        return self.state not in ("CLOSED", "LISTEN", "SYN-SENT")

    def out(self, flags, at, text=b"", mss=None):
        ack = 0 if self.state == "SYN-SENT" else number(self.peer + 1 + self.following())
        return Segment(flags, number(self.isn + 1 + at), ack, min(WINDOW, self.end() - len(self.data)), mss, bytes(text))

    def refuse(self, came):
        behind = number(came.seq + length_of(came))
        self.answer = Segment("R", came.ack, 0, 0, None, b"") if "A" in came.flags else Segment("AR", 0, behind, 0, None, b"")

    def enter(self, state):
        if state == "TIME-WAIT" != self.state:
            self.wait = 4
        self.state = state

    def kill(self):
        self.state, self.reset = "CLOSED", True

    def arrive(self, came):
        if self.state == "CLOSED":
            if "R" not in came.flags:
                self.refuse(came)
        elif self.state == "LISTEN":
            self.arrive_listening(came)
        elif self.state == "SYN-SENT":
            self.arrive_opening(came)
        else:
            self.arrive_connected(came)

    def size(self, came):
        self.mss = 536 if came.mss is None else min(1460, max(64, came.mss))
        self.congestion = Congestion(self.mss, self.timing.measures)

    def arrive_listening(self, came):
        if "R" in came.flags:
            return
        if "A" in came.flags:
            self.refuse(came)
        elif "S" in came.flags:
            self.state, self.peer, self.again = "SYN-RECEIVED", came.seq, True
            self.size(came)

    def arrive_opening(self, came):
        if "A" not in came.flags:
            return
        if came.ack != number(self.isn + 1):
            if "R" not in came.flags:
                self.refuse(came)
        elif "R" in came.flags:
            self.kill()
        elif "S" in came.flags:
            self.state, self.peer, self.owed, self.opened = "ESTABLISHED", came.seq, True, True
            self.size(came)
            self.edge, self.wl1, self.wl2 = came.window, -1, 0
            self.interval = self.rest = self.timing.base

    def arrive_connected(self, came):
        first, length, following, edge = gap(came.seq, self.peer + 1), length_of(came), self.following(), self.end() + self.fin
        ends = "F" in came.flags and not {"S", "R"} & set(came.flags) and first + len(came.text) == len(self.data)
        if self.state == "TIME-WAIT" and ends:
            self.wait = 4
        acked = gap(came.ack, self.isn + 1)
        fits = is_acceptable(first, length, following, edge) or is_at_right_edge(first, length, following, edge)
        allowed = is_at_zero_window(came, first, following, edge) and (self.opened or acked == 0)
        if not fits and not allowed:
            self.owed = self.owed or "R" not in came.flags
        elif "R" in came.flags:
            if first == following:
                self.kill()
            else:
                self.owed = True
        elif "S" in came.flags:
            self.owed = True
        else:
            self.owed = self.owed or length > 0
            if "A" in came.flags:
                self.use(came, first, acked)

    def use(self, came, first, acked):
        if not self.opened:
            if acked != 0:
                self.refuse(came)
                return
            self.opened, self.state = True, "FIN-WAIT-1" if self.closed else "ESTABLISHED"
            self.edge, self.wl1, self.wl2 = came.window, first, 0
            self.interval = self.rest = self.timing.base
        elif acked > self.sent:
            self.owed = True
            return
        else:
            self.acknowledge(came, first, acked)
        self.come(first, came.text, "F" in came.flags, self.end())
        if self.fin and self.state in ("ESTABLISHED", "FIN-WAIT-1", "FIN-WAIT-2"):
            self.enter({"ESTABLISHED": "CLOSE-WAIT", "FIN-WAIT-1": "CLOSING", "FIN-WAIT-2": "TIME-WAIT"}[self.state])

    def acknowledge(self, came, first, acked):
        repeats = not came.text and "F" not in came.flags and acked == self.una < self.sent and acked + came.window == self.edge
        if acked >= self.una and (self.wl1 < first or self.wl1 == first and self.wl2 <= acked):
            self.edge, self.wl1, self.wl2 = acked + came.window, first, acked
        if acked > self.una:
            self.timing.acknowledge(acked - self.una)
            self.again = self.congestion.acknowledge(acked - self.una)
            self.una, self.interval, self.rest = acked, self.timing.base, self.timing.base
        elif repeats:
            self.again = self.congestion.repeat(self.sent - self.una)
        if self.again:
            self.timing.resend()
        if self.closed and self.una == len(self.written) + 1:
            self.enter({"FIN-WAIT-1": "FIN-WAIT-2", "CLOSING": "TIME-WAIT", "LAST-ACK": "CLOSED"}.get(self.state, self.state))

    def tick(self):
        if self.state == "TIME-WAIT":
            self.wait -= 1
            if self.wait == 0:
                self.state = "CLOSED"
        if self.rest != 1:
            self.timing.tick()
        if self.rest > 1:
            self.rest -= 1
        elif self.rest == 1 and self.state not in ("CLOSED", "LISTEN"):
            if self.una < min(self.sent, self.edge):
                first = not self.timing.backed_off if self.timing.measures else self.interval == 1
                self.congestion.lose(self.sent - self.una, first)
            self.interval = self.rest = min(LONGEST, 2 * self.interval)
            self.timing.expire(self.interval)
            self.again = not self.opened or self.una < self.sent
            self.probe = not self.again

    def write(self, text):
        taken = text[: self.room()]
        self.written += taken
        return len(taken)

    def room(self):
        return 0 if self.closed or self.state == "CLOSED" else WINDOW - (len(self.written) - min(self.una, len(self.written)))

    def read(self, size):
        text = bytes(self.data[self.consumed : self.consumed + size])
        self.consumed += len(text)
        return text

    def close(self):
        self.closed = True
        moves = {"LISTEN": "CLOSED", "SYN-SENT": "CLOSED", "ESTABLISHED": "FIN-WAIT-1", "CLOSE-WAIT": "LAST-ACK"}
        self.state = moves.get(self.state, self.state)

    def flush(self):
        """What leaves at the end of a turn."""
        sent = [self.answer] if self.answer else []
        if self.state == "SYN-SENT" or self.speaks():
            sent += self.resent() + (self.fresh() if self.opened else [])
        if self.speaks():
            told = self.following(), self.end()
            if not sent and (self.owed or self.told != told):
                sent.append(self.out("A", self.sent))
            if len(sent) > bool(self.answer):
                self.told = told
        self.owed, self.answer, self.again, self.probe = False, None, False, False
        return sent

    def resent(self):
        """The first segment again, at an expiry, at the third duplicate acknowledgement and at the opening."""
        if not self.again:
            return []
        if not self.opened:
            self.rest = self.rest or self.timing.base
            return [self.out("S", -1, mss=1460) if self.state == "SYN-SENT" else self.out("AS", -1, mss=1460)]
        if self.una == len(self.written):
            return [self.out("AF", self.una)]
        length = min(self.mss, min(self.sent, len(self.written)) - self.una, max(1, self.edge - self.una))
        return [self.out("A", self.una, self.written[self.una : self.una + length])]

    def fresh(self):
        """All that the edge and the congestion window allow and wasn't sent, or one unit more as a probe, and the timer as it stands then."""
        start = self.sent
        self.sent = max(start, min(self.ending(), self.edge, self.una + self.congestion.window))
        if self.sent > start:
            self.timing.send(start + 1 - self.una)
        if self.probe and self.sent == start < self.ending():
            self.sent += 1
        stop = min(self.sent, len(self.written))
        sent = [self.out("A", at, self.written[at : min(at + self.mss, stop)]) for at in range(start, stop, self.mss)]
        if self.sent > max(start, len(self.written)):
            sent.append(self.out("AF", self.sent - 1))
        if max(self.sent, self.ending()) <= self.una:
            self.rest = 0
        elif self.rest == 0:
            self.interval = self.rest = self.timing.base
        return sent


class Stamps:
    """The timestamps that a client adds to the segments of an endpoint, and notes from those that it gets (RFC 7323, 3.2 and 4.3)."""

    def __init__(self, uses):
        self.recent = 0 if uses else None  # TS.Recent; None: no segment carries timestamps

    def arrive(self, it, came):
        """A segment comes to this endpoint. If the SYN had timestamps, its SYN-ACK offers the size that leaves room for them."""
        opening, first, following, edge = it.state == "SYN-SENT", gap(came.seq, it.peer + 1), it.following(), it.end() + it.fin
        fits = is_acceptable(first, length_of(came), following, edge) or is_at_right_edge(first, length_of(came), following, edge)
        it.arrive(came)
        if self.recent is None:
            return
        if opening:
            if it.opened:
                self.open(it, came)
        elif came.stamps and "R" not in came.flags and fits and first <= following and gap(came.stamps[0], self.recent) >= 0:
            self.recent = came.stamps[0]

    def open(self, it, came):
        self.recent = came.stamps[0] if came.stamps else None
        if came.stamps:
            it.size(came._replace(mss=max(64, it.mss - STAMPED)))

    def added(self, segment):
        return segment if self.recent is None or "R" in segment.flags else segment._replace(stamps=(1, self.recent))


def text_of(word):
    kind, _, value = word.partition(":")
    if kind == "hex":
        return bytes.fromhex(value)
    if kind == "fill":
        count, _, place = value.partition("@")
        return bytes((int(place or 0) + at) % 251 for at in range(int(count)))
    return b"" if word == "-" else word.encode()


def segment_of(words):
    fields = dict(zip(words[1::2], words[2::2]))
    mss = int(fields["mss"]) if "mss" in fields else None
    return Segment(words[0].replace("-", ""), int(fields["seq"]), int(fields["ack"]), int(fields["win"]), mss, text_of(fields.get("data", "-")))


def word_of(text):
    """A text as a word: its letters, or a piece of the pattern, or digits."""
    if not text or text.isalnum():
        return text.decode() or "-"
    pattern = f"fill:{len(text)}@{text[0]}"
    return pattern if text == text_of(pattern) else "hex:" + text.hex()


def line_of(segment, wanted="-"):
    """The line that tells of a segment. Its text is spelled as the one that was wanted, where they are the same."""
    mss = "" if segment.mss is None else f" mss {segment.mss}"
    data = f" data {wanted if text_of(wanted) == segment.text else word_of(segment.text)}" if segment.text else ""
    return f"out {segment.flags} seq {segment.seq} ack {segment.ack} win {segment.window}{mss}{data}"


class Player:
    """Plays the lines of a way or a case. `lines` are those that were wanted, with what was seen in the place of what differed."""

    def __init__(self):
        self.it, self.leaving, self.lines, self.differences, self.flushed = None, [], [], [], False

    def differ(self, wanted, seen):
        self.differences.append((wanted, seen))
        self.lines.append(seen)

    def end_turn(self):
        if self.it and not self.flushed:
            self.leaving += self.it.flush()
        self.flushed = True

    def settle(self):
        """Before the next turn, all that left must have been told."""
        self.end_turn()
        for segment in self.leaving:
            self.differ("", line_of(segment))
        self.leaving = []

    def open(self, verb, words):
        self.settle()
        active = verb == "connect"
        limit = int(words[words.index("limit") + 1]) if "limit" in words else LIMIT
        self.it, self.flushed = Endpoint(int(words[1 + active]), limit, active, "measuring" in words), False

    def play(self, line):
        verb, *words = line.split()
        if verb in ("listen", "connect"):
            self.open(verb, words)
        elif verb in SHOWN:
            return self.show(line, verb, words)
        elif verb in ("in", "tick"):
            self.settle()
            self.flushed = False
            if verb == "in":
                self.it.arrive(segment_of(words))
            else:
                self.it.tick()
        elif verb == "flush":
            self.end_turn()
        elif verb in ("write", "read", "close"):
            return self.act(line, verb, words)
        elif verb not in ("join", "hostile", "tally"):
            return self.look(line, verb, words)
        self.lines.append(line)
        return None

    def play_turn(self, line):
        """A line that opens a turn, and all that leaves in it."""
        self.play(line)
        self.end_turn()
        if self.leaving:
            self.settle()
        else:
            self.lines.append("nothing")

    def show(self, line, verb, words):
        self.end_turn()
        if verb == "segments":
            seen = f"segments {len(self.leaving)}"
            self.leaving = []
        elif not self.leaving:
            seen = "nothing"
        else:
            first = self.leaving[0]
            same = verb == "out" and segment_of(words)._replace(flags="".join(sorted(words[0].replace("-", "")))) == first
            seen = line if same else line_of(first, words[words.index("data") + 1] if "data" in words else "-")
            self.leaving = self.leaving[1:]
        if seen == line:
            self.lines.append(line)
        elif not (seen == "nothing" and self.lines and self.lines[-1] == "nothing"):
            self.differ(line, seen)

    def act(self, line, verb, words):
        """What a user does opens a turn where none is open."""
        self.flushed = False
        seen = line
        if verb == "close":
            self.it.close()
        elif verb == "write":
            text = text_of(words[0])
            count = self.it.write(text)
            seen = f"write {words[0]}" + ("" if count == len(text) else f" takes {count}")
        else:
            text = self.it.read(int(words[0]))
            seen = line if text == text_of(words[1]) else f"read {words[0]} {word_of(text)}"
        if seen == line:
            self.lines.append(line)
        else:
            self.differ(line, seen)

    def look(self, line, verb, words):
        it = self.it
        if verb == "peek":
            start = it.consumed + int(words[0])
            text = bytes(it.data[start : start + int(words[1])])
            seen = line if text == text_of(words[2]) else f"peek {words[0]} {words[1]} {word_of(text)}"
        elif verb == "state":
            seen = f"state {it.state}" + " reset" * it.reset
        else:
            ended = it.fin and it.consumed == len(it.data)
            shown = {"readable": len(it.data) - it.consumed, "room": it.room(), "ended": "yes" if ended else "no"}
            shown |= {"sent": number(it.isn + 1 + it.sent), "acked": number(it.isn + 1 + it.una)}
            seen = f"{verb} {shown[verb]}"
        if seen == line:
            self.lines.append(line)
        else:
            self.differ(line, seen)


def play_script(text):
    """The lines of a script with what is seen, and the differences, each with its line's number."""
    ways, part, name, written, found = {}, None, None, [], []
    for count, line in enumerate(text.split("\n"), 1):
        words = line.split()
        if not words or words[0].startswith("#"):
            written.append(line)
            continue
        if words[0] in ("way", "case"):
            if part and part.leaving_is_open():
                written = part.finish(written, found, count)
            part, name = Part(), words[1] if words[0] == "way" else None
            if name:
                ways[name] = part
            written.append(line)
        elif words[0] == "begin":
            part.begin(ways[words[1]])
            written.append(line)
        else:
            written += part.play(line, found, count)
    return written, found


class Part:
    """A way or a case, with the lines that were played."""

    def __init__(self):
        self.player, self.played = Player(), []

    def leaving_is_open(self):
        self.player.end_turn()
        return bool(self.player.leaving)

    def finish(self, written, found, count):
        known = len(self.player.lines)
        self.player.settle()
        found += [(count, *it) for it in self.player.differences[-1:]]
        at = max(place for place, line in enumerate(written) if line.strip() and not line.startswith("#")) + 1
        return written[:at] + self.player.lines[known:] + written[at:]

    def begin(self, way):
        for line in way.played:
            self.player.play(line)
        self.played = list(way.played)

    def play(self, line, found, count):
        lines, differences = len(self.player.lines), len(self.player.differences)
        self.player.play(line)
        found += [(count, *it) for it in self.player.differences[differences:]]
        fresh = self.player.lines[lines:]
        self.played += fresh
        return fresh


def drawn(seed, steps):
    """A case whose peer sends early and late segments, some with other bytes than before, and a FIN here and there."""
    dice, following, lines = random.Random(seed), 0, ["listen 192.0.2.100:7 5000", "in S seq 4294967280 ack 0 win 65535", "nothing"]
    lines += ["in A seq 4294967281 ack 5001 win 65535", "nothing"]
    for _ in range(steps):
        first = dice.choice((following, following, *range(max(0, following - 4), following + 60)))
        text = "".join(chr(dice.choice((65, 97)) + (first + at) % 26) for at in range(dice.choice((0, 1, 1, 2, 3, 5, 9, 20))))
        flags, data = dice.choice(("A",) * 12 + ("AF", "-")), f" data {text}" * bool(text)
        lines += [f"in {flags} seq {number(4294967281 + first)} ack 5001 win 65535{data}", "nothing"]
        player = Player()
        for line in lines:
            player.play(line)
        following = len(player.it.data)
        if dice.randrange(8) == 0:
            lines += [f"readable {following - player.it.consumed}", f"read {dice.randrange(1, 40)} -", "nothing"]
    return lines + ["read 9999 -", "nothing", "ended no"]


def drawn_ack(dice, it):
    """An acknowledgement, and its window: mostly one that leaves the right edge as it is."""
    first = min(it.una + 1, it.sent)
    near = it.una, it.una, it.una, it.una, min(it.una + it.mss, it.sent), it.sent, first, dice.randrange(first, it.sent + 1)
    acked = dice.choice(near * 4 + (it.una - 1, it.sent + 1, it.sent - 1))
    window = dice.choice((it.edge - acked,) * 6 + (WINDOW, WINDOW, it.sent - acked, dice.randrange(0, 9 * it.mss)))
    return acked, min(WINDOW, max(0, window))


def drawn_acks(seed, steps):
    """A case whose peer acknowledges as it likes, with a byte of text here and there, while the user writes, and closes in the end."""
    dice, player = random.Random(seed), Player()
    size = dice.choice((64, 100, 536, 1095, 1096, 1460))
    player.play("listen 192.0.2.100:7 4294960000")
    player.play_turn(f"in S seq 1000 ack 0 win 65535 mss {size}")
    player.play_turn("in A seq 1001 ack 4294960001 win 65535")
    for _ in range(steps):
        it, kind = player.it, dice.randrange(14)
        if kind < 2:
            count = min(dice.randrange(1, 6 * size), it.room())
            player.play_turn(f"write fill:{count}@{len(it.written) % 251}")
        elif kind == 2:
            player.play_turn("tick")
        else:
            acked, window = (it.una, min(WINDOW, it.edge - it.una)) if kind == 3 else drawn_ack(dice, it)
            data = " data x" * (dice.randrange(20) == 0)
            for _ in range(dice.randrange(3, 7) if kind == 3 else 1):
                player.play_turn(f"in A seq {number(1001 + len(it.data))} ack {number(4294960001 + acked)} win {max(0, window)}{data}")
    player.play_turn("close")
    player.play_turn("tick")
    player.play(f"sent {number(4294960001 + player.it.sent)}")
    return player.lines


def drawn_trips(seed, steps):
    """A case of an endpoint that measures: ticks pass between the acknowledgements, and some of its segments are lost for good, so that its timer expires."""
    dice, player = random.Random(seed), Player()
    size = dice.choice((64, 100, 536, 1095, 1096, 1460))
    player.play("listen 192.0.2.100:7 4294960000 measuring")
    player.play_turn(f"in S seq 1000 ack 0 win 65535 mss {size}")
    player.play_turn("in A seq 1001 ack 4294960001 win 65535")
    while len(player.lines) < 2 * steps:
        it, kind = player.it, dice.randrange(9)
        if kind < 2:
            count = min(dice.randrange(1, 6 * size), it.room())
            player.play_turn(f"write fill:{count}@{len(it.written) % 251}")
        elif kind < 5:
            for _ in range(dice.randrange(1, dice.choice((2, 5, 40)))):
                player.play_turn("tick")
        else:
            acked, window = (it.una, min(WINDOW, it.edge - it.una)) if kind == 5 else drawn_ack(dice, it)
            for _ in range(dice.randrange(3, 7) if kind == 5 else 1):
                player.play_turn(f"in A seq 1001 ack {number(4294960001 + acked)} win {max(0, window)}")
    player.play_turn("close")
    player.play_turn("tick")
    player.play(f"sent {number(4294960001 + player.it.sent)}")
    return player.lines


DRAWN = {"draw": ("arrivals", drawn), "acks": ("acknowledgements", drawn_acks), "trips": ("round trips", drawn_trips)}


def measuring(line):
    """The line of a script whose endpoints all measure."""
    return f"{line} measuring" if line.split()[:1] in (["listen"], ["connect"], ["join"]) else line


def main():
    if sys.argv[1:2] and sys.argv[1] in DRAWN:
        seed, steps = map(int, sys.argv[2:])
        what, draws = DRAWN[sys.argv[1]]
        written, _ = play_script("\n".join([f"case drawn {what}, seed {seed}", *draws(seed, steps)]))
        print("\n".join(written))
        return
    given = sys.stdin.read()
    first, seam, others = given.partition("\nscript\n")
    if sys.argv[1:] == ["measure"]:
        print("\n".join(play_script("\n".join(map(measuring, first.split("\n"))))[0]))
        return
    written, found = play_script(first)
    if sys.argv[1:] == ["write"]:
        sys.stdout.write("\n".join(written) + seam + others)
        return
    for count, wanted, seen in found:
        print(f"line {count}: {wanted!r} is wanted, {seen!r} is seen")
    sys.exit(1 if found else 0)


if __name__ == "__main__":
    main()
