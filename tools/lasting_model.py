"""A server that lasts, a log whose entries may be recycled, and their messages, in plain Python: by the rules in docs/MODEL.md and not by the program.

It stands on the server and the log of tools/model.py and tools/loggers.py. No line here may be copied from the program.
"""
import struct
from collections import namedtuple

import loggers
import model
import seed_model
from schedule_model import Refused, read_schedule
from seed_model import event_words, hexadecimal, packet_words, script_of

Named = namedtuple("Named", "key cisn sisn")  # a connection
Forget = namedtuple("Forget", "name boot named")  # a message about forgetting: Forget, or Forgotten

HALF_OPEN = 250  # ticks after which a half-open connection is let go of
ASKING = 50  # ticks between two questions to a client that may be half-open


class Watch:
    """A live connection's client: how the server got the connection, for how many ticks it has been live, and the client silent."""

    def __init__(self, origin):
        self.origin, self.age, self.silent = origin, 0, 0

    def hear(self):
        self.silent = 0
        if self.origin == "restored empty":
            self.origin = "restored"

    def is_gone(self, place, silence):
        if self.origin == "opened" and not place.counted:
            return self.age >= HALF_OPEN
        if self.origin == "restored empty":
            return self.silent >= HALF_OPEN
        return 0 < silence and self.silent >= 2 * silence

    def asks(self, place, silence):
        if not place.counted or place.una != place.sent:
            return False
        if self.origin == "restored empty":
            return self.silent % ASKING == 0
        return silence > 0 and self.silent >= silence and (self.silent - silence) % max(1, silence // 8) == 0


class Rest:
    """A quarantine: the connection, the number after its client's last one, and for how many ticks it is done."""

    def __init__(self, named, end):
        self.named, self.end, self.age = named, model.number(end), 0


class Server(model.Server):
    """A server that waits so many ticks before it has an entry recycled, and that lets go of clients that are silent for too long."""

    def __init__(self, boot, isn, service, wait, silence, profile="plain"):
        super().__init__(boot, isn, service, profile=profile)
        self.wait, self.silence, self.rests, self.watches = wait, silence, {}, {}

    def forget_of(self, rest):
        return [(None, Forget("Forget", self.boot, rest.named))]

    def on_segment(self, key, came):
        rest = self.rests.get(key)
        if self.serves and rest:
            if rest.age >= self.wait:
                return []
            is_syn = "S" in came.flags and "A" not in came.flags and "R" not in came.flags
            if is_syn and model.number(came.seq - rest.end) < 1 << 31:
                rest.age = self.wait
                return self.forget_of(rest)
        if key in self.watches:
            self.watches[key].hear()
        return super().on_segment(key, came)

    def on_message(self, came):
        if isinstance(came, Forget):
            rest = self.rests.get(came.named.key)
            if came.name == "Forgotten" and came.boot == self.boot and self.serves and rest and rest.named == came.named:
                del self.places[came.named.key], self.rests[came.named.key]
            return []
        served, key = self.serves, came.fields.get("key")
        was = self.places.get(key)
        sent = super().on_message(came)
        if self.serves and not served:
            self.begin()
        now = self.places.get(key)
        if served and isinstance(was, model.Connection) and now == "done":
            self.rests[key] = Rest(Named(key, was.cisn, was.sisn), was.cisn + 1 + was.taken())
            del self.watches[key]
        if served and isinstance(was, dict) and isinstance(now, model.Connection):
            self.watches[key] = Watch("opened")
        return [] if came.name == "Full" else sent

    def begin(self):
        """At the end of a restart: what was fetched as done is in quarantine, and all others are watched."""
        for entry in self.entries:
            key, place = entry["key"], self.places[entry["key"]]
            if place == "done":
                self.rests[key] = Rest(Named(key, entry["cisn"], entry["sisn"]), entry["cisn"] + 1 + entry["length"] + entry["fin"])
            else:
                is_empty = place.taken() == len(place.lengths) == place.una == 0
                self.watches[key] = Watch("restored empty" if is_empty else "restored")

    def on_tick(self):
        sent = super().on_tick()
        if not self.serves:
            return sent
        for watch in self.watches.values():
            watch.age, watch.silent = watch.age + 1, watch.silent + 1
        for rest in self.rests.values():
            rest.age += 1
        for key, place in list(self.places.items()):
            if isinstance(place, model.Connection) and not place.reset:
                sent += self.tend(key, place, self.watches[key])
        for key, place in self.places.items():
            if place == "done" and self.rests[key].age >= self.wait:
                sent += self.forget_of(self.rests[key])
        return sent

    def tend(self, key, place, watch):
        """Lets go of a client that is gone, or asks one that is silent: at the number before its next one, which the client has had."""
        if watch.is_gone(place, self.silence):
            return super().on_segment(key, model.Segment("R", model.number(place.cisn + 1 + place.taken()), 0, 0, None, b""))
        return [(key, place.out("A", place.sent - 1))] if watch.asks(place, self.silence) else []


class Log(loggers.Log):
    """A log that recycles an entry that is done, once a Forget of its own boot names it by its key and both numbers."""

    def answer(self, asked):
        if not isinstance(asked, Forget):
            return super().answer(asked)
        if asked.name != "Forget":
            return None
        if asked.boot < self.boot:
            return loggers.Message("Stale", asked.boot, {"newer": self.boot})
        if asked.boot > self.boot:
            return None
        key, entry = asked.named.key, self.entries.get(asked.named.key)
        is_its = entry is not None and (entry.cisn, entry.sisn) == asked.named[1:]
        if is_its and not entry.done:
            return None
        if is_its:
            del self.entries[key]
        return Forget("Forgotten", asked.boot, asked.named)


def spelled(said, key):
    """The bytes of a message about forgetting; `key` has those of its key."""
    body = key + struct.pack(">II", *said.named[1:])
    number = ("Forget", "Forgotten").index(said.name) + 1

    def whole(check):
        return struct.pack(">2sBBHHQ", b"FW", 1, number, 16 + len(body), check, said.boot) + body

    return whole(0xFFFF - summed(whole(0)))


def read_forget(data):
    """The message about forgetting that bytes spell, with its key as a number; or None."""
    if len(data) != 30 or data[:3] != b"FW\1" or data[3] not in (1, 2) or data[4:6] != b"\0\x1e" or not any(data[8:16]):
        return None
    said = Forget(("Forget", "Forgotten")[data[3] - 1], *struct.unpack(">Q", data[8:16]), Named(int.from_bytes(data[16:22], "big"), *struct.unpack(">II", data[22:])))
    return said if summed(data) == 0xFFFF else None


def summed(data):
    """The sum of the words of an even number of bytes, with each carry added."""
    total = sum(struct.unpack(f">{len(data) // 2}H", data))
    while total >> 16:
        total = (total & 0xFFFF) + (total >> 16)
    return total


def key_named(content):
    """The key that a message names, or None."""
    return content.named.key if isinstance(content, Forget) else content.fields.get("key")


class World(model.World):
    """Clients, a log whose entries may be recycled, the network and a server that lasts, event by event. Clients may come to one address one after another.

    When an entry is recycled its client is gone, and whatever of its connection is under way is lost. A packet keeps its number when it is lost."""

    def __init__(self, service, server, clients, wait, silence, profile="plain"):
        super().__init__(service, server, clients, profile=profile)
        self.wait, self.silence, self.recycling, self.keys, self.lost = wait, silence, Log(), [], set()
        self.gone, self.entries_gone = set(), []
        self.present = {}  # by key: the number of the client that is there

    @property
    def log(self):
        return self.recycling

    def refuses(self, verb, words):
        if verb not in ("boot", "crash", "tick", "deliver", "flip", "stop") and 1 <= words[0] <= len(self.clients) and self.is_off(words[0]):
            return "state"
        return super().refuses(verb, words)

    def is_off(self, number):
        """Whether a client is gone, or its turn at its address hasn't come."""
        key = self.clients[number - 1].key
        earlier = [place for place in range(1, number) if self.clients[place - 1].key == key]
        return number in self.gone or not self.gone.issuperset(earlier)

    def happen(self, verb, words):
        if verb == "boot":
            self.server = Server(*words, self.service, self.wait, self.silence, self.profile)
            self.last_boot, self.boots = words[0], self.boots + 1
            return self.by_server(self.server.asked())
        if verb == "deliver" and words[0] in self.lost:
            return []
        if verb == "open":
            self.present[self.clients[words[0] - 1].key] = words[0]
        return super().happen(verb, words)

    def by_server(self, sent):
        return [(f"S>{self.present[key]}" if key else "S>L", content) for key, content in sent]

    def step(self, verb, words):
        sent = self.happen(verb, words)
        for way, content in sent:
            ends = [end for end in way.split(">") if end not in "SL"]
            self.keys.append(self.clients[int(ends[0]) - 1].key if ends else key_named(content))
        self.packets += sent
        return sent

    def deliver(self, way, content):
        if not way.endswith(">L"):
            return super().deliver(way, content)
        key = key_named(content)
        before = self.log.entries.get(key)
        answer = self.log.answer(content)
        if before is not None and key not in self.log.entries:
            self.entries_gone.append(before)
            self.gone.update(place for place in [self.present.get(key)] if place)
            self.lost.update(place for place, named in enumerate(self.keys, 1) if named == key)
        return [("L>S", answer)] if answer else []


def words_of(content):
    """A packet or a message as a report prints it."""
    if not isinstance(content, Forget):
        return packet_words(content)
    return f"{content.name} boot {content.boot} key {content.named.key} cisn {content.named.cisn} sisn {content.named.sisn}"


def entry_line(word, entry):
    reads = ",".join(map(str, entry.lengths)) or "-"
    return f"{word} {entry.key} length {len(entry.data)} fin {entry.fin} acked {entry.acked} done {entry.done} reads {reads}"


def closing(world, done):
    lines = [f"client {i} {it.phase} accepted {len(it.accepted)} {hexadecimal(it.accepted)}" for i, it in enumerate(world.clients, 1)]
    lines += [entry_line("gone", entry) for entry in world.entries_gone]
    return [*lines, *(entry_line("log", entry) for entry in world.log.entries.values()), f"end {done}"]


def play(text):
    """The report of a schedule with the line `lasting`, and why it ended early, or None. A schedule that is refused has none."""
    try:
        schedule = read_schedule(text)
    except Refused as why:
        return [], str(why)
    clients = [model.Client(key, isn, script_of(script)) for key, isn, script in schedule.clients]
    world = World(schedule.service, schedule.server, clients, *schedule.lasting, schedule.profile)
    report, number = ["ftreplay 1", *header(world, [script for _, _, script in schedule.clients])], 0
    for done, (verb, words) in enumerate(schedule.events):
        why = world.refuses(verb, words)
        if why:
            return report + closing(world, done), f"event {done + 1}: {why}"
        report.append(f"event {done + 1} {event_words(verb, words)}")
        for way, content in world.step(verb, words):
            number += 1
            report.append(f"packet {number} {way} {words_of(content)}")
    return report + closing(world, len(schedule.events)), None


def header(world, spelled):
    """The lines of a report's header, or of a schedule's, before its events."""
    service, server, *others = seed_model.header(world, spelled)
    profile = others[: world.profile != "plain"]
    return [service, server, *profile, f"lasting {world.wait} {world.silence}", *others[len(profile) :]]
