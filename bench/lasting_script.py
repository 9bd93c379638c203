#!/usr/bin/env python3
"""Writes the part `lasting` of the stored run of `node_cases`, which lasting_script plays: lasting_script.py [FOLDER], into FOLDER/stdin and FOLDER/stdout
(crates/node_cases).

Each turn is played by the server and the log of tools/lasting_model.py, and by the clients of tools/model.py; what they send is what must be printed. Packets and
messages are spelled independently of the repository's codecs.
"""
import pathlib
import sys

sys.path.insert(0, str(pathlib.Path(__file__).parent.parent / "tools"))
sys.dont_write_bytecode = True

import lasting_model  # noqa: E402
import model  # noqa: E402
from lasting_model import Forget, Named  # noqa: E402
from node_lines import SERVICES, key_bytes, key_of, lines, msg, pkt, prints, say, segment, to_client, to_logger, told  # noqa: E402
from seed_model import Generator, packet_words  # noqa: E402
from stored_parts import FOLDER, write_part  # noqa: E402

A, B, C = "192.0.2.1:40000", "192.0.2.2:40000", "192.0.2.3:40000"


def wire_of(content):
    """The bytes of a message to or from the logger."""
    if isinstance(content, Forget):
        return lasting_model.spelled(content, key_bytes(key_of(content.named.key)))
    words = packet_words(content).split()
    return told(words[0], words[1:])


class Played:
    """A server, a log and clients. What the server sends to the log waits until it is handed on, and so does what the log answers; clients get what is sent at once."""

    def __init__(self, title, wait, silence, service="echo"):
        say(f"# {title}")
        lines.append("empty")
        self.service, self.log, self.clients = service, lasting_model.Log(), {}
        self.boot(1, 5000, wait, silence)

    def boot(self, boot, isn, wait, silence):
        self.server, self.to_log, self.answers = lasting_model.Server(boot, isn, self.service, wait, silence), [], []
        self.turn(f"boot {SERVICES[self.service]} {boot} {isn} {wait} {silence}", self.server.asked())
        self.drain()

    def printed(self, sent):
        says = []
        for key, content in sent:
            if key:
                says.append(to_client(key_of(key), segment("S>1", packet_words(content).split(), {"1": key_of(key)})))
                if key in self.clients:
                    self.clients[key].receive(content)
            else:
                says.append(to_logger(wire_of(content)))
                self.to_log.append(content)
        return says

    def turn(self, line, sent):
        says = self.printed(sent)
        say(line, *says)
        return says

    def hear(self, message):
        """A message comes to the server."""
        return self.turn(msg(wire_of(message)), self.server.on_message(message))

    def log_hears(self, message):
        answer = self.log.answer(message)
        say(f"log {wire_of(message).hex()}", *([f"answer {wire_of(answer).hex()}"] if answer else []))
        if answer:
            self.answers.append(answer)

    def drain(self):
        """All that waits is handed on, in order."""
        while self.to_log or self.answers:
            if self.to_log:
                self.log_hears(self.to_log.pop(0))
            else:
                self.hear(self.answers.pop(0))

    def tick(self, count=1):
        if count == 1:
            return self.turn("tick", self.server.on_tick())
        says = []
        for tick in range(1, count + 1):
            sent = self.printed(self.server.on_tick())
            says += [f"after {tick}", *sent] if sent else []
        say(f"ticks {count}", *says)
        return says

    def comes(self, key, it):
        """A segment of this client comes to the server."""
        return self.turn(pkt(segment("1>S", packet_words(it).split(), {"1": key_of(key)})), self.server.on_segment(key, it))

    def move(self, key, move, *words):
        return self.comes(key, self.clients[key].make(move, words))

    def opens(self, key, isn, script=b""):
        """A new client opens, and acknowledges the SYN-ACK."""
        self.clients[key] = model.Client(key, isn, script)
        self.move(key, "open", 65535)
        self.drain()
        self.move(key, "ack", 65535)
        self.drain()

    def echoes(self, key):
        """The client sends its script, and gets all of it back; then it closes, and the server does."""
        client = self.clients[key]
        if client.script:
            self.move(key, "send", 0, len(client.script))
            self.drain()
            self.move(key, "ack", 65535)
            self.drain()
        self.move(key, "fin")
        self.drain()
        self.move(key, "ack", 65535)
        self.drain()

    def ends(self, key):
        """The connection is done four ticks later."""
        self.echoes(key)
        self.tick(4)
        self.drain()
        assert self.server.places[key] == "done", self.server.places[key]


def syn(number):
    return model.Segment("S", number, 0, 65535, None, b"")


def addresses_are_used_again():
    """The worked run: an entry is recycled two ticks after its end, and its address and port are used again."""
    it = Played("an address is used again once its entry was recycled, and not before", 2, 0)
    it.opens(A, 1000, b"hello")
    it.ends(A)
    it.comes(A, model.Segment("A", 1007, 5007, 65535, None, b""))  # CLOSED refuses a late segment,
    assert not [said for said in it.tick() if said.startswith("logger")]
    forget = it.tick()
    assert len(forget) == 1
    it.comes(A, model.Segment("A", 1007, 5007, 65535, None, b""))  # and what is leaving drops it
    it.comes(A, syn(9000))
    assert it.tick() == forget  # Forget goes out at every tick
    it.drain()
    assert A not in it.server.places and A not in it.log.entries
    it.comes(A, model.Segment("A", 1007, 5007, 65535, None, b""))  # LISTEN refuses it
    it.opens(A, 9000, b"again")
    it.ends(A)


def newer_syns():
    """A SYN above the old connection's last number ends its quarantine; any other is refused."""
    it = Played("a newer SYN at a place that is done has the entry recycled at once, and its repetition opens", 100, 0)
    it.opens(A, 1000, b"hello")
    it.ends(A)
    for number in (1006, 1000, 0, (1007 + 2**31) % 2**32, 2**32 - 1):  # below the last number, and half of all numbers above it
        assert "client" in it.comes(A, syn(number))[0]
    it.comes(A, model.Segment("AS", 1007, 5007, 65535, None, b""))
    assert it.comes(A, model.Segment("RS", 1007, 0, 0, None, b"")) == []
    assert "logger" in it.comes(A, syn(1007))[0]
    assert it.comes(A, syn(1007)) == []
    it.drain()
    it.opens(A, 1007)
    it.ends(A)
    it.opens(B, 2**32 - 10, b"wraps around")
    it.ends(B)
    assert "client" in it.comes(B, syn(3))[0]
    assert "logger" in it.comes(B, syn((2**32 + 4 + 2**31 - 1) % 2**32))[0]
    assert "logger" in it.tick()[0]
    it.drain()


def full_logs():
    """Full drops an opening, and no RST goes out; once the log has room, the client's repetition opens."""
    it = Played("Full drops an opening silently, and a repetition of the SYN opens once an entry is recycled", 3, 0)
    for place in range(64):
        it.opens(f"198.51.100.{place}:4000", 5000 * place)
    it.clients[A] = model.Client(A, 77, b"")
    it.move(A, "open", 65535)
    it.drain()
    assert A not in it.server.places and it.clients[A].phase == "opening"
    it.ends("198.51.100.7:4000")
    it.tick(2)
    it.drain()
    it.comes(A, syn(77))
    it.drain()
    assert A not in it.server.places
    it.tick()
    it.drain()
    it.comes(A, syn(77))
    it.drain()
    assert it.clients[A].phase == "open"


def silent_clients():
    """Keep-alives from the first threshold on, and at twice that the server lets go; a client that lives answers them."""
    it = Played("a silent client is asked, and let go of at twice the threshold; one that answers stays", 4, 16)
    it.opens(A, 1000, b"hello")
    it.opens(B, 2000, b"hi")
    it.move(A, "send", 0, 5)
    it.drain()
    it.move(A, "ack", 65535)
    it.drain()
    it.tick(15)
    assert "client" in "".join(it.tick())
    it.move(B, "ack", 65535)  # its answer to the keep-alive
    it.tick(15)
    before = it.server.places[A].reset
    it.tick()
    assert (before, it.server.places[A].reset, it.server.places[B].reset) == (False, True, False)
    it.tick(6)
    it.drain()
    it.move(B, "ack", 65535)
    it.tick(10)
    it.drain()
    assert A not in it.server.places and not it.server.places[B].reset
    it.comes(A, model.Segment("A", 1006, 5006, 65535, None, b""))
    it = Played("no keep-alive is sent while something is unacknowledged", 4, 5)
    it.opens(A, 1000, b"hello")
    it.move(A, "send", 0, 5)
    it.drain()
    it.tick(9)
    it.tick(2)


def half_open_clients():
    """A half-open connection is let go of after 250 ticks, and one that may be half-open is asked before that."""
    it = Played("a connection whose SYN-ACK is never acknowledged is let go of after 250 ticks", 2, 0)
    it.comes(A, syn(1000))
    it.drain()
    it.comes(B, syn(1))
    it.drain()
    it.tick(249)
    assert not it.server.places[A].reset
    it.comes(A, syn(1000))  # a repetition of the SYN changes nothing
    it.tick()
    assert it.server.places[A].reset
    it.tick(3)
    it.drain()
    it.tick(2)
    it.drain()
    assert A not in it.server.places and A not in it.log.entries
    it = Played("a restored connection of which nothing is logged is asked at each fiftieth tick, and let go of at the 250th", 2, 0)
    it.opens(A, 1000)
    it.opens(B, 2000, b"x")
    it.opens(C, 3000)
    it.move(B, "send", 0, 1)
    it.drain()
    it.boot(2, 900000, 2, 0)
    it.tick(60)
    it.move(C, "ack", 65535)  # the client lives
    it.tick(189)
    assert not it.server.places[A].reset
    it.tick()
    assert [it.server.places[key].reset for key in (A, B, C)] == [True, False, False]
    it.tick(300)
    assert [it.server.places[key].reset for key in (A, B, C)] == [True, False, False]


def crashes():
    """An age dies with the server: a restart waits anew."""
    it = Played("a crash in the quarantine: the restarted server waits anew, and a newer SYN ends it", 9, 0)
    it.opens(A, 1000, b"hello")
    it.opens(B, 4000, b"bye")
    it.ends(A)
    it.ends(B)
    it.tick(2)
    it.boot(2, 900000, 3, 0)
    assert it.tick(2) == []
    it.boot(3, 900000, 3, 0)
    assert "logger" in it.comes(B, syn(4005))[0]
    it.drain()
    assert list(it.server.places) == [A]
    it.tick(2)
    assert "logger" in it.tick()[0]
    it.boot(4, 900000, 3, 0)  # the Forget of an older boot comes late, and recycles nothing
    it.log_hears(Forget("Forget", 3, Named(A, 1000, 5000)))
    it.answers.clear()
    it.tick(3)
    it.log_hears(it.to_log.pop(0))
    it.boot(5, 900000, 3, 0)  # Forgotten is lost, but the entry is recycled
    assert not it.server.places


def strange_messages():
    """Messages about forgetting that name something else change nothing."""
    it = Played("messages about forgetting with other numbers, of other boots and at other times", 2, 0)
    named = Named(A, 1000, 5000)
    strange = [Forget("Forgotten", 1, named), Forget("Forget", 1, named), Forget("Forgotten", 2, named)]
    for said in strange:
        it.hear(said)
        it.log_hears(said)
    it.answers.clear()
    it.opens(A, 1000, b"hello")
    for said in strange:
        it.hear(said)
        it.log_hears(said)
    assert not it.answers and A in it.log.entries
    it.ends(A)
    others = [Named(A, 1001, 5000), Named(A, 1000, 5001), Named(B, 1000, 5000)]
    for other in others:
        it.hear(Forget("Forgotten", 1, other))
        it.log_hears(Forget("Forget", 1, other))
    for boot in (0xFFFFFFFFFFFFFFFF, 2):
        it.hear(Forget("Forgotten", boot, named))
        it.log_hears(Forget("Forget", boot, named))
    it.answers.clear()
    assert A in it.server.places and A in it.log.entries
    it.hear(Forget("Forgotten", 1, named))  # it goes, though it isn't leaving yet
    assert A not in it.server.places


def flipped():
    """A message about forgetting with one bit changed is neither one nor a message of the log."""
    it = Played("messages about forgetting with one bit changed", 2, 0)
    it.opens(A, 1000, b"hello")
    it.ends(A)
    for name, line in (("Forgotten", "message"), ("Forget", "log")):
        data = wire_of(Forget(name, 1, Named(A, 1000, 5000)))
        for bit in range(8 * len(data)):
            changed = bytearray(data)
            changed[bit // 8] ^= 0x80 >> bit % 8
            say(f"{line} {changed.hex()}")
    assert A in it.server.places and A in it.log.entries


class Drawn(Played):
    """Three honest clients of few addresses that come again and again, among drawn messages about forgetting; what is on its way may be handed on again."""

    def __init__(self, seed, count, silence):
        super().__init__(f"{count} drawn events: honest clients, lost and repeated packets, crashes, and hostile messages about forgetting", 3, silence)
        self.draws, self.silence, self.boots, self.number, self.old = Generator(seed), silence, 1, 0, []
        for _ in range(count):
            self.happen(self.draws.draw() % 32)

    def drawn_named(self):
        """The numbers of a connection that is or was there, or almost."""
        rests = [rest.named for rest in self.server.rests.values()]
        rests += [Named(key, place.cisn, place.sisn) for key, place in self.server.places.items() if isinstance(place, model.Connection)]
        rests += [Named(A, 1000, 5000)]
        named = rests[self.draws.draw() % len(rests)]
        near = self.draws.draw() % 4
        return named._replace(cisn=model.number(named.cisn + (near == 1)), sisn=model.number(named.sisn - (near == 2)))

    def happen(self, kind):
        key = (A, B, C)[self.draws.draw() % 3]
        client = self.clients.get(key)
        if kind < 4:
            self.tick(1 + self.draws.draw() % 3)
        elif kind < 8:
            if client is None or client.phase in ("reset", "ended") and key not in self.log.entries:
                self.number += 1
                client = self.clients[key] = model.Client(key, self.number * 10_000_019 % 2**32, b"ab" * (1 + self.draws.draw() % 4))
            if client.phase in ("new", "opening"):
                self.move(key, "open", 65535)
        elif kind < 16 and client:
            self.client_moves(key, client)
        elif kind < 24:
            self.drain()
        elif kind == 24:
            self.to_log.clear()
        elif kind == 25:
            self.answers.clear()
        elif kind == 26 and self.draws.draw() % 4 == 0:
            self.boots += 1
            self.boot(self.boots, 70_000 * self.boots, 3, self.silence)
        elif kind < 29:
            # No Forget of the log's own boot comes for a connection that its server doesn't forget: only its server sends those.
            named = self.drawn_named()
            boot = self.boots if named not in [rest.named for rest in self.server.rests.values()] else 1 + self.draws.draw() % 3 * self.boots
            if boot != self.boots or named.key not in self.log.entries or self.log.entries[named.key].cisn != named.cisn:
                self.log_hears(Forget("Forget", boot, named))
                self.answers.clear()
        else:
            named = self.drawn_named()
            if named not in [rest.named for rest in self.server.rests.values()]:
                self.hear(Forget(("Forgotten", "Forget")[self.draws.draw() % 2], self.boots, named))

    def client_moves(self, key, client):
        size = len(client.script)
        for move, words in (("send", (0, size)), ("fin", ()), ("ack", (65535,)), ("reset", ())):
            if self.draws.draw() % (16 if move == "reset" else 2) == 0 and client.refuses(move, words) is None:
                return self.move(key, move, *words)
        return None


def make():
    addresses_are_used_again()
    newer_syns()
    full_logs()
    silent_clients()
    half_open_clients()
    crashes()
    strange_messages()
    flipped()
    for seed in (1, 2, 3):
        Drawn(seed, 400, 40 * (seed - 1))


if __name__ == "__main__":
    make()
    folder = pathlib.Path(sys.argv[1]) if sys.argv[1:] else FOLDER
    write_part("lasting", "\n".join(lines) + "\n", "\n".join(prints) + "\n", folder)
