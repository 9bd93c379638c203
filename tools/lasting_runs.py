#!/usr/bin/env python3
"""Draws schedules with `lasting`, in which clients come to one address one after another, and tests by tools/lasting_model.py that all is masked.

    tools/lasting_runs.py draw SEED                     writes the schedule of a seed
    tools/lasting_runs.py masked [--seeds N] [--first SEED]   plays N of them, and tests the world after each event

Packets are lost, repeated and reordered, old ones come again, and the server crashes often. After each event all that tools/masked.py tests must hold of the
clients that are there, and one that is gone must have a front of what a server that never failed sends for the reads that its entry had. In the end nothing is
lost: each client that wasn't reset must have all of its answer, its entry must be recycled, and the next at its address comes.
"""
import argparse
import random
import sys
from collections import Counter

import lasting_model
import masked
from marked_runs import drawn_script
from model import Client
from seed_model import SERVER, event_words


class Watch(masked.Watch):
    """Tests a world whose clients may be gone, or not have come yet."""

    def __init__(self):
        super().__init__()
        self.kept = {}  # what a server that never failed has sent to each client that is gone

    def is_known(self, world, client):
        """A client that is gone had an entry."""
        number = world.clients.index(client) + 1
        return number in world.gone or world.present.get(client.key) == number and super().is_known(world, client)

    def unfailing(self, world, client):
        number = world.clients.index(client) + 1
        if number in world.gone:
            return self.kept[number]
        return super().unfailing(world, client) if world.present.get(client.key) == number else (b"", False)

    def faults(self, world, sent):
        for number in world.gone.difference(self.kept):
            client = world.clients[number - 1]
            [*_, entry] = [entry for entry in world.entries_gone if entry.key == client.key]
            said, service = masked.unfailing(world.service, client.script, entry.lengths)
            self.kept[number] = said, service.closed
        return super().faults(world, sent)


class Run:
    """A world that is driven, with its schedule and the packets that may still come; one in so many packets is lost, and one in so many steps is a crash."""

    def __init__(self, seed):
        self.dice, self.watch = random.Random(seed), Watch()
        service = ("echo", "line", "transfer", "meter")[seed % 4]
        keys = [f"192.0.2.{1 + i % (1 + seed % 3)}:40000" for i in range(self.dice.randrange(2, 7))]
        clients = [Client(key, self.dice.randrange(2**32), drawn_script(self.dice, service)[: self.dice.choice((0, 3, 40, 300))]) for key in keys]
        waits, profile = (self.dice.choice((1, 2, 5, 20)), self.dice.choice((0, 8, 30))), self.dice.choice(("plain", "wan"))
        self.world = lasting_model.World(service, SERVER, clients, *waits, profile)
        self.waiting, self.events, self.counts = [], [], Counter()
        self.ended, self.resets = set(), set()  # the clients whose stream has ended at some time, and those that have reset their connections
        self.loss, self.crash, self.patience = self.dice.choice((15, 60, 1000)), self.dice.choice((50, 120, 300)), self.dice.choice((5, 20, 1000))

    def happen(self, verb, *words):
        why = self.world.refuses(verb, list(words))
        assert why is None, (verb, words, why)
        first, lost = len(self.world.packets) + 1, len(self.world.lost)
        sent = self.world.step(verb, list(words))
        self.events.append((verb, list(words)))
        self.waiting += range(first, len(self.world.packets) + 1)
        if len(self.world.lost) > lost:
            self.waiting = [packet for packet in self.waiting if packet not in self.world.lost]
        self.ended.update(number for number, client in enumerate(self.world.clients, 1) if client.phase == "ended")
        self.resets.update(words[:1] if verb == "reset" else ())
        faults = list(self.watch.faults(self.world, sent))
        assert not faults, (len(self.events), verb, words, faults)

    def there(self):
        """The clients whose turn it is, with their numbers."""
        return [(number, client) for number, client in enumerate(self.world.clients, 1) if not self.world.is_off(number)]

    def deliver(self, packet):
        self.waiting = [other for other in self.waiting if other != packet]
        way = self.world.packets[packet - 1][0]
        self.happen("deliver", packet)
        if way.startswith("S>") and way != "S>L" and packet not in self.world.lost and self.dice.randrange(8):
            if self.world.clients[int(way[2:]) - 1].phase in ("open", "ended"):
                self.happen("ack", int(way[2:]), self.dice.choice((65535, 65535, 65535, self.dice.randrange(3000))))

    def step(self):
        """One event, or a packet is lost."""
        dice = self.dice
        if self.world.server is None:
            self.happen("boot", self.world.last_boot + 1, dice.randrange(2**32))
        elif dice.randrange(self.crash) == 0:
            self.happen("crash")
        elif dice.randrange(200) == 0:
            self.hush(dice.randrange(80))
        elif dice.randrange(15) == 0:
            self.repeat()
        elif dice.randrange(10) == 0:
            self.happen("tick")
        elif not self.waiting or dice.randrange(self.patience) == 0:
            self.move()
        else:
            packet = self.waiting[min(dice.randrange(12) // 11, len(self.waiting) - 1)]
            if dice.randrange(self.loss):
                self.deliver(packet)
            else:
                self.waiting.remove(packet)

    def repeat(self):
        """An old packet comes again, as often as not a message about forgetting."""
        packets = range(1, len(self.world.packets) + 1)
        messages = [packet for packet in packets if isinstance(self.world.packets[packet - 1][1], lasting_model.Forget)]
        self.happen("deliver", self.dice.choice(messages if messages and self.dice.randrange(2) else packets))

    def hush(self, ticks):
        """So many ticks in which no client is heard, so that the server may let go of some."""
        for _ in range(ticks):
            self.happen("tick")
        self.waiting = [packet for packet in self.waiting if "L" in self.world.packets[packet - 1][0]]

    def move(self):
        """What a client does of itself: it opens, sends a piece, ends, or resets; a tick passes where it waits for an acknowledgement."""
        there, dice = self.there(), self.dice
        number, client = dice.choice(there) if there else (0, None)
        if client is None or client.phase == "reset" or client.acked > len(client.script) or client.acked < client.sent and dice.randrange(2):
            self.happen("tick")
        elif client.phase in ("new", "opening"):
            self.happen("open", number, 65535)
        elif client.acked == len(client.script):
            self.happen("reset" if dice.randrange(10) == 0 else "fin", number)
        else:
            start = client.sent if client.sent < len(client.script) else client.acked
            self.happen("send", number, start, min(dice.choice((1, 9, 60)), len(client.script) - start))

    def finish(self):
        """Nothing is lost from here on, but what is old may come again."""
        if self.world.server is None:
            self.happen("boot", self.world.last_boot + 1, 900000)
        for _ in range(3000):
            while self.waiting:
                self.deliver(self.waiting[0])
            if all(self.is_stuck(number) for number, _ in self.there()):
                return
            self.happen("tick")
            self.repeat()
            for number, client in self.there():
                self.proceed(number, client)
        raise AssertionError("it has no end")

    def is_stuck(self, number):
        """Whether a client has reset its connection itself and the server may never hear of it."""
        return number in self.resets and self.world.silence == 0

    def proceed(self, number, client):
        length = len(client.script)
        if client.phase in ("new", "opening"):
            self.happen("open", number, 65535)
        elif client.phase != "reset":
            if client.acked < length:
                self.happen("send", number, client.acked, min(1460, length - client.acked))
            elif client.acked == length:
                self.happen("fin", number)
            self.happen("ack", number, 65535)

    def check_end(self):
        """Each client that is gone has all of its answer, unless it or the server has reset the connection before; and one entry was recycled for each."""
        for number in self.world.gone:
            client, (sent, closed) = self.world.clients[number - 1], self.watch.kept[number]
            kind = "have all of their answer" if number in self.ended else "were reset" if number in self.resets else "were let go of"
            self.counts[kind] += 1
            assert number not in self.ended or closed and len(sent) == len(client.accepted), number
            assert kind != "were let go of" or self.world.silence > 0 or not client.accepted, number  # one that isn't half-open is let go of for its silence
        assert len(self.world.entries_gone) == len(self.world.gone), "more entries were recycled than there were clients"
        self.counts["entries recycled"] = len(self.world.gone)
        self.counts["at addresses that come again"] = len(self.world.gone) - len({self.world.clients[number - 1].key for number in self.world.gone})

    def lines(self):
        spelled = [f"hex:{client.script.hex()}" if client.script else "-" for client in self.world.clients]
        return lasting_model.header(self.world, spelled) + [event_words(verb, words) for verb, words in self.events]


def drawn(seed, events=400):
    """The run of a seed, which is tested as it is drawn."""
    run = Run(seed)
    for _ in range(events):
        run.step()
    run.finish()
    run.check_end()
    return run


def test(first, count):
    counts = Counter()
    for seed in range(first, first + count):
        try:
            run = drawn(seed)
        except AssertionError as why:
            sys.exit(f"seed {seed}: {why}")
        counts += run.counts + Counter({"events": len(run.events), "crashes": run.world.crashes})
    said = ", ".join(f"{counts[name]} {name}" for name in ("events", "crashes", "entries recycled", "at addresses that come again"))
    ends = ", ".join(f"{counts[name]} {name}" for name in ("have all of their answer", "were reset", "were let go of"))
    print(f"{count} schedules with lasting: {said}; of the clients that are gone {ends}; all masked")


def main():
    parser = argparse.ArgumentParser(description=__doc__, formatter_class=argparse.RawDescriptionHelpFormatter)
    verbs = parser.add_subparsers(dest="verb", required=True)
    verbs.add_parser("draw").add_argument("seed", type=int)
    many = verbs.add_parser("masked")
    many.add_argument("--seeds", type=int, default=500)
    many.add_argument("--first", type=int, default=1)
    words = parser.parse_args()
    if words.verb == "draw":
        print("\n".join(drawn(words.seed).lines()))
    else:
        test(words.first, words.seeds)


if __name__ == "__main__":
    main()
