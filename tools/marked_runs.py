#!/usr/bin/env python3
"""Draws schedules with `marks`, and tests by the model in tools/model.py that all is masked.

    tools/marked_runs.py draw SEED                     writes the schedule of a seed
    tools/marked_runs.py masked [--seeds N] [--first SEED]   plays N of them, and tests the world after each event, as tools/masked.py does
    tools/marked_runs.py compare PROGRAM [--seeds N] [--first SEED]   plays N of them by a built `ftreplay` and by the model, and compares the reports

One to three clients of one of the four services send their scripts in pieces, most of them a piece at a time, which is where a connection is quiet. Packets
are lost, repeated and reordered, old ones come again, and the server crashes often. In the end nothing is lost, and each client that wasn't reset must have all
of its answer. The journal must have the reads and bytes of a log that was given the same messages without those about marks, and a tick must make no new mark.
"""
import argparse
import random
import sys
from collections import Counter

from loggers import Log, Message, answers_of
from lossy import differs
from masked import Watch, is_true
from model import Client, World
from seed_model import SERVER, event_words, header

LETTERS = b"abcdefghijklmnopqrstuvwxyz"


def drawn_line(dice):
    return bytes(dice.choices(LETTERS, k=dice.choice((0, 1, 5, 20)))) + b"\n"


def drawn_request(dice):
    return dice.choice((1, 3, 50, 300)).to_bytes(4, "big")


def drawn_script(dice, service):
    """Something to say to a service. Some scripts close it before they end."""
    if service in ("echo", "meter"):
        return bytes(dice.choices(LETTERS, k=dice.randrange(200, 900)))
    part, last = (drawn_line, b"quit\nmore") if service == "line" else (drawn_request, bytes(4) + b"more")
    script = b"".join(part(dice) for _ in range(dice.randrange(20, 120)))
    return script + (last if dice.randrange(4) == 0 else part(dice)[: dice.randrange(1, 4)])


class Run:
    """A world that is driven, with its schedule and the packets that may still come; one in so many packets is lost, and one in so many steps is a crash."""

    def __init__(self, seed):
        self.dice, self.watch = random.Random(seed), Watch()
        service = ("echo", "line", "transfer", "meter")[seed % 4]
        clients = [Client(f"192.0.2.{i}:40000", self.dice.randrange(2**32), drawn_script(self.dice, service)) for i in range(1, 2 + seed % 3)]
        self.world = World(service, SERVER, clients, marks=self.dice.choice((1, 1, 2, 3, 5)))
        self.waiting, self.events, self.counts, self.new = [], [], Counter(), set()
        self.loss, self.crash, self.patience = self.dice.choice((15, 60, 1000)), self.dice.choice((50, 120, 300)), self.dice.choice((5, 20, 1000))

    def happen(self, verb, *words):
        why = self.world.refuses(verb, list(words))
        assert why is None, (verb, words, why)
        first = len(self.world.packets) + 1
        sent = self.world.step(verb, list(words))
        self.events.append((verb, list(words)))
        self.waiting += range(first, len(self.world.packets) + 1)
        faults = [*self.watch.faults(self.world, sent), *self.count(verb, sent)]
        assert not faults, (len(self.events), verb, words, faults)

    def count(self, verb, sent):
        """Counts what an event did about marks, and finds a new mark at a tick."""
        for it in [content for _, content in sent if isinstance(content, Message) and content.name in ("Mark", "Held")]:
            self.counts["restarts from a mark"] += it.name == "Held" and it.fields["reads"] > 0
            mark = it.name == "Mark" and (it.boot, it.fields["key"], it.fields["reads"])
            if mark and mark not in self.new:
                self.new.add(mark)
                self.counts["marks"] += 1
                if verb == "tick":
                    yield "a new mark at a tick"

    def deliver(self, packet):
        self.waiting = [other for other in self.waiting if other != packet]
        way = self.world.packets[packet - 1][0]
        self.happen("deliver", packet)
        if way.startswith("S>") and way != "S>L" and self.world.clients[int(way[2:]) - 1].phase in ("open", "ended") and self.dice.randrange(8):
            self.happen("ack", int(way[2:]), self.dice.choice((65535, 65535, 65535, self.dice.randrange(3000))))

    def step(self):
        """One event, or a packet is lost."""
        dice, packets = self.dice, len(self.world.packets)
        if self.world.server is None:
            self.happen("boot", self.world.last_boot + 1, dice.randrange(2**32))
        elif dice.randrange(self.crash) == 0:
            self.happen("crash")
        elif dice.randrange(30) == 0:
            self.happen(*dice.choice((("tick",), ("deliver", dice.randrange(1, packets + 1)), ("flip", dice.randrange(1, packets + 1), dice.randrange(128)))))
        elif not self.waiting or dice.randrange(self.patience) == 0:
            self.move(dice.randrange(1, len(self.world.clients) + 1))
        else:
            packet = self.waiting[min(dice.randrange(12) // 11, len(self.waiting) - 1)]
            if dice.randrange(self.loss):
                self.deliver(packet)
            else:
                self.waiting.remove(packet)

    def move(self, number):
        """What a client does of itself: it opens, sends a piece, ends, or resets; a tick passes where it waits for an acknowledgement."""
        client, dice = self.world.clients[number - 1], self.dice
        length = len(client.script)
        if client.phase in ("new", "opening"):
            self.happen("open", number, 65535)
        elif client.phase == "reset" or client.acked > length or client.acked < client.sent and dice.randrange(2):
            self.happen("tick")
        elif client.acked == length:
            self.happen("reset" if dice.randrange(40) == 0 else "fin", number)
        else:
            start = client.sent if client.sent < length else client.acked
            self.happen("send", number, start, min(dice.choice((1, 4, 9, 60)), length - start))

    def finish(self):
        """Nothing is lost from here on."""
        if self.world.server is None:
            self.happen("boot", self.world.last_boot + 1, 900000)
        for _ in range(60):
            while self.waiting:
                self.deliver(self.waiting[0])
            if all(map(self.has_all, self.world.clients)):
                return
            self.happen("tick")
            for number, client in enumerate(self.world.clients, 1):
                self.proceed(number, client)
        raise AssertionError("it has no end")

    def has_all(self, client):
        sent, closed = self.watch.unfailing(self.world, client)
        return client.phase == "reset" or client.acked > len(client.script) and closed and client.phase == "ended" and len(sent) == len(client.accepted)

    def proceed(self, number, client):
        length = len(client.script)
        if client.phase in ("new", "opening"):
            self.happen("open", number, 65535)
        elif client.phase != "reset":
            if client.acked < length:
                self.happen("send", number, client.acked, min(1460, length - client.acked))
            elif client.acked == length:
                self.happen("fin", number)
            self.happen("ack", number, 65535)

    def check_journal(self):
        """Compares the journal with a log of the same messages without those about marks, and tests all marks that are kept."""
        log = Log()
        for verb, words in self.events:
            way, content = self.world.packets[words[0] - 1] if verb == "deliver" else ("", None)
            if way == "S>L" and content.name not in ("Mark", "Ask"):
                answers_of(log, content)
        for entry, plain in zip(self.world.log.entries.values(), log.entries.values(), strict=True):
            told, wanted = entry.told(0), plain.told(0)
            assert (entry.lengths, entry.data) == (plain.lengths, plain.data) and told == {**wanted, "acked": told["acked"]}, entry.key
            kept = self.world.loggers.marked.entries[entry.key]
            assert kept.lengths == plain.lengths and kept.told(0) == told and told["acked"] >= wanted["acked"], entry.key
        assert all(is_true(self.world, key, mark) for key, mark in self.world.loggers.marked.marks.items())

    def lines(self):
        spelled = [f"hex:{client.script.hex()}" for client in self.world.clients]
        return header(self.world, spelled) + [event_words(verb, words) for verb, words in self.events]


def drawn(seed, events=400):
    """The run of a seed, which is tested as it is drawn."""
    run = Run(seed)
    for _ in range(events):
        run.step()
    run.finish()
    run.check_journal()
    return run


def masked(first, count):
    counts = Counter()
    for seed in range(first, first + count):
        try:
            run = drawn(seed)
        except AssertionError as why:
            sys.exit(f"seed {seed}: {why}")
        counts += run.counts + Counter({"events": len(run.events), "crashes": run.world.crashes})
    said = ", ".join(f"{counts[name]} {name}" for name in ("events", "crashes", "marks", "restarts from a mark"))
    print(f"{count} schedules with marks: {said}, all masked")


def compare(program, first, count):
    for seed in range(first, first + count):
        if differs(program, drawn(seed).lines()):
            sys.exit(f"they differ at: seed {seed}")
    print(f"{count} schedules with marks: all equal")


def main():
    parser = argparse.ArgumentParser(description=__doc__, formatter_class=argparse.RawDescriptionHelpFormatter)
    verbs = parser.add_subparsers(dest="verb", required=True)
    verbs.add_parser("draw").add_argument("seed", type=int)
    both = verbs.add_parser("compare")
    both.add_argument("program")
    for many in (verbs.add_parser("masked"), both):
        many.add_argument("--seeds", type=int, default=2000)
        many.add_argument("--first", type=int, default=1)
    words = parser.parse_args()
    if words.verb == "draw":
        print("\n".join(drawn(words.seed).lines()))
    elif words.verb == "compare":
        compare(words.program, words.first, words.seeds)
    else:
        masked(words.first, words.seeds)


if __name__ == "__main__":
    main()
