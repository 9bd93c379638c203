#!/usr/bin/env python3
"""Draws schedules in which one client's segments arrive out of order, overlap, are lost and are repeated: reordered.py SEED [in-order].

With `in-order` the same segments are sent, and each arrives once, in order. The client has the same bytes in the end, as tools/model_test.py tests. In about every
third seed the server crashes between the segments, so the held text is lost.
"""
import random
import sys

from model import Client, World
from seed_model import event_words, header, script_of

KEY, SERVER, WINDOW = "192.0.2.1:40000", "192.0.2.100:7", 65535


class Run:
    """A world that is driven, with its schedule and the packets that may still come."""

    def __init__(self, spelled, service="echo", profile="plain"):
        self.client = Client(KEY, 4294967000, script_of(spelled))
        self.world = World(service, SERVER, [self.client], profile=profile)
        self.lines = header(self.world, [spelled])
        self.waiting = []

    def happen(self, verb, *words):
        assert self.world.refuses(verb, list(words)) is None, (verb, words)
        first = len(self.world.packets) + 1
        self.world.step(verb, list(words))
        self.lines.append(event_words(verb, words))
        self.waiting += range(first, len(self.world.packets) + 1)

    def deliver(self, packet):
        self.waiting = [other for other in self.waiting if other != packet]
        self.happen("deliver", packet)

    def drain(self):
        while self.waiting:
            self.deliver(self.waiting[0])

    def begin(self):
        """The server boots, and the client has opened a connection."""
        for verb, *words in (("boot", 1, 5000), ("open", 1, WINDOW), ("ack", 1, WINDOW)):
            self.happen(verb, *words)
            self.drain()

    def answer(self, dice):
        """Delivers some of what server and log have to say."""
        for packet in [it for it in self.waiting if not self.world.packets[it - 1][0].startswith("1>")]:
            if dice.randrange(3):
                self.deliver(packet)


def send_all(run, dice):
    """The whole script in pieces, some of them once more and across others, and a FIN."""
    length, longest = len(run.client.script), dice.choice((6, 12, 24, 60))
    while run.client.sent < length:
        if dice.randrange(4) == 0 and run.client.sent:
            start = dice.randrange(run.client.acked, run.client.sent)
        else:
            start = run.client.sent
        run.happen("send", 1, start, min(dice.randrange(1, longest), length - start))
    if dice.randrange(2):
        run.happen("fin", 1)


def come(run, dice, in_order):
    """What was sent comes. A segment in eight is lost and one in eight comes twice, where it isn't in order."""
    packets = list(run.waiting)
    order = [it for it in packets if dice.randrange(8)]
    order += [it for it in order if dice.randrange(8) == 0]
    dice.shuffle(order)
    order = packets if in_order else order
    crash = dice.randrange(len(order)) if dice.randrange(3) == 0 else None
    run.waiting = []
    for place, packet in enumerate(order):
        run.deliver(packet)
        run.answer(dice)
        if place == crash:
            run.happen("crash")
            run.happen("boot", 2, 900000)
            run.drain()
    run.drain()


def finish(run):
    """The client goes on until it has its echo, and where it closes until both ends have."""
    client = run.client
    length = len(client.script)
    for _ in range(40):
        closes = client.sent > length
        if client.acked == client.sent and len(client.accepted) == length and (client.phase == "ended" or not closes):
            return
        if client.acked < length:
            run.happen("send", 1, client.acked, min(1460, length - client.acked))
        elif client.acked == length and closes:
            run.happen("fin", 1)
        run.happen("ack", 1, WINDOW)
        run.happen("tick")
        run.drain()
    raise AssertionError("it has no end")


def drawn(seed, in_order=False, profile="plain"):
    """The lines of a schedule for a server with this profile, and what the client has accepted."""
    dice = random.Random(seed)
    run = Run(f"fill:{dice.randrange(200, 500)}", profile=profile)
    run.begin()
    send_all(run, dice)
    come(run, dice, in_order)
    finish(run)
    return run.lines, bytes(run.client.accepted)


if __name__ == "__main__":
    print("\n".join(drawn(int(sys.argv[1]), sys.argv[2:] == ["in-order"])[0]))
