#!/usr/bin/env python3
"""Draws schedules of long answers whose segments are lost, repeated and reordered, so that the server's congestion window grows and shrinks.

    tools/lossy.py draw SEED [PROFILE]          writes the schedule of a seed, for a server with this profile; `plain`, or `wan`
    tools/lossy.py compare PROGRAM FIRST COUNT  plays COUNT seeds with each profile by a built `ftreplay` and by the model, and those of
                                                tools/reordered.py, and compares the reports

The client asks for 16,000 to 57,000 bytes in one segment, and acknowledges most of what arrives, sometimes with another window. Its acknowledgements are lost and
repeated too. In about every fifth seed the server crashes during the answer. In the end the client has the whole answer.
"""
import random
import subprocess
import sys

import reordered
from reordered import WINDOW, Run
from seed_model import play

REQUEST, ANSWER = "000007ff", 2047  # what asks for so many bytes


def asks(run):
    """The whole script in a segment, which is logged and read."""
    run.happen("send", 1, 0, len(run.client.script))
    run.waiting.sort(key=lambda it: not run.world.packets[it - 1][0].startswith("1>"))


def window_of(dice):
    """What the client says of its room: mostly all of it."""
    return dice.choice((WINDOW,) * 60 + (dice.randrange(0, 3000), dice.randrange(3000, WINDOW)))


class Network:
    """Which of the packets that wait comes next, and what becomes of it."""

    def __init__(self, run, dice):
        self.run, self.dice = run, dice
        self.loss, self.twice, self.spread = dice.choice((12, 40, 100, 200)), dice.choice((8, 30, 100)), dice.choice((1, 1, 1, 3))

    def is_of_log(self, packet):
        return "L" in self.run.world.packets[packet - 1][0]

    def step(self):
        """One of the first packets that wait comes, gets lost, or comes and stays. What is said to the log and by it is neither lost nor doubled."""
        packet = self.run.waiting[self.dice.randrange(min(self.spread, len(self.run.waiting)))]
        lost, stays = self.dice.randrange(self.loss) == 0, self.dice.randrange(self.twice) == 0
        if lost and not self.is_of_log(packet):
            self.run.waiting.remove(packet)
            return
        way = self.run.world.packets[packet - 1][0]
        self.run.deliver(packet)
        if stays and not self.is_of_log(packet):
            self.run.waiting.insert(min(len(self.run.waiting), self.dice.randrange(8)), packet)
        if way == "S>1" and self.run.client.phase in ("open", "ended") and self.dice.randrange(12):
            self.run.happen("ack", 1, window_of(self.dice))


def transfer(run, dice, length):
    """The answer comes over the network, and ticks pass where nothing waits, and now and then besides."""
    network, crash = Network(run, dice), dice.randrange(40, 400) if dice.randrange(5) == 0 else None
    for count in range(2000):
        if len(run.client.accepted) == length:
            return
        if count == crash:
            run.happen("crash")
            run.happen("boot", 2, 900000)
        if not run.waiting or dice.randrange(200) == 0:
            run.happen("tick")
        else:
            network.step()


def finish(run, length):
    """Nothing is lost from here on, and the client acknowledges each segment, until it has all and the server's FIN."""
    client = run.client
    for _ in range(1000):
        while run.waiting:
            way = run.world.packets[run.waiting[0] - 1][0]
            run.deliver(run.waiting[0])
            if way == "S>1":
                run.happen("ack", 1, WINDOW)
        if client.acked == len(client.script) and len(client.accepted) == length and client.phase == "ended":
            return
        if client.acked < len(client.script):
            run.happen("send", 1, client.acked, len(client.script) - client.acked)
        run.happen("tick")
    raise AssertionError("it has no end")


def drawn(seed, profile="plain"):
    """The lines of a schedule, what the client has accepted, and what it has to."""
    dice = random.Random(seed)
    asked = dice.randrange(8, 29)
    run, length = Run("hex:" + REQUEST * asked + "00000000", "transfer", profile), asked * ANSWER
    run.begin()
    asks(run)
    transfer(run, dice, length)
    finish(run, length)
    return run.lines, bytes(run.client.accepted), bytes(place % 251 for place in range(length))


def differs(program, lines):
    given = "\n".join(lines) + "\n"
    run = subprocess.run([program, "run"], input=given, capture_output=True, text=True, timeout=120, check=False)
    return run.stdout != "".join(line + "\n" for line in play(given)[0])


def compare(program, first, count):
    for seed in range(first, first + count):
        for kind, draw in ("lossy", drawn), ("reordered", reordered.drawn):
            for profile in "plain", "wan":
                if differs(program, draw(seed, profile=profile)[0]):
                    sys.exit(f"they differ at: {kind}, {profile}, seed {seed}")
    print(f"{count} seeds of each kind: all equal")


if __name__ == "__main__":
    if sys.argv[1] == "compare":
        compare(sys.argv[2], *map(int, sys.argv[3:]))
    else:
        print("\n".join(drawn(int(sys.argv[2]), *sys.argv[3:])[0]))
