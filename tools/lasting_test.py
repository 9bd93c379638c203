#!/usr/bin/env python3
"""Tests of tools/lasting_model.py: how the worked run ends, which was written by hand, a crash after each of its last events, and drawn runs.

Run it: tools/lasting_test.py
"""
import sys
import unittest
from unittest import mock

sys.dont_write_bytecode = True

import lasting_model  # noqa: E402
import lasting_runs  # noqa: E402
from schedule_model import Refused, read_schedule  # noqa: E402

HEAD = """service echo
server 192.0.2.100:7
lasting 2 0
client 1 192.0.2.1:40000 1000 -
client 2 192.0.2.1:40000 9000 -
"""

EVENTS = """boot 1 5000
deliver 1
deliver 2
open 1 65535
deliver 3
deliver 4
deliver 5
deliver 6
ack 1 65535
deliver 7
fin 1
deliver 8
deliver 10
deliver 12
deliver 11
deliver 14
deliver 15
ack 1 65535
deliver 16
deliver 17
deliver 18
tick
tick
tick
tick
deliver 19
deliver 20
tick
tick
deliver 21
deliver 16
open 2 65535
deliver 23
deliver 22
deliver 23
deliver 24
deliver 25
""".splitlines()

# What the run sends from the entry's end on, and how it ends.
ENDING = """event 26 deliver 19
packet 20 L>S Ended boot 1 key 192.0.2.1:40000
event 27 deliver 20
event 28 tick
event 29 tick
packet 21 S>L Forget boot 1 key 192.0.2.1:40000 cisn 1000 sisn 5000
event 30 deliver 21
packet 22 L>S Forgotten boot 1 key 192.0.2.1:40000 cisn 1000 sisn 5000
event 31 deliver 16
event 32 open 2 65535
packet 23 2>S S seq 9000 ack 0 window 65535 mss - data -
event 33 deliver 23
event 34 deliver 22
event 35 deliver 23
packet 24 S>L Open boot 1 key 192.0.2.1:40000 cisn 9000 sisn 70536 mss 536
event 36 deliver 24
packet 25 L>S Opened boot 1 key 192.0.2.1:40000 cisn 9000 sisn 70536 mss 536
event 37 deliver 25
packet 26 S>2 AS seq 70536 ack 9001 window 65535 mss 1460 data -
client 1 ended accepted 0 -
client 2 opening accepted 0 -
gone 192.0.2.1:40000 length 0 fin 1 acked 1 done 1 reads 0
log 192.0.2.1:40000 length 0 fin 0 acked 0 done 0 reads -
end 37""".splitlines()


GONE = "gone 192.0.2.1:40000 length 0 fin 1 acked 1 done 1 reads 0"


def schedule(*events):
    return HEAD + "\n".join(events) + "\n"


def settled(events):
    """The report of these events and of 30 rounds more: all that the last event and the rounds have sent is delivered, in order, or else a tick passes."""
    before = packets_of(lasting_model.play(schedule(*events[:-1]))[0])
    for _ in range(30):
        report, why = lasting_model.play(schedule(*events))
        assert why is None, why
        now = packets_of(report)
        events = events + ([f"deliver {number}" for number in range(before + 1, now + 1)] or ["tick"])
        before = now
    return report


def packets_of(report):
    return sum(line.startswith("packet ") for line in report)


class Worked(unittest.TestCase):
    def test_report(self):
        report, why = lasting_model.play(schedule(*EVENTS))
        self.assertIsNone(why)
        self.assertEqual(report[-len(ENDING) :], ENDING)

    def test_moves(self):
        """A client that is gone makes no move, and the next at its address none before."""
        gone = "event 31: state"
        for count, move, why in (3, "open 2 65535", "event 4: state"), (30, "open 1 65535", gone), (30, "ack 1 65535", gone), (30, "open 2 9", None):
            with self.subTest(count=count, move=move):
                self.assertEqual(lasting_model.play(schedule(*EVENTS[:count], move))[1], why)

    def test_crashes(self):
        """Wherever the server crashes once the entry is done, the entry is recycled exactly once, by then or by the next incarnation."""
        for count in range(26, len(EVENTS) + 1):
            with self.subTest(count=count):
                report = settled([*EVENTS[:count], "crash", "boot 2 900000"])
                self.assertEqual([line for line in report if line.startswith("gone")], [GONE])


class Lines(unittest.TestCase):
    def test_refused(self):
        """The line stands behind the server's or its profile's, alone; with it a client's address may come again with another number, but not the server's."""
        server, client = "service echo\nserver 192.0.2.100:7\n", "client 1 192.0.2.1:40000 1000 -\n"
        for text, why in (
            (f"{server}lasting 0 0\n", "line 3: number"),
            (f"{server}lasting 100001 0\n", "line 3: number"),
            (f"{server}lasting 1 100001\n", "line 3: number"),
            (f"{server}lasting 1\n", "line 3: count"),
            ("service echo\nlasting 1 0\n", "line 2: place"),
            (f"{server}lasting 1 0\nlasting 1 0\n", "line 4: place"),
            (f"{server}lasting 1 0\ntwin\n", "line 4: place"),
            (f"{server}marks 4\nlasting 1 0\n", "line 4: place"),
            (f"{server}lasting 1 0\nprofile wan\n", "line 4: place"),
            (f"{server}boot 1 5000\nlasting 1 0\n", "line 4: place"),
            (f"{server}{client}{client.replace('client 1', 'client 2')}", "line 4: address"),
            (f"{server}lasting 1 0\nclient 1 192.0.2.100:7 1000 -\n", "line 4: address"),
            (f"{server}lasting 1 0\n{client}{client.replace('client 1', 'client 2')}", "line 5: address"),
        ):
            with self.subTest(text=text), self.assertRaises(Refused) as refused:
                read_schedule(text)
            self.assertEqual(str(refused.exception), why)

    def test_accepted(self):
        self.assertEqual(read_schedule(HEAD).lasting, (2, 0))
        self.assertEqual(read_schedule("service echo\nserver 192.0.2.100:7\nprofile wan\nlasting 100000 100000\n").lasting, (100_000, 100_000))


class Server(lasting_model.Server):
    """A wrong server, which takes a Forgotten of any connection at that address for that of its own."""

    def on_message(self, came):
        rest = self.rests.get(came.named.key) if isinstance(came, lasting_model.Forget) else None
        return super().on_message(came._replace(named=rest.named) if rest else came)


class World(lasting_model.World):
    """A wrong network, in which nothing is lost when an entry is recycled."""

    def step(self, verb, words):
        sent = super().step(verb, words)
        self.lost.clear()
        return sent


class Drawn(unittest.TestCase):
    def test_masked(self):
        for seed in range(1, 21):
            with self.subTest(seed=seed):
                lasting_runs.drawn(seed)

    def test_wrong(self):
        """Drawn runs find a wrong server, and that crashes aren't masked over a network that keeps what is old."""
        for name, wrong, seed, why in ("Server", Server, 9, "it has no end"), ("World", World, 30, "is told of units that aren't logged"):
            with self.subTest(name=name), mock.patch.object(lasting_model, name, wrong), self.assertRaisesRegex(AssertionError, why):
                lasting_runs.drawn(seed)


if __name__ == "__main__":
    unittest.main()
