#!/usr/bin/env python3
"""How many marks are made of a connection, and how much of it a log with marks has to keep, by the model in tools/model.py.

    tools/marks_kept.py [--every N] [--segments N]     N reads between two marks (4), and the segments that the client sends (600)

A client of Echo sends segments of 100 bytes. It sends the next one while fewer than so many of them are under way, which means that their echo hasn't come back.
It acknowledges each echo by a segment of its own, before it sends, or by the next segment with text, if it sends one then. A packet takes one step of time, and one
to or from the log takes one or five. Printed is a line for each: the reads, the marks, and the most bytes that the log keeps, of all that it was given.
"""
import argparse
from heapq import heappop, heappush

from loggers import Message
from model import Client, World

KEY, SERVER = "192.0.2.1:40000", "192.0.2.100:7"
SIZE, PAGE = 100, 4096


class Run:
    """A client that echoes its script, and the packets under way, each with the time at which it arrives."""

    def __init__(self, options, window, delay, with_text):
        self.window, self.delay, self.with_text = window * SIZE, delay, with_text
        self.client = Client(KEY, 1000, bytes(SIZE * options.segments))
        self.world = World("echo", SERVER, [self.client], marks=options.every)
        self.time, self.under_way, self.marks, self.kept = 0, [], set(), 0

    def happen(self, verb, *words):
        first = len(self.world.packets) + 1
        for number, (way, content) in enumerate(self.world.step(verb, list(words)), first):
            heappush(self.under_way, (self.time + (self.delay if "L" in way else 1), number))
            if isinstance(content, Message) and content.name == "Mark":
                self.marks.add(content.fields["reads"])

    def play(self):
        self.happen("boot", 1, 5000)
        self.arrive()
        self.happen("open", 1, 65535)
        self.arrive()
        assert len(self.client.accepted) == len(self.client.script)
        return self

    def arrive(self):
        """All that is under way arrives, and what follows from it."""
        while self.under_way:
            self.time, number = heappop(self.under_way)
            way, content = self.world.packets[number - 1]
            self.happen("deliver", number)
            self.kept = max(self.kept, self.kept_now())
            if way == "S>1" and (content.text or content.mss):
                self.answer()

    def may_send(self):
        return self.client.sent < min(len(self.client.script), len(self.client.accepted) + self.window)

    def answer(self):
        if not (self.with_text and self.may_send()):
            self.happen("ack", 1, 65535)
        while self.may_send():
            self.happen("send", 1, self.client.sent, SIZE)

    def kept_now(self):
        """What is past the whole pages below the mark."""
        entry = self.world.log.entries.get(KEY)
        return len(entry.data) - self.world.loggers.marked.mark(KEY).length // PAGE * PAGE if entry else 0

    def line(self):
        entry = self.world.log.entries[KEY]
        return f"{len(entry.lengths)} reads, {len(self.marks)} marks, at most {self.kept} bytes kept of {len(entry.data)}"


def main():
    parser = argparse.ArgumentParser(description=__doc__, formatter_class=argparse.RawDescriptionHelpFormatter)
    parser.add_argument("--every", type=int, default=4)
    parser.add_argument("--segments", type=int, default=600)
    options = parser.parse_args()
    for with_text in False, True:
        print(f"each echo is acknowledged by {'the next segment with text' if with_text else 'a segment of its own'}")
        for window in 1, 2, 4, 8:
            for delay in 1, 5:
                print(f"  {window} under way, the log {delay} away: {Run(options, window, delay, with_text).play().line()}")


if __name__ == "__main__":
    main()
