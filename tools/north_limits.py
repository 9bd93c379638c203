#!/usr/bin/env python3
"""The lines of the part `connection` of `node_cases` about the two limits on a service's output, by the connection of tools/model.py: how many reads are made.

    tools/north_limits.py   prints them
"""
from loggers import Message
from model import Connection, Segment


def asks(size, count):
    """`count` requests to Transfer for `size` bytes each."""
    return size.to_bytes(4, "big") * count


class Case:
    """A connection with Transfer, whose client says what it is told to, and whose logger logs all."""

    def __init__(self):
        self.connection = Connection("192.0.2.1:40000", 1000, 5000, 536, "transfer")
        self.connection.turn("start")

    def say(self, text, acked):
        taken = self.connection.taken()
        self.connection.turn("segment", Segment("A", 1001 + taken, (5001 + acked) % 2**32, 65535, None, text))

    def turn(self, text, acked):
        """A segment of the client, and the logger's answers. How many reads there are."""
        self.say(text, acked)
        for name in ("Stable", "Reads"):
            said = {"length": self.connection.taken(), "fin": 0, "reads": len(self.connection.lengths)}
            self.connection.turn("logged", Message(name, 1, said))
        return len(self.connection.lengths)

    def acknowledge_all(self):
        while self.connection.una < self.connection.sent:
            self.say(b"", self.connection.sent)


def far():
    """The client acknowledges nothing: 65,504 bytes are made, 65,535, 65,536; then it acknowledges one."""
    case = Case()
    for _ in range(31):
        case.turn(asks(2047, 1), 0)
    return [case.turn(asks(2047, 1), 0), case.turn(asks(31, 1), 0), case.turn(asks(1, 1), 0), case.turn(asks(1, 1), 0), case.turn(b"", 1)]


def much():
    """The client acknowledges all: 15,728,640 bytes are made, and one more."""
    case, reads = Case(), []
    for text in [*[asks(2047, 365)] * 21, *[asks(2047, 1)] * 18, asks(1539, 1), asks(1, 1), asks(1, 1)]:
        reads.append(case.turn(text, case.connection.sent))
        case.acknowledge_all()
    assert len(case.connection.output) == 15_728_641 == case.connection.una
    return reads[-3:]


def main():
    a, b, c, d, e = far()
    print(f"nothing acknowledged: {a} {b} {c} {d} reads, and {e} with one byte acknowledged")
    a, b, c = much()
    print(f"15728640 bytes made: {a} reads, {b} with one request more, {c} with two")


if __name__ == "__main__":
    main()
