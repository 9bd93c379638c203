#!/usr/bin/env python3
"""The messages of a server to one logger or to two, over UDP, and how long their answers take: twin_messages.py LOCAL LOGGER [SECOND].

It says Hello, and then 1,000 times Open, one after the other: the median and the 99th of 100 of the time until Opened comes. Then it sends a burst of 64 Data
messages of 100 bytes, ten times: how many are answered, and until when. What goes to the logger goes next to the second, as a server sends it.
"""
import pathlib
import socket
import statistics
import sys
import time
from struct import pack

sys.path.insert(0, str(pathlib.Path(__file__).parent.parent / "tools"))

from twin_model import read_message, spelled  # noqa: E402

KEYS = [pack(">IH", 0xC0000201, 40000 + i) for i in range(64)]


def address(text):
    host, port = text.split(":")
    return host, int(port)


class Server:
    def __init__(self, local, loggers):
        self.socket, self.loggers = socket.socket(socket.AF_INET, socket.SOCK_DGRAM), loggers
        self.socket.bind(local)

    def send(self, kind, body):
        data = spelled(b"FT", kind, 1, body)
        for logger in self.loggers:
            self.socket.sendto(data, logger)

    def answer(self, timeout):
        """The next answer, or None."""
        self.socket.settimeout(timeout)
        try:
            return read_message(self.socket.recv(2048))
        except TimeoutError:
            return None

    def ask(self, kind, body, name, key):
        """How long an answer takes, in seconds. Where none comes within 20 ms, the message is sent again."""
        begun = time.perf_counter()
        for _ in range(500):
            self.send(kind, body)
            while (came := self.answer(0.02)) is not None:
                if came.name == name and came.fields.get("key", key) == key:
                    return time.perf_counter() - begun
        sys.exit(f"no {name} came")


def main():
    server = Server(address(sys.argv[1]), [address(text) for text in sys.argv[2:]])
    server.ask(1, b"", "Summary", 0)
    took = []
    for i in range(1000):
        key = KEYS[i % 64]
        took.append(server.ask(9, key + pack(">IIH", i % 64, 5000, 536), "Opened", int.from_bytes(key, "big")))
    took.sort()
    print(f"Open to Opened: median {statistics.median(took) * 1e6:.0f} us, 99th of 100 {took[989] * 1e6:.0f} us")
    answered, until = [], []
    for turn in range(10):
        while server.answer(0.05) is not None:
            pass
        begun = last = time.perf_counter()
        for key in KEYS:
            server.send(11, key + pack(">IIB", 100 * turn, 0, 0) + bytes(100))
        count = 0
        while count < 64 and server.answer(0.2) is not None:
            count, last = count + 1, time.perf_counter()
        answered.append(count)
        until.append(last - begun)
    print(f"bursts of 64: {min(answered)} to {max(answered)} answered, the last of them after {statistics.median(until) * 1e3:.1f} ms (median)")


main()
