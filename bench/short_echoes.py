#!/usr/bin/env python3
"""Short connections one after another through a server that lasts, and one log: short_echoes.py [COUNT] [PROGRAM].

COUNT clients, each from a port of its own, open, send a line of 24 bytes, get it back, and close. The server gives a place back a tick after its connection is
done (`--forget 1`), and the logger recycles its entry. This prints how long a connection took among the first and the last thousand, and the resident memory of
server and logger after these. It fails where a line doesn't come back. Defaults: 10,000, and the program crates/ftnode/out/ftnode. The client is a few lines of
TCP of its own. It sends again what isn't answered within 50 milliseconds: a server that sends puts its next tick off, so a SYN that comes again sooner would
wait the longer for a place.
"""
import random
import socket
import statistics
import struct
import subprocess
import sys
import time

from lasting import ACK, HOST, LOGGER, PSH, SERVER, SYN, TOP, packet, resident

FIN, RST, FIRST_PORT, GROUP = 1, 4, 20000, 1000


class Client:
    """One client: its socket, and what it has sent and received."""

    def __init__(self, port, number):
        self.port, self.seq, self.ack, self.text, self.ended = port, number, None, b"", False
        self.link = socket.socket(socket.AF_INET, socket.SOCK_DGRAM)
        self.link.bind((HOST, port))
        self.link.settimeout(0.05)

    def receive(self, came):
        """Takes a segment at the next number."""
        seq, flags, text = struct.unpack_from("!I", came, 24)[0], came[33], came[20 + (came[32] >> 4) * 4 :]
        if flags & RST:
            raise ConnectionResetError(self.port)
        if self.ack is None and flags == SYN | ACK:
            self.ack = (seq + 1) % 2**32
        elif seq == self.ack:
            self.text, self.ended = self.text + text, self.ended or bool(flags & FIN)
            self.ack = (seq + len(text) + bool(flags & FIN)) % 2**32

    def send(self, flags, text=b""):
        self.link.sendto(packet(self.seq, self.ack or 0, flags, text, self.port), (HOST, SERVER))

    def ask(self, flags, text, is_answered):
        """Sends a segment until it is answered, at most for ten seconds."""
        end = time.monotonic() + 10
        while not is_answered():
            if time.monotonic() > end:
                raise TimeoutError(self.port)
            self.send(flags, text)
            try:
                while not is_answered():
                    self.receive(self.link.recv(2048))
            except socket.timeout:
                pass
        self.seq = (self.seq + len(text) + bool(flags & (SYN | FIN))) % 2**32

    def echo(self, line):
        """Opens, has the line echoed, closes, and says whether all came back."""
        with self.link:
            self.ask(SYN, b"", lambda: self.ack is not None)
            self.ask(ACK | PSH, line, lambda: len(self.text) >= len(line))
            self.ask(ACK | FIN, b"", lambda: self.ended)
            self.send(ACK)
        return self.text == line


def measured(count, processes):
    """Has so many lines echoed. Returns the time of each, and the memory of the processes after each thousand."""
    times, memory, numbers = [], [], random.Random(1)
    for number in range(count):
        began, line = time.perf_counter(), b"line %018d\n" % number
        if not Client(FIRST_PORT + number % 40000, numbers.getrandbits(32)).echo(line):
            raise ValueError(f"other bytes for client {number}")
        times.append(time.perf_counter() - began)
        if number % GROUP == GROUP - 1:
            memory.append([resident(process) for process in processes])
    return times, memory


def main():
    count = int(sys.argv[1]) if sys.argv[1:] else 10000
    program = sys.argv[2] if sys.argv[2:] else str(TOP / "crates/ftnode/out/ftnode")
    lasting = ["--turns", "1000000", "--times", "4000000000000"]
    logger = [program, "logger", "--local", f"{HOST}:{LOGGER}", *lasting, "--forget", "yes"]
    server = [program, "server", "--local", f"{HOST}:{SERVER}", "--logger", f"{HOST}:{LOGGER}", "--service", "echo", "--boot", "1", "--isn", "5000", *lasting]
    processes = [subprocess.Popen(words) for words in (logger, server + ["--forget", "1"])]
    try:
        times, memory = measured(count, processes)
    finally:
        for process in processes:
            process.kill()
            process.wait()
    first, last = (1000 * statistics.mean(part) for part in (times[:GROUP], times[-GROUP:]))
    medians = [1000 * statistics.median(part) for part in (times[:GROUP], times[-GROUP:])]
    print(f"{count} echoes: {first:.2f} ms each among the first {GROUP}, {last:.2f} ms among the last: {last / first:.2f} times")
    print(f"medians {medians[0]:.2f} and {medians[1]:.2f} ms: {medians[1] / medians[0]:.2f} times")
    print(f"memory after the first {GROUP} and at the end: logger {memory[0][0]} and {memory[-1][0]} kB, server {memory[0][1]} and {memory[-1][1]} kB")
    return 0


if __name__ == "__main__":
    sys.exit(main())
