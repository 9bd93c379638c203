#!/usr/bin/env python3
"""How long clients of the kernel take to upload to `ftnode` over paths with loss, beside two sockets of the kernel (see bench/wan.py for the ways).

    bench/uploads.py PROGRAM [--count N] [--size BYTES] [--paths MS:PERCENT..] [--ways WAY..] [--journal] [--patience SECONDS]

On each path each way makes as many uploads, one after another, with the seeds 1, 2, ..; a delay is that of a round trip. An upload is done when the peer has
acknowledged all its bytes: `ftnode` when they are logged. A line for each says how long it took, and the largest smoothed round trip and timeout that the client's
TCP had meanwhile (TCP_INFO). At the end come the medians by path, and the goals: all done, at most four times the time of two sockets without window scaling,
selective acknowledgements and timestamps, and every smoothed round trip below a second. `--journal` gives the logger a journal.

All is done in network namespaces that it makes and removes, so it needs Linux, root and TUN devices.
"""
import argparse
import collections
import fcntl
import os
import pathlib
import select
import signal
import socket
import statistics
import struct
import subprocess
import sys
import tempfile
import termios
import time

import wan
from wan import HERE, SERVER_IP, SERVICE_PORT, choose, tun

WAYS = ["reno-to-wan", "bbr-to-wan", "kernel-reno-bare", "kernel-bbr-bare"]
TIMEOUT_AT, ROUND_TRIP_AT = 8, 68  # of tcpi_rto and tcpi_rtt in struct tcp_info, both in microseconds
PIECE = 65536

Upload = collections.namedtuple("Upload", "done seconds round_trip timeout")


def longest_of(link):
    """The smoothed round trip and the timeout of a socket, in seconds."""
    info = link.getsockopt(socket.IPPROTO_TCP, socket.TCP_INFO, 104)
    return [struct.unpack_from("=I", info, at)[0] / 1e6 for at in (ROUND_TRIP_AT, TIMEOUT_AT)]


def unacknowledged(link):
    """How many bytes of a socket aren't acknowledged yet."""
    return struct.unpack("=i", fcntl.ioctl(link, termios.TIOCOUTQ, b"\0" * 4))[0]


class Transfer(wan.Transfer):
    """One upload to the service Meter, or to a socket that discards."""

    def __init__(self, words, loss, delay, seed):
        super().__init__(words, "echo", loss, delay, seed)
        self.service, self.longest = "meter", [0.0, 0.0]

    def by_kernel(self, control, options):
        self.service = "discard"
        return super().by_kernel(control, options)

    def by_socket(self, control, relay):
        begun = time.monotonic()
        with tun.inside(HERE), socket.socket() as link:
            choose(link, control)
            link.settimeout(self.words.patience)
            link.connect((SERVER_IP, SERVICE_PORT))
            acknowledged = self.send(link, begun + self.words.patience)
            return self.wanted[:acknowledged], time.monotonic() - begun, relay

    def send(self, link, until):
        """Sends all, takes what comes back, and waits for the acknowledgements. Returns how many bytes are acknowledged."""
        sent, left = 0, len(self.wanted)
        link.setblocking(False)
        while (sent < len(self.wanted) or left) and time.monotonic() < until:
            came, free, _ = select.select([link], [link] if sent < len(self.wanted) else [], [], 0.02)
            if came:
                link.recv(PIECE)
            if free:
                sent += link.send(self.wanted[sent : sent + PIECE])
            left = unacknowledged(link)
            self.longest = [max(pair) for pair in zip(self.longest, longest_of(link))]
        return sent - left

    def upload(self, way, folder):
        if self.words.journal:
            self.kept = ["--journal", str(pathlib.Path(folder, f"journal.{time.monotonic_ns()}")), "--begin", "yes"]
        came, seconds, _ = self.go(way)
        return Upload(came == self.words.size, seconds, *self.longest)


def goals(path, ways):
    """What is missed of the goals by the uploads of one path, by way."""
    medians = {way: statistics.median(it.seconds for it in all_of) for way, all_of in ways.items()}
    for way, all_of in ways.items():
        if way.startswith("kernel"):
            continue
        done = sum(it.done for it in all_of)
        longest = max(it.round_trip for it in all_of)
        other = f"kernel-{way.split('-')[0]}-bare"
        ratio = medians[way] / medians[other] if other in medians else float("nan")
        yield (f"{path}, {way}: {done} of {len(all_of)} done, median {ratio:.2f} times {other}'s, longest smoothed round trip {longest:.2f} s, longest timeout "
               f"{max(it.timeout for it in all_of):.1f} s: {'met' if done == len(all_of) and ratio <= 4 and longest < 1 else 'missed'}")


def run(words):
    all_of = collections.defaultdict(lambda: collections.defaultdict(list))
    wan.make_spaces()
    try:
        with tempfile.TemporaryDirectory() as folder:
            for delay, loss in words.paths:
                for seed in range(1, words.count + 1):
                    for way in words.ways:
                        it = Transfer(words, loss, delay, seed).upload(way, folder)
                        all_of[f"{delay} ms, {loss:g} %"][way].append(it)
                        print(f"upload {delay} ms {loss:g} % seed {seed} {way}: {'done' if it.done else 'NOT DONE'} in {it.seconds:.3f} s; smoothed round trip "
                              f"{it.round_trip:.3f} s, timeout {it.timeout:.3f} s at most", flush=True)
    finally:
        for space in wan.HOME, HERE, wan.THERE:
            subprocess.run(["ip", "netns", "del", space], check=False)
    print(f"\nseconds, medians of {words.count} uploads of {words.size} bytes\n\n| | {' | '.join(words.ways)} |\n|---|{'---|' * len(words.ways)}")
    for path, ways in all_of.items():
        print(f"| {path} | {' | '.join(f'{statistics.median(it.seconds for it in ways[way]):.2f}' for way in words.ways)} |")
    print()
    for path, ways in all_of.items():
        print(*goals(path, ways), sep="\n")


def path_of(text):
    delay, loss = text.split(":")
    return int(delay), float(loss)


def main():
    parser = argparse.ArgumentParser(description=__doc__, formatter_class=argparse.RawDescriptionHelpFormatter)
    parser.add_argument("program", type=lambda text: str(pathlib.Path(text).resolve()), help="a built ftnode")
    parser.add_argument("--count", type=int, default=16)
    parser.add_argument("--size", type=int, default=500000)
    parser.add_argument("--paths", type=path_of, nargs="+", default=[(0, 5.0), (0, 3.0), (0, 1.0), (8, 3.0)])
    parser.add_argument("--ways", nargs="+", default=WAYS, choices=WAYS + ["reno-to-plain", "bbr-to-plain"])
    parser.add_argument("--journal", action="store_true")
    parser.add_argument("--patience", type=float, default=60, help="seconds")
    words = parser.parse_args()
    if not sys.platform.startswith("linux") or os.geteuid() != 0:
        sys.exit("uploads: it needs Linux and root")
    signal.signal(signal.SIGTERM, lambda *_: sys.exit("uploads: ended"))
    try:
        return run(words)
    except OSError as why:
        sys.exit(f"uploads: {why}")


if __name__ == "__main__":
    main()
