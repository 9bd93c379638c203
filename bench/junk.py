#!/usr/bin/env python3
"""Packets for bench/gateway_faults.sh from a raw socket; it needs root.

    junk.py junk SERVER OTHER COUNT     random packets to SERVER: UDP with a TCP packet of the address OTHER in it, IPv4 options, fragments, other protocols, TCP of
                                        random bytes, and TCP with random fields. It prints how many of each it sent
    junk.py syn SERVER COUNT SECONDS    SYNs of random addresses, with right checksums, spread over so many seconds
"""
import collections
import pathlib
import random
import socket
import struct
import sys
import time

sys.path.insert(0, str(pathlib.Path(__file__).parent.parent / "tools"))
from internet import SYN, address, segment  # noqa: E402

OPTIONS, MORE, WHOLE = b"\x01\x01\x01\x00", 0x2000, 0x4000
KINDS = ("udp", "options", "fragment", "other", "bytes", "fields")


def own_address(server):
    with socket.socket(socket.AF_INET, socket.SOCK_DGRAM) as link:
        link.connect(server)
        return socket.inet_aton(link.getsockname()[0])


def header(source, destination, protocol, options=b"", place=WHOLE):
    """An IPv4 header, whose length and checksum the kernel fills in."""
    return struct.pack(">BBHHHBBH", 0x45 + len(options) // 4, 0, 0, 0, place, 64, protocol, 0) + source + destination + options


def drawn(rng, kind, source, other, server):
    """A packet of this kind."""
    destination, body = server[0], rng.randbytes(rng.randrange(20, 1400))
    if kind == "udp":
        inner = segment((other, rng.randrange(1, 65536)), server, rng.getrandbits(32), 0, SYN)
        return header(source, destination, 17) + struct.pack(">HHHH", rng.randrange(1, 65536), server[1], 8 + len(inner), 0) + inner
    if kind == "options":
        return header(source, destination, 6, OPTIONS) + body
    if kind == "fragment":
        return header(source, destination, 6, place=rng.choice([MORE, rng.randrange(1, 0x1FFF)])) + body
    if kind == "other":
        return header(source, destination, rng.choice([1, 2, 47, 132])) + body
    if kind == "fields":
        body = struct.pack(">HH", rng.randrange(1, 65536), server[1]) + body[4:12] + bytes([0x50, rng.randrange(64)]) + body[14:]
    return header(source, destination, 6) + body


def junk(link, server, other, count):
    rng, sent = random.Random(1), collections.Counter()
    source = own_address((socket.inet_ntoa(server[0]), server[1]))
    for number in range(count):
        kind = rng.choice(KINDS)
        link.sendto(drawn(rng, kind, source, other, server), (socket.inet_ntoa(server[0]), 0))
        sent[kind] += 1
        if number % 100 == 99:
            time.sleep(0.01)  # so that no queue is full
    print(*(f"{kind} {sent[kind]}" for kind in KINDS))


def syn(link, server, count, seconds):
    rng, begun = random.Random(2), time.monotonic()
    for number in range(count):
        source = bytes([rng.randrange(1, 10), *rng.randbytes(2), rng.randrange(1, 255)]), rng.randrange(1, 65536)
        link.sendto(segment(source, server, rng.getrandbits(32), 0, SYN), (socket.inet_ntoa(server[0]), 0))
        if number % 100 == 99:
            time.sleep(max(0, begun + seconds * number / count - time.monotonic()))
    print(count)


def main():
    verb, server, *words = sys.argv[1:]
    with socket.socket(socket.AF_INET, socket.SOCK_RAW, socket.IPPROTO_RAW) as link:
        if verb == "junk":
            junk(link, address(server), socket.inet_aton(words[0]), int(words[1]))
        else:
            syn(link, address(server), int(words[0]), float(words[1]))


if __name__ == "__main__":
    main()
