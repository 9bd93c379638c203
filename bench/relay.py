#!/usr/bin/env python3
"""A path with losses and delay between two ends: relay.py LISTEN TARGET LOSS DELAY_MS SEED [SWAPPED [FLIPPED]]

LOSS, SWAPPED and FLIPPED are percents of the packets, in each direction: a lost one doesn't arrive, a swapped one arrives DELAY_MS and 2 ms after it was sent, so
after later ones, and a flipped one has one bit changed. SEED determines which ones these are. LISTEN and TARGET are one of these two:

    ADDRESS:PORT ADDRESS:PORT   datagrams of `ftnode`: its client sends to LISTEN instead of the server at TARGET. Their packets contain the addresses of both ends,
                                so addresses, ports and checksums are changed in them, as in network address translation
    tun:NAME tun:NAME           packets between two TUN devices, which it makes, for sockets of the kernel in two network namespaces; it needs root

It prints `up` once it listens, runs until SIGTERM, and then prints how many packets arrived, were lost, were swapped and were flipped; how many had text that
had been sent before, and how many were acknowledgements that repeat the last one.
"""
import fcntl
import heapq
import os
import pathlib
import random
import selectors
import signal
import socket
import struct
import sys
import time

sys.path.insert(0, str(pathlib.Path(__file__).parent.parent / "tools"))
from internet import ACK, between  # noqa: E402

SET_DEVICE, TUN, NO_HEADER = 0x400454CA, 0x0001, 0x1000  # TUNSETIFF, IFF_TUN, IFF_NO_PI
BEHIND = 0.002  # seconds that a swapped packet is late


def translated(packet, source, target):
    """The packet between other ends; without a TCP header in IPv4 of 20 bytes it stays."""
    return between(packet, source, target) if is_tcp(packet) else packet


def is_tcp(packet):
    return len(packet) >= 40 and packet[0] == 0x45 and packet[9] == 6


class Said:
    """What one end has said of a connection, and how often it said it again."""

    def __init__(self):
        self.end = self.told = None  # the end of its text so far, and its last acknowledgement with its window

    def again(self, packet):
        """Whether a packet has only text that was sent before, and whether it is nothing but an acknowledgement that repeats the last one."""
        seq, ack = struct.unpack(">II", packet[24:32])
        length = struct.unpack(">H", packet[2:4])[0] - 20 - 4 * (packet[32] >> 4)
        told, end = (ack, packet[34:36]), seq + length
        is_known = self.end is not None and length > 0 and (self.end - end) % 2**32 < 2**31
        is_repeated = length == 0 and packet[33] == ACK and told == self.told
        self.end, self.told = self.end if is_known else end, told
        return is_known, is_repeated


class Way:
    """What is under way, by the time at which it comes."""

    def __init__(self, loss, delay, seed, swapped=0.0, flipped=0.0):
        self.dice, self.loss, self.delay, self.swapped, self.flipped = random.Random(seed), loss, delay, swapped, flipped
        self.waiting, self.count, self.lost, self.late, self.damaged = [], 0, 0, 0, 0
        self.said, self.known, self.repeated = {}, 0, 0

    def note(self, packet):
        """Counts what is said again, by the ends that a packet names."""
        if is_tcp(packet):
            is_known, is_repeated = self.said.setdefault(packet[12:24], Said()).again(packet)
            self.known += is_known
            self.repeated += is_repeated

    def damage(self, packet):
        """The packet, or one with a flipped bit in its place."""
        if not self.flipped or self.dice.random() * 100 >= self.flipped:
            return packet
        self.damaged += 1
        at = self.dice.randrange(8 * len(packet))
        return packet[:at // 8] + bytes([packet[at // 8] ^ 1 << at % 8]) + packet[at // 8 + 1:]

    def take(self, deliver):
        """A packet is sent: `deliver` is called when it comes."""
        self.count += 1
        is_lost, is_late = (self.dice.random() * 100 < share for share in (self.loss, self.swapped))
        self.lost += is_lost
        self.late += is_late and not is_lost
        if not is_lost:
            heapq.heappush(self.waiting, (time.monotonic() + self.delay + is_late * BEHIND, self.count, deliver))

    def give(self):
        """Delivers what has come by now, and answers how long the next one takes."""
        while self.waiting and self.waiting[0][0] <= time.monotonic():
            try:
                heapq.heappop(self.waiting)[2]()
            except OSError:
                self.lost += 1  # its receiver is away
        return max(0, self.waiting[0][0] - time.monotonic()) if self.waiting else None


class Datagrams:
    """Clients that speak to one address, and a socket towards the target for each of them."""

    def __init__(self, listen, target, way, selector):
        self.way, self.selector, self.target, self.clients = way, selector, target, {}
        self.front = bound(listen)
        selector.register(self.front, selectors.EVENT_READ, self.from_client)

    def from_client(self):
        data, client = self.front.recvfrom(65536)
        self.way.note(data)
        data = self.way.damage(data)
        if client not in self.clients:
            self.clients[client] = bound((self.front.getsockname()[0], 0))
            self.selector.register(self.clients[client], selectors.EVENT_READ, lambda: self.to_client(client))
        back = self.clients[client]
        data = translated(data, packed(back.getsockname()), packed(self.target))
        self.way.take(lambda: back.sendto(data, self.target))

    def to_client(self, client):
        data, _ = self.clients[client].recvfrom(65536)
        self.way.note(data)
        data = self.way.damage(data)
        data = translated(data, packed(self.front.getsockname()), packed(client))
        self.way.take(lambda: self.front.sendto(data, client))


class Devices:
    """Two devices, and what is written to one comes from the other."""

    def __init__(self, one, other, way, selector):
        self.way, devices = way, [device(one), device(other)]
        for came, goes in (devices, devices[::-1]):
            selector.register(came, selectors.EVENT_READ, lambda came=came, goes=goes: self.pass_on(came, goes))

    def pass_on(self, came, goes):
        packet = os.read(came, 65536)
        self.way.note(packet)
        packet = self.way.damage(packet)
        self.way.take(lambda: os.write(goes, packet))


def bound(at):
    link = socket.socket(socket.AF_INET, socket.SOCK_DGRAM)
    link.setsockopt(socket.SOL_SOCKET, socket.SO_RCVBUF, 1 << 22)
    link.bind(at)
    return link


def packed(address):
    return socket.inet_aton(address[0]), address[1]


def device(name):
    it = os.open("/dev/net/tun", os.O_RDWR)
    fcntl.ioctl(it, SET_DEVICE, struct.pack("16sH22s", name.encode(), TUN | NO_HEADER, b""))
    return it


def end_of(word):
    host, _, port = word.partition(":")
    return host, port if host == "tun" else int(port)


def stop(*_):
    raise KeyboardInterrupt


def main():
    if not 6 <= len(sys.argv) <= 8:
        sys.exit("relay.py LISTEN TARGET LOSS DELAY_MS SEED [SWAPPED [FLIPPED]]")
    (listen, target), (loss, delay, seed, *more) = map(end_of, sys.argv[1:3]), sys.argv[3:]
    way, selector = Way(float(loss), float(delay) / 1000, int(seed), *map(float, more)), selectors.DefaultSelector()
    signal.signal(signal.SIGTERM, stop)
    try:
        ends = Devices(listen[1], target[1], way, selector) if listen[0] == "tun" else Datagrams(listen, target, way, selector)
        print("up", flush=True)
        while ends:
            for key, _ in selector.select(way.give()):
                key.data()
    except OSError as why:
        sys.exit(f"relay: {why}")
    except KeyboardInterrupt:
        print(f"{way.count} packets, {way.lost} lost, {way.late} swapped, {way.damaged} flipped, {way.known} sent again, {way.repeated} repeated acknowledgements",
              flush=True)


if __name__ == "__main__":
    main()
