#!/usr/bin/env python3
"""Forwards the packets of unchanged TCP clients to and from `ftnode`, which sends and receives TCP packets inside UDP datagrams.

    tools/bridge.py --client 10.77.0.1 --server 10.77.0.2:7 [--node ADDRESS] [--local IP] [--loss PERCENT] [--seed N]
                    [--idle SECONDS] [--device NAME] [--netns NAME]

It makes a TUN device with the client's address, and routes the server's address into it. It reads from the device each packet that the kernel's TCP sends to the
server, and sends it to the node in one datagram, from the client's own address and port. A datagram that arrives at this address and port contains a packet, which
is written into the device. So any program that opens a connection to the server's address can be the client, unchanged.

--node is the address at which the node's server listens, if that isn't the server's address, and --local the address of this machine from which the datagrams
are sent, if that isn't the client's; then addresses are rewritten, and the checksums change by what changes (RFC 1624), so a damaged packet stays damaged. --netns
moves the device into a network namespace, so that clients in it reach the server while node and bridge are outside. --loss drops packets in both directions, chosen
by the seed. The socket of a client's port is closed once it has been idle for --idle seconds (3600); the client's next packet opens another.

If the device goes down or is removed, the bridge waits, makes it again once it can, and gives it its address and route.

It needs Linux, root, /dev/net/tun and only Python's standard library. It is outside the proofs: nothing about it is proved.
"""
import argparse
import contextlib
import errno
import os
import random
import resource
import selectors
import signal
import socket
import struct
import subprocess
import sys
import time

import tun
from internet import address, between

LONGEST = 1500
TCP = 6
TENDED = 1  # seconds between two looks at sockets and device


def host(text):
    try:
        return socket.inet_aton(text)
    except OSError:
        raise argparse.ArgumentTypeError(f"{text} is no address") from None


def percent(text):
    share = float(text)
    if not 0 <= share < 100:
        raise argparse.ArgumentTypeError("a loss is from 0 to below 100 percent")
    return share


def is_tcp(packet):
    """Whether some bytes are a whole TCP packet in IPv4 without IP options, as the node reads them."""
    return 40 <= len(packet) <= LONGEST and packet[0] == 0x45 and packet[9] == TCP and struct.unpack(">H", packet[2:4])[0] == len(packet)


def ends(packet):
    """Source and destination, each an address and a port."""
    ports = struct.unpack(">HH", packet[20:24])
    return (packet[12:16], ports[0]), (packet[16:20], ports[1])


def run_ip(*words):
    """Runs `ip` with these words; what it complains of is an error."""
    done = subprocess.run(["ip", *words], capture_output=True, text=True, check=False)
    if done.returncode:
        raise OSError(f"ip {' '.join(words)}: {done.stderr.strip()}")


def set_route(words):
    """Routes the server's address into the device, in the namespace in which this is called."""
    run_ip("route", "replace", f"{socket.inet_ntoa(words.server[0])}/32", "dev", words.device, "src", socket.inet_ntoa(words.client))


def is_routed(words):
    """Whether the server's address is routed into the device, in the namespace in which this is called."""
    destination = f"{int.from_bytes(words.server[0], sys.byteorder):08X}"
    with open("/proc/self/net/route", encoding="ascii") as table:
        return any(line.split()[:2] == [words.device, destination] for line in table)


def make_device(words):
    """A device with its address and route, in its namespace."""
    device = tun.attach(words.device)
    try:
        if words.netns:
            run_ip("link", "set", words.device, "netns", words.netns)
        with tun.inside(words.netns):
            run_ip("addr", "replace", f"{socket.inet_ntoa(words.client)}/32", "dev", words.device)
            run_ip("link", "set", words.device, "mtu", str(LONGEST), "up")
            set_route(words)
    except OSError:
        os.close(device)
        raise
    return device


class Sockets:
    """A UDP socket for each of the client's ports, until it has been idle for some time."""

    def __init__(self, local, idle, selector, take):
        self.local, self.idle, self.selector, self.take = socket.inet_ntoa(local), idle, selector, take
        self.links, self.used = {}, {}

    def of(self, port):
        """The socket that stands for a port. It has been used now."""
        self.used[port] = time.monotonic()
        if port not in self.links:
            self.links[port] = self.bound(port)
            self.selector.register(self.links[port], selectors.EVENT_READ, lambda: self.take(port))
        return self.links[port]

    def bound(self, port):
        """A new socket. If there is no descriptor left, that of the port which has been idle longest is closed."""
        try:
            link = socket.socket(socket.AF_INET, socket.SOCK_DGRAM)
        except OSError as why:
            if why.errno not in (errno.EMFILE, errno.ENFILE) or not self.links:
                raise
            self.close(min(self.links, key=self.used.get))
            link = socket.socket(socket.AF_INET, socket.SOCK_DGRAM)
        try:
            link.setblocking(False)
            link.bind((self.local, port))
        except OSError:
            link.close()
            raise
        return link

    def close(self, port):
        self.selector.unregister(self.links[port])
        self.links.pop(port).close()
        del self.used[port]

    def close_idle(self):
        last = time.monotonic() - self.idle
        for port in [port for port in self.links if self.used[port] < last]:
            self.close(port)


class Bridge:
    """The device, the sockets, and the counts. A device that goes away is waited for."""

    def __init__(self, words, device):
        self.words, self.device = words, device
        self.random = random.Random(words.seed)
        self.selector = selectors.DefaultSelector()
        self.selector.register(device, selectors.EVENT_READ, self.from_client)
        self.sockets = Sockets(words.local, words.idle, self.selector, self.to_client)
        self.sent = self.back = self.lost = self.other = 0

    def is_lost(self):
        lost = self.random.random() * 100 < self.words.loss
        self.lost += lost
        return lost

    def from_client(self):
        """A packet from the device: to the node."""
        try:
            packet = os.read(self.device, 65536)
        except BlockingIOError:
            return
        except OSError:
            self.lose_device()
            return
        if not is_tcp(packet) or ends(packet)[1] != self.words.server or ends(packet)[0][0] != self.words.client:
            self.other += 1
            return
        if not self.is_lost():
            self.send(ends(packet)[0][1], packet)

    def send(self, port, packet):
        node = self.words.node
        try:
            self.sockets.of(port).sendto(between(packet, (self.words.local, port), node), (socket.inet_ntoa(node[0]), node[1]))
            self.sent += 1
        except OSError:
            self.lost += 1

    def to_client(self, port):
        """A datagram from the node: its packet, into the device."""
        try:
            packet, _ = self.sockets.of(port).recvfrom(65536)
        except OSError:
            return  # the node is away, and the kernel says so: as good as silence
        if not is_tcp(packet) or ends(packet) != (self.words.node, (self.words.local, port)):
            self.other += 1
        elif not self.is_lost():
            self.put(between(packet, self.words.server, (self.words.client, port)))

    def put(self, packet):
        """Writes a packet into the device. One that is down, or gone, loses it."""
        with contextlib.suppress(OSError):
            if self.device is not None:
                os.write(self.device, packet)
                self.back += 1
                return
        self.lost += 1

    def lose_device(self):
        self.selector.unregister(self.device)
        os.close(self.device)
        self.device = None

    def tend(self):
        """Closes idle sockets, makes a device anew that is gone, and gives one its route back that was down."""
        self.sockets.close_idle()
        with contextlib.suppress(OSError):
            if self.device is None:
                self.device = make_device(self.words)
                self.selector.register(self.device, selectors.EVENT_READ, self.from_client)
            else:
                with tun.inside(self.words.netns):
                    if tun.is_up(self.words.device) and not is_routed(self.words):
                        set_route(self.words)

    def run(self):
        due = time.monotonic() + TENDED
        while True:
            for key, _ in self.selector.select(max(0, due - time.monotonic())):
                key.data()
            if time.monotonic() >= due:
                self.tend()
                due = time.monotonic() + TENDED

    def counts(self):
        return f"bridge: to the node {self.sent}, to clients {self.back}, lost {self.lost}, passed over {self.other}"


def words_of(given=None):
    parser = argparse.ArgumentParser(description=__doc__, formatter_class=argparse.RawDescriptionHelpFormatter)
    parser.add_argument("--client", type=host, required=True, metavar="IP", help="the device's own address, from which clients connect")
    parser.add_argument("--server", type=address, required=True, metavar="ADDRESS", help="where clients connect to")
    parser.add_argument("--node", type=address, metavar="ADDRESS", help="where the node's server listens; else the server's address")
    parser.add_argument("--local", type=host, metavar="IP", help="this machine's address towards the node; else the client's")
    parser.add_argument("--loss", type=percent, default=0.0, metavar="PERCENT")
    parser.add_argument("--seed", type=int, default=1, metavar="N")
    parser.add_argument("--idle", type=float, default=3600.0, metavar="SECONDS", help="after which the socket of a client's port is closed")
    parser.add_argument("--device", default="ftnode0", metavar="NAME")
    parser.add_argument("--netns", metavar="NAME", help="the network namespace of the clients")
    words = parser.parse_args(given)
    words.node, words.local = words.node or words.server, words.local or words.client
    return words


def stop(*_):
    raise KeyboardInterrupt


def main():
    if not sys.platform.startswith("linux") or os.geteuid() != 0:
        sys.exit("bridge: it needs Linux and root")
    words = words_of()
    signal.signal(signal.SIGTERM, stop)
    most = resource.getrlimit(resource.RLIMIT_NOFILE)[1]
    resource.setrlimit(resource.RLIMIT_NOFILE, (most, most))
    try:
        bridge = Bridge(words, make_device(words))
    except OSError as why:
        sys.exit(f"bridge: {why}")
    try:
        print("bridge: up", flush=True)
        bridge.run()
    except KeyboardInterrupt:
        print(bridge.counts(), flush=True)


if __name__ == "__main__":
    main()
