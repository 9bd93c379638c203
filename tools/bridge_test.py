#!/usr/bin/env python3
"""Tests of tools/bridge.py: packets between other ends, right and damaged; sockets that are idle; and, as root, a device that goes away.

Run them: tools/bridge_test.py
"""
import os
import random
import resource
import socket
import subprocess
import time
import unittest

import tun
from bridge import Bridge, is_routed, make_device, words_of
from drawn_packets import drawn, drawn_end, ends_of, flipped, is_good, with_sums
from internet import between

CLIENT, SERVER = "10.77.0.1", "10.77.0.2:7"


def between_ends(packet, source, destination):
    """The packet between other ends, with both sums computed from all bytes."""
    ends = source[0] + destination[0] + source[1].to_bytes(2, "big") + destination[1].to_bytes(2, "big")
    return with_sums(packet[:12] + ends + packet[24:])


class Between(unittest.TestCase):
    def test_right_packets(self):
        """The sums are those that are computed from all bytes, and back between its own ends the packet is as it was."""
        rng = random.Random(1)
        for _ in range(5000):
            packet, source, destination = drawn(rng), drawn_end(rng), drawn_end(rng)
            other = between(packet, source, destination)
            self.assertEqual(other, between_ends(packet, source, destination))
            self.assertEqual(between(other, *ends_of(packet)), packet)

    def test_same_ends(self):
        rng = random.Random(2)
        for _ in range(500):
            packet = flipped(drawn(rng), rng.randrange(96, 320))
            self.assertEqual(between(packet, *ends_of(packet)), packet)

    def test_border_of_sums(self):
        """Also where a sum is the least or the greatest that there is."""
        rng = random.Random(3)
        seen = set()
        while len(seen) < 4:
            packet, source, destination = drawn(rng, 40), drawn_end(rng), drawn_end(rng)
            for last in range(65536):
                source = source[0], last
                other = with_sums(packet[:20] + last.to_bytes(2, "big") + packet[22:])
                if other[36:38] in (b"\0\0", b"\0\1", b"\xff\xfe", b"\xff\xfd"):
                    seen.add(other[36:38])
                    self.assertEqual(between(other, source, destination), between_ends(other, source, destination))
                    self.assertEqual(between(packet, ends_of(other)[0], ends_of(packet)[1]), other)
                if len(seen) == 4:
                    break

    def test_damaged_packets(self):
        """A packet with a flipped bit is one that is refused, between whatever ends it comes."""
        rng = random.Random(4)
        for _ in range(30):
            packet, source, destination = drawn(rng), drawn_end(rng), drawn_end(rng)
            for bit in [*range(320), *(rng.randrange(8 * len(packet)) for _ in range(100))]:
                damaged = flipped(packet, bit)
                self.assertFalse(is_good(damaged))
                self.assertFalse(is_good(between(damaged, source, destination)))


class Forwarding(unittest.TestCase):
    """The bridge with a socket in place of its device, and a socket on the loopback as the node."""

    def setUp(self):
        self.device, mine = socket.socketpair(socket.AF_UNIX, socket.SOCK_DGRAM)
        mine.setblocking(False)
        self.node = socket.socket(socket.AF_INET, socket.SOCK_DGRAM)
        self.node.bind(("127.0.0.1", 0))
        for link in (self.device, self.node):
            link.settimeout(1)
        words = words_of(["--client", CLIENT, "--server", SERVER, "--node", "127.0.0.1:%d" % self.node.getsockname()[1], "--local", "127.0.0.2"])
        self.words, self.bridge = words, Bridge(words, mine.detach())

    def tearDown(self):
        for port in list(self.bridge.sockets.links):
            self.bridge.sockets.close(port)
        os.close(self.bridge.device)
        self.device.close()
        self.node.close()

    def packet(self, port, source=CLIENT):
        return between_ends(drawn(random.Random(port), 100), (socket.inet_aton(source), port), self.words.server)

    def take(self):
        """The bridge handles what has come."""
        for key, _ in self.bridge.selector.select(1):
            key.data()

    def test_both_ways(self):
        packet = self.packet(40000)
        self.device.send(packet)
        self.take()
        text, came_from = self.node.recvfrom(2048)
        self.assertEqual((came_from, text), (("127.0.0.2", 40000), between_ends(packet, (socket.inet_aton("127.0.0.2"), 40000), self.words.node)))
        answer = between_ends(drawn(random.Random(1), 200), self.words.node, (socket.inet_aton("127.0.0.2"), 40000))
        self.node.sendto(answer, came_from)
        self.take()
        self.assertEqual(self.device.recv(2048), between_ends(answer, self.words.server, (socket.inet_aton(CLIENT), 40000)))
        self.assertEqual(self.bridge.counts(), "bridge: to the node 1, to clients 1, lost 0, passed over 0")

    def test_damaged(self):
        """Each bit of a packet, both ways: what arrives is nothing, or refused by its receiver."""
        packet = self.packet(40001)
        for bit in range(320):
            self.device.send(flipped(packet, bit))
            self.take()
        self.device.send(packet)
        self.take()
        wanted, came = between_ends(packet, (socket.inet_aton("127.0.0.2"), 40001), self.words.node), []
        while not came or came[-1] != wanted:
            came.append(self.node.recv(2048))
        self.assertGreater(len(came), 100)
        self.assertFalse(any(is_good(each) for each in came[:-1]))

    def test_other_ends(self):
        self.device.send(self.packet(40002, source="10.77.0.9"))
        self.take()
        self.device.send(self.packet(40002))
        self.take()
        self.assertEqual(self.node.recvfrom(2048)[1], ("127.0.0.2", 40002))
        stranger = (socket.inet_aton("127.0.0.1"), 9)
        for source, destination in ((stranger, (self.words.local, 40002)), (self.words.node, (self.words.local, 40003))):
            self.node.sendto(between_ends(self.packet(1), source, destination), ("127.0.0.2", 40002))
            self.take()
        self.assertEqual(self.bridge.counts(), "bridge: to the node 1, to clients 0, lost 0, passed over 3")

    def send_from(self, ports):
        for port in ports:
            self.device.send(self.packet(port))
            self.take()
            self.assertEqual(self.node.recvfrom(2048)[1], ("127.0.0.2", port))

    def test_idle_sockets(self):
        self.send_from([40000, 40001])
        self.bridge.sockets.used[40000] -= self.words.idle + 1
        self.bridge.sockets.close_idle()
        self.assertEqual(list(self.bridge.sockets.links), [40001])
        self.send_from([40000])
        self.assertEqual(set(self.bridge.sockets.links), {40000, 40001})

    def test_no_descriptor_left(self):
        """Where no descriptor is left for a further port, the one that has been idle longest gives its own."""
        before = resource.getrlimit(resource.RLIMIT_NOFILE)
        self.send_from([40000, 40001])
        free = os.dup(0)
        os.close(free)
        try:
            resource.setrlimit(resource.RLIMIT_NOFILE, (free + 3, before[1]))
            self.send_from(range(41000, 41100))
        finally:
            resource.setrlimit(resource.RLIMIT_NOFILE, before)
        ports = set(self.bridge.sockets.links)
        self.assertTrue(len(ports) < 20 and 41099 in ports and not ports & {40000, 40001})
        self.send_from([40000])


@unittest.skipUnless(os.geteuid() == 0 and os.path.exists("/dev/net/tun"), "it needs root and /dev/net/tun")
class Away(unittest.TestCase):
    """A device that goes away, in a namespace of its own."""

    def setUp(self):
        self.netns = f"bridget{os.getpid()}"
        self.run_ip("netns", "add", self.netns)
        self.words = words_of(["--client", CLIENT, "--server", SERVER, "--local", "127.0.0.1", "--device", "bridget0", "--netns", self.netns])
        self.bridge = Bridge(self.words, make_device(self.words))

    def tearDown(self):
        for port in list(self.bridge.sockets.links):
            self.bridge.sockets.close(port)
        if self.bridge.device is not None:
            os.close(self.bridge.device)
        subprocess.run(["ip", "netns", "del", self.netns], check=False, capture_output=True)

    def run_ip(self, *words):
        subprocess.run(["ip", *words], check=True)

    def is_ready(self):
        with tun.inside(self.netns):
            return tun.is_up("bridget0") and is_routed(self.words)

    def connect(self):
        """A SYN of a client comes to the bridge."""
        before = self.bridge.sent + self.bridge.lost
        with tun.inside(self.netns), socket.socket() as link:
            link.setblocking(False)
            link.connect_ex((SERVER.split(":")[0], 7))
        while self.bridge.sent + self.bridge.lost == before:
            came = self.bridge.selector.select(1)
            self.assertTrue(came)
            for key, _ in came:
                key.data()

    def wait_for_loss(self):
        """Until the bridge has noticed that its device is gone."""
        until = time.monotonic() + 10
        while self.bridge.device is not None and time.monotonic() < until:
            for key, _ in self.bridge.selector.select(1):
                key.data()
        self.assertIsNone(self.bridge.device)

    def test_down(self):
        self.assertTrue(self.is_ready())
        self.run_ip("-n", self.netns, "link", "set", "bridget0", "down")
        self.bridge.put(drawn(random.Random(1)))
        self.bridge.tend()
        self.assertEqual((self.bridge.lost, self.is_ready()), (1, False))
        self.run_ip("-n", self.netns, "link", "set", "bridget0", "up")
        self.bridge.tend()
        self.assertTrue(self.is_ready())
        self.connect()

    def test_removed(self):
        self.run_ip("-n", self.netns, "link", "del", "bridget0")
        self.wait_for_loss()
        self.bridge.put(drawn(random.Random(2)))
        self.bridge.tend()
        self.assertTrue(self.is_ready())
        self.connect()

    def test_namespace_removed(self):
        self.run_ip("netns", "del", self.netns)
        self.wait_for_loss()
        self.bridge.tend()
        self.assertIsNone(self.bridge.device)
        self.run_ip("netns", "add", self.netns)
        self.bridge.tend()
        self.assertTrue(self.is_ready())
        self.connect()


if __name__ == "__main__":
    unittest.main()
