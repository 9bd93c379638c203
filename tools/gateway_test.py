#!/usr/bin/env python3
"""Tests of tools/gateway.py over random packets, right, damaged and junk. They need no root. Run them: tools/gateway_test.py"""
import array
import os
import random
import socket
import struct
import tempfile
import unittest
from unittest import mock

from drawn_packets import UDP, drawn, flipped, is_good, is_header_good, with_sums
from gateway import HEADERS, Gateway, ends_in, enclosed, kept, released, tell
from internet import checksum

LOGGER = (socket.inet_aton("192.0.2.9"), 7008)
SERVER = (socket.inet_aton("10.77.0.2"), 7)


def datagram_of(packet):
    parts = enclosed(packet)
    return None if parts is None else b"".join(parts)


def udp(source, destination, text, flags=0):
    """A UDP datagram in IPv4."""
    ip = struct.pack(">BBHHHBBH", 0x45, 0, HEADERS + len(text), 7, flags, 64, UDP, 0) + source[0] + destination[0]
    return ip[:10] + struct.pack(">H", checksum(ip)) + ip[12:] + struct.pack(">HHHH", source[1], destination[1], 8 + len(text), 0) + text


class Headers(unittest.TestCase):
    def test_datagram(self):
        """The 28 bytes are what a kernel expects of a datagram with the packet's own ends."""
        rng = random.Random(1)
        for _ in range(3000):
            packet = drawn(rng)
            datagram = datagram_of(packet)
            self.assertEqual(datagram[HEADERS:], packet)
            version, service, length, number, place, lifetime, protocol = struct.unpack(">BBHHHBB", datagram[:10])
            self.assertEqual((version, length, protocol), (0x45, len(packet) + 28, UDP))
            self.assertEqual((service, number, place, lifetime), struct.unpack(">xBxxHHBx", packet[:10]))
            self.assertTrue(is_header_good(datagram))
            self.assertEqual(datagram[12:24], packet[12:24])
            self.assertEqual(struct.unpack(">HH", datagram[24:28]), (len(packet) + 8, 0))

    def test_there_and_back(self):
        rng = random.Random(2)
        for _ in range(3000):
            packet = drawn(rng)
            self.assertEqual(released(datagram_of(packet)), packet)

    def test_every_sum(self):
        """A header's checksum is right inside exactly if it is right outside, whatever it is."""
        packet = drawn(random.Random(3), 40)
        for number in range(65536):
            changed = packet[:10] + struct.pack(">H", number) + packet[12:]
            self.assertEqual(is_header_good(datagram_of(changed)), is_header_good(changed))
            renumbered = with_sums(packet[:4] + struct.pack(">H", number) + packet[6:])
            self.assertTrue(is_header_good(datagram_of(renumbered)))


class Damage(unittest.TestCase):
    def bits(self, rng, length, first):
        """All bits of the first bytes, and some of the others."""
        return [*range(8 * first), *(rng.randrange(8 * first, 8 * length) for _ in range(100) if length > first)]

    def test_on_the_way_in(self):
        """A packet with a flipped bit is refused, or given to `ftnode` with this bit and sums that show it."""
        rng = random.Random(4)
        for _ in range(30):
            packet = drawn(rng)
            self.assertTrue(is_good(packet))
            for bit in self.bits(rng, len(packet), 40):
                damaged = flipped(packet, bit)
                datagram = datagram_of(damaged)
                if datagram is not None:
                    self.assertEqual(datagram[HEADERS:], damaged)
                    self.assertFalse(is_good(datagram[HEADERS:]))
                    self.assertEqual(is_header_good(datagram), is_header_good(damaged))

    def test_on_the_way_out(self):
        """What leaves of a datagram with a flipped bit is nothing, or the packet as it was, or one that no client accepts."""
        rng = random.Random(5)
        for _ in range(30):
            packet = drawn(rng)
            datagram = datagram_of(packet)
            for bit in self.bits(rng, len(datagram), 68):
                left = released(flipped(datagram, bit))
                if left is not None and left != packet:
                    self.assertFalse(is_good(left))
                    self.assertGreaterEqual(bit, 8 * HEADERS)


class Refused(unittest.TestCase):
    def test_from_outside(self):
        packet = drawn(random.Random(6), 100)
        rows = {
            "a fragment that isn't the last": packet[:6] + b"\x20\0" + packet[8:],
            "a fragment that isn't the first": packet[:6] + b"\0\x01" + packet[8:],
            "IPv4 options": b"\x46" + packet[1:],
            "IPv6": b"\x60" + packet[1:],
            "UDP": packet[:9] + b"\x11" + packet[10:],
            "ICMP": packet[:9] + b"\x01" + packet[10:],
            "a byte too few": packet[:-1],
            "a byte too many": packet + b"\0",
            "no TCP header": packet[:2] + b"\0\x27" + packet[4:39],
            "over 1,500 bytes": packet[:2] + struct.pack(">H", 1501) + packet[4:] + bytes(1401),
            "nothing": b"",
        }
        for what, row in rows.items():
            with self.subTest(what=what):
                self.assertIsNone(enclosed(row))

    def test_from_inside(self):
        """A packet with other ends than its datagram's, so that nobody inside sends as somebody else, and whatever isn't a datagram."""
        packet = drawn(random.Random(7), 100)
        datagram = datagram_of(packet)
        self.assertEqual(released(datagram), packet)
        for at in range(12):
            for place in (12 + at, HEADERS + 12 + at):
                self.assertIsNone(released(datagram[:place] + bytes([datagram[place] ^ 1]) + datagram[place + 1:]))
        ends = [(packet[at:at + 4], int.from_bytes(packet[port:port + 2], "big")) for at, port in ((12, 20), (16, 22))]
        inner = {
            "UDP": packet[:9] + b"\x11" + packet[10:],
            "a fragment": packet[:6] + b"\x20\0" + packet[8:],
            "IPv4 options": b"\x46" + packet[1:],
            "a packet that is cut": packet[:-1],
            "no TCP header": packet[:2] + b"\0\x27" + packet[4:39],
        }
        self.assertEqual(released(udp(*ends, packet)), packet)
        for what, row in inner.items():
            with self.subTest(inside=what):
                self.assertIsNone(released(udp(*ends, row)))
        for what, row in {"TCP": packet, "ICMP with a datagram in it": datagram[:9] + b"\x01" + datagram[10:], "a fragment": datagram[:6] + b"\x20" + datagram[7:],
                          "a datagram that is cut": datagram[:-1], "one without a packet": udp(SERVER, LOGGER, b"FT")}.items():
            with self.subTest(what=what):
                self.assertIsNone(released(row))

    def test_junk(self):
        """20,000 packets of random bytes, many with the start of a header: what is let through is TCP of its own length."""
        rng = random.Random(8)
        through = 0
        for _ in range(20000):
            size = rng.choice([0, 20, 27, 28, 39, 40, 67, 68, rng.randrange(1600)])
            start = struct.pack(">BBHHHBB", 0x45, 0, rng.choice([size, rng.randrange(65536)]), 0, rng.choice([0, rng.randrange(65536)]), 64, rng.choice([1, 6, 17]))
            junk = rng.choice([rng.randbytes(size), (start + rng.randbytes(1600))[:size]])
            if (parts := enclosed(junk)) is not None:
                through += 1
                self.assertEqual((parts[1], junk[9], struct.unpack(">H", junk[2:4])[0]), (junk, 6, size))
            self.assertIsNone(released(junk))
        self.assertGreater(through, 100)


class Passed(unittest.TestCase):
    def test_addresses(self):
        passed = [(LOGGER[0], LOGGER[1].to_bytes(2, "big"))]
        other, host = (LOGGER[0], 7009), (socket.inet_aton("192.0.2.8"), 7008)
        self.assertTrue(ends_in(udp(LOGGER, SERVER, b"FT"), passed, 12, 20))
        self.assertTrue(ends_in(udp(SERVER, LOGGER, b"FT"), passed, 16, 22))
        for source in (other, host, SERVER):
            self.assertFalse(ends_in(udp(source, SERVER, b"FT"), passed, 12, 20))
        # a fragment that isn't the first has no ports
        self.assertTrue(ends_in(udp(other, SERVER, b"FT", flags=1), passed, 12, 20))
        self.assertFalse(ends_in(udp(host, SERVER, b"FT", flags=1), passed, 12, 20))
        for length in range(28):
            self.assertFalse(ends_in(udp(LOGGER, SERVER, b"")[:length], passed, 12, 20))
        self.assertFalse(ends_in(drawn(random.Random(9)), passed, 12, 20))


class Devices(unittest.TestCase):
    """The gateway between two pairs of sockets in place of its devices."""

    def setUp(self):
        self.pairs = [socket.socketpair(socket.AF_UNIX, socket.SOCK_DGRAM) for _ in range(2)]
        self.outer, self.inner = (pair[0] for pair in self.pairs)
        for pair in self.pairs:
            pair[0].settimeout(1)
            pair[1].setblocking(False)
        self.gateway = Gateway(*(pair[1].fileno() for pair in self.pairs), [LOGGER])

    def tearDown(self):
        for pair in self.pairs:
            for link in pair:
                link.close()

    def counts(self):
        return [int(word) for word in self.gateway.counts().replace(",", "").split() if word.isdigit()]

    def test_both_ways(self):
        packet = drawn(random.Random(10))
        self.outer.send(packet)
        self.gateway.from_outside()
        datagram = self.inner.recv(2048)
        self.assertEqual(datagram, datagram_of(packet))
        self.inner.send(datagram)
        self.gateway.from_inside()
        self.assertEqual(self.outer.recv(2048), packet)
        self.assertEqual(self.counts(), [1, 1, 0, 0, 0])

    def test_passed(self):
        question, answer = udp(SERVER, LOGGER, b"FT question"), udp(LOGGER, SERVER, b"FT answer")
        self.inner.send(question)
        self.outer.send(answer)
        self.outer.send(question)  # from a stranger who calls itself the server
        self.gateway.from_inside()
        self.gateway.from_outside()
        self.assertEqual((self.outer.recv(2048), self.inner.recv(2048)), (question, answer))
        self.assertEqual(self.counts(), [0, 0, 2, 1, 0])

    def test_refused_and_lost(self):
        self.outer.send(b"junk")
        self.inner.send(b"junk")
        self.outer.send(drawn(random.Random(11)))
        self.inner.close()
        self.gateway.from_inside()
        self.gateway.from_outside()
        self.assertEqual(self.counts(), [0, 0, 0, 2, 1])


class Kept(unittest.TestCase):
    """What systemd is told, and what it says (sd_notify, sd_listen_fds)."""

    def test_descriptors(self):
        said = {"LISTEN_PID": str(os.getpid()), "LISTEN_FDS": "2", "LISTEN_FDNAMES": "inside:outside"}
        with mock.patch.dict(os.environ, said):
            self.assertEqual(kept(), {"inside": 3, "outside": 4})
        with mock.patch.dict(os.environ, said | {"LISTEN_PID": "1"}):
            self.assertEqual(kept(), {})
        with mock.patch.dict(os.environ, clear=True):
            self.assertEqual(kept(), {})
            tell("READY=1")  # to nobody

    def test_messages(self):
        with tempfile.TemporaryDirectory() as room, socket.socket(socket.AF_UNIX, socket.SOCK_DGRAM) as system:
            system.bind(f"{room}/notify")
            system.settimeout(1)
            with mock.patch.dict(os.environ, {"NOTIFY_SOCKET": f"{room}/notify"}), open(os.devnull, "rb") as file:
                tell("FDSTORE=1\nFDNAME=inside", file.fileno())
                text, descriptors, _, _ = socket.recv_fds(system, 100, 4)
                self.assertEqual((text, len(descriptors)), (b"FDSTORE=1\nFDNAME=inside", 1))
                self.assertTrue(os.path.samestat(os.fstat(descriptors[0]), os.fstat(file.fileno())))
                os.close(descriptors[0])
                tell("READY=1")
                self.assertEqual(system.recvmsg(100, socket.CMSG_SPACE(array.array("i").itemsize))[:2], (b"READY=1", []))


if __name__ == "__main__":
    unittest.main()
