"""Random TCP packets and damage to them, for gateway_test.py and bridge_test.py. Checksums are computed from all bytes here, never by a difference."""
import struct

from internet import checksum

TCP, UDP = 6, 17


def with_sums(packet):
    """The TCP packet with both of its checksums computed."""
    tcp = packet[20:36] + b"\0\0" + packet[38:]
    pseudo = packet[12:20] + struct.pack(">BBH", 0, TCP, len(tcp))
    tcp = tcp[:16] + struct.pack(">H", checksum(pseudo + tcp)) + tcp[18:]
    ip = packet[:10] + b"\0\0" + packet[12:20]
    return ip[:10] + struct.pack(">H", checksum(ip)) + ip[12:] + tcp


def drawn(rng, size=None):
    """A random TCP packet of 40 to 1,500 bytes with right checksums."""
    size = size or rng.choice([40, 41, 44, 1499, 1500, rng.randint(40, 1500)])
    ip = struct.pack(">BBHHHBBH", 0x45, rng.randrange(256), size, rng.randrange(65536), rng.choice([0, 0x4000]), rng.randint(1, 255), TCP, 0) + rng.randbytes(8)
    ports = struct.pack(">HH", rng.randint(1, 65535), rng.randint(1, 65535))
    tcp = ports + rng.randbytes(8) + bytes([rng.choice([0x50, 0x60]), rng.randrange(64)]) + rng.randbytes(size - 34)
    return with_sums(ip + tcp)


def flipped(packet, bit):
    """The packet with one of its bits, counted from 0, changed."""
    return packet[:bit // 8] + bytes([packet[bit // 8] ^ 0x80 >> bit % 8]) + packet[bit // 8 + 1:]


def is_header_good(packet):
    return checksum(packet[:20]) == 0


def is_good(packet):
    """Whether a receiver takes it: one whole TCP packet whose two checksums are right."""
    if len(packet) < 40 or packet[0] != 0x45 or packet[9] != TCP or struct.unpack(">H", packet[2:4])[0] != len(packet):
        return False
    pseudo = packet[12:20] + struct.pack(">BBH", 0, TCP, len(packet) - 20)
    return is_header_good(packet) and checksum(pseudo + packet[20:]) == 0


def ends_of(packet):
    """Source and destination, each an address and a port."""
    source, destination, source_port, destination_port = struct.unpack(">4s4sHH", packet[12:24])
    return (source, source_port), (destination, destination_port)


def drawn_end(rng):
    return rng.randbytes(4), rng.randint(1, 65535)
