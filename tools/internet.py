"""Addresses, checksums and segments, for the other tools in this folder. It needs only Python's standard library."""
import argparse
import socket
import struct


def address(text):
    """The four bytes of an address and a port, from a word such as `10.77.0.2:7`."""
    host, colon, port = text.partition(":")
    try:
        if not colon or not 0 < int(port) < 65536:
            raise ValueError
        return socket.inet_aton(host), int(port)
    except (OSError, ValueError):
        raise argparse.ArgumentTypeError(f"{text} is no address with a port") from None


def checksum(data):
    """The Internet checksum: the complement of the sum of 16-bit words, carries added in, an odd end padded with a zero byte."""
    padded = data + b"\0" * (len(data) % 2)
    total = sum(struct.unpack(f">{len(padded) // 2}H", padded))
    while total > 0xFFFF:
        total = (total & 0xFFFF) + (total >> 16)
    return total ^ 0xFFFF


def changed_sum(old, before, after):
    """A checksum once some of the words that it sums are others (RFC 1624). It is wrong exactly if the old one was."""
    total = (old ^ 0xFFFF) + sum(word ^ 0xFFFF for word in before) + sum(after)
    while total > 0xFFFF:
        total = (total & 0xFFFF) + (total >> 16)
    return total ^ 0xFFFF


def between(packet, source, destination):
    """A TCP packet, in IPv4 without options, between other ends. Both sums change by what changes in them, so a damaged packet stays one that is refused."""
    ends = source[0] + destination[0] + struct.pack(">HH", source[1], destination[1])
    if packet[12:24] == ends:
        return packet
    before, after = struct.unpack(">6H", packet[12:24]), struct.unpack(">6H", ends)
    ip = changed_sum(int.from_bytes(packet[10:12], "big"), before[:4], after[:4])
    tcp = changed_sum(int.from_bytes(packet[36:38], "big"), before, after)
    return packet[:10] + struct.pack(">H", ip) + ends + packet[24:36] + struct.pack(">H", tcp) + packet[38:]


SYN, RST, ACK = 0x02, 0x04, 0x10


def segment(source, destination, seq, ack, flags):
    """A TCP segment without text and options, with a window of 65,535 bytes, in an IPv4 packet. Both ends are an address of four bytes and a port."""
    tcp = struct.pack(">HHIIBBHHH", source[1], destination[1], seq, ack, 5 << 4, flags, 65535, 0, 0)
    pseudo = source[0] + destination[0] + struct.pack(">BBH", 0, 6, len(tcp))
    tcp = tcp[:16] + struct.pack(">H", checksum(pseudo + tcp)) + tcp[18:]
    ip = struct.pack(">BBHHHBBH", 0x45, 0, 20 + len(tcp), 0, 0x4000, 64, 6, 0) + source[0] + destination[0]
    return ip[:10] + struct.pack(">H", checksum(ip)) + ip[12:] + tcp


def fields(packet):
    """Source, destination, sequence number and flags of a packet as `segment` makes them; None where it is too short."""
    if len(packet) < 40:
        return None
    source_port, destination_port, seq = struct.unpack(">HHI", packet[20:28])
    return (packet[12:16], source_port), (packet[16:20], destination_port), seq, packet[33]
