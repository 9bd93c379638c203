#!/usr/bin/env python3
"""Writes the packets between clients and server of a report as a capture file that tcpdump and Wireshark open.

    tools/report_pcap.py REPORT CAPTURE.pcap      REPORT is a file, or - for standard input
    tcpdump -n -v -r CAPTURE.pcap

The capture has each packet once, in the order of sending, whether or not it was delivered; messages between server and loggers are no packets and are left out. A
report has no times: the packets of event E have the time E seconds, and follow each other by one microsecond. The bytes are the one spelling of docs/FORMATS.md
("Packets"), with both checksums computed here and not by the program. The link type is raw IP (101).
"""
import argparse
import struct
import sys

from internet import checksum
from report_text import report_of

RAW_IP = 101
FLAGS = {"C": 0x80, "E": 0x40, "U": 0x20, "A": 0x10, "P": 0x08, "R": 0x04, "S": 0x02, "F": 0x01}
DONT_FRAGMENT, HOPS, TCP = 0x4000, 64, 6


def address(text):
    """The four bytes and the port of an address."""
    host, port = text.split(":")
    return bytes(map(int, host.split("."))), int(port)


def tcp_bytes(packet, source, destination):
    """The TCP header, with the segment size and the timestamps where the report has them, and the text; summed with the pseudo-header."""
    said = packet.fields
    text = b"" if said["data"] == "-" else bytes.fromhex(said["data"])
    options = b"" if said["mss"] == "-" else struct.pack(">BBH", 2, 4, int(said["mss"]))
    options += b"" if packet.stamps is None else struct.pack(">BBBBII", 1, 1, 8, 10, *packet.stamps)
    flags = sum(FLAGS[letter] for letter in packet.kind if letter != "-")
    offset = (20 + len(options)) // 4 << 4

    def header(check):
        numbers = int(said["seq"]), int(said["ack"])
        return struct.pack(">HHIIBBHHH", source[1], destination[1], *numbers, offset, flags, int(said["window"]), check, 0)

    length = 20 + len(options) + len(text)
    pseudo = source[0] + destination[0] + struct.pack(">BBH", 0, TCP, length)
    return header(checksum(pseudo + header(0) + options + text)) + options + text


def packet_bytes(packet, report):
    """A packet's bytes, from the IP header on."""
    names = {**report.clients, "S": report.server}
    source, destination = address(names[packet.sender]), address(names[packet.receiver])
    body = tcp_bytes(packet, source, destination)

    def header(check):
        return struct.pack(">BBHHHBBH", 0x45, 0, 20 + len(body), 0, DONT_FRAGMENT, HOPS, TCP, check) + source[0] + destination[0]

    return header(checksum(header(0))) + body


def capture(report):
    """The whole capture file."""
    parts = [struct.pack("<IHHiIII", 0xA1B2C3D4, 2, 4, 0, 0, 65535, RAW_IP)]
    for event in report.events:
        for place, packet in enumerate(event.packets):
            if packet.is_segment:
                data = packet_bytes(packet, report)
                parts += [struct.pack("<IIII", event.number, place, len(data), len(data)), data]
    return b"".join(parts)


def main():
    parser = argparse.ArgumentParser(description=__doc__, formatter_class=argparse.RawDescriptionHelpFormatter)
    parser.add_argument("report", help="a file, or - for standard input")
    parser.add_argument("capture", help="the file to write, or - for standard output")
    words = parser.parse_args()
    data = capture(report_of(words.report))
    if words.capture == "-":
        sys.stdout.buffer.write(data)
    else:
        with open(words.capture, "wb") as file:
            file.write(data)


if __name__ == "__main__":
    main()
