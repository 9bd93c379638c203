#!/usr/bin/env python3
"""Tests of tools/report_pcap.py: its captures are read here by the formats of pcap, IPv4 and TCP, not by what wrote them. Run it: tools/report_pcap_test.py"""
import collections
import contextlib
import io
import pathlib
import re
import shutil
import socket
import struct
import subprocess
import tempfile
import unittest
from unittest import mock

import report_pcap
from report_text import BadReport, read_report

TOP = pathlib.Path(__file__).resolve().parent.parent
EXAMPLES = sorted((TOP / "examples").glob("*.report"))
HEAD = "ftreplay 1\nservice echo\nserver 192.0.2.100:7\nclient 1 192.0.2.1:40000 1000 -\nevent 1 boot 1 5000\n"
# Packets as bytes, in the one spelling, with their lines in a report: cases of the part `text` of crates/part_cases.
SPELLINGS = [
    ("45000028000040004006b66ac0000201c00002649c400007000003e8000000005002ffff8b4d0000", "1>S S seq 1000 ack 0 window 65535 mss - data -"),
    (
        "4500002b000040004006b667c0000264c000020100079c40ffffffff000003ee50ff00000f48000000ff7a",
        "S>1 CEUAPRSF seq 4294967295 ack 1006 window 0 mss - data 00ff7a",
    ),
    ("45000028000040004006b66ac0000264c000020100079c400000000000000000500000018f360000", "S>1 - seq 0 ack 0 window 1 mss - data -"),
    (
        "4500008c000040004006b606c0000264c000020100079c4000001389000003ea5011ffffdb810000" + bytes(range(100)).hex(),
        f"S>1 AF seq 5001 ack 1002 window 65535 mss - data {bytes(range(100)).hex()}",
    ),
]
# What tcpdump prints of examples/crash (`tcpdump -n -S -t`).
CRASH = """\
IP 192.0.2.1.40000 > 192.0.2.100.7: Flags [S], seq 1000, win 65535, length 0
IP 192.0.2.100.7 > 192.0.2.1.40000: Flags [S.], seq 5000, ack 1001, win 65535, options [mss 1460], length 0
IP 192.0.2.1.40000 > 192.0.2.100.7: Flags [.], ack 5001, win 65535, length 0
IP 192.0.2.1.40000 > 192.0.2.100.7: Flags [.], seq 1001:1006, ack 5001, win 65535, length 5
IP 192.0.2.100.7 > 192.0.2.1.40000: Flags [.], ack 1001, win 65535, length 0
IP 192.0.2.100.7 > 192.0.2.1.40000: Flags [.], ack 1006, win 65535, length 0
IP 192.0.2.1.40000 > 192.0.2.100.7: Flags [.], ack 5001, win 65535, length 0
IP 192.0.2.100.7 > 192.0.2.1.40000: Flags [.], seq 5001:5006, ack 1006, win 65535, length 5
IP 192.0.2.1.40000 > 192.0.2.100.7: Flags [.], ack 5006, win 65535, length 0
"""

Segment = collections.namedtuple("Segment", "source destination flags seq ack window mss text")


def records(data):
    """The times and the bytes of a capture's packets, by the format of pcap: little-endian, version 2.4, microseconds, link type raw IP."""
    magic, major, minor, zone, accuracy, longest, link = struct.unpack_from("<IHHiIII", data)
    assert (magic, major, minor, zone, accuracy, link) == (0xA1B2C3D4, 2, 4, 0, 0, 101), data[:24].hex()
    at, found = 24, []
    while at < len(data):
        seconds, micros, held, length = struct.unpack_from("<IIII", data, at)
        assert held == length <= longest and at + 16 + held <= len(data) and micros < 10**6, at
        found.append(((seconds, micros), data[at + 16 : at + 16 + held]))
        at += 16 + held
    return found


def is_summed(*parts):
    """Whether the 16-bit words of a string, which has its checksum in it, add up to 65,535, modulo 65,535 (RFC 1071)."""
    data = b"".join(parts)
    total = int.from_bytes(data + b"\0" * (len(data) % 2), "big")
    return total > 0 and total % 0xFFFF == 0


def segment_of(packet):
    """A packet's fields, by RFC 791 and RFC 9293; both headers and both sums must be right."""
    length, place, hops, protocol = struct.unpack_from(">xxHxxHBBxx", packet)
    assert packet[0] == 0x45 and length == len(packet) and place == 0x4000 and hops == 64 and protocol == 6, packet.hex()
    assert is_summed(packet[:20]), "the IP header's checksum"
    assert is_summed(packet[12:20], struct.pack(">HH", 6, len(packet) - 20), packet[20:]), "the TCP checksum"
    source, destination, seq, ack, offset, flags, window, _, urgent = struct.unpack_from(">HHIIBBHHH", packet, 20)
    header = (offset >> 4) * 4
    options, text = packet[40 : 20 + header], packet[20 + header :]
    assert offset & 15 == 0 and urgent == 0 and (options == b"" or options[:2] == b"\2\4" and len(options) == 4), packet.hex()
    ends = f"{socket.inet_ntoa(packet[12:16])}:{source}", f"{socket.inet_ntoa(packet[16:20])}:{destination}"
    letters = "".join(letter for place, letter in enumerate("CEUAPRSF") if flags & 128 >> place)
    return Segment(*ends, letters or "-", seq, ack, window, int.from_bytes(options[2:], "big") if options else None, text)


def segments_in(report):
    """The segments of a report's text with the times that they are to have: the event's number, and the microseconds of the lines before it in the event."""
    names, found, event, place = {"S": re.search(r"^server (\S+)$", report, re.M)[1]}, [], 0, 0
    names |= dict(re.findall(r"^client (\d+) (\d\S*) ", report, re.M))
    for line in report.splitlines():
        words = line.split()
        if words[0] == "event":
            event, place = int(words[1]), 0
        elif words[0] == "packet":
            ends = [names.get(end) for end in words[2].split(">")]
            if None not in ends:
                flags, seq, ack, window, mss, text = words[3], *words[5::2]
                mss, text = None if mss == "-" else int(mss), b"" if text == "-" else bytes.fromhex(text)
                found.append(((event, place), Segment(*ends, flags, int(seq), int(ack), int(window), mss, text)))
            place += 1
    return found


def run(*words, text=""):
    """What the tool writes to standard output with these words, which is bytes."""
    out = io.TextIOWrapper(io.BytesIO())
    with mock.patch("sys.argv", ["report_pcap.py", *words]), mock.patch("sys.stdin", io.StringIO(text)), contextlib.redirect_stdout(out):
        report_pcap.main()
    return out.buffer.getvalue()


class Spelling(unittest.TestCase):
    def test_packets(self):
        """Each packet has the bytes of the one spelling."""
        text = HEAD + "".join(f"packet {place} {line}\n" for place, (_, line) in enumerate(SPELLINGS, 1))
        found = records(report_pcap.capture(read_report(text)))
        self.assertEqual([(time, data.hex()) for time, data in found], [((1, place), data) for place, (data, _) in enumerate(SPELLINGS)])

    def test_flags(self):
        """Each flag alone has its bit (RFC 9293, 3.1)."""
        letters = "FSRPAUEC"
        text = HEAD + "".join(f"packet {place} 1>S {it} seq 1 ack 2 window 3 mss - data -\n" for place, it in enumerate(letters, 1))
        self.assertEqual([data[33] for _, data in records(report_pcap.capture(read_report(text)))], [1, 2, 4, 8, 16, 32, 64, 128])

    def test_timestamps(self):
        """Timestamps follow the segment size: two NOPs, kind 8, length 10, and both numbers (RFC 7323, appendix A)."""
        text = HEAD + "packet 1 S>1 AS seq 1 ack 2 window 3 mss 1460 data - ts 1 4294967294\npacket 2 S>1 A seq 1 ack 2 window 3 mss - data 61 ts 1 2\n"
        first, second = (data for _, data in records(report_pcap.capture(read_report(text))))
        self.assertEqual((first[32] >> 4, first[40:].hex()), (9, "020405b40101080a00000001fffffffe"))
        self.assertEqual((second[32] >> 4, second[40:].hex()), (8, "0101080a000000010000000261"))

    def test_greatest(self):
        """A segment with the size option, the greatest numbers, odd text, of a client at the greatest address."""
        text = HEAD.replace("192.0.2.1:40000", "255.255.255.255:65535")
        text += "packet 1 1>S S seq 4294967295 ack 4294967295 window 65535 mss 1460 data ffffff\n"
        ends = "255.255.255.255:65535", "192.0.2.100:7"
        ((_, packet),) = records(report_pcap.capture(read_report(text)))
        self.assertEqual(segment_of(packet), Segment(*ends, "S", 2**32 - 1, 2**32 - 1, 65535, 1460, b"\xff\xff\xff"))
        self.assertEqual(len(packet), 20 + 24 + 3)


class Examples(unittest.TestCase):
    def test_all(self):
        """The captures of all stored reports have exactly their segments, in order, with their times."""
        self.assertEqual(len(EXAMPLES), len(list((TOP / "examples").glob("*.schedule"))))
        for path in EXAMPLES:
            text = path.read_text()
            found = [(time, segment_of(data)) for time, data in records(report_pcap.capture(read_report(text)))]
            self.assertEqual(found, segments_in(text), path.name)
            self.assertEqual(len(found), len(re.findall(r"^packet \d+ (?:\d+>S|S>\d+) ", text, re.M)), path.name)

    def test_crash(self):
        """As tcpdump prints them."""
        letters, shown = {"A": ".", "S": "S", "F": "F", "R": "R"}, ""
        for _, data in records(report_pcap.capture(read_report((TOP / "examples/crash.report").read_text()))):
            it = segment_of(data)
            ends = [".".join(end.split(":")) for end in it[:2]]
            flags = "".join(letters[letter] for letter in reversed(it.flags))
            seq = f", seq {it.seq}" if "S" in it.flags else f", seq {it.seq}:{it.seq + len(it.text)}" if it.text else ""
            mss = "" if it.mss is None or "A" not in it.flags else f", options [mss {it.mss}]"
            ack = f", ack {it.ack}" if "A" in it.flags else ""
            shown += f"IP {ends[0]} > {ends[1]}: Flags [{flags}]{seq}{ack}, win {it.window}{mss}, length {len(it.text)}\n"
        self.assertEqual(shown, CRASH)

    @unittest.skipUnless(shutil.which("tcpdump"), "tcpdump isn't installed")
    def test_tcpdump(self):
        """tcpdump finds no wrong checksum in any, and prints these lines of examples/crash."""
        for path in EXAMPLES:
            data = report_pcap.capture(read_report(path.read_text()))
            said = subprocess.run(["tcpdump", "-n", "-S", "-t", "-r", "-"], input=data, capture_output=True, check=True).stdout.decode()
            self.assertEqual(said == CRASH, path.stem == "crash", path.name)
            verbose = subprocess.run(["tcpdump", "-n", "-v", "-r", "-"], input=data, capture_output=True, check=True).stdout.decode()
            self.assertEqual((verbose.count("(correct)"), verbose.count("incorrect"), verbose.count("bad cksum")), (len(records(data)), 0, 0), path.name)

    def test_stored(self):
        """The capture in docs is that of the example."""
        with tempfile.TemporaryDirectory() as room:
            run(str(TOP / "examples/crash.report"), f"{room}/made")
            self.assertEqual(pathlib.Path(f"{room}/made").read_bytes(), (TOP / "docs/crash.pcap").read_bytes())


class Commands(unittest.TestCase):
    def test_streams(self):
        """Standard input and output, by `-`; a report without packets has the header alone."""
        said = "ftreplay 1\nservice echo\nserver 192.0.2.100:7\nend 0\n"
        self.assertEqual(run("-", "-", text=said).hex(), "d4c3b2a1020004000000000000000000ffff000065000000")

    def test_no_report(self):
        rows = {"": "line 1", "ftreplay 2\n": "line 1", "ftreplay 1\nwhat 1\n": "line 2", HEAD + "packet 1 1>X S\n": "line 6", HEAD + "event\n": "line 6"}
        for text, line in rows.items():
            with self.assertRaisesRegex(BadReport, line):
                read_report(text)
            with self.assertRaises(SystemExit) as end:
                run("-", "-", text=text)
            self.assertIn(line, str(end.exception.code))
        with self.assertRaises(SystemExit) as end:
            run("/no/such/report", "-")
        self.assertIn("/no/such/report", str(end.exception.code))


if __name__ == "__main__":
    unittest.main()
