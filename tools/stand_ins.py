"""A logger and a server on loopback, for tests of the tools that ask them.

The logger is a log of loggers.py behind the messages of twin_model.py; the server reads and writes TCP headers here, by RFC 9293 and RFC 791. Neither uses what
the tools read and write with.
"""
import socket
import struct
import threading

from loggers import Log, Message, answers_of
from twin_model import PLAIN, folded, read_message, spell_message

FIN, SYN, RST, PSH, ACK = 1, 2, 4, 8, 16
TCP = 6


class StandIn:
    """A UDP socket on loopback whose thread sends back what `answers` makes of a datagram and of who sent it. `asked` has all of them, in order."""

    def __init__(self, answers):
        self.answers, self.asked, self.faults = answers, [], []
        self.socket = socket.socket(socket.AF_INET, socket.SOCK_DGRAM)
        self.socket.bind(("127.0.0.1", 0))
        self.end = self.socket.getsockname()
        self.where = f"127.0.0.1:{self.end[1]}"
        self.thread = threading.Thread(target=self.run)

    def run(self):
        while True:
            data, asker = self.socket.recvfrom(2048)
            if not data:
                return
            self.asked.append((data, asker))
            try:
                for answer in self.answers(data, asker):
                    self.socket.sendto(answer, asker)
            except Exception as why:  # shown by the test that has the stand-in
                self.faults.append(why)

    def __enter__(self):
        self.thread.start()
        return self

    def __exit__(self, *_):
        """An empty datagram ends the thread."""
        with socket.socket(socket.AF_INET, socket.SOCK_DGRAM) as link:
            link.sendto(b"", self.end)
        self.thread.join()
        self.socket.close()
        if self.faults:
            raise self.faults[0]


def silent(_data, _asker):
    return []


def nobody():
    """An address on loopback at which nobody listens."""
    with socket.socket(socket.AF_INET, socket.SOCK_DGRAM) as link:
        link.bind(("127.0.0.1", 0))
        return f"127.0.0.1:{link.getsockname()[1]}"


def key(host, port):
    """A client as the messages of twin_model.py have it: the number that its six bytes are."""
    return int.from_bytes(socket.inet_aton(host) + struct.pack(">H", port), "big")


def log_of(boot, keys):
    """A log that a server with this boot number uses, with a connection of each of these clients; of boot number 0, one that no server has sent anything."""
    log = Log()
    if boot:
        log.answer(Message("Hello", boot, {}))
    for it in keys:
        log.answer(Message("Open", boot, {"key": it, "cisn": 1000, "sisn": 5000, "mss": 536}))
    return log


def clients(count):
    return [key("192.0.2.1", 40000 + place) for place in range(count)]


def logger(log, version=PLAIN):
    """What a logger with this log answers, whose messages have this version."""

    def answers(data, _asker):
        message = read_message(data, version)
        return [spell_message(it, version) for it in answers_of(log, message)] if message else []

    return answers


def read_segment(data):
    """Of a TCP segment in IPv4, both without options: source, destination, sequence and acknowledgement number, flags. Both sums must be right."""
    assert len(data) == 40 and data[0] == 0x45 and data[9] == TCP, data
    assert struct.unpack(">H", data[2:4])[0] == 40 and folded(data[:20]) == 0xFFFF, data
    assert folded(data[12:20] + struct.pack(">HH", TCP, 20) + data[20:]) == 0xFFFF, data
    source, destination, seq, ack, offset, flags = struct.unpack(">HHIIBB", data[20:34])
    assert offset == 5 << 4, data
    return (data[12:16], source), (data[16:20], destination), seq, ack, flags


def segment(source, destination, seq, ack, flags):
    """A TCP segment without text, in IPv4, with both sums."""
    tcp = struct.pack(">HHIIBBHHH", source[1], destination[1], seq, ack, 5 << 4, flags, 0, 0, 0)
    sums = folded(source[0] + destination[0] + struct.pack(">HH", TCP, 20) + tcp)
    tcp = tcp[:16] + struct.pack(">H", 0xFFFF - sums) + tcp[18:]
    ip = struct.pack(">BBHHHBBH", 0x45, 0, 40, 0, 0, 64, TCP, 0) + source[0] + destination[0]
    return ip[:10] + struct.pack(">H", 0xFFFF - folded(ip)) + ip[12:] + tcp


def listener(data, asker):
    """What a listening TCP answers to an acknowledgement: <SEQ=SEG.ACK><CTL=RST> (RFC 9293, 3.10.7.2)."""
    source, destination, _, ack, flags = read_segment(data)
    assert source == (socket.inet_aton(asker[0]), asker[1]), "the segment's source is another than the datagram's"
    assert flags == ACK, "only an acknowledgement opens no connection and is always answered"
    return [segment(destination, source, ack, 0, RST)]
