#!/usr/bin/env python3
"""A server and a logger with a journal whose turns don't end, under a trickle: lasting.py [MINUTES] [PROGRAM].

One client sends a line each second to an echo and must get it back. Each minute this prints the resident memory of server and logger in kilobytes and how many lines
have come back. At the end it says by how much the memory has grown since the second minute, and fails where a line is missing. Defaults: 120 minutes, and the program
crates/ftnode/out/ftnode. The client is a few lines of TCP of its own: it has one segment under way, and sends it again every 200 milliseconds.
"""
import pathlib
import socket
import struct
import subprocess
import sys
import tempfile
import time

TOP = pathlib.Path(__file__).resolve().parent.parent
sys.path.insert(0, str(TOP / "tools"))
sys.dont_write_bytecode = True
from internet import checksum  # noqa: E402

HOST, SERVER, LOGGER, CLIENT = "127.0.0.1", 7471, 7472, 7473
SYN, PSH, ACK = 2, 8, 16


def packet(seq, ack, flags, text=b"", port=CLIENT):
    """An IPv4 packet of a client to the server, which a datagram carries."""
    ip = socket.inet_aton(HOST)
    head = struct.pack("!HHIIBBHHH", port, SERVER, seq, ack, 5 << 4, flags, 65535, 0, 0)
    pseudo = ip + ip + struct.pack("!HH", 6, len(head) + len(text))
    head = head[:16] + struct.pack("!H", checksum(pseudo + head + text)) + head[18:]
    front = struct.pack("!BBHHHBBH", 0x45, 0, 40 + len(text), 0, 0, 64, 6, 0) + ip + ip
    return front[:10] + struct.pack("!H", checksum(front)) + front[12:] + head + text


class Client:
    """One connection to the server."""

    def __init__(self):
        self.link = socket.socket(socket.AF_INET, socket.SOCK_DGRAM)
        self.link.bind((HOST, CLIENT))
        self.link.settimeout(0.2)
        self.seq, self.ack = 1000, 0
        while self.asked(packet(self.seq, 0, SYN), lambda seq, flags, text: flags == SYN | ACK and self.take(seq, b"+")) is None:
            pass
        self.seq += 1

    def take(self, seq, text):
        """Takes what came, and says whether it did: an older or a later segment isn't taken."""
        if self.ack and seq != self.ack:
            return False
        self.ack = seq + len(text)
        return True

    def asked(self, data, takes):
        """Sends a packet, and returns the text of a segment that is taken within 200 milliseconds, or None."""
        self.link.sendto(data, (HOST, SERVER))
        end = time.monotonic() + 0.2
        while time.monotonic() < end:
            try:
                came = self.link.recv(2048)
            except socket.timeout:
                return None
            seq, flags, text = struct.unpack_from("!I", came, 24)[0], came[33], came[20 + (came[32] >> 4) * 4 :]
            if takes(seq, flags, text):
                return text
        return None

    def echoed(self, line, seconds):
        """Sends a line, and says whether it came back within so many seconds."""
        end, came = time.monotonic() + seconds, b""
        while time.monotonic() < end and len(came) < len(line):
            data = packet(self.seq, self.ack, ACK | PSH, line)
            came += self.asked(data, lambda seq, flags, text: len(text) > 0 and self.take(seq, text)) or b""
        self.seq += len(line)
        self.link.sendto(packet(self.seq, self.ack, ACK), (HOST, SERVER))
        return came == line


def resident(process):
    """The resident memory of a process, in kilobytes."""
    status = pathlib.Path(f"/proc/{process.pid}/status").read_text(encoding="utf-8")
    return int(status.split("VmRSS:")[1].split()[0])


def watched(minutes, processes):
    """Sends a line a second for so many minutes, and returns what was measured each minute, and how many lines came back."""
    client, measured, lines = Client(), [], 0
    for second in range(60 * minutes):
        lines += client.echoed(b"line %08d\n" % second, 5)
        time.sleep(1)
        if second % 60 == 59:
            measured.append([resident(process) for process in processes])
            print(f"minute {second // 60 + 1} logger {measured[-1][0]} server {measured[-1][1]} lines {lines}", flush=True)
    return measured, lines


def main():
    minutes = int(sys.argv[1]) if sys.argv[1:] else 120
    program = sys.argv[2] if sys.argv[2:] else str(TOP / "crates/ftnode/out/ftnode")
    lasting = ["--turns", "1000000", "--times", "4000000000000"]
    with tempfile.TemporaryDirectory() as folder:
        logger = [program, "logger", "--local", f"{HOST}:{LOGGER}", *lasting, "--journal", f"{folder}/journal", "--begin", "yes"]
        server = [program, "server", "--local", f"{HOST}:{SERVER}", "--logger", f"{HOST}:{LOGGER}", "--service", "echo", "--boot", "1", "--isn", "5000", *lasting]
        processes = [subprocess.Popen(words) for words in (logger, server)]
        try:
            measured, lines = watched(minutes, processes)
        finally:
            for process in processes:
                process.kill()
                process.wait()
    if len(measured) > 2:
        growth = [last - second for last, second in zip(measured[-1], measured[1])]
        print(f"since the second minute the logger has grown by {growth[0]} kB, and the server by {growth[1]} kB")
    return 0 if lines == 60 * minutes else 1


if __name__ == "__main__":
    sys.exit(main())
