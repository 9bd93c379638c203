#!/usr/bin/env python3
"""Sockets of the kernel for bench/soak.sh.

    soak_clients.py serve HOST PORT                                   an echo server
    soak_clients.py ask HOST PORT BYTES RATE KILLS LIMIT SPACE..      a client in each of these network namespaces, all in this process; SEED in the environment
                                                                      says at which moments the kills come (KILLS without it)

Each client sends its own BYTES bytes, at most RATE bytes a second (as fast as its socket takes them if RATE is 0), closes its side, and compares what is returned.
It prints `kill SECONDS` each time that the next kill is due, KILLS times in all; `client N: WHY` for a client that received less than all, with the kernel's timeout
if it wasn't done in time; and finally `end SECONDS RESETS LOST WRONG SILENCE DONE AFTER LATE TIMEOUT`: the time, the number of connections that were reset, of bytes
that didn't arrive and of wrong bytes, the longest time in seconds in which a waiting client received nothing, the number of clients that received all, the seconds from
the last kill to the end, the longest silence after that kill, and the longest timeout that a client's TCP had (TCP_INFO). It ends after LIMIT seconds at the latest.
"""
import ctypes
import os
import random
import select
import socket
import socketserver
import struct
import sys
import time

PIECE = 2000  # bytes that a client with a rate sends at a time
ROOM = 65536
PERIOD = 0.02  # seconds until a client looks again whether it may send
NEW_NETWORK = 0x40000000  # CLONE_NEWNET
TCP_INFO = struct.Struct("8B24I")  # linux/tcp.h, up to the round trip


class Echo(socketserver.BaseRequestHandler):
    def handle(self):
        while data := self.request.recv(ROOM):
            self.request.sendall(data)


class Server(socketserver.ThreadingTCPServer):
    allow_reuse_address = daemon_threads = True
    request_queue_size = 64


def enter(space):
    """From here on this process makes its sockets in this network namespace."""
    libc = ctypes.CDLL(None, use_errno=True)
    with open(f"/run/netns/{space}", encoding="ascii") as file:
        if libc.setns(file.fileno(), NEW_NETWORK) != 0:
            sys.exit(f"soak_clients: no way into {space}: {os.strerror(ctypes.get_errno())}")


class Client:
    """One connection: what it sends, what came, and when."""

    def __init__(self, number, at, size):
        self.number, self.data = number, random.Random(number).randbytes(size)
        self.sent = self.back = self.wrong = 0
        self.is_reset, self.is_open, self.why = False, True, ""
        self.silence, self.late, self.longest, self.last = 0.0, 0.0, 0.0, time.monotonic()
        self.link = socket.socket()
        self.link.setblocking(False)
        self.link.connect_ex(at)

    def got_all(self):
        return self.back == len(self.data) and not self.wrong and not self.is_reset

    def look(self):
        """Notes the timeout that the client's TCP has now."""
        info = TCP_INFO.unpack(self.link.getsockopt(socket.IPPROTO_TCP, socket.TCP_INFO, TCP_INFO.size))
        self.longest = max(self.longest, info[8] / 1e6)

    def note_silence(self, last_kill):
        """Notes the time in which nothing came, and the part of it after this moment."""
        now = time.monotonic()
        self.silence, self.late = max(self.silence, now - self.last), max(self.late, now - max(self.last, last_kill))
        self.last = now

    def timeout(self):
        """What the kernel says of its retransmission timer: its seconds, the round trip that it has measured, and how often it has expired in a row."""
        info = TCP_INFO.unpack(self.link.getsockopt(socket.IPPROTO_TCP, socket.TCP_INFO, TCP_INFO.size))
        return f"timeout {info[8] / 1e6:.1f} s, round trip {info[23] / 1e6:.1f} s, {info[2]} retransmissions in a row"

    def end(self, why):
        self.is_open, self.why = False, why
        self.link.close()

    def send(self, allowed):
        """Sends what the rate allows and the socket takes."""
        try:
            while self.sent < allowed:
                self.sent += self.link.send(self.data[self.sent : allowed])
                if self.sent == len(self.data):
                    self.link.shutdown(socket.SHUT_WR)
        except BlockingIOError:
            pass
        except OSError as why:
            self.fail(why)

    def receive(self):
        """Takes what came, and says how many bytes that is."""
        try:
            more = self.link.recv(ROOM)
        except BlockingIOError:
            return 0
        except OSError as why:
            self.fail(why)
            return 0
        if not more:
            self.end("the stream ended")
            return 0
        self.compare(more)
        self.back += len(more)
        return len(more)

    def compare(self, more):
        wanted = self.data[self.back : self.back + len(more)]
        if more != wanted:
            self.wrong += sum(a != b for a, b in zip(more, wanted)) + len(more) - len(wanted)

    def fail(self, why):
        self.is_reset = isinstance(why, (ConnectionResetError, ConnectionRefusedError, BrokenPipeError))
        self.end(why.strerror)


class Kills:
    """When they are due. The time until the last bytes may be sent has as many parts as there are kills, and each comes at a random moment of its part: at even
    distances they would keep step with timeouts that double. Where the bytes have no rate, one comes each time that another part of all of them is back."""

    def __init__(self, count, size, rate, clients):
        dice = random.Random(int(os.environ.get("SEED", count)))
        self.by_clock, self.done = rate > 0, 0
        if self.by_clock:
            self.due = [(part + dice.random()) * (size - PIECE) / rate / count for part in range(count)]
        else:
            self.due = [(part + 1) * size * clients / (count + 1) for part in range(count)]

    def is_due(self, passed, back):
        if self.done == len(self.due) or (passed if self.by_clock else back) <= self.due[self.done]:
            return False
        self.done += 1
        return True


def ask(at, size, rate, kills, limit, spaces):
    clients, begun = [], time.monotonic()
    for number, space in enumerate(spaces, 1):
        enter(space)
        clients.append(Client(number, at, size))
    back, kills, last_kill = 0, Kills(kills, size, rate, len(spaces)), begun
    while (live := [each for each in clients if each.is_open]) and (passed := time.monotonic() - begun) < limit:
        allowed = size if rate == 0 else min(size, int(passed * rate) // PIECE * PIECE + PIECE)
        for each in live:
            if each.sent < allowed:
                each.send(allowed)
        live = [each for each in live if each.is_open]
        came = set(select.select([each.link for each in live], [], [], PERIOD)[0])
        for each in live:
            if each.link in came:
                back += each.receive()
                each.note_silence(last_kill)
            if each.is_open:
                each.look()
        if kills.is_due(time.monotonic() - begun, back):
            print(f"kill {time.monotonic() - begun:.1f}", flush=True)
            last_kill = time.monotonic()
    for each in clients:
        if each.is_open:
            each.note_silence(last_kill)
            each.end(f"not done after {limit:.0f} seconds; {each.timeout()}")
        if not each.got_all():
            print(f"client {each.number}: {each.back} of {size} bytes came: {each.why}")
    resets, lost = sum(each.is_reset for each in clients), sum(max(0, size - each.back) for each in clients)
    wrong, done = sum(each.wrong for each in clients), sum(each.got_all() for each in clients)
    silence, late, longest = (max(getattr(each, name) for each in clients) for name in ("silence", "late", "longest"))
    now = time.monotonic()
    print(f"end {now - begun:.2f} {resets} {lost} {wrong} {silence:.2f} {done} {now - last_kill:.2f} {late:.2f} {longest:.2f}", flush=True)


def main():
    verb, host, port, *words = sys.argv[1:]
    if verb == "serve":
        with Server((host, int(port)), Echo) as server:
            server.serve_forever()
    else:
        size, rate, kills, limit, *spaces = words
        ask((host, int(port)), int(size), int(rate), int(kills), float(limit), spaces)


if __name__ == "__main__":
    main()
