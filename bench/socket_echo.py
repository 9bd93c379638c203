#!/usr/bin/env python3
"""Two sockets of the kernel for bench/loss.sh and bench/wan.py.

    socket_echo.py serve HOST PORT [SERVICE [CONTROL]]   serves one client: `echo` returns what it sends, `transfer` sends what it asks for, as Transfer does.
                                                         `discard` sends nothing. CONTROL is the congestion control, by default the system's
    socket_echo.py ask HOST PORT FILE                    sends the bytes of a file and prints the seconds until all are returned

`ask` ends with status 1 if other bytes arrive, or not all within five minutes: after many losses the kernel waits up to two minutes before it retransmits.
"""
import select
import socket
import sys
import time

PATIENCE = 300
PIECE = 65536
LONGEST, PERIOD = 2047, 251  # the most bytes that a request of Transfer gets; byte i of its output is i modulo 251
PATTERN = bytes(place % PERIOD for place in range(PIECE + PERIOD))


class Transfer:
    """What it sends for some bytes of requests, each of which is a number of four bytes."""

    def __init__(self):
        self.held, self.made = b"", 0

    def answer(self, data):
        data = self.held + data
        whole = len(data) // 4 * 4
        self.held = data[whole:]
        left = sum(min(LONGEST, int.from_bytes(data[place : place + 4], "big")) for place in range(0, whole, 4))
        while left:
            piece = min(left, PIECE)
            yield PATTERN[self.made % PERIOD :][:piece]
            self.made, left = self.made + piece, left - piece


def serve(at, service="echo", control=""):
    with socket.create_server(at) as door:
        choose(door, control)
        print("up", flush=True)
        link, _ = door.accept()
        transfer = Transfer()
        while data := link.recv(PIECE):
            for piece in [data] if service == "echo" else [] if service == "discard" else transfer.answer(data):
                link.sendall(piece)
        link.close()


def choose(link, control):
    """Gives a socket its congestion control, where one is named."""
    if control:
        link.setsockopt(socket.IPPROTO_TCP, socket.TCP_CONGESTION, control.encode())


def exchange(link, data, until, wanted=None):
    """Sends some bytes by a socket, until so many came back, or the peer's end, or this moment. Returns what came, and when the last of it did."""
    sent, back, last = 0, bytearray(), time.monotonic()
    link.setblocking(False)
    while wanted is None or len(back) < wanted:
        came, free, _ = select.select([link], [link] if sent < len(data) else [], [], max(0, until - time.monotonic()))
        if not came and not free:
            break
        if free:
            sent += link.send(data[sent : sent + PIECE])
            if sent == len(data):
                link.shutdown(socket.SHUT_WR)
        if came:
            more = link.recv(PIECE)
            if not more:
                break
            back += more
            last = time.monotonic()
    return bytes(back), last


def ask(at, data):
    begun = time.monotonic()
    back, _ = exchange(socket.create_connection(at, timeout=PATIENCE), data, begun + PATIENCE)
    spent = time.monotonic() - begun
    if spent >= PATIENCE:
        sys.exit(f"{len(back)} bytes had come after {PATIENCE} seconds")
    print(f"{spent:.3f}")
    sys.exit(back != data)


def main():
    verb, host, port, *words = sys.argv[1:]
    if verb == "serve":
        return serve((host, int(port)), *words)
    with open(words[0], "rb") as file:
        return ask((host, int(port)), file.read())


if __name__ == "__main__":
    main()
