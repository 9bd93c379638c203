#!/usr/bin/env python3
"""Sends small messages over one connection, pipelined as RFC 2920 allows: the end of a message goes out together with MAIL, RCPT and DATA of the next one.

    bench/mail_client.py ADDRESS PORT COUNT     prints the seconds from the greeting to the last message's reply

The status is 1 where a reply isn't the one that is wanted.
"""
import socket
import sys
import time

TEXT = b"Subject: message %d\r\nFrom: <a@client.example>\r\nTo: <b@mail.example>\r\n\r\n" + b"..a line of text that is stuffed\r\n" + b"a line of text\r\n" * 6 + b".\r\n"
ENVELOPE = b"MAIL FROM:<a@client.example>\r\nRCPT TO:<b@mail.example>\r\nDATA\r\n"


class Refused(Exception):
    """A reply that isn't wanted."""


def expect(lines, code):
    """Reads a whole reply, which must have this code."""
    line = lines.readline()
    while line[3:4] == b"-":
        line = lines.readline()
    if not line.startswith(code):
        raise Refused(line)


def send(host, port, count):
    with socket.create_connection((host, port), 60) as client, client.makefile("rb") as lines:
        client.setsockopt(socket.IPPROTO_TCP, socket.TCP_NODELAY, 1)
        expect(lines, b"220")
        begun = time.monotonic()
        client.sendall(b"EHLO client.example\r\n")
        expect(lines, b"250")
        client.sendall(ENVELOPE)
        for number in range(1, count + 1):
            for code in (b"250", b"250", b"354"):
                expect(lines, code)
            client.sendall(TEXT % number + (ENVELOPE if number < count else b""))
            expect(lines, b"250")
        took = time.monotonic() - begun
        client.sendall(b"QUIT\r\n")
        expect(lines, b"221")
        return took


def main():
    try:
        print(f"{send(sys.argv[1], int(sys.argv[2]), int(sys.argv[3])):.3f}")
    except (Refused, OSError) as why:
        print(f"mail_client.py: {why}", file=sys.stderr)
        return 1
    return 0


if __name__ == "__main__":
    sys.exit(main())
