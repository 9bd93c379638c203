#!/usr/bin/env python3
"""Sends stray datagrams, which are no packets, to an address: stray.py ADDRESS:PORT RATE sends RATE datagrams a second until it is killed.

At more than 1,000 a second they are sent in bursts, one burst a millisecond. After a late burst the next one is larger by what is missing. It is outside the proofs.
"""
import socket
import sys
import time

BURSTS = 1000


def main():
    host, _, port = sys.argv[1].rpartition(":")
    rate = int(sys.argv[2])
    link = socket.socket(socket.AF_INET, socket.SOCK_DGRAM)
    link.connect((host, int(port)))
    pause = 1 / min(rate, BURSTS)
    begun, sent = time.monotonic(), 0
    while True:
        due = int((time.monotonic() - begun) * rate)
        while sent < due:
            try:
                link.send(b"stray")
            except OSError:
                pass  # nobody listens, or the socket's buffer is full
            sent += 1
        time.sleep(pause)


if __name__ == "__main__":
    main()
