#!/usr/bin/env python3
"""Asks a server for a connection, and never acknowledges its SYN-ACK: ticks.py SERVER CLIENT COUNT, both ADDRESS:PORT.

It prints for each of the next COUNT SYN-ACKs how many milliseconds after the first it arrived: the times of the server's retransmissions.
"""
import os
import socket
import sys
import time

sys.path.insert(0, os.path.join(os.path.dirname(__file__), "..", "tools"))
from internet import ACK, SYN, address, fields, segment

LONGEST_WAIT = 120.0


def is_answer(packet):
    """Whether these bytes are a SYN-ACK."""
    found = fields(packet)
    return found is not None and found[3] & (SYN | ACK) == SYN | ACK


def arrivals(link, count):
    """When so many SYN-ACKs came, in seconds."""
    times = []
    while len(times) < count:
        packet = link.recv(2048)
        if is_answer(packet):
            times.append(time.monotonic())
    return times


def main():
    server, client, count = address(sys.argv[1]), address(sys.argv[2]), int(sys.argv[3])
    link = socket.socket(socket.AF_INET, socket.SOCK_DGRAM)
    link.bind((socket.inet_ntoa(client[0]), client[1]))
    link.settimeout(LONGEST_WAIT)
    link.sendto(segment(client, server, 1000, 0, SYN), (socket.inet_ntoa(server[0]), server[1]))
    first, *later = arrivals(link, count + 1)
    print(*(round((at - first) * 1000) for at in later))


if __name__ == "__main__":
    main()
