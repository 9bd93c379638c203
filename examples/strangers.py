#!/usr/bin/env python3
"""SYNs of strangers: strangers.py COUNT HOST PORT SEED.

It sends COUNT datagrams to a server, each with a SYN of an address at which nobody is. Nobody ever answers what the server sends there."""
import os
import random
import socket
import sys
import time

sys.path.insert(0, os.path.join(os.path.dirname(os.path.abspath(__file__)), "..", "tools"))
from internet import SYN, segment  # noqa: E402

count, host, port, rng = int(sys.argv[1]), sys.argv[2], int(sys.argv[3]), random.Random(int(sys.argv[4]))
server = socket.inet_aton(host), port
with socket.socket(socket.AF_INET, socket.SOCK_DGRAM) as link:
    for number in range(count):
        stranger = bytes([192, 0, 2, rng.randrange(1, 255)]), rng.randrange(1024, 65536)
        link.sendto(segment(stranger, server, rng.getrandbits(32), 0, SYN), (host, port))
        if number % 50 == 49:
            time.sleep(0.02)
print(f"{count} SYNs of strangers")
