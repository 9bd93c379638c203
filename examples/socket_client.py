#!/usr/bin/env python3
"""An ordinary socket of the kernel: socket_client.py SENT WANTED HOST PORT PROGRESS [PIECE].

It sends the bytes of the file SENT, PIECE (2,000 where nothing is said) every 20 ms, and not more after a pause. It ends its side when all are sent, and compares
what comes with those of the file WANTED. How many bytes have come stands in the file PROGRESS. It prints the longest time in which nothing came."""
import os
import select
import socket
import sys
import time

PATIENCE = 150  # seconds; the longest timeout of Linux is 120
data, wanted = [open(name, "rb").read() for name in sys.argv[1:3]]
host, port, progress = sys.argv[3], int(sys.argv[4]), sys.argv[5]
piece = int(sys.argv[6]) if len(sys.argv) > 6 else 2000
back, sent, due, pause = b"", 0, time.monotonic(), 0
link = socket.create_connection((host, port), timeout=PATIENCE)
print("from", link.getsockname(), flush=True)
last = time.monotonic()
while True:
    wait = max(0, due - time.monotonic()) if sent < len(data) else PATIENCE
    if select.select([link], [], [], wait)[0]:
        more = link.recv(65536)
        if not more:
            break
        back += more
        now = time.monotonic()
        pause, last = max(pause, now - last), now
        with open(progress + ".new", "w", encoding="ascii") as file:
            file.write(str(len(back)))
        os.replace(progress + ".new", progress)
    elif sent == len(data):
        sys.exit(f"nothing came for {PATIENCE} seconds; {len(back)} bytes had come")
    if sent < len(data) and time.monotonic() >= due:
        sent += link.send(data[sent : sent + piece])
        due = max(due, time.monotonic()) + 0.02
        if sent == len(data):
            link.shutdown(socket.SHUT_WR)
print(f"sent {sent} bytes, {len(back)} came:", "as wanted" if back == wanted else "DIFFERENT", f"longest pause {pause:.1f} s", flush=True)
sys.exit(back != wanted)
