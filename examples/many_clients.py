#!/usr/bin/env python3
"""Many ordinary sockets of the kernel: many_clients.py COUNT AT_ONCE A_SECOND HOST PORT SEED [MOST].

It opens COUNT connections, up to AT_ONCE at a time and A_SECOND a second, to an echo server. Each sends 100 to MOST (100,000) bytes that are drawn from the seed, ends its side, and must
receive the same bytes, by their SHA-256, and the end. It prints how many were right, how many were refused or reset, how long they took, and how often a local
port was used again."""
import hashlib
import random
import socket
import sys
import threading
import time

PATIENCE = 170  # seconds in which nothing comes
count, at_once, a_second, host, port, seed = int(sys.argv[1]), int(sys.argv[2]), int(sys.argv[3]), sys.argv[4], int(sys.argv[5]), int(sys.argv[6])
most = int(sys.argv[7]) if len(sys.argv) > 7 else 100_000
lock, pace, left = threading.Lock(), threading.Lock(), list(range(count))
times, ports, faults = [], {}, {}


def exchange(number):
    """One connection: the error, or None, and its local port."""
    rng = random.Random(seed * 1_000_003 + number)
    data = rng.randbytes(int(100 * (most / 100) ** rng.random()))
    back, here = hashlib.sha256(), None
    try:
        with socket.create_connection((host, port), timeout=PATIENCE) as link:
            here = link.getsockname()[1]
            sender = threading.Thread(target=send, args=(link, data))
            sender.start()
            while more := link.recv(65536):
                back.update(more)
            sender.join()
    except OSError as error:
        return type(error).__name__, here
    return (None if back.digest() == hashlib.sha256(data).digest() else "other bytes"), here


def send(link, data):
    try:
        link.sendall(data)
        link.shutdown(socket.SHUT_WR)
    except OSError:
        pass  # the receiving side sees it, too


def next_number():
    """The next connection's number, once it may begin; None if none is left."""
    with pace:
        if not left:
            return None
        time.sleep(1 / a_second)
        return left.pop()


def work():
    while (number := next_number()) is not None:
        began = time.monotonic()
        fault, here = exchange(number)
        with lock:
            times.append(time.monotonic() - began)
            ports[here] = ports.get(here, 0) + 1
            if fault:
                faults[fault] = faults.get(fault, 0) + 1


began = time.monotonic()
workers = [threading.Thread(target=work) for _ in range(at_once)]
for worker in workers:
    worker.start()
for worker in workers:
    worker.join()
times.sort()
right = count - sum(faults.values())
print(
    f"{right} of {count} right, {faults or 'none refused or reset'}; {time.monotonic() - began:.0f} s,"
    f" a connection {times[len(times) // 2]:.2f} s (median), {times[-1]:.1f} s at most; {len(ports)} local ports, one of them {max(ports.values())} times",
    flush=True,
)
sys.exit(right != count)
