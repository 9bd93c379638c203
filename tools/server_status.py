#!/usr/bin/env python3
"""Asks a server of FT-TCP, and its logger, whether clients can open connections.

    tools/server_status.py --server 10.77.0.2:7 [--logger 10.77.0.3:7008 [--boot BOOT]] [--wait SECONDS]

It sends the server an acknowledgement from a port that has no connection. A server that has restarted answers with a RST, as a listening TCP does (RFC 9293,
3.10.7.2). A server that is restarting, or that has had no answer from its logger since it started, doesn't answer. No connection is opened, and no place of
the log is used. It asks at most three times, each time from another port.

That isn't enough for a client to open: the logger has to be up, with the log that the server began with, and with a free place. A server whose logger has died
since, or was started again with a new log, answers all the same. So with --logger it asks the logger, too, as tools/log_status.py does, and prints `serves`, and
how many places are used, only if both answer and a place is free. With --boot, the server's boot number, it also requires the logger to have that one: if the
logger's is larger, the server is fenced. Without --logger it prints `answers`.

Never name a logger that runs with --part: it would treat the questions as its server's.

Exit status, for a monitor: 0, it serves, or without --logger it answers; 1, it answers, but no further client can open: the log is full, or has another boot
number; 2, wrong words; 3, the server or the logger doesn't answer. A new log doesn't answer, and neither does one of boot number 1 before its first
connection.

It is outside the proofs, and needs only Python's standard library.
"""
import argparse
import random
import socket
import sys
import time

from internet import ACK, RST, address, fields, segment
from log_status import PLACES, Logger, counts

TRIES = 3


def is_refused(server, wait):
    """Whether an acknowledgement from a new port is answered with the RST of a listening TCP within so many seconds."""
    number, until = random.getrandbits(32), time.monotonic() + wait
    with socket.socket(socket.AF_INET, socket.SOCK_DGRAM) as link:
        try:
            link.connect((socket.inet_ntoa(server[0]), server[1]))
            ip, port = link.getsockname()
            here = socket.inet_aton(ip), port
            link.send(segment(here, server, 0, number, ACK))
            while (left := until - time.monotonic()) > 0:
                link.settimeout(left)
                if fields(link.recv(2048)) == (server, here, number, RST):
                    return True
        except OSError:
            time.sleep(max(0, until - time.monotonic()))  # nobody listens there, there is no way there, or the time is up
    return False


def state_of_log(where, boot, wait):
    """The exit status that the logger's answers lead to, and what to print."""
    with Logger(where, wait) as logger:
        entries = logger.entries()
    if entries is None:
        return 3, "the server answers, but not its logger: there is none, its log is a new one, or it has boot number 1 and no connection yet"
    if boot is not None and logger.boot != boot:
        return 1, f"no client can open: the log has boot number {logger.boot}, and the server {boot}"
    if len(entries) == PLACES:
        return 1, f"no further client can open: {counts(entries)} of the log are used"
    return 0, f"serves; {counts(entries)}"


def state(given):
    """The exit status, and what to print."""
    if not any(is_refused(given.server, given.wait) for _ in range(TRIES)):
        return 3, "no answer: there is no server, it is restarting, or its logger hasn't answered since it started"
    if given.logger is None:
        return 0, "answers"
    return state_of_log(given.logger, given.boot, given.wait)


def main():
    words = argparse.ArgumentParser(description=__doc__, formatter_class=argparse.RawDescriptionHelpFormatter)
    words.add_argument("--server", type=address, required=True, help="the server's address and port")
    words.add_argument("--logger", type=address, help="its logger's address and port; not of a logger with --part")
    words.add_argument("--boot", type=int, help="the server's boot number")
    words.add_argument("--wait", type=float, default=0.5, help="seconds to wait for each answer")
    given = words.parse_args()
    if given.boot is not None and given.logger is None:
        words.error("--boot is compared with what --logger says")
    status, said = state(given)
    print(said, file=sys.stderr if status else sys.stdout)
    return status


if __name__ == "__main__":
    sys.exit(main())
