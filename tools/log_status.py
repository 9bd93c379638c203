#!/usr/bin/env python3
"""Asks a logger for its log, and prints a line for each connection.

    tools/log_status.py --logger 10.77.0.3:7008 [--warn PLACES] [--wait SECONDS] [--watch]

    boot 7: 3 of 64 places, 1 empty, 1 done
    192.0.2.1:40000 bytes 1024 fin 0 reads 3 acknowledged 800 done 0
    ..

`bytes`, `reads` and `fin` are what is logged of the client's stream, `acknowledged` what the client has acknowledged of the output, and `done` is 1 once the
connection has ended. An ended connection keeps its place; where the server has --forget and the logger `--forget yes`, until the quarantine is over. The first
line counts the places of connections that are done, and of those of which nothing is logged: such a client hasn't sent anything yet, or is half-open. --watch
prints all of it every 60 seconds.

A logger with the profile wan takes only messages of version 2, and any other only those of version 1. It is asked with version 1 first, and with 2 where nothing
answers; the first line then ends with `, profile wan`. A server of the other profile gets no answer from it.

It changes nothing: it sends only List, with the logger's present boot number (a smaller one is answered by Stale, which names the present one), and never
Hello. Each index is asked for at most three times; the first that isn't answered counts as the end. A logger that no server has sent anything doesn't answer,
and neither does one with boot number 1 and no connections.

Never ask a logger that runs with --part: it would treat these questions as its server's, and no longer answer the server.

Exit status, for a monitor: 0, no problem; 1, at least --warn of the 64 places are used (56 by default); 2, wrong words; 3, no answer.

Everybody who can reach the logger's port can ask. It is outside the proofs, and needs only Python's standard library.
"""
import argparse
import socket
import struct
import sys
import time

from internet import address, checksum

LIST, ENTRY, STALE = 3, 4, 17
PLAIN, WIDE = 1, 2  # versions
HEADER = struct.Struct("!2sBBHHQ")
FIELDS = struct.Struct("!H4sHIIHIBBII")
NEWER = struct.Struct("!Q")
PLACES = 64
TRIES = 3


def places(text):
    count = int(text)
    if not 1 <= count <= PLACES:
        raise argparse.ArgumentTypeError(f"a logger has {PLACES} places")
    return count


def message(boot, kind, fields, version=PLAIN):
    """The bytes of a message: its header with the checksum, then its fields."""
    blank = HEADER.pack(b"FT", version, kind, HEADER.size + len(fields), 0, boot) + fields
    return blank[:6] + struct.pack("!H", checksum(blank)) + blank[8:]


def read(data, wanted=PLAIN):
    """The boot, the kind and the fields of a message of this version, or None."""
    if len(data) < HEADER.size:
        return None
    magic, version, kind, length, _, boot = HEADER.unpack_from(data)
    if magic != b"FT" or version != wanted or length != len(data) or checksum(data) != 0:
        return None
    return boot, kind, data[HEADER.size :]


def is_answer(kind, fields, boot, index):
    """Whether this answers the question of this boot number for this index: an Entry of that index, or a Stale that names a newer boot number."""
    if kind == STALE:
        return len(fields) == NEWER.size and NEWER.unpack(fields)[0] > boot
    return kind == ENTRY and len(fields) == FIELDS.size and FIELDS.unpack(fields)[0] == index


class Logger:
    """A logger that is asked over UDP."""

    def __init__(self, where, wait):
        ip, port = where
        self.where, self.wait, self.boot, self.version = (socket.inet_ntoa(ip), port), wait, 1, PLAIN
        self.socket = socket.socket(socket.AF_INET, socket.SOCK_DGRAM)

    def __enter__(self):
        return self

    def __exit__(self, *_):
        self.socket.close()

    def heard(self, index):
        """The kind and the fields of an answer to the question for an index that arrives in time, or None."""
        until = time.monotonic() + self.wait
        while (left := until - time.monotonic()) > 0:
            self.socket.settimeout(left)
            try:
                data, source = self.socket.recvfrom(2048)
            except socket.timeout:
                return None
            found = read(data, self.version) if source == self.where else None
            if found and found[0] == self.boot and is_answer(*found[1:], self.boot, index):
                return found[1:]
        return None

    def answer(self, index):
        """The kind and the fields of what answers the question for an index, with the boot that is asked with; None where nothing does."""
        question = message(self.boot, LIST, struct.pack("!H", index), self.version)
        for _ in range(TRIES):
            try:
                self.socket.sendto(question, self.where)
            except OSError:
                time.sleep(self.wait)  # there is no way to the logger
                continue
            if answer := self.heard(index):
                return answer
        return None

    def entries(self):
        """All entries in the logger's order, in the version that it answers; None where it answers neither."""
        for self.version in (PLAIN, WIDE):
            if (found := self.entries_in_version()) is not None:
                return found
        return None

    def entries_in_version(self):
        """The same in one version, asked with the logger's present boot."""
        self.boot, found = 1, []  # an empty log answers by Stale alone, and a boot that it has already wouldn't get one
        while len(found) < PLACES:
            answer = self.answer(len(found))
            if answer is None:
                return found if found or self.boot > 1 else None
            kind, fields = answer
            if kind == STALE:
                (self.boot,) = NEWER.unpack(fields)
                found = []
            else:
                found.append(FIELDS.unpack(fields))
        return found


def line(entry):
    _, ip, port, _, _, _, length, fin, done, reads, acknowledged = entry
    return f"{socket.inet_ntoa(ip)}:{port} bytes {length} fin {fin} reads {reads} acknowledged {acknowledged} done {done}"


def counts(entries):
    """How many places are used, and of those how many are empty, and how many done, if there are any."""
    done = sum(entry[8] for entry in entries)
    empty = sum(not any(entry[6:11]) for entry in entries)
    return f"{len(entries)} of {PLACES} places" + f", {empty} empty" * (empty > 0) + f", {done} done" * (done > 0)


def report(logger, warn):
    """Prints what the logger holds, and gives the exit status."""
    entries = logger.entries()
    if entries is None:
        print("no answer: there is no logger, no server of its profile has spoken to it, or it has boot 1 and no connection", file=sys.stderr)
        return 3
    print(f"boot {logger.boot}: {counts(entries)}" + (", profile wan" if logger.version == WIDE else ""))
    for entry in entries:
        print(line(entry))
    sys.stdout.flush()
    return 1 if len(entries) >= warn else 0


def main():
    words = argparse.ArgumentParser(description=__doc__, formatter_class=argparse.RawDescriptionHelpFormatter)
    words.add_argument("--logger", type=address, required=True, help="the logger's address and port")
    words.add_argument("--warn", type=places, default=56, help="status 1 from so many used places on")
    words.add_argument("--wait", type=float, default=0.5, help="seconds to wait for each answer")
    words.add_argument("--watch", action="store_true", help="print it again each 60 seconds")
    given = words.parse_args()
    with Logger(given.logger, given.wait) as logger:
        status = report(logger, given.warn)
        while given.watch:
            time.sleep(60)
            status = report(logger, given.warn)
    return status


if __name__ == "__main__":
    try:
        sys.exit(main())
    except KeyboardInterrupt:
        sys.exit(0)
