#!/usr/bin/env python3
"""Stands in for systemd's descriptor store where there is no systemd: descriptor_store.py PROGRAM [WORD..]

It runs the program, keeps the descriptors that this sends with FDSTORE=1 until it is told FDSTOREREMOVE=1, and starts the program again with them whenever it ends
by a signal or with a status above 0 (sd_notify(3), sd_listen_fds(3)). It prints `started PID` each time, and ends once the program ends with status 0.
"""
import contextlib
import os
import socket
import sys
import time

FIRST = 3  # where the descriptors begin that a program is given
REST = 0.1  # seconds until it is started again, as in ftnode-gateway.service


class Store:
    """The descriptors by name, and the socket on which the program sends them."""

    def __init__(self):
        self.kept = {}
        self.socket = socket.socket(socket.AF_UNIX, socket.SOCK_DGRAM)
        self.name = f"descriptors{os.getpid()}"
        self.socket.bind("\0" + self.name)
        self.socket.settimeout(0.05)

    def take(self):
        """A message, if one comes soon."""
        with contextlib.suppress(TimeoutError):
            text, descriptors, _, _ = socket.recv_fds(self.socket, 1000, 4)
            said = dict(line.split("=", 1) for line in text.decode().splitlines())
            name = said.get("FDNAME", "stored")
            if "FDSTORE" in said and descriptors:
                self.kept[name] = descriptors[0]
            if "FDSTOREREMOVE" in said and name in self.kept:
                os.close(self.kept.pop(name))

    def begin(self, command):
        """Starts the program with the descriptors that are kept, and says its process number."""
        pid = os.fork()
        if pid == 0:
            names = list(self.kept)
            high = [os.dup2(self.kept[name], 100 + number) for number, name in enumerate(names)]
            for number, descriptor in enumerate(high):
                os.dup2(descriptor, FIRST + number, inheritable=True)
                os.close(descriptor)
            said = {"LISTEN_PID": str(os.getpid()), "LISTEN_FDS": str(len(names)), "LISTEN_FDNAMES": ":".join(names)} if names else {}
            os.execvpe(command[0], command, os.environ | said | {"NOTIFY_SOCKET": "@" + self.name})
        print("started", pid, flush=True)
        return pid


def main():
    store, command = Store(), sys.argv[1:]
    while True:
        pid, ended = store.begin(command), 0
        while ended == 0:
            store.take()
            ended, status = os.waitpid(pid, os.WNOHANG)
        if status == 0:
            return
        print("ended with", os.waitstatus_to_exitcode(status), flush=True)
        time.sleep(REST)


if __name__ == "__main__":
    main()
