#!/usr/bin/env python3
"""Hostile segments in each state of a connection, to a server with each profile: hostile.py [COUNT] [PROGRAM].

COUNT segments in each state have acknowledgements far ahead, wrong edges, RSTs beside the number, overlapping text, odd flags or a SYN, all near the
connection's numbers. A connection gets 20 of them, and then two ticks pass; so each state is reached COUNT / 20 times. With the profile `wan` each state is
reached a second time by a client whose segments have timestamps, as then the hostile ones have. `node_cases node` must send what the
model in tools/model.py sends, to the byte, and its connection must have the model's numbers. Defaults: 10,000, and the program
crates/node_cases/out/node_cases. The stored run of node_cases has over 40,000 such segments with the plain profile and over 7,000 with `wan`, among other
clients' turns.
"""
import pathlib
import subprocess
import sys

sys.dont_write_bytecode = True
import node_lines  # noqa: E402
from node_lines import BOOTS, HOSTILE, SERVICES, Target  # noqa: E402

TOP = pathlib.Path(__file__).resolve().parent.parent
EACH = 20
REQUESTS = b"\0\0\7\xff" * 4


class Met(Target):
    """One client alone, which is brought into a state and sends hostile segments there. Of its stream the first bytes are told in words."""

    stamped = False

    def said(self, at, text=b"", flags="A", ack=0):
        self.comes(at, text, flags, ack, HOSTILE, stamps=(2**32 - 9, 1) if self.stamped else None)

    def place(self):
        return self.server.places.get(HOSTILE)

    def opened(self):
        self.said(-1, flags="S")

    def answered(self):
        self.opened()
        self.drain()

    def established(self):
        self.answered()
        self.said(0)
        assert self.place().counted

    def not_logged(self):
        self.established()
        self.said(0, b"hello")
        assert (self.place().taken(), self.place().answered) == (5, 0)

    def held(self):
        self.established()
        self.said(3, b"lo")
        assert self.place().taken() == 0

    def sending(self):
        self.established()
        self.said(0, REQUESTS)
        self.drain()
        assert self.place().sent == 4 * self.place().mss

    def recovering(self):
        self.sending()
        for _ in range(4):
            self.said(16, ack=self.place().mss)
        assert self.place().congestion.dups == 3

    def expired(self):
        self.sending()
        self.ticks(12)
        assert self.place().interval > (10 if self.place().timing.measures else 1)

    def close_wait(self):
        self.established()
        self.said(0, b"hello", "AF")
        assert self.place().fin and self.place().sent == 0

    def last_ack(self):
        self.close_wait()
        self.drain()
        assert self.place().sent == 6

    def fin_wait_1(self):
        self.established()
        self.said(0, b"quit\n")
        self.drain()
        assert (self.place().sent, self.place().una) == (5, 0)

    def fin_wait_2(self):
        self.fin_wait_1()
        self.said(5, ack=5)
        assert self.place().una == 5

    def closing(self):
        self.fin_wait_1()
        self.said(5, flags="AF", ack=4)
        assert self.place().fin and self.place().una == 4

    def time_wait(self):
        self.fin_wait_2()
        self.said(5, flags="AF", ack=5)
        self.drain()
        assert self.place().is_over()

    def done(self):
        self.time_wait()
        self.ticks(4)
        self.drain()
        assert self.place() == "done"

    def restarting(self):
        self.not_logged()
        self.drain()
        self.server = node_lines.model.Server(2, 900000, self.service, profile=self.profile)
        self.turn(f"{BOOTS[self.profile]} {SERVICES[self.service]} 2 900000", self.server.asked())
        assert not self.server.serves

    def restarted(self):
        self.sending()
        self.boot(2, 900000)
        assert self.place().fetched == len(REQUESTS)

    def reset(self):
        self.established()
        self.said(0, flags="R")
        assert self.place().reset


STATES = {
    "a client that is unknown": ("echo", lambda it: None),
    "an opening that isn't logged": ("echo", Met.opened),
    "SYN-RECEIVED": ("echo", Met.answered),
    "ESTABLISHED": ("echo", Met.established),
    "ESTABLISHED, text that isn't logged": ("echo", Met.not_logged),
    "ESTABLISHED, text after a gap": ("echo", Met.held),
    "ESTABLISHED, output in flight": ("transfer", Met.sending),
    "ESTABLISHED, a loss noticed": ("transfer", Met.recovering),
    "ESTABLISHED, the timer expired": ("transfer", Met.expired),
    "CLOSE-WAIT": ("echo", Met.close_wait),
    "LAST-ACK": ("echo", Met.last_ack),
    "FIN-WAIT-1": ("line", Met.fin_wait_1),
    "FIN-WAIT-2": ("line", Met.fin_wait_2),
    "CLOSING": ("line", Met.closing),
    "TIME-WAIT": ("line", Met.time_wait),
    "a connection that has ended": ("line", Met.done),
    "a server that restarts": ("echo", Met.restarting),
    "a connection after a restart": ("transfer", Met.restarted),
    "a connection that was reset": ("echo", Met.reset),
}


def meet(state, profile, stamped, count):
    """The lines of so many hostile segments in this state, with timestamps or without, and what they must print."""
    node_lines.lines.clear()
    node_lines.prints.clear()
    service, reach = STATES[state]
    for seed in range(-(-count // EACH)):
        it = Met(service, profile)
        it.stamped = stamped
        reach(it)
        it.blows(min(EACH, count - seed * EACH), seed, 6, stamped)
        it.ticks(2)
        if isinstance(it.place(), node_lines.model.Connection):
            it.shows(HOSTILE)
    return node_lines.lines, node_lines.prints


def main():
    count = int(sys.argv[1]) if sys.argv[1:] else 10000
    program = sys.argv[2] if sys.argv[2:] else str(TOP / "crates/node_cases/out/node_cases")
    all_lines = 0
    for profile, stamped in ("plain", False), ("wan", False), ("wan", True):
        for state in STATES:
            lines, prints = meet(state, profile, stamped, count)
            said = subprocess.run([program, "node"], input="\n".join(lines) + "\n", capture_output=True, text=True, check=True).stdout.splitlines()
            if said != prints:
                place = next((place for place, (line, wanted) in enumerate(zip(said, prints)) if line != wanted), min(len(said), len(prints)))
                print(f"{profile}{', timestamps' if stamped else ''}, {state}: line {place + 1} of {len(said)}: not as the model has it")
                return 1
            all_lines += len(said)
    print(f"{count} hostile segments in each of {len(STATES)} states with each of {len(BOOTS)} profiles, and with timestamps, {all_lines} lines: all as the model has them")
    return 0


if __name__ == "__main__":
    sys.exit(main())
