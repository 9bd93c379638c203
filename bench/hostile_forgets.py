#!/usr/bin/env python3
"""Hostile messages about forgetting, to a server that lasts and to its log: hostile_forgets.py [COUNT] [PROGRAM].

Honest clients of three addresses come again and again, with losses, repetitions, crashes and restarts; between any two of their events come ten messages about
forgetting, half of them to the server: of either kind, of boots before, at and after the server's, with the numbers of connections that are there, in quarantine
or gone, or nearly those. One that only an honest process can have sent, and that would take away what is alive, is left out. `node_cases lasting` must print what
tools/lasting_model.py has, to the byte. Defaults: 1,000,000, and the program crates/node_cases/out/node_cases.
"""
import pathlib
import subprocess
import sys

sys.dont_write_bytecode = True
import node_lines  # noqa: E402
from lasting_script import Drawn, Forget  # noqa: E402

TOP = pathlib.Path(__file__).resolve().parent.parent
EACH, EVENTS = 10, 1000


class Beset(Drawn):
    """Drawn events, between any two of which hostile messages come."""

    def happen(self, kind):
        super().happen(kind)
        for _ in range(EACH):
            self.meet()

    def meet(self):
        named, kind = self.drawn_named(), ("Forget", "Forgotten")[self.draws.draw() % 2]
        boot = (self.boots, self.boots - 1, self.boots + 1, 1, 2**64 - 1, 2**32 + self.boots)[self.draws.draw() % 6]
        if boot < 1:
            boot = self.boots
        honest = boot == self.boots and (named in [rest.named for rest in self.server.rests.values()] or self.is_logged(named))
        if self.draws.draw() % 2:
            if not (honest and kind == "Forgotten"):
                self.hear(Forget(kind, boot, named))
        elif not (honest and kind == "Forget"):
            self.log_hears(Forget(kind, boot, named))
            self.answers.clear()

    def is_logged(self, named):
        entry = self.log.entries.get(named.key)
        return entry is not None and (entry.cisn, entry.sisn) == (named.cisn, named.sisn)


def main():
    count = int(sys.argv[1]) if sys.argv[1:] else 1_000_000
    program = sys.argv[2] if sys.argv[2:] else str(TOP / "crates/node_cases/out/node_cases")
    all_lines = 0
    for seed in range(1, 1 - (-count // (EACH * EVENTS))):
        node_lines.lines.clear()
        node_lines.prints.clear()
        Beset(seed, EVENTS, 40 * (seed % 3))
        said = subprocess.run([program, "lasting"], input="\n".join(node_lines.lines) + "\n", capture_output=True, text=True, check=True).stdout.splitlines()
        if said != node_lines.prints:
            place = next((place for place, (line, wanted) in enumerate(zip(said, node_lines.prints)) if line != wanted), min(len(said), len(node_lines.prints)))
            print(f"seed {seed}: line {place + 1} of {len(said)}: not as the model has it")
            return 1
        all_lines += len(said)
    print(f"{count} hostile messages about forgetting, {all_lines} lines: all as the model has them")
    return 0


if __name__ == "__main__":
    sys.exit(main())
