#!/usr/bin/env python3
"""Guessed acknowledgements: guesses.py [COUNT] [PROGRAM].

COUNT segments in each of five states of a connection (before the handshake, after it, with output sent, after a restart, and with the client's FIN taken) have
acknowledgements that are drawn over all 2^32 numbers. `node_cases node` must send what the model in tools/model.py sends, and no guess may complete a handshake.
Defaults: 10,000, and the program crates/node_cases/out/node_cases. The stored run of node_cases has 40 of each state.
"""
import pathlib
import subprocess
import sys

sys.dont_write_bytecode = True
import node_lines  # noqa: E402

TOP = pathlib.Path(__file__).resolve().parent.parent


def main():
    count = int(sys.argv[1]) if sys.argv[1:] else 10000
    program = sys.argv[2] if sys.argv[2:] else str(TOP / "crates/node_cases/out/node_cases")
    node_lines.guess_in_each_state(count)
    said = subprocess.run([program, "node"], input="\n".join(node_lines.lines) + "\n", capture_output=True, text=True, check=True).stdout.splitlines()
    wrong = [place for place, (line, wanted) in enumerate(zip(said, node_lines.prints)) if line != wanted]
    if len(said) != len(node_lines.prints) or wrong:
        place = wrong[0] if wrong else min(len(said), len(node_lines.prints))
        print(f"line {place + 1} of {len(said)}: not as the model has it")
        return 1
    print(f"{5 * count} guesses, {len(said)} lines as the model has them, and no handshake by a guess")
    return 0


if __name__ == "__main__":
    sys.exit(main())
