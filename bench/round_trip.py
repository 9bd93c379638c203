#!/usr/bin/env python3
"""Reads back what `ftreplay` wrote: round_trip.py FTREPLAY SCHEDULES [SEED].

It draws schedules whose events are allowed, writes each in an unusual spelling (leading zeros, spaces, comments, blank lines, upper-case hexadecimal, a last line
without a line feed), and has it played. The report's lines of service, server and clients, and its events without their numbers, must be the schedule in its plain
spelling; played as a schedule they must give the same report again.
"""
import random
import subprocess
import sys


def play(program, text):
    """The status and the output of a run."""
    run = subprocess.run([program, "run"], input=text.encode(), capture_output=True, timeout=60)
    return run.returncode, run.stdout.decode()


def asked_of(report):
    """The schedule that a report's lines hold."""
    lines = report.splitlines()
    head = [line for line in lines[1:5] if line.split()[0] in ("service", "server", "twin") or " accepted " not in line and line.startswith("client ")]
    return head + [line.split(" ", 2)[2] for line in lines if line.startswith("event ")]


def may_happen(rng, packets, script):
    """An event that has a chance to happen behind so many packets."""
    kind = rng.randrange(10)
    if kind < 6 and packets:
        late = max(1, packets - 6)
        return f"deliver {rng.randint(late, packets) if rng.random() < 0.8 else rng.randint(1, packets)}"
    if kind < 7:
        return f"open 1 {rng.choice([0, 1, 536, 65535, rng.randrange(65536)])}"
    if kind < 9 and script:
        start = rng.randrange(script)
        return f"send 1 {start} {rng.randint(1, min(1460, script - start))}"
    if rng.random() < 0.2:
        return f"stop {rng.randint(1, 2)}"
    return f"ack 1 {rng.choice([0, 65535, rng.randrange(65536)])}"


def number(rng, digits, most):
    """A number with leading zeros."""
    room = max(0, most - len(digits))
    return "0" * min(room, rng.choice([0, 0, 0, 1, room])) + digits


def spelled(rng, line):
    """A line in another spelling."""
    words = []
    for word in line.split():
        if word.isdigit():
            word = number(rng, word, 20)
        elif word.startswith("hex:"):
            word = "hex:" + "".join(rng.choice([digit, digit.upper()]) for digit in word[4:])
        elif ":" in word:
            host, port = word.split(":")
            word = ".".join(number(rng, octet, 5) for octet in host.split(".")) + ":" + number(rng, port, 5)
        words.append(word)
    return " " * rng.choice([0, 0, 2]) + (" " * rng.choice([1, 1, 3])).join(words) + " " * rng.choice([0, 0, 1])


def spelled_text(rng, lines):
    """A text in another spelling."""
    text = []
    for line in lines:
        if rng.random() < 0.1:
            text.append(rng.choice(["", "   ", "# a comment", "#"]))
        text.append(spelled(rng, line))
    return "\n".join(text) + rng.choice(["\n", ""])


def schedule_of(rng, program):
    """A schedule in its plain spelling, whose events may happen."""
    script = rng.choice([0, 1, 5, 300, 3000])
    lines = ["service echo", f"server 192.0.2.{rng.randint(100, 255)}:{rng.randint(1, 65535)}"]
    if rng.random() < 0.5:
        lines.append("twin")
    if rng.random() < 0.9:
        data = "hex:" + rng.randbytes(script).hex() if script else "-"
        lines.append(f"client 1 192.0.2.{rng.randint(0, 99)}:{rng.randint(1, 65535)} {rng.choice([0, 1000, 2**32 - 1, rng.randrange(2**32)])} {data}")
    if rng.random() < 0.95:
        lines.append(f"boot {rng.choice([1, 2**64 - 1, rng.randint(1, 2**64 - 1)])} {rng.randrange(2**32)}")
    packets = play(program, "\n".join(lines))[1].count("\npacket ")
    for _ in range(rng.randint(0, 40)):
        event = may_happen(rng, packets, script)
        status, report = play(program, "\n".join(lines + [event]))
        if status == 0:
            lines.append(event)
            packets = report.count("\npacket ")
    return lines


def main():
    program, count = sys.argv[1], int(sys.argv[2])
    rng = random.Random(int(sys.argv[3]) if len(sys.argv) > 3 else 1)
    events = 0
    for _ in range(count):
        lines = schedule_of(rng, program)
        text = spelled_text(rng, lines)
        status, report = play(program, text)
        if status != 0 or asked_of(report) != lines:
            sys.exit(f"read otherwise:\n{text}")
        if play(program, "".join(line + "\n" for line in asked_of(report))) != (0, report):
            sys.exit(f"read back otherwise:\n{report}")
        events += sum(1 for line in report.splitlines() if line.startswith("event "))
    print(f"{count} schedules with {events} events were read back")


if __name__ == "__main__":
    main()
