#!/usr/bin/env python3
"""What `ftreplay` must write, by the model in tools/model.py, which is independent of the program.

    tools/seed_model.py seed SEED CLIENTS EVENTS      the summary of a schedule that is drawn from a seed
    tools/seed_model.py schedule SEED CLIENTS EVENTS  that schedule as text, for `ftreplay run`
    tools/seed_model.py pair SEED CLIENTS EVENTS      one with two loggers: at drawn events one of them stops, and the server crashes if it is up
    tools/seed_model.py run < SCHEDULE                the report of a schedule, up to its first event that isn't allowed; a refused line has none
    tools/seed_model.py compare PROGRAM [--seeds N] [--events N] [--first SEED] [--through seed|run|pair] [--profile plain|wan]
                                                      plays N seeds with 1 to 16 clients each by both, and compares what they write

PROGRAM is a built `ftreplay`. `compare` ends with status 1 at the first difference, and prints the words that reproduce it. With `--through run` the program plays
each schedule as text, and the whole reports are compared; with `--through pair` these are the schedules with two loggers. With `--profile wan` the schedules that
are played as text name this profile.
"""
import argparse
import signal
import subprocess
import sys

from loggers import Forward, Got, Message
from model import LIMIT, PACKETS, Client, World
from schedule_model import Refused, read_schedule

MULTIPLIER, INCREMENT = 6364136223846793005, 1442695040888963407
SERVER = "192.0.2.100:7"


class Generator:
    """Draws: each the upper 31 bits of the next state."""

    def __init__(self, seed):
        self.state = seed

    def draw(self):
        self.state = (self.state * MULTIPLIER + INCREMENT) % 2**64
        return self.state >> 33


def fill(length):
    return bytes(97 + place % 26 for place in range(length))


def drawn_world(draws, count, twin=False, profile="plain"):
    clients = [Client(f"192.0.2.{i}:40000", draws.draw(), fill(1000 * i)) for i in range(1, count + 1)]
    return World("echo", SERVER, clients, twin, profile=profile)


def drawn_event(draws, world):
    """The next event behind the first boot."""
    kind, which = draws.draw() % 16, 1 + draws.draw() % len(world.clients)
    client = world.clients[which - 1]
    if kind <= 8:
        sent = len(world.packets)
        return "deliver", [sent - draws.draw() % min(sent, 64)]
    if kind <= 10 or kind <= 12 and client.phase in ("new", "opening"):
        return drawn_move(draws, world, which, client)
    if kind <= 12 and client.phase != "reset":
        return "ack", [which, 65535]
    if kind == 15 and world.server:
        return ("crash" if draws.draw() % 64 == 0 else "tick"), []
    return tick_or_boot(draws, world)


def drawn_move(draws, world, which, client):
    if client.phase in ("new", "opening"):
        return "open", [which, 65535]
    length = len(client.script)
    if client.phase == "reset" or client.acked > length:
        return tick_or_boot(draws, world)
    if client.acked == length:
        return "fin", [which]
    sent = min(client.sent, length)
    start = client.acked if draws.draw() % 2 == 1 or sent == length else sent
    return "send", [which, start, min(536, length - start)]


def tick_or_boot(draws, world):
    return ("tick", []) if world.server else ("boot", [world.last_boot + 1, draws.draw()])


def drawn_failures(draws, events):
    """Where one of two loggers stops, and where the server crashes: events by their places. The first event boots."""
    stops, crashes = (1 + draws.draw() % max(1, events - 1) for _ in range(2))
    return {crashes: ("crash", []), stops: ("stop", [1 + draws.draw() % 2])}


def drawn_run(seed, count, events, twin=False, watch=None, profile="plain"):
    """The world behind a drawn schedule, with the events; `None` in its place where the packets pass their limit. `watch` finds faults in it after each."""
    draws, played = Generator(seed), []
    world = drawn_world(draws, count, twin, profile)
    failures = drawn_failures(draws, events) if twin else {}
    for place in range(events):
        verb, words = drawn_event(draws, world) if place else ("boot", [1, draws.draw()])
        if place in failures and world.refuses(*failures[place]) is None:
            verb, words = failures[place]
        why = world.refuses(verb, words)
        if why:
            sys.exit(f"seed {seed} {count} {events}: event {place + 1}, {verb} {words}, isn't allowed: {why}")
        sent = world.step(verb, words)
        for fault in watch.faults(world, sent) if watch else []:
            sys.exit(f"seed {seed} {count} {events}: event {place + 1}, {verb} {words}: {fault}")
        if len(world.packets) > PACKETS:
            return None, played
        played.append((verb, words, sent))
    return world, played


def header(world, spelled):
    clients = [f"client {i} {it.key} {it.isn} {spelled[i - 1]}" for i, it in enumerate(world.clients, 1)]
    beside = [f"profile {world.profile}"] * (world.profile != "plain") + ["twin"] * world.twin + [f"marks {world.marks}"] * (world.marks > 0)
    return [f"service {world.service}", f"server {world.address}", *beside, *clients]


def event_words(verb, words):
    return " ".join([verb, *map(str, words)])


def schedule_text(seed, count, events, twin=False, profile="plain"):
    lines = header(drawn_world(Generator(seed), count, twin, profile), [f"fill:{1000 * i}" for i in range(1, count + 1)])
    return lines + [event_words(verb, words) for verb, words, _ in drawn_run(seed, count, events, twin, profile=profile)[1]]


def summary(seed, count, events):
    """The lines of a summary, or None at the packet limit."""
    world, _ = drawn_run(seed, count, events)
    if world is None:
        return None
    first = f"seed {seed} clients {count} events {events} packets {len(world.packets)} boots {world.boots} crashes {world.crashes}"
    return [first] + [f"client {i} {it.phase} accepted {len(it.accepted)} of {len(it.script)}" for i, it in enumerate(world.clients, 1)]


def hexadecimal(data):
    return data.hex() or "-"


def packet_words(content):
    if isinstance(content, Forward):
        return f"Forward number {content.number} {packet_words(content.message)}"
    if isinstance(content, Got):
        return f"Got number {content.number}"
    if isinstance(content, Message):
        words = [content.name, "boot", str(content.boot)]
        for name, value in content.fields.items():
            words += [name, hexadecimal(value) if name in ("bytes", "state") else ",".join(map(str, value)) if name == "lens" else str(value)]
        return " ".join(words)
    mss = "-" if content.mss is None else content.mss
    stamps = "" if content.stamps is None else f" ts {content.stamps[0]} {content.stamps[1]}"
    return f"{content.flags} seq {content.seq} ack {content.ack} window {content.window} mss {mss} data {hexadecimal(content.text)}{stamps}"


def closing(world, done):
    lines = [f"client {i} {it.phase} accepted {len(it.accepted)} {hexadecimal(it.accepted)}" for i, it in enumerate(world.clients, 1)]
    for entry in world.log.entries.values():
        reads = ",".join(map(str, entry.lengths)) or "-"
        lines.append(f"log {entry.key} length {len(entry.data)} fin {entry.fin} acked {entry.acked} done {entry.done} reads {reads}")
    return [*lines, f"end {done}"]


def script_of(word):
    if word == "-":
        return b""
    kind, value = word.split(":")
    return bytes.fromhex(value) if kind == "hex" else fill(min(int(value), LIMIT))


def play(text):
    """The report of a schedule, and why it ended early, or None. A schedule that is refused has none."""
    try:
        schedule = read_schedule(text)
    except Refused as why:
        return [], str(why)
    assert schedule.lasting is None, "tools/lasting_model.py plays these"
    clients = [Client(key, isn, script_of(script)) for key, isn, script in schedule.clients]
    world = World(schedule.service, schedule.server, clients, schedule.twin, schedule.marks, schedule.profile)
    report, number, done = ["ftreplay 1", *header(world, [script for _, _, script in schedule.clients])], 0, 0
    for verb, words in schedule.events:
        why = world.refuses(verb, words)
        if why:
            return report + closing(world, done), f"event {done + 1}: {why}"
        sent = world.step(verb, words)
        if len(world.packets) > PACKETS:
            return report, "too long: packets"
        done += 1
        report.append(f"event {done} {event_words(verb, words)}")
        for way, content in sent:
            number += 1
            report.append(f"packet {number} {way} {packet_words(content)}")
    return report + closing(world, done), None


def differs(program, seed, count, events, through, profile):
    """Whether the program writes something else than the model, for one seed."""
    if through == "seed":
        wanted = summary(seed, count, events)
        words, given = ["seed", str(seed), str(count), str(events)], ""
    else:
        given = "\n".join(schedule_text(seed, count, events, through == "pair", profile)) + "\n"
        wanted, words = play(given)[0], ["run"]
    run = subprocess.run([program, *words], input=given, capture_output=True, text=True, timeout=120, check=False)
    return run.stdout != "".join(line + "\n" for line in wanted or [])


def compare(words):
    for place in range(words.seeds):
        seed, count = words.first + place, 1 + place % 16
        if differs(words.program, seed, count, words.events, words.through, words.profile):
            sys.exit(f"they differ at: seed {seed} {count} {words.events}")
    print(f"{words.seeds} seeds of {words.events} events: all equal")


def main():
    parser = argparse.ArgumentParser(description=__doc__, formatter_class=argparse.RawDescriptionHelpFormatter)
    verbs = parser.add_subparsers(dest="verb", required=True)
    for verb in ("seed", "schedule", "pair"):
        drawn = verbs.add_parser(verb)
        for name in ("seed", "clients", "events"):
            drawn.add_argument(name, type=int)
    verbs.add_parser("run")
    both = verbs.add_parser("compare")
    both.add_argument("program")
    both.add_argument("--seeds", type=int, default=1000)
    both.add_argument("--events", type=int, default=2000)
    both.add_argument("--first", type=int, default=1)
    both.add_argument("--through", choices=("seed", "run", "pair"), default="seed")
    both.add_argument("--profile", choices=("plain", "wan"), default="plain")
    words = parser.parse_args()
    signal.signal(signal.SIGPIPE, signal.SIG_DFL)
    if words.verb == "compare":
        compare(words)
    elif words.verb == "run":
        report, why = play(sys.stdin.buffer.read().decode("latin-1"))
        print(*report, sep="\n", end="\n" if report else "")
        sys.exit(why)
    else:
        drawn = words.seed, words.clients, words.events
        lines = summary(*drawn) if words.verb == "seed" else schedule_text(*drawn, words.verb == "pair")
        if lines is None:
            sys.exit("too long: packets")
        print("\n".join(lines))


if __name__ == "__main__":
    main()
