#!/usr/bin/env python3
"""The part `replay` of the stored run of `node_cases` by the model in tools/model.py.

    tools/replay_stored.py [FOLDER]   writes this part of FOLDER/stdout (crates/node_cases) again, with the model's result of each order that the model can play

The model plays whole schedules, seeds, crashes and deltas, and check_model.py judges reports. The lines about failed calls and refused words stay as they are,
and so does what the script for `sh` prints, the last order.
"""
import pathlib
import re
import sys

from check_model import told as reported_verdict, verdict
from model import Client, World, number
from schedule_model import read_schedule
from seed_model import play, script_of, summary
from stored_parts import FOLDER, read_part, write_part


def orders(stored):
    """The orders of a script, each as its words and the schedule that it plays."""
    text = ""
    for block in stored.removeprefix("= ").removesuffix("\n").split("\n= "):
        order, feed, lines = block.partition("\n")
        text = re.sub(r"(?m)^\*(\d+) (.*)\n", lambda it: (it[2] + "\n") * int(it[1]), lines + "\n") if feed else text
        yield order.split(), text


def made(words, text):
    """What is printed of an order, or None where the model can't tell."""
    if words[0] == "crash":
        return crashes(words[1], [("stop", [int(words[2])])] if words[2:] else [], text)
    if words[0] == "greeted":
        return crashes(words[1], [], text, "mail")
    if words[0] == "deltas":
        return delta(words[1], text)
    if words[0] == "checked":
        return judged(words[1], "".join(line + "\n" for line in play(text)[0]))
    _, name, spoken, *fails, last = words
    spoken = spoken.split("~")
    if fails != ["0", "0", "0"]:
        return None
    if spoken[0] == "seed" and len(spoken) == 4 and all(word.isdigit() for word in spoken[1:]):
        seed, count, events = map(int, spoken[1:])
        allowed = seed < 2**64 and max(map(len, spoken[1:])) <= 20 and 1 <= count <= 16 and 1 <= events <= 20000
        report, why = (summary(seed, count, events), None) if allowed else (None, None)
    elif spoken == ["check"]:
        return judged(name, text)
    elif spoken == ["run"] and not re.search(r"(?m)^lasting ", text):  # the program plays no such schedule, and the model doesn't know
        report, why = play(text)
    else:
        return None
    if report is None:
        return None
    status = {"line": 6, "event": 7, "too": 8}[why.split()[0]] if why else 0
    told = [f"ftreplay: {why}"] if why else []
    return "\n".join([f"{name}: status {status}", *told, *report[-int(last) :]]) + "\n"


def judged(name, text):
    """What `check` says of a report."""
    it = verdict(text.encode())
    return f"{name}: status 0\n{reported_verdict(it)}\n" if it.law == "legal" else f"{name}: status 9\nftreplay: {reported_verdict(it)}\n"


def crashes(name, stops, text, service=None):
    """The first events of a schedule, for each number of them, then a crash, or also a stop, and a restart, and the client goes on as far as it must. Another
    service may stand in for the schedule's."""
    schedule = read_schedule(text)
    ((key, isn, script),) = schedule.clients
    told = ""
    for count in range(1, len(schedule.events) + 1):
        client = Client(key, isn, script_of(script))
        world = World(service or schedule.service, schedule.server, [client], schedule.twin, schedule.marks, schedule.profile)
        for verb, words in [*schedule.events[:count], ("crash", []), *stops]:
            world.step(verb, words)
        proceed(world, client)
        entry = world.log.entries[key]
        accepted = client.accepted.replace(b"\r\n", b"|").decode()
        told += f"{name}, crash after {count}: {accepted} in reads of {len(entry.data)} bytes, {len(entry.lengths)} reads\n"
    return told


def delta(name, text):
    """By how much the numbers of the one connection differ at the end: those that the client knows, and those of the TCP that the last server began."""
    schedule = read_schedule(text)
    ((key, isn, script),) = schedule.clients
    world = World(schedule.service, schedule.server, [Client(key, isn, script_of(script))], schedule.twin, schedule.marks, schedule.profile)
    for verb, words in schedule.events:
        world.step(verb, words)
    return f"{name}: delta {number(world.server.places[key].sisn - world.server.isn)}\n"


def proceed(world, client):
    def happen(verb, *words):
        sent = len(world.packets)
        world.step(verb, list(words))
        while sent < len(world.packets):
            sent += 1
            world.step("deliver", [sent])

    happen("boot", 2, 900000)
    if client.phase in ("new", "opening"):
        happen("open", 1, 65535)
    happen("ack", 1, 65535)
    if client.acked == 0:
        happen("send", 1, 0, 5)
    happen("ack", 1, 65535)


# The last order, and the first line that it prints.
SHELL, SHELL_TOLD = "= shell\n", "# 0: all was done\n"


def printed(stored, told):
    """What is printed of each order but the last, in the script's order: as it stands, `None` where nothing does, and as the model makes it or `None`."""
    marks = []
    told = told.partition(SHELL_TOLD)[0]
    for words, text in orders(stored.partition(SHELL)[0]):
        mark = words[1] + {"play": ": status ", "checked": ": status ", "deltas": ": delta ", "crash": ", crash after 1: ", "greeted": ", crash after 1: "}[words[0]]
        at = told.find(mark, marks[-1][0] if marks and marks[-1][0] is not None else 0)
        marks.append((at if at >= 0 else None, words, text))
    starts = [at for at, _, _ in marks if at is not None] + [len(told)]
    for at, words, text in marks:
        stands = told[at : starts[starts.index(at) + 1]] if at is not None else None
        yield " ".join(words[:2]), stands, made(words, text)


def main():
    folder = pathlib.Path(sys.argv[1]) if sys.argv[1:] else FOLDER
    script, told = read_part("replay", folder)
    written = ""
    for name, stands, wanted in printed(script, told):
        if stands is None and wanted is None:
            sys.exit(f"{name}: the model can't tell, and nothing stands")
        if wanted not in (None, stands):
            print(f"{name}: {'written' if stands else 'new'}")
        written += stands if wanted is None else wanted
    write_part("replay", None, written + "".join(told.partition(SHELL_TOLD)[1:]), folder)


if __name__ == "__main__":
    main()
