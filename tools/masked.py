#!/usr/bin/env python3
"""Whether crashes of the server and the stop of a logger are masked, by the model in tools/model.py.

    tools/masked.py [--seeds N] [--events N] [--first SEED] [--greeting BYTES]
                                plays N drawn schedules with two loggers, in which each service has a greeting, and tests the world after each event

After each event: a client has a front of what a server that never failed sends it, for its script cut into reads as the log that serves has them, and all of it
where its stream has ended. A client that the log doesn't know has accepted nothing, not even the greeting. No segment acknowledges what isn't logged. A restart
ends with what is logged. What a live connection has taken and knows to be logged is what its client was told last. A mark that is sent is true of the log. The
program ends with 1 at the first event that breaks one of these.
"""
import argparse

from loggers import NO_MARK, Mark
from mark_model import FORMS
from model import Connection, Segment, gap, number
from seed_model import drawn_run
from services import GREETINGS, Service


def unfailing(service, script, lengths):
    """What a server that never failed has sent after reads of these lengths, and its service then."""
    it, at = Service(service), 0
    sent = it.greeting
    for length in lengths:
        sent, at = sent + it.take(script[at : at + length]), at + length
    return sent, it


def sees_front(client, sent, closed):
    """Whether a client has a front of what it must see, and all of it where its stream has ended."""
    return client.phase == "new" or sent.startswith(bytes(client.accepted)) and (client.phase != "ended" or closed and len(sent) == len(client.accepted))


def is_true(world, key, mark):
    """Whether a mark has the state after its reads of the log, the bytes that these took, and the output that was made by then, which its client has."""
    entry, client = world.log.entries[key], world.clients[world.of_key[key] - 1]
    lengths = entry.lengths[: mark.reads]
    sent, service = unfailing(world.service, entry.data, lengths)
    taken = bytes(entry.data[: mark.length])
    logged = len(lengths) == mark.reads and sum(lengths) == mark.length == len(taken) and 0 not in lengths
    return logged and not service.closed and len(sent) == mark.made <= len(client.accepted) and FORMS[world.service](taken) == mark.state


class Watch:
    """Tests a world after each of its events."""

    def __init__(self):
        self.told, self.serves = {}, False  # the last acknowledgement that was sent to each client, and whether the server was serving
        self.runs = {}  # of each client the lengths that were logged, and what a server that never failed has sent, and whether it has closed

    def faults(self, world, sent):
        """What the last event broke, in words."""
        for way, content in sent:
            if isinstance(content, Segment) and way.startswith("S>") and "A" in content.flags and "R" not in content.flags:
                yield from self.note(world, world.clients[int(way[2:]) - 1], content)
            elif not isinstance(content, Segment) and getattr(content, "name", None) in ("Mark", "Held") and not self.reports_truth(world, content):
                yield f"{content.name} of {content.fields['key']} isn't true"
        yield from (f"client {client.key} sees a failure" for client in world.clients if not sees_front(client, *self.unfailing(world, client)))
        strangers = (client for client in world.clients if client.accepted and not self.is_known(world, client))
        yield from (f"client {client.key} has a greeting without an entry" for client in strangers)
        places = world.server.places if world.server else {}
        if world.server and world.server.serves and not self.serves:
            entries = world.log.entries.items()
            yield from (f"{key} restarts otherwise" for key, entry in entries if not entry.done and not resumes(world.service, entry, places.get(key)))
        yield from (f"{key} was told otherwise" for key, place in places.items() if isinstance(place, Connection) and not self.is_reported(key, place))
        self.serves = bool(world.server and world.server.serves)

    def is_known(self, world, client):
        """Whether the log has an entry of a client's connection."""
        return client.key in world.log.entries

    def unfailing(self, world, client):
        """What a server that never failed has sent to a client, for its script cut into reads as the log has them, and whether it has closed."""
        entry = world.log.entries.get(client.key)
        lengths = tuple(entry.lengths) if entry else ()
        if self.runs.get(client.key, (None,))[0] != lengths:
            sent, service = unfailing(world.service, client.script, lengths)
            self.runs[client.key] = lengths, sent, service.closed
        return self.runs[client.key][1:]

    def reports_truth(self, world, said):
        mark = Mark(*(said.fields[name] for name in Mark._fields))
        return mark == NO_MARK and said.name == "Held" or is_true(world, said.fields["key"], mark)

    def note(self, world, client, segment):
        self.told[client.key] = segment.ack
        entry = world.log.entries.get(client.key)
        if gap(segment.ack, client.isn + 1) > (len(entry.data) + entry.fin if entry else 0):
            yield f"client {client.key} is told of units that aren't logged"

    def is_reported(self, key, place):
        return place.reset or self.told.get(key) == number(place.cisn + 1 + min(place.taken(), place.answered))


def resumes(service, entry, place):
    """Whether a connection continues from what is logged, as if all of it had been read again. It may have made more reads in that turn."""
    if not isinstance(place, Connection):
        return False
    front = place.lengths.count(None)  # reads below a mark, of which it knows nothing
    below = entry.lengths[:front]
    lengths = below + place.lengths[front:]
    sent, now = unfailing(service, entry.data, lengths)
    made = len(unfailing(service, entry.data, below)[0])
    fetched = place.data[sum(below) :] == entry.data[sum(below) :] and lengths[: len(entry.lengths)] == entry.lengths
    has_state = (now.closed, now.form()) == (place.service.closed, place.service.form())
    return fetched and has_state and len(sent) == len(place.output) and sent[made:] == place.output[made:]


def main():
    parser = argparse.ArgumentParser(description=__doc__, formatter_class=argparse.RawDescriptionHelpFormatter)
    for name, default in (("--seeds", 2000), ("--events", 1000), ("--first", 1), ("--greeting", 0)):
        parser.add_argument(name, type=int, default=default)
    words = parser.parse_args()
    GREETINGS.update({name: bytes(i % 251 for i in range(words.greeting)) for name in FORMS})
    stops = crashes = accepted = 0
    for seed in range(words.first, words.first + words.seeds):
        world, _ = drawn_run(seed, 1 + seed % 4, words.events, twin=True, watch=Watch())
        stops, crashes = stops + (world.loggers.stopped is not None), crashes + world.crashes
        accepted += sum(len(client.accepted) for client in world.clients)
    print(f"{words.seeds} schedules of {words.events} events: {stops} stops, {crashes} crashes, {accepted} bytes accepted, all masked")


if __name__ == "__main__":
    main()
