"""The log with marks, in plain Python, by the rules and not by the program: nothing is ever dropped here.

marked_log_model.py lines      reads lines of `log_script` on marks from standard input, and writes what it must print
marked_log_model.py cases      writes the lines on marks that are stored beside the program

The log is that of loggers.py, messages are read and spelled by twin_model.py, and those about marks by mark_model.py.
"""
import sys
from struct import pack

from loggers import MarkedLog, Message, answers_of
from mark_model import MESSAGES, STREAM, reading, sealed, spelling
from twin_model import Draws, read_message, spell_message

IP, PORT = 0xC0000201, 40000


def message_of(name, said):
    """A message about marks, as the log has it: with one number for address and port."""
    fields = {"key": said["ip"] << 16 | said["port"], **said}
    return Message(name, said["boot"], {field: value for field, value in fields.items() if field not in ("boot", "ip", "port")})


def bytes_of(message):
    """The one spelling of an answer."""
    if message.name not in MESSAGES:
        return spell_message(message)
    said = dict(message.fields)
    key = said.pop("key")
    return spelling(message.name, {"boot": message.boot, "ip": key >> 16, "port": key % 65536, **said})


class MarkStore:
    """The log with marks over bytes, and what a store of it keeps."""

    def __init__(self):
        self.log = MarkedLog()

    def answer(self, data):
        """The bytes of the answer to bytes, or none."""
        message, read = read_message(data), reading(data)
        if message is None and isinstance(read, str):
            return b""
        return b"".join(bytes_of(answer) for answer in answers_of(self.log, message or message_of(*read)))

    def kept(self, place):
        entry = list(self.log.entries.values())[place]
        return len(entry.data) - self.log.mark(entry.key).length // 4096 * 4096


class Player:
    def __init__(self):
        self.marked = MarkStore()

    def out(self, data):
        return "out " + (self.marked.answer(data).hex() or "-")

    def line(self, line):
        word, _, rest = line.partition(" ")
        if word == "#":
            return line
        if word == "marks":
            self.marked = MarkStore()
            return "marks"
        if word == "give":
            return self.out(bytes.fromhex(rest))
        words = rest.split()
        if word == "mark":
            return self.out(mark(*map(int, words[:6]), b"" if words[6] == "-" else bytes.fromhex(words[6])))
        if word == "ask":
            return self.out(ask(*map(int, words)))
        place = int(words[1])
        return f"kept marked {place} is {self.marked.kept(place)}" if place < len(self.marked.log.entries) else "no such entry"


def mark(boot, ip, port, reads, length, made, state):
    return spelling("Mark", {"boot": boot, "ip": ip, "port": port, "reads": reads, "length": length, "made": made, "state": state})


def ask(boot, ip, port):
    return spelling("Ask", {"boot": boot, "ip": ip, "port": port})


class Writer:
    """Writes lines for one connection of a log with marks, and others beside it."""

    def __init__(self):
        self.lines = []

    def note(self, text):
        self.lines.append("# " + text)

    def say(self, name, boot=1, port=PORT, **said):
        key = int.from_bytes(pack(">IH", IP, port), "big")
        fields = {"bytes": b"", "lens": [], **said}
        if name not in ("Hello", "List", "Summary", "Stale"):
            fields["key"] = key
        self.lines.append("give " + spell_message(Message(name, boot, fields)).hex())

    def begin(self, *ports):
        self.lines.append("marks")
        self.say("Hello")
        for port in ports or (PORT,):
            self.say("Open", port=port, cisn=1000, sisn=5000, mss=1460)

    def fill(self, count, start=0, port=PORT, step=1000, fin=0):
        for offset in range(start, start + count, step):
            size = min(step, start + count - offset)
            self.say("Data", port=port, offset=offset, acked=0, fin=fin, bytes=bytes((offset + j) * 7 % 251 for j in range(size)))

    def reads(self, *lengths, first=0, port=PORT):
        for i, length in enumerate(lengths):
            self.say("Read", port=port, index=first + i, length=length)

    def mark(self, reads, length, made, state=b"", boot=1, port=PORT):
        self.lines.append(f"mark {boot} {IP} {port} {reads} {length} {made} {state.hex() or '-'}")

    def ask(self, boot=1, port=PORT):
        self.lines.append(f"ask {boot} {IP} {port}")

    def bytes(self, *offsets, boot=1, port=PORT):
        for offset in offsets:
            self.say("Bytes", boot=boot, port=port, offset=offset)

    def cuts(self, *firsts, boot=1, port=PORT):
        for first in firsts:
            self.say("Cuts", boot=boot, port=port, first=first)

    def kept(self, place=0):
        self.lines.append(f"kept marked {place}")


def worked_run(to):
    to.note("a log with one entry of 5,000 bytes in three reads: which marks are kept, and what is told above and below the kept one")
    to.begin()
    to.fill(5000)
    to.reads(2048, 2048, 904)
    to.kept()
    to.ask()
    to.mark(2, 4096, 10)
    to.kept()
    to.bytes(4095, 4096)
    to.cuts(2, 1)
    to.mark(1, 2048, 10)
    to.mark(3, 4999, 10)
    to.mark(4, 5000, 10)
    to.kept()
    to.ask()
    to.bytes(4095, 4096)
    to.cuts(2)


def lying_marks(to):
    to.note("marks that lie, older ones and the same again, unknown keys, older and newer boots, and answers that come as questions")
    to.begin()
    to.fill(3000)
    to.reads(1000, 500, 1500)
    for reads, length in ((4, 3000), (5, 3000), (STREAM + 1, 3000), (3, 3001), (3, 2999), (2, 1000), (1, 0), (1, STREAM)):
        to.mark(reads, length, 7, b"lie")
    to.ask()
    to.mark(2, 1500, 4, b"two")
    to.ask()
    to.mark(2, 1500, 900, b"again")
    to.mark(1, 1000, 900, b"older")
    to.ask()
    to.mark(3, 3000, 0, bytes(1100))
    to.ask()
    to.mark(1, 1000, 1, port=PORT + 1)
    to.ask(port=PORT + 1)
    to.mark(3, 3000, 1, boot=2)
    to.ask(boot=2)
    for name in ("Marked", "Held"):
        said = {"boot": 1, "ip": IP, "port": PORT, "reads": 3, "length": 3000, "made": 1, "state": b"x"}
        to.lines.append("give " + spelling(name, said if name == "Held" else {k: said[k] for k in ("boot", "ip", "port", "reads")}).hex())
    to.say("Hello", boot=3)
    to.mark(3, 3000, 1)
    to.ask(boot=2)
    to.ask(boot=3)
    to.bytes(0, 2999, boot=3)
    to.say("List", boot=3, index=0)


def closing_reads(to):
    to.note("a mark across an end of input, and one just before it")
    to.begin()
    to.fill(600, fin=0)
    to.say("Data", offset=600, acked=3, fin=1, bytes=b"")
    to.reads(600, 0)
    to.mark(2, 600, 5, b"end")
    to.ask()
    to.mark(1, 600, 5, b"before")
    to.ask()
    to.cuts(0, 1, 2)
    to.say("List", index=0)


def mended_lengths(to):
    to.note("reads of many lengths below a mark: they are given up, and those after it are told and added as before")
    to.begin(PORT, PORT + 1)
    to.fill(12000)
    lengths = [1 + i * 37 % 90 for i in range(200)]
    to.reads(*lengths)
    for reads in (1, 2, 3, 5, 64, 65, 128, 129, 199, 200):
        to.mark(reads, sum(lengths[:reads]), reads, bytes([reads % 256]))
        to.kept()
        to.cuts(reads - 1, reads, 0)
        to.mark(reads - 1 or 1, sum(lengths[: reads - 1]), 0)
        to.mark(reads + 1, sum(lengths[: reads + 1]) - 1, 0)
    end = sum(lengths)
    to.reads(lengths[-1], 17, 17, 18, first=200)
    to.cuts(199, 200, 201, 204)
    to.mark(202, end + lengths[-1] + 17, 3)
    to.cuts(201, 202, 203)
    to.ask()
    to.ask(port=PORT + 1)
    to.kept()
    to.kept(1)
    to.kept(2)


def damaged_datagrams(to, draws):
    to.note("damaged datagrams: one bit flipped, cut short, one byte more")
    to.begin()
    to.fill(100)
    to.reads(60, 40)
    for data in (mark(1, IP, PORT, 1, 60, 5, b"state"), ask(1, IP, PORT)):
        for _ in range(24):
            bit = draws.below(8 * len(data))
            to.lines.append("give " + (data[: bit // 8] + bytes([data[bit // 8] ^ 1 << bit % 8]) + data[bit // 8 + 1 :]).hex())
        for cut in (0, 1, 15, 16, 21, len(data) - 1):
            to.lines.append("give " + sealed(data[:cut]).hex())
        to.lines.append("give " + sealed(data + b"!").hex())
        to.lines.append("give " + data[:2][::-1].hex() + data[2:].hex())
    to.ask()


def drawn_line(to, draws, counts):
    """A message on one of three connections, most of them sensible. `counts` has of each its bytes and the lengths of its reads."""
    at = draws.below(3)
    port, (size, lengths) = PORT + at, counts[at]
    kind = draws.below(10)
    if kind < 3:
        count = draws.below(60)
        to.fill(count, start=size, port=port)
        counts[at] = size + count, lengths
    elif kind < 6 and size > sum(lengths):
        length = 1 + draws.below(min(size - sum(lengths), 20))
        to.reads(length, first=len(lengths), port=port)
        counts[at] = size, lengths + [length]
    elif kind == 6:
        reads = 1 + draws.below(len(lengths) + 2)
        to.mark(reads, max(sum(lengths[:reads]) + [0, 0, 0, 1, -1][draws.below(5)], 0), draws.below(50), bytes(draws.below(9)), port=port)
    elif kind == 7:
        to.ask(port=port)
    elif kind == 8:
        to.bytes(draws.below(size + 5), port=port)
    else:
        to.cuts(draws.below(len(lengths) + 2), port=port)


def drawn_runs(to, draws):
    for run in range(3):
        to.note(f"drawn messages, run {run + 1}")
        to.begin(PORT, PORT + 1, PORT + 2)
        counts = [(0, [])] * 3
        for _ in range(220):
            drawn_line(to, draws, counts)
        for place in range(4):
            to.kept(place)


def cases():
    to, draws = Writer(), Draws(2026)
    for part in (worked_run, lying_marks, closing_reads, mended_lengths):
        part(to)
    damaged_datagrams(to, draws)
    drawn_runs(to, draws)
    return to.lines


def main():
    if sys.argv[1:] == ["cases"]:
        print(*cases(), sep="\n")
        return
    player = Player()
    for line in sys.stdin.read().splitlines():
        print(player.line(line))


if __name__ == "__main__":
    main()
