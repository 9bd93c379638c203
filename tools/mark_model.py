#!/usr/bin/env python3
"""Saved states of services, and messages about marks, in plain Python, written from the rules and not from the program.

mark_model.py lines      reads a script of `service_script` from standard input, and writes what it must print
mark_model.py cases      writes the script that is stored beside the program, up to the lines about the web server

A saved state is made here from all input that the service was ever given; the program makes it from the service's state. Lines about the web server are
played by web_model.py, those about the receiver of mail by mail_model.py.
"""
import re
import sys
from struct import iter_unpack, pack, unpack

from mail_model import mail_line
from twin_model import Draws, folded, spelled
from web_model import Connections

SERVICES = ["counter", "echo", "line", "transfer", "meter"]
MESSAGES = ["Mark", "Marked", "Ask", "Held"]
TESTS = ["Short", "Magic", "Version", "Kind", "Length", "Sum", "Field"]
STREAM = 1 << 24


# services

def chunks_until_end(chunks):
    """The input of some chunks, and whether it has ended: an empty chunk ends it."""
    ends = next((i for i, chunk in enumerate(chunks) if not chunk), None)
    return b"".join(chunks[:ends]), ends is not None


def line_form(text):
    """The form of Line after a text, or None where it has closed. A line ends at a line feed, or with its 1,024th byte."""
    lines = re.findall(rb"[^\n]{1024}|[^\n]{0,1023}\n", text)
    if b"quit\n" in lines:
        return None
    return pack(">Q", len(lines)) + text[sum(map(len, lines)):]


def transfer_form(text):
    """The form of Transfer after a text, or None where it has closed."""
    requests = [number for (number,) in iter_unpack(">I", text[: len(text) // 4 * 4])]
    if 0 in requests:
        return None
    return bytes([sum(min(number, 2047) for number in requests) % 251]) + text[4 * len(requests):]


FORMS = {
    "counter": lambda text: pack(">Q", len(text)),
    "echo": lambda text: b"",
    "meter": lambda text: b"",
    "line": line_form,
    "transfer": transfer_form,
}
GOOD = {  # the bytes that are a form
    "counter": re.compile(rb".{8}", re.S),
    "echo": re.compile(rb""),
    "meter": re.compile(rb""),
    "line": re.compile(rb"(?s:.{8})[^\n]{0,1023}"),
    "transfer": re.compile(rb"[\0-\xfa].{0,3}", re.S),
}


def is_form(name, data):
    return GOOD[name].fullmatch(data) is not None


def drawn_piece(draws, name):
    kind = draws.below(6)
    if kind == 0:
        return b"\n"
    if kind == 1:
        return b"quit\n"
    if kind == 2:
        return b"a" * draws.below(8 if name == "transfer" else 500)
    if kind == 3:
        return pack(">I", draws.below(2048))
    return bytes(draws.below(256) for _ in range(1 + draws.below(5)))


def drawn_chunk(draws, name):
    return b"".join(drawn_piece(draws, name) for _ in range(1 + draws.below(4)))


def damaged(draws, form):
    way, byte, place = draws.below(4), draws.below(256), draws.below(1 + min(len(form), 2000))
    if way == 0:
        return form[:-1]
    if way == 1 or place >= len(form):
        return form + bytes([byte])
    return form[:place] + bytes([10 if way == 2 else byte]) + form[place + 1:]


def runs(name, count, seed):
    draws, closed, read_back, refused, number = Draws(seed), 0, 0, 0, 0
    for _ in range(count):
        text, ended = chunks_until_end([drawn_chunk(draws, name) for _ in range(1 + draws.below(5))])
        form = None if ended else FORMS[name](text)
        if form is None:
            closed += 1
            continue
        number = after(number, form)
        drawn_chunk(draws, name)
        read_back += is_form(name, form)
        refused += not is_form(name, damaged(draws, form))
    return f"{name} {count}: closed {closed} read back {read_back} refused {refused} bytes {number}"


def after(number, data):
    for byte in data:
        number = (number * 31 + byte) % (1 << 32)
    return number


def output(name, text, ended):
    """What a service writes in answer to a text, which may have ended, and whether it has closed."""
    if name == "counter":
        raise ValueError("Counter's output has a model of its own")
    if name == "echo":
        return text, ended
    if name == "line":
        lines = [line.removesuffix(b"\n") for line in re.findall(rb"[^\n]{1024}|[^\n]{0,1023}\n", text)]
        rest = text[len(text) - len(line_form(text)) + 8:] if b"quit" not in lines else b""
        lines += [rest] if ended and rest else []
        count = lines.index(b"quit") if b"quit" in lines else len(lines)
        said = b"".join(b"%d %s\n" % (n + 1, line) for n, line in enumerate(lines[:count]))
        return (said + b"bye\n", True) if count < len(lines) else (said, ended)
    requests = [number for (number,) in iter_unpack(">I", text[: len(text) // 4 * 4])]
    count = requests.index(0) if 0 in requests else len(requests)
    size = sum(min(number, 2047) for number in requests[:count])
    return bytes(i % 251 for i in range(size)), ended or count < len(requests)


def plays(name, words):
    chunks = [bytes.fromhex(word.replace("-", "")) for word in words]
    text, ended = chunks_until_end(chunks)
    if name == "meter":
        count = next((i for i, chunk in enumerate(chunks) if not chunk), len(chunks))
        out, closed = b"".join(b"%d\n" % len(chunk) for chunk in chunks[:count]), ended
    else:
        out, closed = output(name, text, ended)
    said = hexed(out) if len(out) <= 256 else f"{len(out)} bytes {after(0, out)}"
    return f"{name} {'closed' if closed else 'open'} {said}"


def resumed(form, text):
    """What Line writes for whole lines after a form, of which no line is held; it counts up to 2^64 - 1."""
    first = unpack(">Q", form)[0]
    lines = text.split(b"\n")[:-1]
    out = b"".join(b"%d %s\n" % (min(first + 1 + n, (1 << 64) - 1), line) for n, line in enumerate(lines))
    return f"line open {hexed(out)}"


# messages about marks

def reading(data):
    """The first test that a string fails, or what it says."""
    if len(data) < 16:
        return "Short"
    magic, version, kind, size, _check, boot = unpack(">2sBBHHQ", data[:16])
    if magic != b"FV":
        return "Magic"
    if version != 1:
        return "Version"
    if not 1 <= kind <= 4:
        return "Kind"
    name = MESSAGES[kind - 1]
    least, most = {"Mark": (34, 1134), "Held": (34, 1134), "Marked": (26, 26), "Ask": (22, 22)}[name]
    if size != len(data) or not least <= len(data) <= most:
        return "Length"
    if folded(data) != 0xFFFF:
        return "Sum"
    said = {"boot": boot, **dict(zip(("ip", "port"), unpack(">IH", data[16:22])))}
    if name != "Ask":
        said["reads"] = unpack(">I", data[22:26])[0]
    if name in ("Mark", "Held"):
        said |= dict(zip(("length", "made"), unpack(">II", data[26:34])))
    fits = boot >= 1 and said.get("reads", 1) <= STREAM + 1 and max(said.get("length", 0), said.get("made", 0)) <= STREAM
    if not fits or (name == "Mark" and said["reads"] == 0):
        return "Field"
    if name in ("Mark", "Held"):
        said["state"] = data[34:]
    return name, said


def spelling(name, said):
    """The one spelling of a message."""
    numbers = b"".join(pack(">I", said[field]) for field in ("reads", "length", "made") if field in said)
    return spelled(b"FV", MESSAGES.index(name) + 1, said["boot"], pack(">IH", said["ip"], said["port"]) + numbers + said.get("state", b""))


def hexed(data):
    return data.hex() or "-"


def said_by(data):
    read = reading(data)
    if isinstance(read, str):
        return read
    name, said = read
    words = " ".join(f"{field} {hexed(value) if field == 'state' else value}" for field, value in said.items())
    return f"{name} {words}" + (" again" if spelling(name, said) == data else "")


def drawn_number(draws, most):
    kind = draws.below(8)
    return [0, 1, most, most + 1][kind] if kind < 4 else draws.below(most + 1)


def sealed(data):
    """A message with its length and checksum, if it is long enough for a header."""
    if len(data) < 16:
        return data
    blank = data[:4] + pack(">HH", len(data), 0) + data[8:]
    return blank[:6] + pack(">H", 0xFFFF - folded(blank)) + blank[8:]


def drawn_message(draws):
    kind = 1 + draws.below(4)
    data = b"FV\1" + bytes([kind]) + bytes(8) + pack(">I", draws.below(8)) + pack(">IH", 0xC0000201, 40000 + draws.below(3))
    if kind != 3:
        data += pack(">I", drawn_number(draws, STREAM + 1))
    if kind in (1, 4):
        data += pack(">I", drawn_number(draws, STREAM))
        data += pack(">I", drawn_number(draws, STREAM))
        size = 1098 + draws.below(5) if draws.below(8) == 0 else draws.below(40)
        first = draws.below(256)
        data += bytes((first + i) % 256 for i in range(size))
    way, place, byte = draws.below(8), draws.below(16), draws.below(6)
    if way == 0:
        data = data[:place] + bytes([byte]) + data[place + 1:]
    if way == 1:
        data += bytes([byte])
    if way == 2:
        data = data[:-1]
    data = sealed(data)
    if way == 3:
        bit = draws.below(8 * len(data))
        data = data[: bit // 8] + bytes([data[bit // 8] ^ (1 << bit % 8)]) + data[bit // 8 + 1:]
    return data[: 10 + place] if way == 4 else data


def random(count, seed):
    draws, counts, number = Draws(seed), {}, 0
    for _ in range(count):
        data = drawn_message(draws)
        read = reading(data)
        if isinstance(read, tuple):
            number = after(number, spelling(*read))
            read = "Read"
        counts[read] = counts.get(read, 0) + 1
    words = " ".join(f"{test.lower()} {counts.get(test, 0)}" for test in [*TESTS, "Read"])
    return f"random {count}: {words} bytes {number}"


# scripts

def played(line, connections):
    """What the program prints for a line, or None where it prints nothing."""
    word, *rest = line.split(" ")
    if word == "#":
        return line
    if word == "load":
        data = bytes.fromhex(rest[1].replace("-", ""))
        return f"{rest[0]} {hexed(data) if is_form(rest[0], data) else 'none'}"
    if word == "play":
        return plays(rest[0], rest[1:])
    if word == "resume":
        return resumed(bytes.fromhex(rest[0]), b"".join(map(bytes.fromhex, rest[1:])))
    if word == "runs":
        return runs(rest[0], int(rest[1]), int(rest[2]))
    if word == "mark":
        return said_by(bytes.fromhex(rest[0].replace("-", "")))
    if word == "random":
        return random(int(rest[0]), int(rest[1]))
    if word == "mail":
        return mail_line(line.partition(" ")[2])
    return connections.played(line)


def lines():
    connections = Connections()
    for line in sys.stdin.read().split("\n")[:-1]:
        if (said := played(line, connections)) is not None:
            print(said)


def forms():
    count, long_line = bytes(7) + b"\5", b"x" * 1023
    yield "# What Line keeps: eight bytes of a number, any one, and an unfinished line."
    for data in (count, count + b"ab", b"\xff" * 8, count + long_line, count + b"\r quit"):
        yield f"load line {data.hex()}"
    yield "# Seven bytes, a line feed held, and a line of 1,024 bytes are the form of none."
    for data in (count[:7], b"", count + b"a\nb", count + b"\n", count + long_line + b"x"):
        yield f"load line {hexed(data)}"
    yield "# What Transfer keeps: a place below 251, and at most three bytes of a request."
    for data in (b"\0", b"\xfa", b"\7abc", b"\7\0\0\0", b"\xfb", b"\xfbab", b"\xff", b"", b"\7abcd"):
        yield f"load transfer {hexed(data)}"
    yield "# Echo and Meter keep nothing, Counter its count."
    for name, data in (("echo", b""), ("echo", b"\0"), ("meter", b""), ("meter", b"\n"), ("counter", count), ("counter", count[1:]), ("counter", count + b"\0"), ("counter", b"")):
        yield f"load {name} {hexed(data)}"


def examples():
    yield "# What each service writes for these chunks, the last of which may be empty, and whether it closes."
    a, ff, two_lines = b"a", b"\xff" * 2048, b"a\nb\n"
    for name, *chunks in (
        ("echo", b"ab", b"c"), ("echo", b"ab", b"", b"c"), ("line", a, b"b\n\nc", b""), ("line", b"x\nquit\ny"), ("line", b"qu", b"it", b"\n", b"x\n"),
        ("line", b"quit", b""), ("line", b"quit"), ("line", b"quit \n quit\nQuit\n"), ("line", b"", b"x"), ("line", b"ab", b""),
        ("transfer", bytes(3), bytes([3, 0, 0, 0, 0])), ("transfer", b"\0", b"\0", b"\0", bytes([2, 0, 0, 0, 1])), ("transfer", bytes([0, 0, 0, 2]), bytes([0, 0, 0, 1]), b""),
        ("transfer", bytes([0, 0, 0, 1, 0, 0, 0]), b""), ("transfer", bytes(7) + b"\5"), ("meter", b"ab", b"c", b""), ("meter", b"abc"), ("meter", a, b"bc"),
    ):
        yield f"play {name} {' '.join(map(hexed, chunks))}"
    yield "# The number of a line stays at 2^64 - 1."
    for count in (3, 2, 1):
        yield f"resume {pack('>Q', (1 << 64) - count).hex()} {hexed(two_lines)}"
    yield "# A line ends with its 1,024th byte, and a request is answered by at most 2,047 bytes."
    for chunks in ((a * 1023 + b"\n",), (a * 1023, b"\n"), (a * 1024,), (a * 1024 + b"\nb\n",), (a * 1025 + b"\n",), (a * 1023, b"bc\n"), (a * 1023,)):
        yield f"play line {' '.join(map(hexed, chunks))}"
    for chunk in (b"\0\0\7\xff", b"\0\0\x08\0\0\0\1\0", ff):
        yield f"play transfer {hexed(chunk)}"


def messages():
    key = {"ip": 0xC0000201, "port": 40000}
    mark = {"boot": 1, **key, "reads": 1, "length": 5, "made": 5, "state": b""}
    changed = lambda **fields: {**mark, **fields}
    yield "# Each kind, with the largest and the smallest of all."
    yield spelling("Mark", mark)
    yield spelling("Mark", changed(boot=(1 << 64) - 1, reads=STREAM + 1, length=STREAM, made=STREAM, state=bytes(i % 256 for i in range(1100))))
    yield spelling("Marked", {"boot": 1, **key, "reads": 0})
    yield spelling("Marked", {"boot": 1, **key, "reads": STREAM + 1})
    yield spelling("Ask", {"boot": 2, **key})
    yield spelling("Held", changed(reads=0, length=0, made=0))
    yield spelling("Held", changed(reads=3, state=b"\0\1\2"))
    yield "# Short, of another magic, version and kind; too short and too long for their kind; changed behind their sum."
    good = spelling("Mark", mark)
    yield from (b"", good[:15], b"FU" + good[2:], good[:2] + b"\2" + good[3:], good[:3] + b"\0" + good[4:], good[:3] + b"\5" + good[4:], good[:-1], good + b"\0")
    yield spelling("Mark", changed(state=bytes(1101)))
    yield sealed(good[:3] + b"\2" + good[4:])
    yield sealed(good[:3] + b"\3" + good[4:26])
    yield good[:33] + bytes([good[33] ^ 1])
    yield "# Numbers out of their ranges: the boot, a Mark of no read, reads, length and made."
    for fields in ({"boot": 0}, {"reads": 0}, {"reads": STREAM + 2}, {"length": STREAM + 1}, {"made": STREAM + 1}):
        yield spelling("Mark", changed(**fields))
    yield spelling("Marked", {"boot": 1, **key, "reads": STREAM + 2})
    yield spelling("Ask", {"boot": 0, **key})
    yield spelling("Held", changed(made=STREAM + 1))


def cases():
    print("\n".join(forms()))
    print("\n".join(examples()))
    for line in messages():
        print(line if isinstance(line, str) else f"mark {hexed(line)}")
    print("# Runs of each service, each form read back, and damaged.")
    for name in SERVICES:
        print(f"runs {name} 10000 {3 + SERVICES.index(name)}")
    print("# Random and damaged messages.\nrandom 10000 1\nrandom 10000 2")


if __name__ == "__main__":
    {"lines": lines, "cases": cases}[sys.argv[1]]()
