#!/usr/bin/env python3
"""Writes the part `link` of the stored run of `node_cases`, which link_script plays: link_oracle.py [FOLDER], into FOLDER/stdin and FOLDER/stdout
(crates/node_cases).

The expected lines follow only the written rules. A table made by hand says which command lines are allowed. The loggers are played by the model in
tools/loggers.py, and the server before it has a connection and the pair by the short models below, which make the messages' bytes themselves. How a client ends is written down by hand, and also played by the
endpoint of tools/endpoint_model.py. What a server with Counter does with one client, and how it restarts from the log, is written down step by step."""
import pathlib
import random
import sys

sys.path.insert(0, str(pathlib.Path(__file__).parent.parent / "tools"))

import lasting_model  # noqa: E402
from endpoint_model import Endpoint, Stamps  # noqa: E402
from lasting_model import Named  # noqa: E402
from loggers import FOLLOWED, Log, answers_of  # noqa: E402
from model import LIMIT, Segment  # noqa: E402
from sender_model import PROFILES  # noqa: E402
from stored_parts import FOLDER, write_part  # noqa: E402
from twin_model import KINDS, PLAIN, WIDE, Head, Tail, read_message, read_twin, spell, spell_message, spelled as between, told as heard  # noqa: E402

script, printed = [], []


def line(text, *says):
    script.append(text)
    printed.extend(says)


# Messages: magic, version, kind, length, sum, boot, body
def checksum(data):
    if len(data) % 2:
        data += b"\0"
    total = sum(data[i] << 8 | data[i + 1] for i in range(0, len(data), 2))
    while total > 0xFFFF:
        total = (total & 0xFFFF) + (total >> 16)
    return total ^ 0xFFFF


def message(kind, boot, body=b"", version=PLAIN):
    head = b"FT" + bytes([version, kind]) + (16 + len(body)).to_bytes(2, "big")
    rest = boot.to_bytes(8, "big") + body
    return (head + checksum(head + b"\0\0" + rest).to_bytes(2, "big") + rest).hex()


def hello(boot, version=PLAIN):
    return message(1, boot, version=version)


def summary(boot, count, version=PLAIN):
    return message(2, boot, count.to_bytes(2, "big"), version)


def stale(boot, newer, version=PLAIN):
    return message(17, boot, newer.to_bytes(8, "big"), version)


def wide(data):
    """The same message with version 2."""
    said = bytes.fromhex(data)
    return message(said[3], int.from_bytes(said[8:16], "big"), said[16:], WIDE)


assert hello(1) == "465401010010b8990000000000000001"
assert summary(1, 0) == "465401020012b89600000000000000010000"

# Command lines
LOGGER = "logger --local 127.0.0.1:7040 --turns 3"
SERVER = "server --local 127.0.0.1:7007 --logger 127.0.0.1:7008 --service echo --boot 1 --isn 5000 --turns 6"
CLIENT = "client --local 127.0.0.1:7010 --server 127.0.0.1:7007 --isn 1000 --turns 9"
PAIR = "pair --program ftnode --base 7007 --first 40 --second 500 --turns 600"
L, S, C = "logger ", "server ", "client "


def without(words, name):
    parts = words.split(" ")
    at = parts.index("--" + name)
    return " ".join(parts[:at] + parts[at + 2 :])


refused = ["", "''", "run", "Logger --local 127.0.0.1:7040 --turns 3", "--logger --local 127.0.0.1:7040 --turns 3"]
refused += ["--local 127.0.0.1:7040 --turns 3", "logger~ --local 127.0.0.1:7040 --turns 3"]
refused += [without(LOGGER, name) for name in ("local", "turns")]
refused += [without(SERVER, name) for name in ("local", "logger", "service", "boot", "isn", "turns")]
refused += [without(CLIENT, name) for name in ("local", "server", "isn", "turns")]
# twice, or an option of another role
refused += [LOGGER + " --turns 3", LOGGER + " --turns=3", LOGGER + " --local=127.0.0.1:7040", CLIENT + " --script - --script=-", SERVER + " --boot 2"]
refused += [LOGGER + " --boot 1", LOGGER + " --script -", CLIENT + " --logger 127.0.0.1:7040", SERVER + " --script -"]
# unknown names
refused += [LOGGER + " --Turns 3", "logger --loca 127.0.0.1:7040 --turns 3", "logger --local 127.0.0.1:7040 --turn 3", LOGGER + " --=3", LOGGER + " ---turns 3"]
# `--`, help, version, `-` and words that stand alone
refused += [LOGGER + " --", "logger -- --local 127.0.0.1:7040 --turns 3", "logger --local 127.0.0.1:7040 -- --turns 3", "logger --local -- 127.0.0.1:7040 --turns 3"]
refused += ["logger --help", LOGGER + " --help", LOGGER + " -h", "logger --version", LOGGER + " -V", "logger help", LOGGER + " help", LOGGER + " -"]
refused += ["logger - --local 127.0.0.1:7040 --turns 3", LOGGER + " 3", "logger x --local 127.0.0.1:7040 --turns 3", "logger -local 127.0.0.1:7040 --turns 3"]
refused += ["logger --local 127.0.0.1:7040 -t3", LOGGER + " ''", "logger --local --turns 3", "logger --turns 3 --local"]
# empty values, and values out of their spelling or range
refused += ["logger --local= --turns 3", "logger --local '' --turns 3"]
for turns in ("0", "1000001", "''", "+3", "-3", "3~", "0x3", "3.0", "000000000000000000003", "18446744073709551616"):
    refused.append("logger --local 127.0.0.1:7040 --turns " + turns)
for at in ("127.0.0.1", "127.0.0.1:0", "127.0.0.1:65536", "256.0.0.1:7040", "127.0.1:7040", "localhost:7040", "127.0.0.1:7040:1", "~127.0.0.1:7040"):
    refused.append(f"logger --local {at} --turns 3")
for name, value in (("boot", "0"), ("boot", "18446744073709551616"), ("isn", "4294967296"), ("service", "Echo"), ("service", "''")):
    refused.append(without(SERVER, name) + f" --{name} {value}")
for text in ("''", "hex:", "hex:6", "hex:6g", "fill:0", "fill:16777217", "fill:", "text", "--"):
    refused.append(CLIENT + " --script " + text)
refused += [CLIENT + " --script", CLIENT + " --script=", without(SERVER, "turns") + " --turns=0"]
refused += ["pair", "Pair" + PAIR[4:], PAIR + " ftnode", PAIR + " --script -", PAIR + " --local 127.0.0.1:7007"]
refused += [PAIR + " --program ftnode", PAIR + " --base=7007"]
refused += [without(PAIR, name) for name in ("program", "base", "first", "second", "turns")]
# a program is not empty and doesn't begin with a hyphen
refused += [without(PAIR, "program") + " --program" + text for text in ("", " ''", "=", " -", "=-", " -x", "=-x", " --", "=--", " --x", "=--program")]
for name, last in (("base", 65533), ("first", 1000000), ("second", 1000000), ("turns", 1000000)):
    refused += [without(PAIR, name) + f" --{name} {value}" for value in ("0", last + 1, "''", "-1", "1~")]
allowed = [(LOGGER, "logger"), ("logger --turns=3 --local=127.0.0.1:7040", "logger"), ("logger --turns 0000001000000 --local=127.0.0.1:7040", "logger")]
allowed += [(SERVER, "server"), ("server --turns=6 --isn=5000 --boot=1 --service=echo --logger=127.0.0.1:7008 --local=127.0.0.1:7007", "server")]
allowed += [(CLIENT, "client"), (CLIENT + " --script -", "client"), ("client --script=hex:68656C6c6f" + CLIENT[6:], "client"), (CLIENT + " --script=fill:16777216", "client")]
allowed += [(PAIR, "pair"), ("pair --turns=600 --second=500 --first=40 --base=7007 --program=ftnode", "pair")]
allowed += [("pair --program=a=b --base 65533 --first 1000000 --second 1000000 --turns 1000000", "pair"), (without(PAIR, "program") + " --program ~-", "pair")]

# a logger of a pair has both of its options, and no journal; a server may have a second logger; and what tells a logger that it is alone has two options
PARTED = LOGGER + " --part head --other 127.0.0.1:7041"
ALONE = "alone --local 127.0.0.1:7050 --to 127.0.0.1:7041"
DOUBLE = SERVER + " --second 127.0.0.1:7009"
refused += [without(PARTED, name) for name in ("local", "turns", "part", "other")] + [without(ALONE, name) for name in ("local", "to")]
refused += [without(PARTED, "part") + " --part" + text for text in (" Head", " middle", " ''", "=", " head~", "")]
refused += [without(PARTED, "other") + " --other" + text for text in (" localhost:7041", " ''", " 127.0.0.1:0", "")]
refused += [PARTED + more for more in (" --journal a", " --part tail", " --other 127.0.0.1:7041", " --second 127.0.0.1:7009", " --boot 1", " --", " -")]
refused += [ALONE + more for more in (" --turns 1", " --to 127.0.0.1:7041", " --part head", " --", " 3")] + ["alone", "Alone" + ALONE[5:], without(ALONE, "to") + " --to 127.0.0.1"]
refused += [SERVER + " --second" + text for text in ("", " ''", "=", " 127.0.0.1", " 127.0.0.1:65536", " 1")] + [DOUBLE + " --second 127.0.0.1:7009"]
refused += [words + " --second 127.0.0.1:7009" for words in (LOGGER, CLIENT, ALONE)] + [words + " --part head --other 127.0.0.1:7041" for words in (SERVER, CLIENT, PAIR)]
# how many times the turns are taken: an option of a server and of each logger, which may be left out
KEPT = LOGGER + " --journal a"
refused += [words + " --times" + text for words in (LOGGER, SERVER) for text in (" 0", " 4000000000001", " 04000000000001", " x", " ''", "=", "")]
refused += [words + " --times 2 --times 2" for words in (LOGGER, SERVER, PARTED, KEPT)] + [words + " --times 2" for words in (CLIENT, PAIR, ALONE)]
refused += [without(LOGGER, "turns") + " --times 3"]
allowed += [(words + more, name) for words, name in ((LOGGER, "logger"), (SERVER, "server"), (PARTED, "head"), (KEPT, "journal")) for more in (" --times 1", " --times=4000000000000")]
refused += [KEPT + " --begin" + text for text in ("", " no", " ''", "=", " Yes", " 1", " yes --begin yes")] + [words + " --begin yes" for words in (LOGGER, SERVER, CLIENT, PAIR, PARTED, ALONE)]
allowed += [(KEPT + more, "journal") for more in (" --begin yes", " --begin=yes")]
# how long a journal's file may be before it is replaced: 4,096 to 2^40 bytes
BOUNDS = ("", " 4095", " 04095", " 0", " 1099511627777", " -1", " x", " ''", "=", " 4096 --compact 4096")
refused += [KEPT + " --compact" + text for text in BOUNDS] + [words + " --compact 4096" for words in (LOGGER, SERVER, CLIENT, PAIR, PARTED, ALONE)]
allowed += [(KEPT + more, "journal") for more in (" --compact 4096", " --compact=1099511627776", " --begin yes --compact 0004096")]
# a profile: an option of each role but a pair and what tells a logger, which may be left out
refused += [words + " --profile" + text for words in (SERVER, CLIENT, LOGGER, KEPT, PARTED) for text in ("", " ''", "=", " fast", " Wan", " PLAIN", " wan~", " 1", " -", " wan wan")]
refused += [words + " --profile wan" + text for words in (SERVER, CLIENT, LOGGER, KEPT, PARTED) for text in (" --profile wan", " --profile=plain")] + [CLIENT + " --Profile wan"]
refused += [words + f" --profile {name}" for words in (PAIR, ALONE) for name in ("plain", "wan")]
PROFILED = ((SERVER, "server"), (CLIENT, "client"), (DOUBLE + " --times 2", "server"), (LOGGER, "logger"), (KEPT + " --begin yes", "journal"), (PARTED + " --times 2", "head"))
allowed += [(words + more, name) for words, name in PROFILED for more in (" --profile plain", " --profile=plain")]
allowed += [(words + more, name + " wan") for words, name in PROFILED for more in (" --profile wan", " --profile=wan")]
allowed += [("server --profile=wan" + SERVER[6:], "server wan"), ("client --profile wan" + CLIENT[6:] + " --script hex:6869", "client wan")]
# a quarantine and a silence: options of a server with one logger; and whether a logger forgets
FORGETS = SERVER + " --forget 50"
WAITS = ("", " 0", " 1000001", " 01000001", " -1", " x", " ''", "=", " yes", " 50 --forget 50")
refused += [SERVER + " --forget" + text for text in WAITS] + [DOUBLE + " --forget 50"] + [words + " --forget 50" for words in (LOGGER, KEPT, PARTED, CLIENT, PAIR, ALONE)]
refused += [FORGETS + " --silence" + text for text in ("", " 0", " 100000001", " x", " ''", "=", " 9 --silence 9")]
refused += [words + " --silence 100" for words in (SERVER, LOGGER, KEPT, PARTED, CLIENT, PAIR, ALONE)] + [without(FORGETS, name) for name in ("local", "logger", "service", "boot", "isn", "turns")]
refused += [words + " --forget" + text for words in (LOGGER, KEPT) for text in ("", " no", " Yes", " 1", " ''", "=", " yes --forget yes")]
refused += [words + " --forget yes" for words in (PARTED, CLIENT, PAIR, ALONE)]
allowed += [(FORGETS + more, "lasting") for more in ("", " --silence 1", " --silence=100000000 --times 2")] + [(SERVER + " --forget=1000000", "lasting"), (FORGETS + " --profile wan", "lasting wan")]
allowed += [(words + more, name) for words, name in ((LOGGER, "logger"), (KEPT, "journal"), (KEPT + " --begin yes", "journal")) for more in (" --forget yes", " --forget=yes")]
allowed += [(LOGGER + " --forget yes --profile wan", "logger wan")]
allowed += [(KEPT, "journal"), ("logger --times=004000000000000 --turns=1000000 --local=127.0.0.1:7040", "logger")]
allowed += [(PARTED, "head"), ("logger --other=127.0.0.1:7041 --part=tail --turns=3 --local=127.0.0.1:7040", "tail")]
allowed += [(ALONE, "alone"), ("alone --to=127.0.0.1:7041 --local=127.0.0.1:7050", "alone"), (DOUBLE, "server"), (SERVER + " --second=127.0.0.1:7008", "server")]

line("# words that ask for no role", "# words that ask for no role")
for words in refused:
    line("ask " + words, "none")
line("# words that do", "# words that do")
for words, role in allowed:
    line("ask " + words, role)


# Runs: what comes is a list of (from, hex) and None for silence; the numbers of calls that fail are from 1
class Net:
    def __init__(self, come, send=0, receive=0):
        self.come, self.fail_send, self.fail_receive = list(come), send, receive
        self.sends = self.receives = 0
        self.calls = []
        self.counts = dict(turns=0, datagrams=0, sent=0, lost=0, failed=0)

    def send(self, to, data):
        self.sends += 1
        lost = self.sends == self.fail_send
        self.calls.append(f"{'lost' if lost else 'sent'} {to} {data or '-'}")
        self.counts["lost" if lost else "sent"] += 1

    def receive(self):
        self.receives += 1
        self.counts["turns"] += 1
        if self.receives == self.fail_receive:
            self.calls.append("missed")
            self.counts["failed"] += 1
            return None
        came = self.come.pop(0) if self.come else None
        if came is None:
            self.calls.append("silent")
            return None
        self.counts["datagrams"] += 1
        self.calls.append(f"came {came[0]} {came[1] or '-'}")
        return came

    def told(self):
        return " ".join(f"{name} {count}" for name, count in self.counts.items())


def logger(net, turns, version, forgets):
    log = lasting_model.Log()
    for _ in range(turns):
        came = net.receive()
        said = read_message(bytes.fromhex(came[1]), version) if came else None
        for answer in answers_of(log, said) if said else []:
            net.send(came[0], spell_message(answer, version).hex())
        if came and forgets and said is None and (asked := lasting_model.read_forget(bytes.fromhex(came[1]))) and (answer := log.answer(asked)):
            is_about = isinstance(answer, lasting_model.Forget)
            net.send(came[0], (lasting_model.spelled(answer, bytes.fromhex(came[1])[16:22]) if is_about else spell_message(answer, version)).hex())
    return 0, net.told()


def server(net, turns, boot, loggers, version):
    serving, known = False, {wide(data) if version == WIDE else data: said for data, said in KNOWN.items()}
    for at in loggers:
        net.send(at, hello(boot, version))
    for _ in range(turns):
        came = net.receive()
        if came is None:
            for at in [] if serving else loggers:
                net.send(at, hello(boot, version))
        elif came[0] in loggers and came[1] in known and known[came[1]][1] == boot:
            asks = known[came[1]][0]
            if asks == "summary":
                serving = True
            elif asks != "hello" and asks > boot:
                return 6, f"ftnode: fenced by boot {asks}"
    return 0, net.told()


def part(net, turns, name, other, version):
    """One of two loggers. Told that the other has stopped, it serves alone."""
    read = lambda sent: read_message(sent, version)  # noqa: E731
    it, at = Head(read, version == WIDE) if name == "head" else Tail(read), None
    for _ in range(turns):
        came = net.receive()
        if came is None:
            continue
        data = bytes.fromhex(came[1])
        if read_twin(data) == ("Alone",):
            it.alone = True
            continue
        at = at if came[0] == other else came[0]
        for sent in it.receive_other(heard(data, version)) if came[0] == other else it.receive_server(data):
            to, out = spell(sent, version)
            if to == "other" or at:
                net.send(other if to == "other" else at, out.hex())
    return 0, net.told()


def alone(net, to):
    net.send(to, between(b"FU", 3, 0, b"").hex())
    return 0, f"sent {net.counts['sent']} lost {net.counts['lost']}"


KNOWN = {hello(b): ("hello", b) for b in (1, 2, 3)}  # what tells a server something, in version 1
KNOWN.update({summary(b, 0): ("summary", b) for b in (1, 2)})
KNOWN.update({stale(1, 2): (2, 1), stale(1, 18446744073709551615): (18446744073709551615, 1), stale(2, 3): (3, 2)})
AT = {"logger": "127.0.0.1:7040", "server": "127.0.0.1:7007", "alone": "127.0.0.1:7050"}


def run(words, come, bind=0, second_bind=False, send=0, receive=0, write=0, error=0, way="run"):
    role, *given = words.replace("=", " ").split(" ")
    options = dict(zip(given[::2], given[1::2]))
    turns, version = int(options.get("--turns", 0)) * int(options.get("--times", 1)), WIDE if options.get("--profile") == "wan" else PLAIN
    for came in come:
        script.append("nothing" if came is None else f"come {came[0]} {came[1]}".rstrip())
    for call, number in (("bind", bind), ("bind", 2 * second_bind), ("send", send), ("receive", receive), ("write", write), ("error", error)):
        if number:
            script.append(f"fail {call} {number}")
    script.append(f"{way} {words}")
    net = Net(come, send, receive)
    if bind:
        status, said = 4, "ftnode: link fault"
    elif role == "logger":
        status, said = part(net, turns, options["--part"], options["--other"], version) if "--part" in options else logger(net, turns, version, "--forget" in options)
    elif role == "alone":
        status, said = alone(net, options["--to"])
    else:
        status, said = server(net, turns, 1, [options[name] for name in ("--logger", "--second") if name in options], version)
    if write and status == 0:
        status, said = 5, None
    if error and status:
        status, said = 5, None
    printed.append(f"status {status}")
    if said is not None:
        printed.append(said)
    if not bind:
        printed.append(f"bound {AT[role]} -")
    if way == "brief":
        printed[-1:] = [f"receives {net.receives} sends {net.sends}"]
    else:
        printed.extend(net.calls)


line("# a server whose third send and fifth receive fail", "# a server whose third send and fifth receive fail")
six = [None, None, ("127.0.0.1:7008", summary(1, 0)), None, None]
run(SERVER, six, send=3, receive=5)
line("# each send and each receive in turn", "# each send and each receive in turn")
for n in range(1, 5):
    run(SERVER, six, send=n)
for n in range(1, 7):
    run(SERVER, six, receive=n)
line("# a fenced server, and what fences none", "# a fenced server, and what fences none")
run(SERVER, [("127.0.0.1:7008", stale(1, 2))])
run(SERVER, [None, ("127.0.0.1:7008", stale(1, 18446744073709551615))])
run(SERVER, [("127.0.0.1:7008", stale(1, 2))], error=1)
run(SERVER, [("127.0.0.1:7008", stale(2, 3)), ("127.0.0.1:7009", stale(1, 2)), ("127.0.1.1:7008", stale(1, 2)), ("127.0.0.1:7008", stale(1, 2)[:-2]), ("127.0.0.1:7008", "")])
line("# a logger, by each send and each receive that fails", "# a logger, by each send and each receive that fails")
peers = [("127.0.0.1:7007", hello(1)), ("10.0.0.9:1", hello(2)), ("127.0.0.1:7007", hello(1)), None, ("127.0.0.1:7007", "465401"), ("127.0.0.1:7007", "")]
SIX = LOGGER[:-1] + "6"
run(SIX, peers)
for n in range(1, 4):
    run(SIX, peers, send=n)
for n in range(1, 7):
    run(SIX, peers, receive=n)
line("# hostile datagrams leave each serving", "# hostile datagrams leave each serving")
drawn = random.Random(7)
heads = ["", "4654", "46540101", "45000028", "4500003c00004000400600"]
hostile = [(f"10.0.0.{i}:{1000 + i}", heads[i % 5] + drawn.randbytes(drawn.choice([0, 1, 5, 14, 30, 60])).hex()) for i in range(1, 25)]
hostile += [("127.0.0.1:7008", data) for _, data in hostile[:10]] + [("10.0.0.9:9", drawn.randbytes(1500).hex()), ("10.0.0.9:9", drawn.randbytes(2048).hex())]
run(SERVER[:-1] + "40", [("127.0.0.1:7008", summary(1, 0))] + hostile)
run(LOGGER[:-1] + "40", hostile + [("10.0.0.1:1", hello(3))])
# A client at 192.0.2.1:40000 with the number 1000; its server is at 192.0.2.100:7 and has the number 5000
SYN, ACK, FIN, RST = 2, 16, 1, 4
spent, reset = "ftnode: spent", "ftnode: reset"
SERVER_IP, CLIENT_IP = bytes([192, 0, 2, 100]), bytes([192, 0, 2, 1])


def packet(flags, seq, ack, text=b""):
    def head(check):
        return bytes.fromhex("4500") + (40 + len(text)).to_bytes(2, "big") + bytes.fromhex("000040004006") + check.to_bytes(2, "big") + SERVER_IP + CLIENT_IP

    def body(check):
        ports = (7).to_bytes(2, "big") + (40000).to_bytes(2, "big")
        return ports + seq.to_bytes(4, "big") + ack.to_bytes(4, "big") + bytes([0x50, flags]) + b"\xff\xff" + check.to_bytes(2, "big") + b"\0\0" + text

    pseudo = SERVER_IP + CLIENT_IP + b"\0\x06" + (20 + len(text)).to_bytes(2, "big")
    return (head(checksum(head(0))) + body(checksum(pseudo + body(0)))).hex()


def lived(comes, turns, script, receive=0, profile="plain"):
    """The life of a client: its status, what it accepted, and how many receives and sends there were."""
    it, accepted, left, sends = Endpoint(1000, LIMIT, True, PROFILES[profile].measures), b"", list(comes), 0
    sends += len(it.flush())
    for count in range(1, turns + 1):
        came = left.pop(0) if left and count != receive else None
        if came is None:
            it.tick()
        else:
            flags = "".join(sorted(letter for letter, bit in (("A", ACK), ("F", FIN), ("R", RST), ("S", SYN)) if came[0] & bit))
            it.arrive(Segment(flags, came[1], came[2], 65535, None, came[3] if len(came) > 3 else b""))
        if it.opened and not it.closed and it.state != "CLOSED":
            script = script[it.write(script) :]
            if not script:
                it.close()
        accepted += it.read(LIMIT)
        sends += len(it.flush())
        if it.reset:
            return 7, accepted, count, sends
        if it.state in ("TIME-WAIT", "CLOSED"):
            return 0, accepted, count, sends
    return 8, accepted, turns, sends


def life(comes, turns, status, said, receives, sends, script=b"", fill=0, more="", **fails):
    """A client's life, written down by hand. The endpoint of the model plays it too."""
    if set(fails) <= {"receive"}:
        ended, accepted, *counts = lived(comes, turns, script or bytes(fill), profile=more.split(" ")[-1] or "plain", **fails)
        told = accepted.decode().splitlines() + [text for number, text in ((7, reset), (8, spent)) if number == ended]
        assert (ended, told, counts) == (status, said, [receives, sends]), (comes, ended, told, counts)
    for came in comes:
        line(f"come 192.0.2.100:7 {packet(*came)}" if came else "nothing")
    if script:
        line("input " + script.hex())
    for call, number in fails.items():
        line(f"fail {call} {number}")
    words = f"brief client --local 192.0.2.1:40000 --server 192.0.2.100:7 --isn 1000 --turns {turns}" + (f" --script fill:{fill}" if fill else "") + more
    line(words, f"status {status}", *said, f"receives {receives} sends {sends}")


line("# lives of a client: its SYN, its FIN and its last ACK are sent; hello is accepted", "# lives of a client: its SYN, its FIN and its last ACK are sent; hello is accepted")
both = (SYN | ACK, 5000, 1001)
closed = [both, (FIN | ACK, 5001, 1002)]
hello_comes = [both, (ACK, 5001, 1002, b"hello"), (FIN | ACK, 5006, 1002)]

life(closed, 5, 0, [], 2, 3)
life(closed, 2, 0, [], 2, 3)
life(closed, 1, 8, [spent], 1, 2)
life(closed, 5, 0, [], 3, 4, receive=2)
# what a client writes has no line feed of its own
life(hello_comes[:1] + [(ACK, 5001, 1002, b"hello\n"), (FIN | ACK, 5007, 1002)], 5, 0, ["hello"], 3, 4)
life(hello_comes, 5, 5, [], 2, 3, write=1)
life([both, (ACK, 5001, 1002, b"he\n"), (RST, 5004, 0)], 5, 7, ["he", reset], 3, 3)
life([both, (RST, 5002, 0)], 2, 8, [spent], 2, 3)
life([], 1, 8, [spent], 1, 2)
# The right edge of the client's window is 5001 + 65535. A RST there is answered by an ACK; one past it isn't. A bare acknowledgement there is used
# and not answered, so that the server's FIN, with an older one, comes to a client whose own FIN is acknowledged; a byte there, or one past it, is not used.
EDGE = 5001 + 65535
life([both, (RST, EDGE, 0)] + closed[1:], 5, 0, [], 3, 4)
life([both, (RST, EDGE + 1, 0)] + closed[1:], 5, 0, [], 3, 3)
late = (FIN | ACK, 5001, 1001)
life([both, (ACK, EDGE, 1002), late], 3, 0, [], 3, 3)
life([both, (ACK, EDGE, 1002, b"x"), late], 3, 8, [spent], 3, 4)
life([both, (ACK, EDGE + 1, 1002), late], 3, 8, [spent], 3, 4)
life([both, (ACK, EDGE, 1003), late], 3, 8, [spent], 3, 4)
life([both, (FIN | ACK, 5001, 1004)], 5, 0, [], 2, 4, script=b"hi")
line("# what comes early is held, and accepted once it continues: text, and a FIN", "# what comes early is held, and accepted once it continues: text, and a FIN")
life([both, (ACK, 5003, 1002, b"llo\n"), (ACK, 5001, 1002, b"he"), (FIN | ACK, 5007, 1002)], 5, 0, ["hello"], 4, 5)
life([both, (FIN | ACK, 5003, 1002, b"llo\n"), (ACK, 5001, 1002, b"he")], 5, 0, ["hello"], 3, 4)
life([both, (FIN | ACK, 5004, 1002), (ACK, 5001, 1002, b"he\nllo")], 5, 0, ["he"], 3, 4)
life([both, (ACK, 5007, 1002, b"x\n"), (FIN | ACK, 5004, 1002), (FIN | ACK, 5001, 1002, b"abcdef")], 4, 8, ["abcdefx", spent], 4, 5)
life([both, (ACK, 5003, 1002, b"XXX\n"), (ACK, 5004, 1002, b"yy"), (ACK, 5001, 1002, b"aab"), (FIN | ACK, 5007, 1002)], 9, 0, ["aabyy"], 5, 6)
life([both, (ACK, 5003, 1002, b"llo\n"), (RST, 5001, 0)], 5, 7, [reset], 3, 3)
life([both, (ACK, 5003, 1002, b"llo\n"), (ACK, 5003, 1002), (ACK, 5001, 1002, b"\n")], 4, 8, ["", spent], 4, 4)
runs = [(ACK, 5002 + 2 * n, 1002, b"x") for n in range(16)]
fill = b"abcdefghijklmnopqrstuvwxyz01234"
life([both, *runs, (ACK, 5040, 1002, b"yy"), (ACK, 5033, 1002, b"\n"), (ACK, 5001, 1002, fill[:1]), (ACK, 5003, 1002, fill[2:]), (FIN | ACK, 5034, 1002)], 22, 0,
    ["axcdefghijklmnopqrstuvwxyz01234x"], 22, 23)
line("# how much a client sends: four segments of 536 bytes at first, and then as congestion control lets it", "# how much a client sends: four segments of 536 bytes at first, and then as congestion control lets it")
long_script, again = bytes(97 + place % 26 for place in range(5000)), (ACK, 5001, 1001)
life([both], 1, 8, [spent], 1, 1 + 4, script=long_script)
life([both, (ACK, 5001, 1001 + 536)], 2, 8, [spent], 2, 1 + 4 + 2, script=long_script)
life([both, (ACK, 5001, 1001 + 2144)], 2, 8, [spent], 2, 1 + 4 + 5, script=long_script)
life([both, again, again], 3, 8, [spent], 3, 1 + 4, script=long_script)
life([both, again, again, again], 4, 8, [spent], 4, 1 + 4 + 2, script=long_script)
life([both, again, again, again, again], 5, 8, [spent], 5, 1 + 4 + 2 + 1, script=long_script)
life([both, again, again, again, (ACK, 5001, 1001 + 536)], 5, 8, [spent], 5, 1 + 4 + 2, script=long_script)
life([both], 2, 8, [spent], 2, 1 + 4 + 1, script=long_script)
life([both, (ACK, 5001, 1001 + 2144)], 3, 8, [spent], 3, 1 + 4 + 1 + 2, script=long_script, receive=2)
life(closed, 5, 9, ["ftnode: read fault"], 0, 0, script=b"hi", read=2)
life(closed, 5, 4, ["ftnode: link fault"], 0, 0, bind=1)
line("# how long a client waits: a tick at first, and with the profile for far paths ten", "# how long a client waits: a tick at first, and with the profile for far paths ten")
WAN = " --profile wan"
for turns, plain_sends, wan_sends in ((1, 2, 1), (9, 4, 1), (10, 4, 2), (29, 5, 2), (30, 5, 3)):
    life([], turns, 8, [spent], turns, plain_sends)
    life([], turns, 8, [spent], turns, plain_sends, more=" --profile plain")
    life([], turns, 8, [spent], turns, wan_sends, more=WAN)
# the text and the FIN behind it are sent once, though the server's answer takes nine ticks
slow = [both, *[None] * 9, (FIN | ACK, 5001, 1004)]
life(slow, 20, 0, [], 11, 7, script=b"hi")
life(slow, 20, 0, [], 11, 4, script=b"hi", more=WAN)
life([both, *[None] * 10, (FIN | ACK, 5001, 1004)], 20, 0, [], 12, 5, script=b"hi", more=WAN)
# an acknowledgement after two ticks: from then on the client waits six
two_later = [both, None, None, (ACK, 5001, 1001 + 536)]
for turns, sends in ((4, 1 + 4 + 2), (9, 1 + 4 + 2), (10, 1 + 4 + 2 + 1)):
    life(two_later, turns, 8, [spent], turns, sends, script=long_script, more=WAN)
# four segments and a FIN, of which the server has none at first: each acknowledgement of a part sends the next one again at once, to the end of both streams
again_and_again = [(ACK, 5001, 1001 + n) for n in (536, 1072, 1608)] + [(FIN | ACK, 5001, 1001 + 2048)]
life([both, again, again, again, *again_and_again], 20, 0, [], 8, 1 + 5 + 1 + 1, script=long_script[:2047])
life([both, again, again, again, *again_and_again], 20, 0, [], 8, 1 + 5 + 1 + 3 + 1, script=long_script[:2047], more=WAN)
line("# drawn lives of a client: silence, and acknowledgements that repeat, that are partial and of too much", "# drawn lives of a client: silence, and acknowledgements that repeat, that are partial and of too much")
lives = random.Random(75)
for _ in range(40):
    size = lives.choice([1, 535, 536, 2047, 5000, 20000])
    acked, comes = 0, [None] * lives.choice([0, 1, 9, 10, 25]) + [both]
    while acked < size + 1 and len(comes) < 60:
        step = lives.choice(["silence"] * lives.choice([1, 3]) + ["again", "part", "part", "unit", "much"])
        if step in ("part", "unit"):
            acked = min(size + 1, acked + (536 * lives.choice([1, 1, 2]) if step == "part" else lives.randint(1, 600)))
        comes += [None] * lives.choice([1, 2, 7]) if step == "silence" else [(ACK, 5001, 1001 + acked + 100000 * (step == "much"))] * lives.choice([1, 1, 3])
    comes += [None] * lives.choice([0, 70]) + [(FIN | ACK, 5001, 1001 + size + 1)]
    turns = len(comes) + lives.choice([0, 2])
    for name in ("plain", "wan"):
        ended, _, receives, sends = lived(comes, turns, bytes(size), profile=name)
        life(comes, turns, ended, [spent] if ended == 8 else [], receives, sends, fill=size, more=f" --profile {name}")
line("# faults of the bind and of the sinks", "# faults of the bind and of the sinks")
run(LOGGER, [], bind=1)
run(SERVER, [], bind=1)
run(LOGGER, [], bind=1, error=1)
# there is no second bind: the first decides
run(LOGGER, [], second_bind=True)
run(SERVER, [], second_bind=True)
life(closed, 5, 0, [], 2, 3, bind=2)
run(LOGGER, [], write=1)
run(SERVER, [], write=1)
line("# words that aren't allowed", "# words that aren't allowed")
script.append("run logger")
printed.extend(["status 2", "ftnode: usage"])
script.extend(["fail error 1", "run logger"])
printed.extend(["status 5"])


# A pair: each step is a start, or the child that is waited for with the line's first word
def pair(program, base, first, second, turns, statuses, child=0, write=0, error=0, bind=0):
    server_at, logger_at, client_at = (f"127.0.0.1:{port}" for port in (base, base + 1, base + 2))

    def serves(boot, isn, count):
        return f"{program} server --local {server_at} --logger {logger_at} --service echo --boot {boot} --isn {isn} --turns {count}"

    steps = [f"{program} logger --local {logger_at} --turns {turns}", serves(1, 5000, first)]
    steps += [f"{program} client --local {client_at} --server {server_at} --isn 1000 --turns {turns} --script fill:5000"]
    steps += [(2, "server"), serves(2, 900000, second), (3, "client"), (4, "server"), (1, "logger")]
    for status in statuses:
        script.append(f"child {status}")
    for call, number in (("child", child), ("write", write), ("error", error), ("bind", bind)):
        if number:
            script.append(f"fail {call} {number}")
    script.append(f"run pair --program {program} --base {base} --first {first} --second {second} --turns {turns}")
    status, out, calls, ended = 0, "", [], list(statuses) + [0] * 4
    for number, step in enumerate(steps, 1):
        if number == child:
            status = 10
            break
        if isinstance(step, str):
            calls.append("started " + step)
            continue
        calls.append(f"ended {step[0]} {ended[step[0] - 1]}")
        # a line is three writes, of which each may fail
        pieces = [step[1] + " status ", str(ended[step[0] - 1]), "\n"]
        out += "".join(pieces[: write - 1] if write else pieces)
        if write:
            status = 5
            break
    if status == 10 and error:
        status = 5
    # what is written has its own line feeds, or none where a write failed
    told = out + ("ftnode: child fault\n" if status == 10 else "") + "".join(call + "\n" for call in calls)
    printed.extend([f"status {status}", *told.splitlines()])


line("# a pair whose children end with 0, and with its first wait failing", "# a pair whose children end with 0, and with its first wait failing")
given = ("ftnode", 7007, 40, 500, 600)
pair(*given, [0, 0, 0, 0])
pair(*given, [0, 0, 0, 0], child=4)
line("# each start and each wait of a pair in turn", "# each start and each wait of a pair in turn")
for n in range(1, 10):
    pair(*given, [1, 2, 3, 4], child=n)
line("# other statuses, words and faults of a pair", "# other statuses, words and faults of a pair")
pair(*given, [])
pair(*given, [255, -2147483648, 2147483647])
pair("/opt/ft~tcp/ftnode", 65533, 1000000, 999999, 1, [0, 10, 100, 1000, 9])
pair("=", 1, 1, 1, 1000000, [7])
pair(*given, [5, 6, 7, 8], bind=1)
for n in range(1, 4):
    pair(*given, [5, 6, 7, 8], write=n)
pair(*given, [], child=1, error=1)
pair(*given, [], error=1)
script.extend(["fail child 1", "run pair"])
printed.extend(["status 2", "ftnode: usage"])


# A program with a service of its own: the words of a server have no service, and those of the logger are the same
OWN = without(SERVER, "service")


def asked_of_own(words):
    return [w for w in words if not w.startswith(("server", "client", "pair"))]


line("# words that a program with a service of its own refuses", "# words that a program with a service of its own refuses")
own_refused = asked_of_own(refused) + [SERVER, SERVER.replace("--service echo", "--service=echo"), OWN + " --service counter", OWN + " --service"]
own_refused += ["server", without(OWN, "turns") + " --turns=0", OWN + " --boot 2", OWN + " --script -", OWN + " --", OWN + " -"]
own_refused += [without(OWN, name) for name in ("local", "logger", "boot", "isn", "turns")]
own_refused += [without(OWN, name) + f" --{name} {value}" for name, value in (("boot", "0"), ("boot", "18446744073709551616"), ("isn", "4294967296"), ("turns", "1000001"))]
own_refused += [without(OWN, name) + f" --{name} 127.0.0.1:0" for name in ("local", "logger")]
own_refused += [OWN + " --profile" + text for text in ("", " fast", "=", " Plain", " wan --profile wan")] + [CLIENT + " --profile wan", PAIR + " --profile wan"]
own_refused += [CLIENT, CLIENT + " --script -", PAIR, "pair --turns=600 --second=500 --first=40 --base=7007 --program=ftnode"]
for words in own_refused:
    line("own " + words, "status 2", "ftnode: usage")
line("# Counter in place of the four: a server before it has a connection, and a logger", "# Counter in place of the four: a server before it has a connection, and a logger")
run(OWN, six, way="own")
run("server --isn=5000 --boot=1 --logger=127.0.0.1:7008 --local=127.0.0.1:7007 --turns 6", six, way="own")
for n in range(1, 5):
    run(OWN, six, send=n, way="own")
for n in range(1, 7):
    run(OWN, six, receive=n, way="own")
run(OWN, [("127.0.0.1:7008", stale(1, 2))], way="own")
run(OWN, [("127.0.0.1:7008", stale(1, 2))], error=1, way="own")
run(OWN, [], bind=1, way="own")
run(OWN, [], second_bind=True, way="own")
run(OWN, [], write=1, way="own")
run(SIX, peers, way="own")
run(LOGGER, [], bind=1, way="own")

line("# a service of one's own with two loggers, and as one of them", "# a service of one's own with two loggers, and as one of them")
run(OWN + " --second 127.0.0.1:7009", six, way="own")
run(OWN + " --second=127.0.0.1:7009", [("127.0.0.1:7009", stale(1, 2))], way="own")
run(without(PARTED, "turns") + " --turns 6", peers, way="own")
run(ALONE, [], way="own")
line("# two turns three times, each role that takes the option", "# two turns three times, each role that takes the option")
TWICE = " --turns 2 --times 3"
for way in ("run", "own"):
    run(without(OWN if way == "own" else SERVER, "turns") + TWICE, six, way=way)
    run(without(LOGGER, "turns") + TWICE, peers, way=way)
    for name in ("head", "tail"):
        run(without(without(PARTED, "turns"), "part") + f" --part {name}" + TWICE, peers, way=way)
    line(f"{way} {LOGGER} --times 0", "status 2", "ftnode: usage")
line("# `node` has neither this option nor the roles beside its own", "# `node` has neither this option nor the roles beside its own")
for words in (SERVER + " --times 2", LOGGER + " --times 2", KEPT, PARTED, ALONE):
    line("node " + words, "status 2", "ftnode: usage")
for words in (SERVER, CLIENT, LOGGER, PAIR):
    for name in ("plain", "wan"):
        line(f"node {words} --profile {name}", "status 2", "ftnode: usage")
for words in (SERVER + " --profile fast", CLIENT + " --profile wan --profile wan", LOGGER + " --profile fast", KEPT + " --profile", PARTED + " --profile wan --profile wan"):
    line("run " + words, "status 2", "ftnode: usage")
run(SERVER, six, way="node")
run(DOUBLE, six, way="node")
run(SIX, peers, way="node")
for n in (1, 3):
    run(SERVER, six, send=n, way="node")
    run(SIX, peers, receive=n, way="node")
run(SERVER, [("127.0.0.1:7008", stale(1, 2))], way="node")
run(SERVER, [("127.0.0.1:7008", stale(1, 2))], error=1, way="node")
run(LOGGER, [], bind=1, way="node")
run(LOGGER, [], write=1, way="node")

# One client of Counter, at 192.0.2.1:40000, whose number is 1000, and the server at 127.0.0.1:7007, which gives it 5000. A key is an address and a port
PEER, LOG, KEY = "192.0.2.1:40000", "127.0.0.1:7008", bytes([192, 0, 2, 1]) + (40000).to_bytes(2, "big")
OPENING = KEY + (1000).to_bytes(4, "big") + (5000).to_bytes(4, "big") + (536).to_bytes(2, "big")


def long(n):
    return n.to_bytes(4, "big")


def spelled(at, to, flags, seq, ack, text=b"", options=b"", window=65535):
    """A packet between two addresses with ports."""
    (at_ip, at_port), (to_ip, to_port) = [(bytes(map(int, a.split(":")[0].split("."))), int(a.split(":")[1]).to_bytes(2, "big")) for a in (at, to)]
    size = 20 + len(options) + len(text)

    def head(check):
        return bytes.fromhex("4500") + (20 + size).to_bytes(2, "big") + bytes.fromhex("000040004006") + check.to_bytes(2, "big") + at_ip + to_ip

    def body(check):
        front = at_port + to_port + long(seq) + long(ack) + bytes([(5 + len(options) // 4) << 4, flags])
        return front + window.to_bytes(2, "big") + check.to_bytes(2, "big") + b"\0\0" + options + text

    pseudo = at_ip + to_ip + b"\0\x06" + size.to_bytes(2, "big")
    return (head(checksum(head(0))) + body(checksum(pseudo + body(0)))).hex()


assert spelled("192.0.2.100:7", "192.0.2.1:40000", ACK, 5001, 1002, b"hello") == packet(ACK, 5001, 1002, b"hello")


def says(flags, seq, ack, text=b""):
    """What the client says to the server."""
    return PEER, spelled(PEER, "127.0.0.1:7007", flags, seq, ack, text)


def hears(flags, seq, ack, text=b"", options=b"", window=65535):
    """What the server sends the client."""
    return PEER, spelled("127.0.0.1:7007", PEER, flags, seq, ack, text, options, window)


def logs(kind, boot, body):
    return LOG, message(kind, boot, body)


LIST, ENTRY, BYTES, PART, CUTS, LENS, OPEN, OPENED, DATA, STABLE, READ, READS, DONE, ENDED = range(3, 17)
MSS = bytes([2, 4]) + (1460).to_bytes(2, "big")
TICK = ("tick",)


def kept(length, reads, fin=False):
    return KEY + long(length) + bytes([fin]) + long(reads)


def logs_data(boot, offset, acked, text=b"", fin=False):
    return logs(DATA, boot, KEY + long(offset) + long(acked) + bytes([fin]) + text)


def logs_read(boot, index, length):
    return logs(READ, boot, KEY + long(index) + length.to_bytes(2, "big"))


def played(words, steps, way="own", second=None):
    """A server with these words, without its turns: each step is what comes (None: the boot, TICK: nothing), and what the server then hands to send. What goes to
    the logger goes next to the second. With the profile for far paths messages have version 2."""
    if WAN in words:
        far = lambda it: (it[0], wide(it[1])) if it and it[0] in (LOG, second) else it
        steps = [(far(came), list(map(far, sends))) for came, sends in steps]
    steps = [(came, [s for to, data in sends for s in [(to, data)] + ([(second, data)] if second and to == LOG else [])]) for came, sends in steps]
    script.extend("nothing" if came == TICK else f"come {came[0]} {came[1]}" for came, sends in steps if came)
    turns, ticks = sum(1 for came, sends in steps if came), sum(1 for came, sends in steps if came == TICK)
    script.append(f"{way} {words} --turns {turns}")
    calls = []
    for came, sends in steps:
        calls += ["silent" if came == TICK else f"came {came[0]} {came[1]}"] if came else []
        calls += [f"sent {to} {sent}" for to, sent in sends]
    sends = sum(len(s) for c, s in steps)
    printed.extend(["status 0", f"turns {turns} datagrams {turns - ticks} sent {sends} lost 0 failed 0", "bound 127.0.0.1:7007 -", *calls])


def option(stamps):
    """The timestamps, with the two NOPs in front that align them."""
    return b"" if stamps is None else bytes([1, 1, 8, 10]) + long(stamps[0]) + long(stamps[1])


def stamped(comes, turns, echoes, text=b"", more=WAN, mss=None):
    """The life of a client with all its packets, by the model. `echoes` has by hand what each of them echoes, or None where it carries no timestamps. The first that
    comes offers this segment size."""
    profile = PROFILES[more.split(" ")[-1] or "plain"]
    it, stamps, accepted, calls, sent, status = Endpoint(1000, LIMIT, True, profile.measures), Stamps(profile.stamps), b"", [], [], 8
    words = f"run client --local {PEER} --server 192.0.2.100:7 --isn 1000 --turns {turns}" + (f" --script hex:{text.hex()}" if text else " --script -") + more

    def flush():
        for segment in map(stamps.added, it.flush()):
            flags = sum(bit for letter, bit in (("A", ACK), ("F", FIN), ("R", RST), ("S", SYN)) if letter in segment.flags)
            options = (b"" if segment.mss is None else bytes([2, 4]) + segment.mss.to_bytes(2, "big")) + option(segment.stamps)
            calls.append(f"sent 192.0.2.100:7 {spelled(PEER, '192.0.2.100:7', flags, segment.seq, segment.ack, segment.text, options, segment.window)}")
            sent.append(segment.stamps and segment.stamps[1])

    flush()
    for place in range(turns):
        if place < len(comes):
            flags, seq, ack, more_text, values = (*comes[place], b"", None)[:5] if len(comes[place]) < 4 else (*comes[place], None)[:5]
            size = mss if place == 0 else None
            options = (b"" if size is None else bytes([2, 4]) + size.to_bytes(2, "big")) + option(values)
            data = spelled("192.0.2.100:7", PEER, flags, seq, ack, more_text, options)
            line(f"come 192.0.2.100:7 {data}")
            calls.append(f"came 192.0.2.100:7 {data}")
            letters = "".join(letter for letter, bit in (("A", ACK), ("F", FIN), ("R", RST), ("S", SYN)) if flags & bit)
            stamps.arrive(it, Segment(letters, seq, ack, 65535, size, more_text, values))
        else:
            calls.append("silent")
            it.tick()
        if it.opened and not it.closed and it.state != "CLOSED":
            text = text[it.write(text) :]
            if not text:
                it.close()
        accepted += it.read(LIMIT)
        flush()
        if it.reset or it.state in ("TIME-WAIT", "CLOSED"):
            status = 7 if it.reset else 0
            break
    assert sent == echoes, (comes, sent)
    line(words, f"status {status}", *accepted.decode().splitlines(), *[said for number, said in ((7, reset), (8, spent)) if number == status], f"bound {PEER} -", *calls)


line("# timestamps of a client: what it echoes, of segments in time and out of it", "# timestamps of a client: what it echoes, of segments in time and out of it")
opens = (SYN | ACK, 5000, 1001, b"", (700, 1))
# its SYN echoes 0; the SYN-ACK's value is the first that is echoed. A newer one is, and an older one isn't
stamped([opens, (ACK, 5001, 1002, b"a", (705, 1)), (ACK, 5002, 1002, b"b", (703, 1)), (FIN | ACK, 5003, 1002, b"\n", (709, 1))], 9, [0, 700, 705, 705, 709])
# values of the clock behind its end
stamped([(SYN | ACK, 5000, 1001, b"", (2**32 - 2, 1)), (ACK, 5001, 1002, b"a", (2, 1)), (ACK, 5002, 1002, b"b", (2**32 - 1, 1)), (FIN | ACK, 5003, 1002, b"\n", (2, 1))], 9,
    [0, 2**32 - 2, 2, 2, 2])
# past the last acknowledgement; behind the window; before it; of a SYN in the window; without timestamps; with an echo of what was never sent
stamped([opens, (ACK, 5002, 1002, b"b", (705, 1)), (ACK, 5001 + 65536, 1002, b"c", (706, 1)), (ACK, 4999, 1002, b"d", (707, 1)), (ACK, 5001, 1002, b"a"),
    (ACK, 5003, 1002, b"\n", (708, 4000000000)), (FIN | ACK, 5004, 1002, b"", (709, 1))], 9, [0, 700, 700, 700, 700, 700, 708, 709])
# at the right edge, and a RST there; then a RST at the next number
stamped([opens, (ACK, EDGE, 1002, b"", (705, 1)), (RST, EDGE, 0, b"", (706, 1)), (RST, 5001, 0, b"", (707, 1))], 9, [0, 700, 700])
# a text that begins before what is taken, and ends behind it
stamped([opens, (ACK, 5001, 1002, b"ab", (705, 1)), (ACK, 5002, 1002, b"bc\n", (710, 1)), (FIN | ACK, 5005, 1002, b"", (711, 1))], 9, [0, 700, 705, 710, 711])
# a wrong SYN-ACK, whose refusal carries none, and a right one
stamped([(SYN | ACK, 5000, 1002, b"", (600, 1)), opens, (FIN | ACK, 5001, 1002, b"", (701, 1))], 9, [0, None, 700, 701])
# a SYN-ACK without them: no later segment carries any; and the plain profile, which never has any
stamped([(SYN | ACK, 5000, 1001), (ACK, 5001, 1002, b"a\n", (705, 1)), (FIN | ACK, 5003, 1002, b"", (706, 1))], 9, [0, None, None, None])
stamped([opens, (ACK, 5001, 1002, b"a\n", (705, 1)), (FIN | ACK, 5003, 1002, b"", (706, 1))], 9, [None, None, None, None], more="")
# again and again: the SYN, and then the FIN
stamped([], 31, [0, 0, 0])
stamped([opens], 12, [0, 700, 700])
line("# the text of a client's segments leaves room for them", "# the text of a client's segments leaves room for them")
rows = b"".join(b"%03d abcdefgh\n" % row for row in range(250))
# three segments of text and the FIN, or as many as congestion control lets it send at first: four
for size in (1460, 76, 70, None):
    stamped([opens], 1, [0, 700, 700, 700, 700], text=rows, mss=size)
stamped([(SYN | ACK, 5000, 1001)], 1, [0, None, None, None, None], text=rows, mss=1460)

line("# Counter says 6 behind the first line, and, started again from the log, 12 behind the second", "# Counter says 6 behind the first line, and, started again from the log, 12 behind the second")
first, second = b"hello\n", b"world\n"
played(without(OWN, "turns"), [
    (None, [(LOG, hello(1))]),
    ((LOG, summary(1, 0)), []),
    (says(SYN, 1000, 0), [logs(OPEN, 1, OPENING)]),
    (logs(OPENED, 1, OPENING), [hears(SYN | ACK, 5000, 1001, options=MSS)]),
    (says(ACK, 1001, 5001), []),
    (says(ACK, 1001, 5001, first), [hears(ACK, 5001, 1001), logs(DATA, 1, KEY + long(0) + long(0) + b"\0" + first), logs(READ, 1, KEY + long(0) + b"\0\x06")]),
    (logs(STABLE, 1, kept(6, 0)), [hears(ACK, 5001, 1007)]),
    (logs(READS, 1, kept(6, 1)), [hears(ACK, 5001, 1007, b"6\n")]),
])
played(OWN.replace("--boot 1 --isn 5000 --turns 6", "--boot 2 --isn 900000"), [
    # the client has the 6 already, and says so; the second server hasn't said it yet, and does
    (None, [(LOG, hello(2))]),
    ((LOG, summary(2, 1)), [logs(LIST, 2, b"\0\0")]),
    (logs(ENTRY, 2, b"\0\0" + OPENING + long(6) + b"\0\0" + long(1) + long(0)), [logs(CUTS, 2, KEY + long(0))]),
    (logs(LENS, 2, KEY + long(0) + b"\0\x06"), [logs(BYTES, 2, KEY + long(0))]),
    (logs(PART, 2, KEY + long(0) + first), [hears(ACK, 5001, 1007)]),
    (says(ACK, 1007, 5003, second), [hears(ACK, 5001, 1007, b"6\n"), logs(DATA, 2, KEY + long(6) + long(0) + b"\0" + second), logs(READ, 2, KEY + long(1) + b"\0\x06")]),
    (logs(STABLE, 2, kept(12, 1)), [hears(ACK, 5003, 1013)]),
    (logs(READS, 2, kept(12, 2)), [hears(ACK, 5003, 1013, b"12\n")]),
])

OPENS = [
    (None, [(LOG, hello(1))]),
    ((LOG, summary(1, 0)), []),
    (says(SYN, 1000, 0), [logs(OPEN, 1, OPENING)]),
    (logs(OPENED, 1, OPENING), [hears(SYN | ACK, 5000, 1001, options=MSS)]),
    (says(ACK, 1001, 5001), []),
]


def closes(client, server, taken, output, reads, waits):
    """The client closes behind so many bytes, the server behind its output, and the connection is done."""
    ended = kept(taken, reads, True)
    return [
        (says(FIN | ACK, client, server), ([] if waits else [hears(ACK, server, client)]) + [logs_data(1, taken, output, fin=True), logs_read(1, reads, 0)]),
        (logs(STABLE, 1, ended), [hears(ACK, server, client + 1)]),
        (logs(READS, 1, kept(taken, reads + 1, True)), [hears(FIN | ACK, server, client + 1)]),
        (says(ACK, client + 1, server + 1), [logs_data(1, taken, output + 1)]),
        (logs(STABLE, 1, kept(taken, reads + 1, True)), []),
        *[(TICK, [])] * 3,
        (TICK, [logs(DONE, 1, KEY)]),
        (logs(ENDED, 1, KEY), []),
    ]


line("# with the profile for far paths an ACK waits for the log; to the end of a connection", "# with the profile for far paths an ACK waits for the log; to the end of a connection")
for waits in (False, True):
    played(without(SERVER, "turns") + (WAN if waits else ""), [
        *OPENS,
        (says(ACK, 1001, 5001, b"hello"), ([] if waits else [hears(ACK, 5001, 1001)]) + [logs_data(1, 0, 0, b"hello"), logs_read(1, 0, 5)]),
        (logs(STABLE, 1, kept(5, 0)), [hears(ACK, 5001, 1006)]),
        (logs(READS, 1, kept(5, 1)), [hears(ACK, 5001, 1006, b"hello")]),
        *closes(1006, 5006, 5, 5, 1, waits),
    ], way="run")
line("# it measures round trips, and recovers from a loss without a wait", "# it measures round trips, and recovers from a loss without a wait")
output = bytes(place % 251 for place in range(2047))
parts = [hears(ACK, 5001 + at, 1005, output[at : at + 536]) for at in range(0, 2047, 536)]
acks = [says(ACK, 1005, 5001 + at) for at in range(0, 2047, 536)]
played(without(SERVER, "turns").replace("echo", "transfer") + WAN, [
    *OPENS,
    (says(ACK, 1001, 5001, (2047).to_bytes(4, "big")), [logs_data(1, 0, 0, (2047).to_bytes(4, "big")), logs_read(1, 0, 4)]),
    (logs(STABLE, 1, kept(4, 0)), [hears(ACK, 5001, 1005)]),
    (logs(READS, 1, kept(4, 1)), parts),
    *[(TICK, [])] * 2,
    (acks[1], [logs_data(1, 4, 536)]),
    *[(acks[1], [])] * 2,
    (acks[1], [parts[1]]),
    (acks[2], [parts[2], logs_data(1, 4, 1072)]),
    *[(TICK, [])] * 5,
    (TICK, [parts[2]]),
    (acks[3], [parts[3], logs_data(1, 4, 1608)]),
    (says(ACK, 1005, 5001 + 2047), [logs_data(1, 4, 2047)]),
    *closes(1005, 5001 + 2047, 4, 2047, 1, True),
], way="run")


FORGET, FORGOTTEN = ((LOG, lasting_model.spelled(lasting_model.Forget(kind, 1, Named(KEY, 1000, 5000)), KEY).hex()) for kind in ("Forget", "Forgotten"))
ECHOED = [
    *OPENS,
    (says(ACK, 1001, 5001, b"hello"), [hears(ACK, 5001, 1001), logs_data(1, 0, 0, b"hello"), logs_read(1, 0, 5)]),
    (logs(STABLE, 1, kept(5, 0)), [hears(ACK, 5001, 1006)]),
    (logs(READS, 1, kept(5, 1)), [hears(ACK, 5001, 1006, b"hello")]),
    *closes(1006, 5006, 5, 5, 1, False),
]
NEXT = (says(SYN, 9000, 0), [logs(OPEN, 1, KEY + long(9000) + long(70536) + OPENING[-2:])])
line("# a server with a quarantine of two ticks has its log recycle the entry, forgets the connection, and serves the next one at its address", "# a server with a quarantine of two ticks has its log recycle the entry, forgets the connection, and serves the next one at its address")
for more in (" --forget 2", " --forget=2 --silence 9"):
    played(without(SERVER, "turns") + more, [
        *ECHOED,
        (TICK, []),
        (TICK, [FORGET]),
        (says(ACK, 1007, 5007), []),
        (TICK, [FORGET]),
        (FORGOTTEN, []),
        (FORGOTTEN, []),
        NEXT,
    ], way="run")
line("# a newer SYN ends the quarantine; an older one is refused", "# a newer SYN ends the quarantine; an older one is refused")
played(without(SERVER, "turns") + " --forget 9", [*ECHOED, (says(SYN, 1006, 0), [hears(RST | ACK, 0, 1007, window=0)]), (says(SYN, 9000, 0), [FORGET]), (TICK, [FORGET]), (FORGOTTEN, []), NEXT], way="run")


# A server with two loggers
BACK = "127.0.0.1:7009"
line("# each message goes to the logger and next to the second, and a datagram of either is a message", "# each message goes to the logger and next to the second, and a datagram of either is a message")
played(without(DOUBLE, "turns"), [
    (None, [(LOG, hello(1))]),
    ((BACK, summary(1, 0)), []),
    (says(SYN, 1000, 0), [logs(OPEN, 1, OPENING)]),
    ((BACK, message(OPENED, 1, OPENING)), [hears(SYN | ACK, 5000, 1001, options=MSS)]),
    (logs(OPENED, 1, OPENING), []),
    (says(ACK, 1001, 5001, b"hello"), [hears(ACK, 5001, 1001), logs(DATA, 1, KEY + long(0) + long(0) + b"\0hello"), logs(READ, 1, KEY + long(0) + b"\0\x05")]),
    ((BACK, message(READS, 1, kept(5, 1))), [hears(ACK, 5001, 1006, b"hello")]),
    (logs(STABLE, 1, kept(5, 1)), []),
], way="run", second=BACK)
line("# each send and each receive of it in turn, and what fences it", "# each send and each receive of it in turn, and what fences it")
for n in range(1, 7):
    run(DOUBLE, [None, None, (BACK, summary(1, 0)), None, None], send=n)
    run(DOUBLE, [None, None, (BACK, summary(1, 0)), None, None], receive=n)
for at in (LOG, BACK, "127.0.0.1:7010"):
    run(DOUBLE, [(at, stale(1, 2))])
run(DOUBLE, [], bind=1)
run(DOUBLE, [], write=1)

# Two loggers, and what tells one that the other has stopped
OTHER, FROM, STRAY = "127.0.0.1:7041", "127.0.0.1:7007", "10.0.0.9:1"
NAMES = {"head": PARTED, "tail": PARTED.replace("head", "tail")}


def turns_of(name, comes, more=0):
    return NAMES[name].replace("--turns 3", f"--turns {max(1, len(comes) + more)}")


def both(comes, **fails):
    for name in NAMES:
        run(turns_of(name, comes), comes, **fails)


def forward(number, data):
    return OTHER, between(b"FU", 1, number, bytes.fromhex(data)).hex()


def got(number):
    return OTHER, between(b"FU", 2, number, b"").hex()


TOLD = between(b"FU", 3, 0, b"").hex()
asks = [hello(1), message(OPEN, 1, OPENING), message(DATA, 1, KEY + long(0) + long(0) + b"\0abc"), message(READ, 1, KEY + long(0) + b"\0\3"), message(15, 1, KEY)]
asked = [(FROM, data) for data in asks]
forwards = [forward(i + 1, data) for i, data in enumerate(asks)]
line("# a head takes and forwards, and a tail applies, answers and confirms", "# a head takes and forwards, and a tail applies, answers and confirms")
run(turns_of("head", asked + [got(2)] * 2), asked + [got(2), asked[4]])
run(turns_of("tail", forwards + forwards[:3]), [(FROM, "")] + forwards + [forwards[1], forwards[4]])
line("# until the server has spoken to a tail, nothing goes to it; where it speaks from is where it is", "# until the server has spoken to a tail, nothing goes to it; where it speaks from is where it is")
run(turns_of("tail", forwards, 3), forwards[:2] + [(STRAY, "00")] + [forwards[2], (FROM, asks[0]), forwards[3], forwards[4], None])
line("# an Alone of a stranger, of the other and of the server, and told twice or more", "# an Alone of a stranger, of the other and of the server, and told twice or more")
for stranger in (STRAY, OTHER, FROM):
    both(asked[:2] + [(stranger, TOLD)] + asked[1:4])
    both([(stranger, TOLD), forwards[0], (stranger, TOLD)] + asked[:3] + [(STRAY, TOLD), asked[3], got(1), None])
both([(STRAY, TOLD), forwards[0], (OTHER, asks[0]), (FROM, asks[1])])
line("# datagrams of each kind, from the server and from the other, to each part, in a pair and alone", "# datagrams of each kind, from the server and from the other, to each part, in a pair and alone")
bodies = {"Summary": b"\0\0", "List": b"\0\0", "Entry": b"\0\0" + OPENING + long(0) + b"\0\0" + long(0) + long(0), "Stale": (2).to_bytes(8, "big")}
bodies |= {name: KEY + long(0) for name in ("Bytes", "Cuts")} | {"Part": KEY + long(0) + b"x", "Lens": KEY + long(0) + b"\0\1", "Open": OPENING, "Opened": OPENING}
bodies |= {"Hello": b"", "Data": KEY + long(0) + long(0) + b"\0x", "Read": KEY + long(0) + b"\0\1"} | {name: kept(1, 0) for name in ("Stable", "Reads")}
kinds = [message(i + 1, 1, bodies.get(name, KEY)) for i, name in enumerate(KINDS)]
for told in ([], [(STRAY, TOLD)]):
    both(told + [(FROM, data) for data in kinds])
    both(told + [(OTHER, data) for data in kinds])
    both(told + [forward(i + 1, data) for i, data in enumerate(kinds)] + [(FROM, forwards[0][1]), (FROM, got(1)[1]), got(1), got(9)])
line("# sends and receives that fail, each in turn; no bind, and sinks that fail", "# sends and receives that fail, each in turn; no bind, and sinks that fail")
for n in range(1, 8):
    both(asked[:1] + forwards[:3] + asked[1:3], send=n)
    both(asked[:1] + forwards[:3] + asked[1:3], receive=n)
both([], bind=1)
both([], second_bind=True)
both([], bind=1, error=1)
both(asked[:1], write=1)
line("# a burst of 70 to a head, of which it takes 64: each message forwards all that waits", "# a burst of 70 to a head, of which it takes 64: each message forwards all that waits")
burst = [(FROM, message(DATA, 1, KEY + long(0) + long(n) + b"\0")) for n in range(70)]
run(turns_of("head", burst), burst, way="brief")
run(turns_of("head", burst, 2), burst + [got(64), burst[0]], way="brief")
line("# drawn lists of all of these", "# drawn lists of all of these")
for _ in range(6):
    drawn_list = [drawn.choice([*asked, *forwards, got(1), got(3), (FROM, asks[0]), (STRAY, asks[2]), None, (OTHER, forwards[2][1][:-2])]) for _ in range(30)]
    drawn_list[20:20] = [(STRAY, TOLD)]
    both(drawn_list)


# The profile for far paths: messages of version 2, and of a turn's Data the last one alone is answered
def data(offset, text, ending=0, boot=1, acked=0):
    return message(DATA, boot, KEY + long(offset) + long(acked) + bytes([ending]) + text)


def far(comes):
    """The same with messages of version 2, also of those that go from a head to a tail."""
    widened = lambda sent: between(b"FU", 1, said[1], bytes.fromhex(wide(said[2].hex()))).hex() if (said := read_twin(bytes.fromhex(sent))) and said[0] == "Forward" else sent
    return [(at, wide(sent) if sent[:4] == "4654" and len(sent) >= 32 else widened(sent)) for at, sent in comes]


line("# a logger with the profile for far paths: of a turn's Data only the last is answered", "# a logger with the profile for far paths: of a turn's Data only the last is answered")
begun = [hello(1), message(OPEN, 1, OPENING)]
first, last, whole = data(0, b"abc", FOLLOWED), data(3, b"defg"), data(0, b"abcdefg", acked=2)
talks = [
    [*begun, first, last, message(READ, 1, KEY + long(0) + b"\0\7"), data(7, b"hi", FOLLOWED), data(9, b"", FOLLOWED), data(9, b"j", 1), message(DONE, 1, KEY)],
    # the first is lost, or the last; a repetition asks again
    [*begun, last, whole],
    [*begun, first, whole],
    # of no connection, and of an older boot
    [begun[0], first, last],
    [*begun, hello(2), first, last, data(0, b"abc", FOLLOWED, 2), data(3, b"", 0, 2)],
    # 3 is no ending, and what only a logger sends has none
    [*begun, data(0, b"abc", 3), message(STABLE, 1, kept(3, 0)), data(0, b"abc", 1), data(3, b"d", FOLLOWED)],
]
LONE = LOGGER[:-1]
for talk in talks:
    run(LONE + str(len(talk)) + WAN, far([(FROM, data) for data in talk]))
run(LONE + str(len(talks[0])) + WAN, far([(FROM, data) for data in talks[0]]), way="own")
line("# a logger that forgets recycles the entry of a connection that is done, if a Forget of its boot has both numbers; another takes none", "# a logger that forgets recycles the entry of a connection that is done, if a Forget of its boot has both numbers; another takes none")


def about(kind, boot=1, cisn=1000, sisn=5000, key=KEY):
    return lasting_model.spelled(lasting_model.Forget(kind, boot, Named(key, cisn, sisn)), key).hex()


ended = [*begun, message(DONE, 1, KEY)]
again = message(OPEN, 1, KEY + long(9000) + long(70536) + b"\2\x18")
forgetting = [
    [*ended, about("Forget"), about("Forget"), again, about("Forget"), message(LIST, 1, b"\0\0")],
    # one that isn't done, then one that is; of other numbers, and of a key without an entry
    [*begun, about("Forget"), message(DONE, 1, KEY), about("Forget", cisn=1001), about("Forget", sisn=5001), about("Forget", key=KEY[:-1] + b"\0"), message(LIST, 1, b"\0\0")],
    # of an older boot, of a newer one, and what only a logger sends
    [*ended, hello(2), about("Forget"), about("Forget", 3), about("Forgotten", 2), message(LIST, 2, b"\0\0"), about("Forget", 2)],
    # damaged, cut, longer, and of no boot
    [*ended, about("Forget")[:-1] + "9", about("Forget")[:-2], about("Forget") + "00", about("Forget", 0), message(LIST, 1, b"\0\0")],
    [about("Forget"), about("Forget", 1, 0, 0)],
]
for talk in forgetting:
    for more in (" --forget yes", ""):
        run(LONE + str(len(talk)) + more, [(FROM, data) for data in talk])
        run(LONE + str(len(talk)) + more + WAN, far([(FROM, data) for data in talk]))
run(LONE + str(len(forgetting[0])) + " --forget yes", [(FROM, data) for data in forgetting[0]], way="own")
line("# a logger of one profile takes no message of the other's version", "# a logger of one profile takes no message of the other's version")
for talk in (*talks[:1], kinds):
    comes = [(FROM, data) for data in talk]
    run(LONE + str(len(comes)), far(comes))
    run(LONE + str(len(comes)) + WAN, comes)
    mixed = [it for pair in zip(comes, far(comes)) for it in pair]
    for more in ("", WAN):
        run(LONE + str(len(mixed)) + more, mixed)
line("# a server of one profile at a logger of the other asks on, and one alike serves", "# a server of one profile at a logger of the other asks on, and one alike serves")
for words in (SERVER, DOUBLE):
    for more in ("", WAN):
        for comes in ([(LOG, summary(1, 0))], [(LOG, stale(1, 2))]):
            run(words + more, comes + [None] * 3)
            run(words + more, far(comes) + [None] * 3)
line("# two loggers with it, in a pair and alone", "# two loggers with it, in a pair and alone")
for talk in talks[:2]:
    comes, passed = [(FROM, data) for data in talk], [forward(i + 1, data) for i, data in enumerate(talk)]
    for name in NAMES:
        received_by = far(comes) + far(passed) + [got(2)]
        run(turns_of(name, received_by) + WAN, received_by)
        run(turns_of(name, received_by, 1) + WAN, [(STRAY, TOLD)] + received_by)
        mixed = [it for pair in zip(comes, far(comes), passed, far(passed)) for it in pair]
        for more in ("", WAN):
            run(turns_of(name, mixed) + more, mixed)
drawn_far = random.Random(8)
for _ in range(2):
    drawn_list = [drawn_far.choice([*asked, *forwards, *far(asked), *far(forwards), got(1), got(3), None]) for _ in range(30)]
    for name in NAMES:
        run(turns_of(name, drawn_list) + WAN, drawn_list)
line("# what tells a logger: one Alone, whether or not its send succeeds", "# what tells a logger: one Alone, whether or not its send succeeds")
run(ALONE, [])
run(ALONE, [], send=1)
run(ALONE, [], bind=1)
run(ALONE, [], second_bind=True)
run(ALONE, [], write=1)
run(ALONE, [], bind=1, error=1)


# The whole program as a process on this machine, at HERE; its peer, where it needs one, is at THERE
HERE, THERE = "127.0.0.1:7462", "127.0.0.1:7461"
PROCESS_LOGGER = f"logger --local {HERE} --turns 2"
PROCESS_CLIENT = f"client --local {HERE} --server {THERE} --isn 1000 --turns"
PROCESS_SERVER = f"server --local {HERE} --logger {THERE} --service echo --boot 1 --isn 5000 --turns 1000"
TWO_TICKS = "turns 2 datagrams 0 sent 0 lost 0 failed 0"


def start(words, status, *says, shell="", answers=(), hold="", asked=()):
    """A process. Its shell's command has "$0" for the program and "$@" for its words. Its peer asks it these things first, each with the answer that must come;
    None: it is said once, and no answer is awaited."""
    for told, answer in asked:
        script.append(f"{'throw' if answer is None else 'tell'} {HERE} {told}".rstrip())
        printed.extend([] if answer is None else [f"answer {answer}"])
    if shell:
        script.append("shell " + shell)
    if hold:
        script.append("hold " + hold)
    script.extend("answer " + data for data in answers)
    line("start " + words, f"status {status}", *says)


def from_server(flags, seq, ack, text=b""):
    return spelled(THERE, HERE, flags, seq, ack, text)


def answered(*comes):
    """A client's end, where its server says these one after another, by the endpoint of the model."""
    assert lived(comes, 1000, b"hi")[0] in (0, 7)
    return [from_server(*came) for came in comes]


THIS = 'exec "$0" "$@"'
line("# ftnode as a process: a logger and a client that end well, and a pair of programs that only end", "# ftnode as a process: a logger and a client that end well, and a pair of programs that only end")
start(PROCESS_LOGGER, 0, TWO_TICKS)
# a read timeout of seconds would take longer than this
start(PROCESS_LOGGER, 0, TWO_TICKS, shell='exec timeout 15 "$0" "$@"')
start(PROCESS_LOGGER + " --journal kept --begin yes", 0, TWO_TICKS, shell='exec timeout 15 "$0" "$@"')
start(PROCESS_LOGGER + " --journal kept", 0, TWO_TICKS)
for more in ("", " --journal kept"):
    start(without(PROCESS_LOGGER, "turns") + " --turns 1 --times 2" + more, 0, TWO_TICKS)
closing = answered((SYN | ACK, 5000, 1001), (FIN | ACK, 5001, 1004, b"yes\n"))
start(f"{PROCESS_CLIENT} 1000", 0, "yes", answers=closing, shell='printf hi | "$0" "$@"')
start(f"{PROCESS_CLIENT} 1000 --script hex:6869", 0, "yes", answers=closing)
for program, code in (("/bin/true", 0), ("/bin/false", 1)):
    lines = [f"{name} status {code}" for name in ("server", "client", "server", "logger")]
    start(f"pair --program {program} --base 7463 --first 1 --second 1 --turns 1", 0, *lines)
start(without(PROCESS_LOGGER, "turns") + " --turns 100" + WAN, 0, shell='exec "$0" "$@" >/dev/null', asked=[
    (hello(1), None),
    (wide(hello(1)), wide(summary(1, 0))),
    (hello(1), None),
    (wide(message(OPEN, 1, OPENING)), wide(message(OPENED, 1, OPENING))),
    (wide(first), None),
    (wide(whole), wide(message(STABLE, 1, kept(7, 0)))),
])
line("# a word that isn't UTF-8, words that aren't allowed, and an input that is too long", "# a word that isn't UTF-8, words that aren't allowed, and an input that is too long")
start("logger", 1, shell='exec "$0" "$@" "$(printf \'\\377\')" 2>/dev/null')
usage = "ftnode: usage"
start("logger", 2, usage)
KEEPER = PROCESS_LOGGER + " --journal"
for words in (KEEPER, KEEPER + " ''", KEEPER + "=", KEEPER + " -", KEEPER + " --", KEEPER + " -x", KEEPER + " a --journal a", KEEPER + " a --journal=b", KEEPER + " a b"):
    start(words, 2, usage)
for words in (without(KEEPER + " a", "local"), without(KEEPER + " a", "turns"), without(KEEPER + " a", "turns") + " --turns 0", KEEPER + " a --boot 1"):
    start(words, 2, usage)
for words in (PROCESS_SERVER, PROCESS_CLIENT + " 9", PAIR):
    start(words + " --journal a", 2, usage)
for words in ("--journal a", "--journal a " + PROCESS_LOGGER, "Logger" + KEEPER[6:] + " a"):
    start(words, 2, usage)
start(f"{PROCESS_CLIENT} 1", 2, usage, shell='head -c 16777217 /dev/zero | "$0" "$@"')
start(f"{PROCESS_CLIENT} 1", 8, spent, shell='head -c 16777216 /dev/zero | "$0" "$@"')
line("# no memory; no such address; sinks that are full", "# no memory; no such address; sinks that are full")
start(f"{PROCESS_CLIENT} 1 --script fill:16777216", 3, "ftnode: no memory", shell='ulimit -v 15000; exec "$0" "$@"')
for words in (f"logger --local 192.0.2.1:7462 --turns 2", f"logger --local 192.0.2.1:7462 --turns 2 --journal kept"):
    start(words, 4, "ftnode: link fault")
start(PROCESS_SERVER.replace(HERE, "192.0.2.1:7462"), 4, "ftnode: link fault")
start(f"{PROCESS_CLIENT.replace(HERE, '192.0.2.1:7462')} 1 --script -", 4, "ftnode: link fault")
for words in (PROCESS_LOGGER, KEEPER + " kept", "pair --program /bin/true --base 7463 --first 1 --second 1 --turns 1"):
    start(words, 5, shell='exec "$0" "$@" >/dev/full')
for words in ("logger", PROCESS_CLIENT + " 1 --script -"):
    start(words, 5, shell='exec "$0" "$@" 2>/dev/full')
line("# fenced, reset, spent, no input, no child", "# fenced, reset, spent, no input, no child")
start(PROCESS_SERVER, 6, "ftnode: fenced by boot 2", answers=[stale(1, 2)])
start(f"{PROCESS_CLIENT} 1000 --script hex:6869", 7, reset, answers=answered((SYN | ACK, 5000, 1001), (RST, 5001, 0)))
start(f"{PROCESS_CLIENT} 2 --script -", 8, spent)
start(f"{PROCESS_CLIENT} 2", 9, "ftnode: read fault", shell='exec "$0" "$@" </')
start("pair --program /no/such/program --base 7463 --first 1 --second 1 --turns 1", 10, "ftnode: child fault")
line("# a journal in no folder, one that is none, and one that is open", "# a journal in no folder, one that is none, and one that is open")
start(KEEPER + " no/such/folder --begin yes", 11, "ftnode: journal fault")
start(KEEPER + " no/such/folder", 12, "ftnode: journal: no such file")
start(KEEPER + " kept --begin yes", 12, "ftnode: journal: the file is there")
start(KEEPER + " empty", 12, "ftnode: journal: the file is empty", shell=': >empty; exec "$0" "$@"')
start(KEEPER + " begun", 12, "ftnode: journal: the file ends in its header", shell='printf "ftlog 2\\n" >begun; exec "$0" "$@"')
start(KEEPER + " older", 12, "ftnode: journal: version 1", shell='printf "ftlog 1\\n." >older; exec "$0" "$@"')
start(KEEPER + " damaged", 12, "ftnode: journal: byte 0", shell='printf "no journal" >damaged; exec "$0" "$@"')
start(KEEPER + " held --begin yes", 0, TWO_TICKS)
start(KEEPER + " held", 13, "ftnode: journal in use", hold="held")
start(KEEPER + " held", 0, TWO_TICKS)

# A file of a system is written. 150 turns are at most three seconds of silence, and the counts of turns depend on the machine, so they aren't looked at
line("# a logger's real journal: it is written, opened again and asked", "# a logger's real journal: it is written, opened again and asked")
UNSEEN = 'exec "$0" "$@" >/dev/null'
LASTING = without(PROCESS_LOGGER, "turns") + " --turns 150 --journal written"
noise = [("", None), ("6162", None), (hello(1)[:-2], None)]
start(LASTING + " --begin yes", 0, shell="rm -f written; " + UNSEEN, asked=[
    (hello(1), summary(1, 0)),
    *noise,
    (message(OPEN, 1, OPENING), message(OPENED, 1, OPENING)),
    (message(DATA, 1, KEY + long(0) + long(0) + b"\0hello"), message(STABLE, 1, kept(5, 0))),
    *noise,
    (message(READ, 1, KEY + long(0) + b"\0\x05"), message(READS, 1, kept(5, 1))),
])
# the journal's descriptor isn't that of the closed output, and so nothing that was meant for the output is in the journal
start(KEEPER + " written", 5, shell='exec "$0" "$@" >&-')
start(LASTING, 0, shell=UNSEEN, asked=[
    (hello(2), summary(2, 1)),
    (message(LIST, 2, b"\0\0"), message(ENTRY, 2, b"\0\0" + OPENING + long(5) + b"\0\0" + long(1) + long(0))),
    (message(CUTS, 2, KEY + long(0)), message(LENS, 2, KEY + long(0) + b"\0\x05")),
    (message(BYTES, 2, KEY + long(0)), message(PART, 2, KEY + long(0) + b"hello")),
])
line("# nobody else may read the journal", "# nobody else may read the journal")
start(KEEPER + " written", 0, "0", "600", shell='"$0" "$@" >/dev/null; echo $?; stat -c %a written')
# 68 boot numbers of 60 bytes each and the header are 4,112 bytes. The new file has one of them, and that of the next server comes after it
line("# a journal of more than 4,096 bytes is replaced by a shorter one", "# a journal of more than 4,096 bytes is replaced by a shorter one")
GROWN = without(PROCESS_LOGGER, "turns") + " --turns 150 --journal grown --begin yes --compact 4096"
start(GROWN, 0, shell="rm -f grown; echo left >grown.new; " + UNSEEN, asked=[(hello(boot), summary(boot, 0)) for boot in range(1, 70)])
start(KEEPER + " grown", 0, "0", "600 152", shell='"$0" "$@" >/dev/null; echo $?; stat -c "%a %s" grown; test ! -e grown.new')
line("# what is written to which output, at status 0 and at another one", "# what is written to which output, at status 0 and at another one")
start(PROCESS_LOGGER, 0, TWO_TICKS, shell='exec "$0" "$@" 2>/dev/null')
start(PROCESS_LOGGER, 0, shell='exec "$0" "$@" >/dev/null')
start("logger", 2, shell='exec "$0" "$@" 2>/dev/null')
start("logger", 2, usage, shell='exec "$0" "$@" >/dev/null')
line("# what a child writes to either output is discarded", "# what a child writes to either output is discarded")
NOISY = r'''printf '#!/bin/sh\necho said; echo seen >&2; exit 3\n' >noisy; chmod +x noisy; exec "$0" "$@"'''
start("pair --program ./noisy --base 7463 --first 1 --second 1 --turns 1", 0, *[f"{name} status 3" for name in ("server", "client", "server", "logger")], shell=NOISY)
line("# a million turns in which nothing comes", "# a million turns in which nothing comes")
LONG = 1_000_000
run(without(SERVER, "turns") + f" --turns {LONG}", [], way="brief")
for words in (LOGGER, *NAMES.values()):
    run(words.replace("--turns 3", f"--turns {LONG}"), [], way="brief")
line(f"brief {LOGGER.replace('--turns 3', f'--turns {LONG}')} --journal long --begin yes", "status 0", f"turns {LONG} datagrams 0 sent 0 lost 0 failed 0", "receives 0 sends 0")
ended, _, receives, sends = lived([], LONG, b"")
life([], LONG, ended, [spent], receives, sends)

folder = pathlib.Path(sys.argv[1]) if sys.argv[1:] else FOLDER
write_part("link", "\n".join(script) + "\n", "\n".join(printed) + "\n", folder)
