#!/usr/bin/env python3
"""Writes the part `node` of the stored run of `node_cases`, which node_script plays: node_script.py REPORTS [FOLDER], into FOLDER/stdin and FOLDER/stdout
(crates/node_cases).

REPORTS is a folder with the reports of the worked runs. The server's turns are taken from each, and what the server sends by the report is what must be printed.
Packets and messages are spelled here, independently of the repository's codecs. The other cases are written by hand below, except those on held segments and on
congestion control, whose expected output is that of the model in tools/model.py.
"""
import os
import pathlib
import struct
import sys

sys.path.insert(0, str(pathlib.Path(__file__).parent.parent / "tools"))

import loggers  # noqa: E402
import model  # noqa: E402
from node_lines import (BOOTS, VERSIONS, HOSTILE, K, SERVER, SERVICES, Played, Target, conn, fields, guess_in_each_state, key_bytes, key_of, lines, message, msg, numbers, packet, pkt, prints, say, segment, stamps_option, to_client, to_logger, told)  # noqa: E402
from seed_model import packet_words  # noqa: E402
from stored_parts import FOLDER, write_part  # noqa: E402

REPORTS = sys.argv[1]
OUT = pathlib.Path(sys.argv[2]) if sys.argv[2:] else FOLDER

def play_report(name, title, numbers=()):
    """The server's turns of a worked run. `numbers` names, behind which events, what `conn` must print."""
    service, boots, version, clients, packets = None, "boot", 1, {}, {}
    say(f"# {title}")
    turns = []                      # (number of the event, line, answers)
    path = f"{REPORTS}/{name}.streaming.report"       # a restart asks for an entry's cuts before its bytes
    for line in open(path if os.path.exists(path) else f"{REPORTS}/{name}.report"):
        words = line.split()
        if words[0] == "service":
            service = SERVICES[words[1]]
        elif words[0] == "profile":
            boots, version = BOOTS[words[1]], VERSIONS[words[1]]
        elif words[0] == "client" and len(words) == 5 and ":" in words[2]:
            clients[words[1]] = key_of(words[2])
        elif words[0] == "event":
            number, what, rest = int(words[1]), words[2], words[3:]
            if what == "boot":
                turns.append((number, f"{boots} {service} {rest[0]} {rest[1]}", []))
            elif what == "tick":
                turns.append((number, "tick", []))
            elif what == "deliver":
                way, data = packets[int(rest[0])]
                if way == "L>S":
                    turns.append((number, f"message {data.hex()}", []))
                elif way.endswith(">S"):
                    turns.append((number, f"packet {data.hex()}", []))
                else:
                    turns.append((number, None, []))
            else:
                turns.append((number, None, []))
        elif words[0] == "packet":
            number, way, rest = int(words[1]), words[2], words[3:]
            is_message = "L" in way
            data = told(rest[0], rest[1:], version) if is_message else segment(way, rest, clients)
            packets[number] = (way, data)
            if way == "S>L":
                turns[-1][2].append(to_logger(data))
            elif way.startswith("S>"):
                turns[-1][2].append(to_client(clients[way[2:]], data))
    numbers = dict(numbers)
    for number, line, answers in turns:
        if line:
            say(line, *answers)
        for key, text in numbers.get(number, ()):
            say(conn(key_of(key)), text)


play_report("first_path", "the first path", {
    5: [(K, "none")],
    7: [(K, numbers(0, 0, 0, 0, 0, 0, 0))],
    12: [(K, numbers(0, 5, 0, 5, 1, 0, 0))],
    14: [(K, numbers(0, 5, 5, 5, 1, 0, 0))],
    16: [(K, numbers(0, 5, 5, 5, 1, 0, 5))],
}.items())
play_report("crash_after_logged", "a crash after the bytes and the read are logged", {
    24: [(K, numbers(4294072296, 5, 5, 5, 1, 0, 0))],
}.items())
play_report("client_knows_more", "the client knows more than the restarted server")
play_report("cuts_and_swallowing", "the cuts are replayed, and what the client has is swallowed", {
    31: [(K, numbers(4294072298, 3, 3, 3, 2, 2, 2))],
    34: [(K, numbers(4294072298, 3, 3, 3, 2, 2, 4))],
}.items())
play_report("crash_before_syn_ack", "a crash before the SYN-ACK")
play_report("closing", "both FINs, over a crash")
play_report("segment_while_restarting", "a segment comes while the server restarts")
play_report("zero_window", "a zero window is probed")
play_report("number_wrap", "numbers that wrap")
play_report("held_segments", "a text that comes before the one in front of it", {
    13: [(K, numbers(0, 0, 0, 0, 0, 0, 0))],
    14: [(K, numbers(0, 5, 0, 5, 1, 0, 0))],
}.items())
play_report("congestion_window", "four segments leave at first, and the third duplicate sends one again", {
    18: [(K, numbers(0, 8, 8, 8, 1, 0, 2144))],
    21: [(K, numbers(0, 8, 8, 8, 1, 536, 3216))],
    26: [(K, numbers(0, 8, 8, 8, 1, 536, 3216))],
    27: [(K, numbers(0, 8, 8, 8, 1, 536, 3484))],
}.items())
play_report("early_acknowledgement", "an acknowledgement past the next number", {
    11: [(K, numbers(0, 0, 0, 0, 0, 0, 0))],
}.items())
play_report("delayed_ack", "with the profile wan the ACK of text waits for the log", {
    12: [(K, numbers(0, 5, 0, 5, 1, 0, 0))],
    14: [(K, numbers(0, 5, 5, 5, 1, 0, 0))],
    16: [(K, numbers(0, 5, 5, 5, 1, 0, 5))],
}.items())
play_report("wide_area", "a measured round trip, partial acknowledgements, an expiry after six ticks, and a restart that measures anew", {
    21: [(K, numbers(0, 4, 4, 4, 1, 536, 2047))],
    30: [(K, numbers(0, 4, 4, 4, 1, 1072, 2047))],
    39: [(K, numbers(0, 4, 4, 4, 1, 1608, 2047))],
    49: [(K, numbers(4294072296, 4, 4, 4, 1, 0, 0))],
}.items())

play_report("batch", "a gap is filled in the profile wan: two texts as a batch, which the log answers once")
play_report("batch_first_lost", "the first text of a batch is lost on the way to the log")
play_report("batch_last_lost", "the last text of a batch is lost on the way to the log")

# ---- by hand -----------------------------------------------------------------------------------------------------------------------------

def client_key(i):
    return (0xC0000201, 40000 + i)

def syn(key, seq=1000, mss=None, window=65535):
    return packet(key, SERVER, "S", seq, 0, window, mss, b"")

def text_key(key):
    return ".".join(str(key[0] >> s & 255) for s in (24, 16, 8, 0)) + f":{key[1]}"

def opening(kind, boot, key, cisn, sisn, mss=536):
    return told(kind, ["boot", str(boot), "key", text_key(key), "cisn", str(cisn), "sisn", str(sisn), "mss", str(mss)])

def kept(kind, boot, key, length, fin, reads):
    return told(kind, ["boot", str(boot), "key", text_key(key), "length", str(length), "fin", str(fin), "reads", str(reads)])

HELLO = message("Hello", 1)
SUMMARY = message("Summary", 1, struct.pack(">H", 0))

say("# while nothing is fetched: Hello at each tick, and no answer to a client or to another boot")
say("boot 1 1 5000", to_logger(HELLO))
say("tick", to_logger(HELLO))
say(pkt(syn(client_key(0))))
say(msg(message("Summary", 2, struct.pack(">H", 0))))
say(msg(kept("Stable", 1, client_key(0), 5, 0, 0)))
say("tick", to_logger(HELLO))
say(msg(SUMMARY))
say("tick")

say("# fencing: a Stale of another boot, or of no larger one, does nothing; one of this boot that names a larger one ends the server")
say("boot 1 2 5000", to_logger(message("Hello", 2)))
say(msg(message("Stale", 1, struct.pack(">Q", 2))))
say(msg(message("Stale", 3, struct.pack(">Q", 4))))
say("tick", to_logger(message("Hello", 2)))
say(msg(message("Stale", 2, struct.pack(">Q", 3))), "fenced by 3")
say("tick", "no server")
say("boot 1 1 5000", to_logger(HELLO))
say(msg(SUMMARY))
say(msg(message("Stale", 1, struct.pack(">Q", 2))), "fenced by 2")

say("# openings: asked for at the SYN, at each SYN again and at each tick; other segments of the client are dropped")
say("boot 1 1 5000", to_logger(HELLO))
say(msg(SUMMARY))
A, B = client_key(0), client_key(1)
ask_a = to_logger(opening("Open", 1, A, 1000, 5000))
ask_b = to_logger(opening("Open", 1, B, 7, 5000 + 65536, 64))
say(pkt(syn(A)), ask_a)
say(pkt(syn(A)), ask_a)
say(pkt(syn(A, seq=1001)))
say(pkt(packet(A, SERVER, "A", 1001, 5001, 65535, None, b"")))
say(pkt(syn(B, seq=7, mss=1)), ask_b)
say("tick", ask_a, ask_b)
say(pkt(packet(A, (0xC0000264, 8), "S", 1000, 0, 65535, None, b"")))
say(pkt(packet(A, (0xC0000265, 7), "S", 1000, 0, 65535, None, b"")))
say("# the log knows another number of a client: its opening is dropped, and a new SYN asks with the next number")
say(msg(opening("Opened", 1, A, 999, 5000)))
say("tick", ask_b)
say(pkt(syn(A)), to_logger(opening("Open", 1, A, 1000, 5000 + 2 * 65536)))
say("# the log is full: the opening is dropped, and its SYN refused")
say(msg(message("Full", 1, key_bytes(A))), to_client(A, packet(SERVER, A, "AR", 0, 1001, 0, None, b"")))
say(msg(message("Full", 1, key_bytes(A))))
say("tick", ask_b)
say("# the log keeps the numbers of an earlier incarnation: the SYN-ACK has them")
say(msg(opening("Opened", 1, B, 7, 4000, 64)), to_client(B, packet(SERVER, B, "AS", 4000, 8, 65535, 1460, b"")))
say(conn(B), numbers(0, 0, 0, 0, 0, 0, 0))
say("tick", to_client(B, packet(SERVER, B, "AS", 4000, 8, 65535, 1460, b"")))
say("# a client that isn't known: an acknowledgement is refused, a RST isn't, and what is neither gets nothing")
C = client_key(2)
say(pkt(packet(C, SERVER, "A", 77, 99, 65535, None, b"")), to_client(C, packet(SERVER, C, "R", 99, 0, 0, None, b"")))
say(pkt(packet(C, SERVER, "AR", 77, 99, 65535, None, b"")))
say(pkt(packet(C, SERVER, "F", 77, 0, 65535, None, b"abc")))
say(conn(C), "none")

say("# a reset: Done at once and at each tick until it is answered; then the client is as unknown to CLOSED")
say(pkt(packet(B, SERVER, "A", 8, 4001, 65535, None, b"")))
say(pkt(packet(B, SERVER, "R", 9, 0, 0, None, b"")), to_client(B, packet(SERVER, B, "A", 4001, 8, 65535, None, b"")))
done = to_logger(message("Done", 1, key_bytes(B)))
say(pkt(packet(B, SERVER, "R", 8, 0, 0, None, b"")), done)
say(pkt(packet(B, SERVER, "A", 8, 4001, 65535, None, b"more")))
say("tick", done)
say(msg(message("Ended", 1, key_bytes(A))))
say("tick", done)
say(msg(message("Ended", 1, key_bytes(B))))
say("tick")
say(conn(B), "none")
say(pkt(packet(B, SERVER, "A", 8, 4001, 65535, None, b"")), to_client(B, packet(SERVER, B, "R", 4001, 0, 0, None, b"")))
say(pkt(packet(B, SERVER, "S", 8, 0, 65535, None, b"")), to_client(B, packet(SERVER, B, "AR", 0, 9, 0, None, b"")))
say(pkt(packet(B, SERVER, "F", 8, 0, 65535, None, b"abc")), to_client(B, packet(SERVER, B, "AR", 0, 12, 0, None, b"")))
say(pkt(packet(B, SERVER, "R", 8, 0, 65535, None, b"")))

say("# at most 64 openings are pending: one more SYN gets nothing, until one of them is gone")
say("boot 1 1 5000", to_logger(HELLO))
say(msg(SUMMARY))
asks = []
for i in range(64):
    ask = to_logger(opening("Open", 1, client_key(i), 1000, (5000 + 65536 * i) % 2**32))
    asks.append(ask)
    say(pkt(syn(client_key(i))), ask)
say(pkt(syn(client_key(64))))
say("tick", *asks)
say(msg(message("Full", 1, key_bytes(client_key(3)))), to_client(client_key(3), packet(SERVER, client_key(3), "AR", 0, 1001, 0, None, b"")))
say(pkt(syn(client_key(64))), to_logger(opening("Open", 1, client_key(64), 1000, 5000 + 65536 * 64)))
say(pkt(syn(client_key(65))))

say("# a log of 64 entries is fetched, and a 65th client opens: the log is full, and that client alone is refused")
say("boot 1 2 900000", to_logger(message("Hello", 2)))
ask = lambda i: to_logger(message("List", 2, struct.pack(">H", i)))
say(msg(message("Summary", 2, struct.pack(">H", 64))), ask(0))
say("tick", ask(0))
def entry(i, done):
    return msg(told("Entry", f"boot 2 index {i} key {text_key(client_key(i))} cisn 1000 sisn {5000 + i} mss 536 length 0 fin 0 done {done} reads 0 acked 0".split()))
for i in range(63):
    say(entry(i, i % 2), ask(i + 1))
say(entry(63, 1), *[to_client(client_key(i), packet(SERVER, client_key(i), "A", 5001 + i, 1001, 65535, None, b"")) for i in range(0, 63, 2)])
L = client_key(64)
say(pkt(syn(L)), to_logger(opening("Open", 2, L, 1000, 900000 + 65536 * 32)))
say(msg(message("Full", 2, key_bytes(L))), to_client(L, packet(SERVER, L, "AR", 0, 1001, 0, None, b"")))
say("tick")
say(pkt(packet(client_key(1), SERVER, "A", 1001, 5002, 65535, None, b"")), to_client(client_key(1), packet(SERVER, client_key(1), "R", 5002, 0, 0, None, b"")))
say(conn(client_key(2)), numbers((5002 - (900000 + 65536)) % 2**32, 0, 0, 0, 0, 0, 0))
say(conn(client_key(1)), "none")

say("# at the right edge a bare segment is used and needs no reply, and a RST needs an ACK; a byte there, or a segment one past it, is not acceptable")
say("boot 1 1 5000", to_logger(HELLO))
say(msg(SUMMARY))
say(pkt(syn(A)), to_logger(opening("Open", 1, A, 1000, 5000)))
say(msg(opening("Opened", 1, A, 1000, 5000)), to_client(A, packet(SERVER, A, "AS", 5000, 1001, 65535, 1460, b"")))
say(pkt(packet(A, SERVER, "A", 1001, 5001, 65535, None, b"hello")),
    to_client(A, packet(SERVER, A, "A", 5001, 1001, 65535, None, b"")),
    to_logger(told("Data", f"boot 1 key {text_key(A)} offset 0 acked 0 fin 0 bytes 68656c6c6f".split())),
    to_logger(told("Read", f"boot 1 key {text_key(A)} index 0 length 5".split())))
say(msg(kept("Stable", 1, A, 5, 0, 0)), to_client(A, packet(SERVER, A, "A", 5001, 1006, 65535, None, b"")))
say(msg(kept("Reads", 1, A, 5, 0, 1)), to_client(A, packet(SERVER, A, "A", 5001, 1006, 65535, None, b"hello")))
EDGE = 1006 + 65535
unused = to_client(A, packet(SERVER, A, "A", 5006, 1006, 65535, None, b""))
say(pkt(packet(A, SERVER, "A", EDGE, 5006, 65535, None, b"x")), unused)
say(pkt(packet(A, SERVER, "AF", EDGE, 5006, 65535, None, b"")), unused)
say(pkt(packet(A, SERVER, "A", EDGE + 1, 5006, 65535, None, b"")), unused)
say(pkt(packet(A, SERVER, "A", EDGE, 5006, 65535, None, b"")[:-1] + b"!"))
say(conn(A), numbers(0, 5, 5, 5, 1, 0, 5))
say(pkt(packet(A, SERVER, "R", EDGE + 1, 0, 0, None, b"")))
say(pkt(packet(A, SERVER, "R", EDGE, 0, 0, None, b"")), unused)
say(pkt(packet(A, SERVER, "A", EDGE, 5006, 65535, None, b"")),
    to_logger(told("Data", f"boot 1 key {text_key(A)} offset 5 acked 5 fin 0 bytes -".split())))
say(conn(A), numbers(0, 5, 5, 5, 1, 5, 5))
say("tick")

# ---- one connection, by hand -----------------------------------------------------------------------------------------------------------------

def opens(cisn, kind=1):
    """A server of Echo, or of this kind, and a client's connection to it that has just started."""
    say(f"boot {kind} 1 5000", to_logger(HELLO))
    say(msg(SUMMARY))
    say(pkt(syn(A, seq=cisn)), to_logger(opening("Open", 1, A, cisn, 5000)))
    say(msg(opening("Opened", 1, A, cisn, 5000)), starts(cisn))

def starts(cisn):
    return to_client(A, packet(SERVER, A, "AS", 5000, (cisn + 1) % 2**32, 65535, 1460, b""))

def comes(flags, seq, ack, text=b"", window=65535):
    return pkt(packet(A, SERVER, flags, seq, ack, window, None, text))

def leaves(flags, seq, ack, text=b""):
    return to_client(A, packet(SERVER, A, flags, seq, ack, 65535, None, text))

def copy(offset, acked, fin, text=b""):
    return to_logger(told("Data", f"boot 1 key {K} offset {offset} acked {acked} fin {fin} bytes {text.hex() or '-'}".split()))

def read(index, length):
    return to_logger(told("Read", f"boot 1 key {K} index {index} length {length}".split()))

def stable(length, fin=0, reads=0):
    return msg(kept("Stable", 1, A, length, fin, reads))

def reads(length, fin, count):
    return msg(kept("Reads", 1, A, length, fin, count))

say("# a window of zero: a read that isn't logged is told again at a tick, and a byte is probed at each expiry of the timer")
opens(1000)
say(comes("A", 1001, 5001, window=0))
say(comes("A", 1001, 5001, b"hello", window=0), leaves("A", 5001, 1001), copy(0, 0, 0, b"hello"), read(0, 5))
say("tick", read(0, 5))
say(stable(5), leaves("A", 5001, 1006))
say(reads(5, 0, 1))
say("tick", leaves("A", 5001, 1006, b"h"))
say("tick")
say("tick", leaves("A", 5001, 1006, b"h"))
say(comes("A", 1006, 5001, window=5), leaves("A", 5002, 1006, b"ello"))

done = to_logger(message("Done", 1, key_bytes(A)))
say("# the SYN comes again, and both sides close: the connection still answers a FIN, and is done at the fourth tick")
opens(1000)
say(comes("S", 1000, 0), starts(1000))
say(comes("A", 1001, 5001))
say(comes("AF", 1001, 5001), leaves("A", 5001, 1001), copy(0, 0, 1), read(0, 0))
say(stable(0, 1), leaves("A", 5001, 1002))
say(reads(0, 1, 1), leaves("AF", 5001, 1002))
say(comes("A", 1002, 5002), copy(0, 1, 0))
say("tick")
say(comes("AF", 1001, 5002), leaves("A", 5002, 1002))
say(comes("R", 1001, 0, window=0))
say("tick")
say("tick")
say("tick", done)
say(msg(message("Ended", 1, key_bytes(A))))
say("tick")

say("# text comes with the acknowledgement of the SYN-ACK. A RST within the window is answered, and one at the next number ends the connection")
opens(1000)
say(comes("A", 1001, 5001, b"hello"), leaves("A", 5001, 1001), copy(0, 0, 0, b"hello"), read(0, 5))
say(comes("R", 1010, 0, window=0), leaves("A", 5001, 1001))
say(comes("R", 1006, 0, window=0), done)
say(comes("A", 1006, 5001, b"more"))
say(reads(5, 0, 1))
say("tick", done)

say("# the end of the text comes first, with the FIN: both are held, and told apart from the text that fills the gap. The closing read waits for the first one")
opens(1000)
say(comes("A", 1001, 5001))
say(comes("AF", 1004, 5001, b"lo"), leaves("A", 5001, 1001))
say(comes("A", 1001, 5001, b"hel"), leaves("A", 5001, 1001), copy(0, 0, 0, b"hel"), copy(3, 0, 1, b"lo"), read(0, 5))
say(stable(5, 1), leaves("A", 5001, 1007))
say(reads(5, 1, 1), leaves("A", 5001, 1007, b"hello"), read(1, 0))

say("# a service that has closed: what comes is logged and read, and nothing is made of it")
opens(1000, 2)
say(comes("A", 1001, 5001))
say(comes("A", 1001, 5001, b"quit\n"), leaves("A", 5001, 1001), copy(0, 0, 0, b"quit\n"), read(0, 5))
say(stable(5), leaves("A", 5001, 1006))
say(reads(5, 0, 1), leaves("A", 5001, 1006, b"bye\n"), leaves("AF", 5005, 1006))
say(comes("A", 1006, 5001, b"x"), leaves("A", 5006, 1006), copy(5, 0, 0, b"x"), read(1, 1))
say(stable(6, reads=1), leaves("A", 5006, 1007))
say(reads(6, 0, 2))

# ---- held segments, by the model -----------------------------------------------------------------------------------------------------------

def letters(start, stop):
    return bytes(97 + at % 26 for at in range(start, stop))

say("# held text and a held FIN are taken with the text that fills the gap: further Data follow, and the FIN goes in the last of them")
it = Played("meter")
it.begins()
it.comes(5, letters(5, 9))
it.shows()
it.comes(12, letters(12, 14), "AF")
it.comes(9, letters(9, 10))
it.comes(0, letters(0, 5))
it.shows()
it.drain()
it.comes(10, letters(10, 12))
it.shows()
it.drain()
say("# only the FIN was held: its Data has no bytes. Text past it is cut")
it = Played("meter")
it.begins()
it.comes(3, b"", "AF")
it.comes(1, letters(1, 9))
it.comes(0, letters(0, 9))
it.shows()
it.drain()
say("# a FIN before held text isn't held, and neither is a seventeenth run of text")
it = Played("meter")
it.begins()
for place in range(16):
    it.comes(2 + 2 * place, letters(2 + 2 * place, 3 + 2 * place))
it.comes(40, letters(40, 42))
it.comes(1, b"", "AF")
it.comes(33, letters(33, 34))
it.comes(0, letters(0, 32))
it.shows()
it.drain()
it.comes(34, letters(34, 40), "AF")
it.shows()
say("# two clients that each hold their own text, and one of them resets")
it = Played("echo")
OTHER = "192.0.2.2:40000"
it.begins()
it.begins(OTHER)
it.comes(2, b"llo")
it.comes(2, b"LLO", ack=65536, key=OTHER)
it.comes(0, b"", "R", key=OTHER)
it.comes(0, b"he")
it.shows()
say("# a restart while text is held: it is forgotten, and what fills the gap is taken alone, until the rest comes again")
it = Played("echo")
it.begins()
it.comes(0, b"he")
it.drain()
it.comes(4, b"o", "AF", ack=2)
it.comes(3, b"l", ack=2)
it.boot(2, 900000)
it.shows()
it.comes(2, b"l", ack=2)
it.drain()
it.shows()
it.comes(3, b"lo", "AF", ack=3)
it.drain()
it.shows()
say("# a turn with 46 Data and 32 Read: a whole window is held behind one byte, with a FIN below the edge, and SND.UNA rises with that byte. The service has")
say("# closed, so its reads make no output and none of them waits")
it = Played("transfer")
it.begins()
it.comes(0, bytes(5))
it.drain()
LAST = 5 + 65534
for at in range(6, LAST, 1460):
    it.comes(at, letters(at, min(at + 1460, LAST)), "AF" if at + 1460 >= LAST else "A")
it.shows()
it.comes(5, letters(5, 6), ack=1)
assert [said.name for said in it.sent] == ["Data"] * 46 + ["Read"] * 32
assert [said.fields["fin"] for said in it.sent[:46]] == [0] * 45 + [1] and {said.fields["acked"] for said in it.sent[:46]} == {1}
it.shows()

guess_in_each_state(40)

# ---- congestion control, by the model --------------------------------------------------------------------------------------------------------

def sends_up_to(it, sent, key=K):
    """What the model has sent by now, by hand: the two have to agree."""
    assert it.server.places[key].sent == sent, (it.server.places[key].sent, sent)
    it.shows(key)

REQUESTS = b"\0\0\7\xff" * 4
say("# a restart while the congestion window is small: the next server begins with four segments, from what is known to be acknowledged")
it = Played("transfer")
it.begins()
it.comes(0, REQUESTS)
it.drain()
sends_up_to(it, 2144)
it.comes(16, ack=536)
it.drain()
for _ in range(3):
    it.comes(16, ack=536)
sends_up_to(it, 3484)
it.comes(16, ack=3484)
it.drain()
sends_up_to(it, 3484 + 1340)
it.boot(2, 900000)
sends_up_to(it, 3484)
it.comes(16, ack=3484 + 1340)
sends_up_to(it, 3484 + 2144)
it.comes(16, ack=3484 + 1340)
sends_up_to(it, 3484 + 1340 + 2680)
say("# two clients: the duplicates of one are none of the other's, and each has its own window")
it = Played("transfer")
it.begins()
it.begins(OTHER)
it.comes(0, REQUESTS)
it.drain()
it.comes(0, REQUESTS, ack=65536, key=OTHER)
it.drain()
for _ in range(2):
    it.comes(16)
    it.comes(16, ack=65536, key=OTHER)
sends_up_to(it, 2144)
sends_up_to(it, 2144, OTHER)
it.comes(16)
it.comes(16, ack=65536 + 1, key=OTHER)
sends_up_to(it, 2680)
sends_up_to(it, 2146, OTHER)

say("# hostile datagrams: a server that asks and one that fetches say nothing, and go on as if none had come")
say("boot 1 1 5000", to_logger(HELLO))
say("attack 10000 1", "silent")
say("tick", to_logger(HELLO))
Z = (0xC0000209, 9)
say(msg(message("Summary", 1, struct.pack(">H", 1))), to_logger(message("List", 1, struct.pack(">H", 0))))
say("attack 10000 2", "silent")
say("tick", to_logger(message("List", 1, struct.pack(">H", 0))))
say(msg(told("Entry", f"boot 1 index 0 key {text_key(Z)} cisn 1000 sisn 77 mss 536 length 2 fin 0 done 0 reads 0 acked 0".split())),
    to_logger(message("Bytes", 1, key_bytes(Z) + struct.pack(">I", 0))))
say("attack 10000 3", "silent")
say("tick", to_logger(message("Bytes", 1, key_bytes(Z) + struct.pack(">I", 0))))
say(msg(told("Part", f"boot 1 key {text_key(Z)} offset 0 bytes 6869".split())),
    to_client(Z, packet(SERVER, Z, "A", 78, 1003, 65535, None, b"")),
    to_logger(told("Read", f"boot 1 key {text_key(Z)} index 0 length 2".split())))
say("# and one that serves acknowledges to a live connection what is taken and logged, and resets none")
say(pkt(syn(A)), to_logger(opening("Open", 1, A, 1000, 5000 + 65536)))
say(msg(opening("Opened", 1, A, 1000, 5000)), to_client(A, packet(SERVER, A, "AS", 5000, 1001, 65535, 1460, b"")))
say(pkt(packet(A, SERVER, "A", 1001, 5001, 65535, None, b"")))
say("attack 10000 4", "wrong 0")
say(conn(Z), numbers((77 - 5000) % 2**32, 2, 2, 2, 1, 0, 0))
# ---- one client against the others, by the model -----------------------------------------------------------------------------------------------

GOOD = ["192.0.2.11:40000", "192.0.2.12:40000", "192.0.2.13:7"]


class Struck(Target):
    """The same, with a fourth client that sends hostile datagrams between all turns. The log doesn't answer what that client's connection tells."""

    def __init__(self, service, strikes, profile):
        self.struck, self.lines, self.strikes, self.said_of, self.may_open = 0, 0, strikes, {}, False
        super().__init__(service, profile)

    def keep(self, sent):
        for key, content in sent:
            self.said_of.setdefault(key or content.fields.get("key"), []).append(content)

    def turn(self, line, sent):
        super().turn(line, sent)
        self.keep(sent)
        self.sent = [it for it in self.sent if it.fields.get("key") != HOSTILE]

    def drain(self):
        waiting = self.sent
        while waiting:
            answer, waiting = self.log.answer(waiting[0]), waiting[1:]
            if answer:
                self.strike()
                self.says(answer)
                waiting = waiting + self.sent

    def says(self, answer):
        words = packet_words(answer).split()
        self.turn(msg(told(words[0], words[1:], self.version)), self.server.on_message(answer))

    def strike(self, times=1):
        """So many times as many hostile segments, in one line, round the numbers that the fourth client's connection has before them."""
        count = self.strikes * times
        if not count:
            return
        self.lines += 1
        self.struck += count
        self.keep(self.blows(count, self.lines, 6 if self.may_open else 5))

    def opens_hostile(self):
        """The log answers the fourth client's opening after all: it has a connection."""
        opening = self.server.places[HOSTILE]
        self.says(self.log.answer(loggers.Message("Open", self.server.boot, {"key": HOSTILE, **opening})))

    def resets_hostile(self):
        place = self.server.places[HOSTILE]
        it = model.Segment("R", (place.cisn + 1 + place.taken()) % 2**32, 0, 0, None, b"")
        self.turn(pkt(segment("1>S", packet_words(it).split(), {"1": key_of(HOSTILE)})), self.server.on_segment(HOSTILE, it))
        self.says(self.log.answer(loggers.Message("Done", self.server.boot, {"key": HOSTILE})))

    def says_of(self, number, at, text=b"", flags="A", ack=0):
        """A segment of one of the three, whose server's numbers follow one another."""
        self.strike()
        self.comes(at, text, flags, 65536 * number + ack, GOOD[number])

    def ticks(self, times):
        for _ in range(times):
            self.strike()
            super().ticks(1)
            self.drain()

    def boots_again(self, boot, isn):
        """A crash and a restart. The three clients' entries are fetched while the fourth goes on."""
        self.strike()
        self.server = model.Server(boot, isn, self.service, profile=self.profile)
        self.turn(f"{BOOTS[self.profile]} {SERVICES[self.service]} {boot} {isn}", self.server.asked())
        self.strike()
        self.drain()
        self.knows_deltas(isn)
        self.strike()


def serve_three(strikes, profile="plain"):
    """Three clients say something in two segments, over a restart, and close. Returns what each of them and the log heard of it."""
    it = Struck("echo", strikes, profile)
    for number, key in enumerate(GOOD):
        it.says_of(number, -1, flags="S")
        it.drain()
        it.says_of(number, 0)
    it.may_open = True                  # the three have their numbers
    it.strike(3)
    if strikes:
        it.opens_hostile()
    words = [b"left alone", b"as if nobody", b"else were there"]
    for number, word in enumerate(words):
        it.says_of(number, 0, word[:4])
        it.drain()
        it.says_of(number, 7, word[7:], ack=4)
        it.drain()
    it.boots_again(2, 900000)
    for number, word in enumerate(words):
        it.says_of(number, 4, word[4:], ack=4)
        it.drain()
        it.shows(GOOD[number])
    if strikes:
        it.resets_hostile()
    for number, word in enumerate(words):
        it.says_of(number, len(word), flags="AF", ack=len(word))
        it.drain()
        it.says_of(number, len(word) + 1, ack=len(word) + 1)
    it.ticks(5)
    assert all(it.server.places[key] == "done" for key in GOOD)
    it.strike()
    return {key: it.said_of[key] for key in GOOD}, it.struck


say("# three clients are served to their ends, over a restart, while a fourth sends far acknowledgements, wrong edges, RSTs beside the number, SYNs and text")
say("# that overlaps, before each turn and in every stage of its own: unknown, pending, live, restarted, reset and done")
struck, count = serve_three(600)
assert count >= 40000, count


def left_alone(profile="plain"):
    """What each of the three and the log heard without the fourth client. Nothing of it is said."""
    lines_kept, prints_kept = list(lines), list(prints)
    heard, none = serve_three(0, profile)
    lines[:], prints[:] = lines_kept, prints_kept
    assert none == 0
    return heard


assert struck == left_alone()

# ---- the profile wan, by the model ---------------------------------------------------------------------------------------------------------------

say("# the profile wan: an ACK is sent at once for text past a gap, for a part of a gap and for what is repeated, and waits where the whole gap is filled")
it = Played("echo", "wan")
it.begins()
it.comes(5, letters(5, 9))
it.comes(0, letters(0, 2))
it.drain()
it.comes(2, letters(2, 5))
it.drain()
it.comes(0, letters(0, 9))
it.drain()
it.comes(9, letters(9, 12), "AF", ack=9)
it.drain()
it.shows()
say("# the Data of a turn: each but the last says that another follows, of text and of a FIN that were held, and the only one of a turn doesn't")
it = Played("echo", "wan")
it.begins()
for start in range(536, 8 * 536, 536):
    it.comes(start, letters(start, start + 536))
it.comes(0, letters(0, 536))
it.drain()
it.comes(8 * 536 + 4, letters(8 * 536 + 4, 8 * 536 + 6), "AF", ack=536)
it.comes(8 * 536, letters(8 * 536, 8 * 536 + 4), ack=536)
it.drain()
it.shows()
it = Played("echo", "wan")
it.begins()
it.comes(3, b"", "AF")
it.comes(0, b"abc")
it.drain()
it.shows()
say("# a message of the other grammar is noise: a server and a log of two profiles serve nobody")
for boots, own, other in ("boot-wan", 2, 1), ("boot", 1, 2):
    say(f"{boots} 1 1 5000", to_logger(message("Hello", 1, version=own)))
    say(msg(message("Summary", 1, struct.pack(">H", 0), other)))
    say(pkt(syn(client_key(0))))
    say("tick", to_logger(message("Hello", 1, version=own)))
    say(msg(message("Summary", 1, struct.pack(">H", 0), own)))
    say(msg(message("Stale", 1, struct.pack(">Q", 2), other)))
    say(msg(message("Stale", 1, struct.pack(">Q", 2), own)), "fenced by 2")
say("# two clients, of which each has an estimate of its own: a round trip of two ticks, and one of five")
it = Played("transfer", "wan")
it.begins()
it.begins(OTHER)
it.comes(0, REQUESTS)
it.drain()
it.comes(0, REQUESTS, ack=65536, key=OTHER)
it.drain()
it.ticks(2)
it.comes(16, ack=536)
it.ticks(3)
it.comes(16, ack=65536 + 536, key=OTHER)
assert (it.server.places[K].timing.base, it.server.places[OTHER].timing.base) == (6, 15)
it.ticks(20)
for ack in (1072, 1608, 2144):
    it.comes(16, ack=ack)
    it.comes(16, ack=65536 + ack, key=OTHER)
it.shows()
it.shows(OTHER)
say("# a restart: ACKs wait for the log again, and the timer begins with ten ticks, until a round trip is measured")
it.boot(2, 900000)
it.comes(16, REQUESTS[:4], ack=2144)
it.drain()
it.ticks(9)
it.ticks(1)
it.comes(20, ack=2680)
it.ticks(19)
it.ticks(1)
it.comes(20, ack=it.server.places[K].sent)
it.drain()
it.shows()
say("# with the profile wan a SYN with timestamps is answered with them, its size leaves room for them, and every segment to its client carries them. They are 1,"
    " and the client's latest value of those in time")
it = Played("transfer", "wan")
it.comes(-1, flags="S", stamps=(7, 0), mss=1460)
it.drain()
assert it.server.places[K].mss == 1448
it.comes(0, stamps=(8, 1))
it.comes(0, REQUESTS, stamps=(9, 1))
it.drain()
assert it.server.places[K].recent == 9
it.comes(16, ack=1448, stamps=(10, 1))
it.ticks(12)
it.comes(16, ack=it.server.places[K].sent, stamps=(11, 1))
it.shows()
say("# a SYN without a size or with a small one, and with the profile plain: there no segment carries timestamps")
for profile, offered in ("wan", None), ("wan", 70), ("plain", 1460):
    it = Played("echo", profile)
    it.comes(-1, flags="S", stamps=(7, 0), mss=offered)
    it.drain()
    it.comes(0, b"hello", stamps=(8, 1))
    it.drain()
    it.shows()
say("# values that aren't echoed: of a segment past the last acknowledgement, before the window, past it, of a RST that doesn't reset, and an older one; an echo of"
    " what was never sent changes nothing, and a segment without timestamps neither")
it = Played("echo", "wan")
it.comes(-1, flags="S", stamps=(2**32 - 2, 0))
it.drain()
it.comes(0, stamps=(3, 1))
for at, text, flags, stamps in ((2, b"c", "A", (9, 1)), (-1, b"", "A", (9, 1)), (65536, b"", "A", (9, 1)), (1, b"", "R", (9, 1)), (0, b"", "A", (2, 1)),
                                (0, b"a", "A", (3, 77)), (1, b"", "A", None), (1, b"b", "A", (4, 2**32 - 1))):
    it.comes(at, text, flags, stamps=stamps)
    it.drain()
it.shows()
say("# a connection that was opened without timestamps gets none, whatever its segments carry")
it = Played("echo", "wan")
it.begins()
it.comes(0, b"hello", stamps=(9, 1))
it.drain()
it.shows()
say("# after a restart nothing is echoed until a segment of the client brings a value in time")
it = Played("echo", "wan")
it.comes(-1, flags="S", stamps=(7, 0), mss=1460)
it.drain()
it.comes(0, b"hello", stamps=(8, 1))
it.drain()
it.boot(2, 900000)
it.comes(7, b"x", ack=5, stamps=(30, 1))
it.ticks(10)
it.comes(5, b"ab", ack=5, stamps=(9, 1))
it.drain()
it.shows()
say("# the option twice: the first counts; among other NOPs and options; behind the end of the options, and of another length: it isn't read; cut: no segment")
stamp = stamps_option(9, 1)[2:]
ways = [("twice", stamps_option(9, 1) + stamps_option(50, 1), (9, 1)), ("NOPs", b"\1" + stamp + b"\1", (9, 1)), ("among", b"\3\3\7" + stamp + b"\4\2\1", (9, 1)),
        ("end", b"\1\0" + stamp, None), ("short", b"\1\1\x08\x09" + b"\0" * 7 + b"\1", None), ("long", b"\1\x08\x0b" + b"\0" * 9, None)]
for name, options, stamps in ways:
    it = Played("echo", "wan")
    it.comes(-1, flags="S", stamps=(7, 0))
    it.drain()
    it.comes(0, b"hi", stamps=stamps, options=options)
    it.drain()
    it.shows()
for options in (b"\1\1\x08\x0a\0\0\0\x09", b"\1\1\1\x08", b"\x08\1\0\0", b"\x08\0\0\0", stamps_option(9, 1) + b"\1\1\1\x08"):
    say(pkt(packet(key_of(K), SERVER, "A", (4294967291 + 2) % 2**32, 5001, 65535, None, b"no", options)))
say("# hostile segments with timestamps: before the text, with text that isn't logged, and after a restart")
it = Target("echo", "wan")
it.comes(-1, flags="S", key=HOSTILE, stamps=(2**32 - 9, 0))
it.drain()
it.comes(0, key=HOSTILE, stamps=(2**32 - 9, 1))
it.blows(100, 1, 6, True)
it.shows(HOSTILE)
it.comes(0, b"hello", key=HOSTILE, stamps=(2**32 - 8, 1))
it.blows(100, 2, 6, True)
it.sent = []
it.shows(HOSTILE)
it.boot(2, 900000)
it.blows(100, 3, 6, True)
it.shows(HOSTILE)
say("# three clients and a fourth that is hostile, as before")
struck, count = serve_three(100, "wan")
assert count >= 7000 and struck == left_alone("wan")
write_part("node", "\n".join(lines) + "\n", "\n".join(prints) + "\n", OUT)
print(len(lines), "lines,", len(prints), "printed")
