#!/usr/bin/env python3
"""How long the journal of a logger gets that keeps 64 connections of a megabyte each: journal_growth.py PROGRAM FOLDER [MEGABYTES].

Each connection's text is logged once, and then Data come with text that is logged already, of which more is acknowledged each time: so each is kept, and the log gets no larger. Once the logger
has been given so many megabytes (4,096 without the word), the greatest length of its file is compared with that of a new one that has the log alone, and the logger is started again. 64 messages
are under way at a time; the longest silence between two answers is that of a replacement. bench/journal.sh runs it. Status 0 if the goals are met: the file is never longer than 2.2 times the
log's and 64 MiB, and a start takes less than a second.
"""
import os
import socket
import subprocess
import sys
import time
from pathlib import Path
from struct import pack

sys.path.insert(0, str(Path(__file__).resolve().parent.parent / "tools"))
from journal_model import data, hello, opening, reading
from twin_model import read_message

program, folder, carried = sys.argv[1], Path(sys.argv[2]), int((sys.argv[3:] or ["4096"])[0]) * 1_000_000
HERE, COUNT, TEXT, PIECE, AHEAD = ("127.0.0.1", 7380), 64, 1_000_000, 1_450, 64
MOST = 1 << 26  # bytes of a file that isn't replaced
path = folder / "growth"
KEYS = [pack(">IH", 0xC0000201, 40000 + i) for i in range(COUNT)]
longest_file, longest_silence = 0, 0.0


def start(*more):
    return subprocess.Popen([program, "logger", "--local", f"{HERE[0]}:{HERE[1]}", "--turns", "100000000", "--journal", str(path), *more])


def exchange(messages):
    """Sends them, and waits for as many answers."""
    global longest_file, longest_silence
    for message in messages:
        link.send(message)
    for _ in messages:
        begun = time.monotonic()
        link.recv(2048)
        longest_silence = max(longest_silence, time.monotonic() - begun)
    longest_file = max(longest_file, path.stat().st_size)


def in_turns(messages):
    some = []
    for message in messages:
        some.append(message)
        if len(some) == AHEAD:
            exchange(some)
            some = []
    exchange(some)


def asked(message):
    """The answer of a logger that is starting."""
    while True:
        try:
            link.send(message)
            return read_message(link.recv(2048))
        except (ConnectionRefusedError, TimeoutError):
            time.sleep(0.001)


link = socket.socket(socket.AF_INET, socket.SOCK_DGRAM)
link.setsockopt(socket.SOL_SOCKET, socket.SO_RCVBUF, 1 << 21)
link.settimeout(0.1)
link.connect(HERE)
logger = start("--begin", "yes")
asked(hello(5))
link.settimeout(60)
in_turns(opening(5, key) for key in KEYS)
text = bytes(i % 251 for i in range(TEXT))
in_turns(data(5, at, text[at : at + PIECE], key=key) for key in KEYS for at in range(0, TEXT, PIECE))
sent, acked = COUNT * TEXT, 0
while sent < carried:
    acked += 1
    exchange([data(5, 0, text[:PIECE], acked=acked, key=key) for key in KEYS])
    sent += COUNT * PIECE
logger.kill()
logger.wait()
left = path.stat().st_size
begun = time.monotonic()
logger = start()
link.settimeout(0.01)
asked(hello(6))
opened = time.monotonic() - begun
logger.kill()
logger.wait()
said, _, _ = reading(path.read_bytes())
live = COUNT * (TEXT + (TEXT + 1023) // 1024 * 31 + 100)
fits, quick = longest_file <= 2.2 * live + MOST, opened < 1
print(
    f"growth: of {sent // 1_000_000} MB for 64 connections of 1 MB the file had at most {longest_file} bytes, {longest_file / live:.2f} times the log's {live} ({left} in the end, {len(said)} messages);"
    f" {'goal met' if fits else 'goal MISSED'}; the longest silence {1000 * longest_silence:.0f} ms; a start took {1000 * opened:.0f} ms; {'goal met' if quick else 'goal MISSED'}"
)
os.unlink(path)
sys.exit(not (fits and quick))
