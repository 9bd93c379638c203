#!/usr/bin/env python3
"""A logger of one connection that keeps its log in SQLite's write-ahead log, as bench/journal.sh has it beside `ftnode logger --journal`: journal_sqlite.py PORT FILE.

Each message that changes the log is a row, in a transaction of its own with `synchronous` full, and is answered after that.
"""
import socket
import sqlite3
import sys
from pathlib import Path

sys.path.insert(0, str(Path(__file__).resolve().parent.parent / "tools"))
from loggers import Log
from twin_model import ANSWERS, read_message, spell_message

link = socket.socket(socket.AF_INET, socket.SOCK_DGRAM)
link.bind(("127.0.0.1", int(sys.argv[1])))
base = sqlite3.connect(sys.argv[2], isolation_level=None)
base.execute("PRAGMA journal_mode=WAL")
base.execute("PRAGMA synchronous=FULL")
base.execute("CREATE TABLE kept (message BLOB)")
log = Log()
while True:
    data, sender = link.recvfrom(2048)
    message = read_message(data)
    if message is None or message.name in ANSWERS:
        continue
    answer = log.answer(message)
    base.execute("INSERT INTO kept VALUES (?)", (data,))
    if answer is not None:
        link.sendto(spell_message(answer), sender)
