#!/usr/bin/env python3
"""The messages that a receiver of mail has accepted, out of the journal of its logger: an mbox.

    tools/mailbox.py JOURNAL

JOURNAL is the file of `own_node mail .. --journal`, or a copy of it, which may be made while the logger runs: what comes after the last whole block isn't read. A
message is written if its end is in a read that the journal has: then it was accepted, or it will be once the server's reply has reached the client. Each
begins with the client's address and port, the number that the reply says, and its size. A client whose connection ended before it got the reply may send the message
again in another connection: within one it is accepted once.

The status is 0; 1 where the file can't be read or isn't a whole journal; 2 for wrong words.
"""
import re
import sys
import time

from journal_model import Refused, Wrong, reading
from loggers import Log
from mail_model import Session

SEAM = re.compile(rb"^(>*From )", re.M)


def entries(data):
    """The entries of a journal's file, in the order of opening."""
    log = Log()
    for message in reading(data)[0]:
        log.answer(message)
    return list(log.entries.values())


def logged_reads(entry):
    """The chunks that the server has read of a connection, as far as they are logged."""
    at = 0
    for length in entry.lengths:
        yield bytes(entry.data[at : at + length])
        at += length


def accepted(entry):
    """The messages that a connection's logged reads end."""
    session = Session()
    for chunk in logged_reads(entry):
        if not session.closed:
            session.take(chunk)
    return session.messages


def named(key):
    ip, port = key >> 16, key & 0xFFFF
    return f"{ip >> 24}.{ip >> 16 & 255}.{ip >> 8 & 255}.{ip & 255}:{port}"


def in_mbox(client, made, message):
    """A message as an mbox has it: lines end with LF, and one that looks like the seam between messages is quoted."""
    date = time.strftime("%a %b %d %H:%M:%S %Y", time.gmtime(made // 1_000_000_000)).encode()
    sender = message.sender.split(b" ")[0] or b"MAILER-DAEMON"
    head = b"From %s %s\n" % (sender, date)
    head += b"Return-Path: <%s>\n" % message.sender
    head += b"".join(b"Delivered-To: %s\n" % recipient for recipient in message.recipients)
    head += b"X-Accepted: %s message %d, %d bytes\n" % (client.encode(), message.number, len(message.text))
    text = SEAM.sub(rb">\1", message.text.replace(b"\r\n", b"\n"))
    return head + text + (b"\n" if text.endswith(b"\n") else b"\n\n")


def mbox(data):
    made = int.from_bytes(data[8:16], "big")
    return b"".join(in_mbox(named(entry.key), made, message) for entry in entries(data) for message in accepted(entry))


def main():
    if sys.argv[1:] in (["-h"], ["--help"]):
        print(__doc__.strip())
        return 0
    if len(sys.argv) != 2 or sys.argv[1].startswith("-"):
        print("mailbox.py JOURNAL", file=sys.stderr)
        return 2
    try:
        with open(sys.argv[1], "rb") as file:
            text = mbox(file.read())
    except OSError as why:
        print(f"mailbox.py: {why.filename}: {why.strerror}", file=sys.stderr)
        return 1
    except Refused as why:
        print(f"mailbox.py: the journal is {why}", file=sys.stderr)
        return 1
    except Wrong as at:
        print(f"mailbox.py: the journal is damaged at byte {at}", file=sys.stderr)
        return 1
    sys.stdout.buffer.write(text)
    return 0


if __name__ == "__main__":
    sys.exit(main())
