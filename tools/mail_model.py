#!/usr/bin/env python3
"""What a receiver of mail answers to the bytes of one connection, written from RFC 5321, and to the lines of `service_script` about it.

    tools/mail_model.py replies     reads a connection's bytes from standard input, and writes the greeting and the replies

`mark_model.py lines` writes what `service_script` must print, and uses this model for the lines about mail. They are described at the beginning of
crates/service_script/src/lib.rt. tools/mailbox.py reads the messages of a journal with it. It needs only Python's standard library and twin_model.py.
"""
import re
import sys
from urllib.parse import unquote_to_bytes

GREETING = b"220 mail.example ESMTP\r\n"
LINE, TEXT, RECIPIENTS = 512, 8_000_000, 100
REPLIES = {
    "helo": b"250 mail.example\r\n",
    "ehlo": b"250-mail.example\r\n250-PIPELINING\r\n250-8BITMIME\r\n250 SIZE 8000000\r\n",
    "ok": b"250 ok\r\n",
    "send": b"354 end the message with a dot on a line\r\n",
    "large": b"552 the message is too large\r\n",
    "many": b"452 too many recipients\r\n",
    "maybe": b"252 not verified, but accepted\r\n",
    "bye": b"221 mail.example closes\r\n",
    "long": b"500 the line is too long\r\n",
    "unknown": b"500 unknown command\r\n",
    "argument": b"501 wrong argument\r\n",
    "missing": b"502 not implemented\r\n",
    "phase": b"503 not now\r\n",
    "parameter": b"555 unknown parameter\r\n",
}
SENDER = re.compile(rb"FROM:<([^>]*)>(.*)\Z", re.S | re.I)
RECIPIENT = re.compile(rb"TO:<([^>]+)>(.*)\Z", re.S | re.I)
SIZE = re.compile(rb"SIZE=([0-9]+)\Z", re.I)
BODY = re.compile(rb"BODY=(7BIT|8BITMIME)\Z", re.I)


class Message:
    """A message that was accepted: its number in the connection, its sender, its recipients and its text."""

    def __init__(self, number, sender, recipients, text):
        self.number, self.sender, self.recipients, self.text = number, sender, recipients, text


class Session:
    """One connection. `rest` are the bytes that aren't used yet."""

    def __init__(self):
        self.rest, self.seen, self.messages, self.closed = bytearray(), 0, [], False
        self.greeted, self.sender, self.recipients, self.receives = False, None, [], False

    def take(self, chunk):
        """What a chunk is answered. The empty one is the end of input, which closes."""
        if not chunk:
            self.closed = True
            return b""
        self.rest += chunk
        out = b""
        while not self.closed:
            reply = self.end_of_message() if self.receives else self.end_of_line()
            if reply is None:
                return out
            out += reply
        return out

    def end_of_line(self):
        """The reply to the next line, if all of it is there."""
        end = self.rest.find(b"\r\n", max(0, self.seen - 1))
        if end < 0:
            self.seen = len(self.rest)
            return None
        line = bytes(self.rest[:end])
        del self.rest[: end + 2]
        self.seen = 0
        return REPLIES["long" if end + 2 > LINE else self.reply(*line.partition(b" ")[::2])]

    def reply(self, name, argument):
        name = name.upper()
        if name in (b"HELO", b"EHLO"):
            return self.hello(name, argument)
        if name == b"MAIL":
            return self.mail(SENDER.match(argument))
        if name == b"RCPT":
            return self.recipient(RECIPIENT.match(argument))
        if name in (b"DATA", b"RSET", b"QUIT"):
            return "argument" if argument else getattr(self, name.decode().lower())()
        if name == b"VRFY":
            return "maybe" if argument else "argument"
        return {b"NOOP": "ok", b"EXPN": "missing", b"HELP": "missing"}.get(name, "unknown")

    def forget(self):
        self.sender, self.recipients = None, []

    def hello(self, name, argument):
        if not argument:
            return "argument"
        self.greeted = True
        self.forget()
        return name.decode().lower()

    def mail(self, found):
        if not found:
            return "argument"
        words = found[2].split(b" ")
        if words[0] or not all(not word or SIZE.match(word) or BODY.match(word) for word in words):
            return "parameter"
        if any(int(size[1]) > TEXT for size in map(SIZE.match, words) if size):
            return "large"
        if not self.greeted or self.sender is not None:
            return "phase"
        self.sender = found[1]
        return "ok"

    def recipient(self, found):
        if not found:
            return "argument"
        if found[2]:
            return "parameter"
        if self.sender is None:
            return "phase"
        if len(self.recipients) == RECIPIENTS:
            return "many"
        self.recipients.append(found[1])
        return "ok"

    def data(self):
        if not self.recipients:
            return "phase"
        self.receives = True
        return "send"

    def rset(self):
        self.forget()
        return "ok"

    def quit(self):
        self.closed = True
        return "bye"

    def end_of_message(self):
        """The reply to a message whose end is there: a line that is a dot. The message begins at the start of a line."""
        begins = self.rest[:3] == b".\r\n"
        end = 0 if begins else self.rest.find(b"\r\n.\r\n", max(0, self.seen - 4))
        if end < 0:
            self.seen = len(self.rest)
            return None
        text = b"" if begins else bytes(self.rest[: end + 2])
        del self.rest[: 3 if begins else end + 5]
        text = (b"\r\n" + text).replace(b"\r\n.", b"\r\n")[2:]
        sender, recipients, self.receives, self.seen = self.sender, self.recipients, False, 0
        self.forget()
        if len(text) > TEXT:
            return REPLIES["large"]
        self.messages.append(Message(len(self.messages) + 1, sender, recipients, text))
        return b"250 message %d accepted, %d bytes\r\n" % (len(self.messages), len(text))


def shown(data):
    """Replies on one line."""
    return data.replace(b"\r\n", b"|").decode()


def mail_line(rest):
    """What the program prints for `mail TIMES TEXT ..`: all that is written, and whether the connection closes."""
    words = rest.split(" ")
    text = b"".join(int(times) * unquote_to_bytes(piece) for times, piece in zip(words[::2], words[1::2]))
    session, out = Session(), GREETING
    for at in range(0, len(text), 2048):
        if not session.closed:
            out += session.take(text[at : at + 2048])
    return shown(out) + ("closed" if session.closed else "open")


if __name__ == "__main__":
    {"replies": lambda: sys.stdout.buffer.write(GREETING + Session().take(sys.stdin.buffer.read()))}[sys.argv[1]]()
