#!/usr/bin/env python3
"""What a server of HTTP/1.0 and 1.1 answers to the bytes of one connection, written from RFC 9112 and RFC 9110, and to the lines of `service_script` about it.

    tools/web_model.py bytes N              writes the N bytes of /bytes/N, made without any server

`mark_model.py lines` writes what `service_script` must print, and uses this model for the lines about the web server. They are described at the beginning of
crates/service_script/src/lib.rt. It needs only Python's standard library and twin_model.py.
"""
import hashlib
import re
import sys
from urllib.parse import unquote_to_bytes

from mail_model import GREETING, Session
from twin_model import Draws

REASONS = {200: "OK", 400: "Bad Request", 404: "Not Found", 405: "Method Not Allowed", 414: "URI Too Long", 431: "Request Header Fields Too Large",
           501: "Not Implemented", 503: "Service Unavailable", 505: "HTTP Version Not Supported"}
TOKEN = rb"[!#$%&'*+\-.^_`|~0-9A-Za-z]+"
REQUEST_LINE = re.compile(rb"(" + TOKEN + rb") ([^ ]+) HTTP/([0-9])\.([0-9])\Z")
VERSION = re.compile(rb"[^ ]* [^ ]* HTTP/([0-9])\.[0-9]\Z")
FIELD_LINE = re.compile(rb"(" + TOKEN + rb"):[ \t]*(.*?)[ \t]*\Z", re.S)
HOST = re.compile(rb"[-._~!$&'()*+,;=%:\[\]0-9A-Za-z]*\Z")
FORBIDDEN = re.compile(rb"[\x00-\x08\x0a-\x1f\x7f]")
LIMIT = 8192
ROOM = (1 << 20) - 256
HOME = (b"A web server whose answers are made, so that it gives the same ones again after a crash.\n"
        b"/bytes/N has N bytes, and /count/N has N numbered lines.\n")


class Refused(Exception):
    """A request that isn't served: its status, after which the connection closes."""


def page(target):
    """The bytes that a target stands for, or None."""
    if target.lower().startswith(b"http://"):
        target = re.sub(rb"\A[^/]*", b"", target[7:])
    path = target.split(b"?")[0]
    if path in (b"", b"/"):
        return HOME
    found = re.fullmatch(rb"/(bytes|count)/([0-9]+)", path)
    if not found:
        return None
    number = int(found[2])
    if found[1] == b"bytes":
        return bytes(i % 251 for i in range(number)) if number <= 1_000_000 else None
    return b"".join(b"%d\n" % i for i in range(1, number + 1)) if number <= 100_000 else None


def head(status, length, closes):
    """All of an answer but its body."""
    allow = "Allow: GET, HEAD\r\n" if status == 405 else ""
    stays = "close" if closes else "keep-alive"
    return f"HTTP/1.1 {status} {REASONS[status]}\r\n{allow}Content-Length: {length}\r\nConnection: {stays}\r\n\r\n".encode()


class Message:
    """The head of one request: its first line, then its fields."""

    def __init__(self, line):
        if FORBIDDEN.search(line):
            raise Refused(400)
        version = VERSION.match(line)
        if version and version[1] != b"1":
            raise Refused(505)
        found = REQUEST_LINE.match(line)
        if not found:
            raise Refused(400)
        self.method, self.target, self.old = found[1], found[2], found[4] == b"0"
        self.fields = {}

    def add(self, line):
        found = FIELD_LINE.match(line)
        if FORBIDDEN.search(line) or not found:
            raise Refused(400)
        name, value = found[1].lower(), found[2]
        said = self.fields.setdefault(name, [])
        if name == b"host" and (said or not HOST.match(value)):
            raise Refused(400)
        if name == b"content-length" and (said or not re.fullmatch(rb"[0-9]+", value)):
            raise Refused(400)
        said.append(value)

    def body_length(self):
        return int(self.fields.get(b"content-length", [b"0"])[0])

    def closes(self):
        options = {option.strip(b" \t").lower() for value in self.fields.get(b"connection", []) for option in value.split(b",")}
        return b"close" in options or self.old and b"keep-alive" not in options

    def answer(self):
        if not self.old and b"host" not in self.fields:
            raise Refused(400)
        if b"transfer-encoding" in self.fields:
            raise Refused(501)
        body = page(self.target)
        status = 404 if body is None else 200 if self.method in (b"GET", b"HEAD") else 405
        if status != 200:
            body = b""
        return head(status, len(body), self.closes()) + (b"" if self.method == b"HEAD" else body)


class Server:
    """One connection. It looks at all bytes that haven't been used, again at each chunk."""

    def __init__(self):
        self.rest, self.drop, self.closed = b"", 0, False

    def next_message(self):
        """Takes a whole head from the bytes that came, or gives None where it isn't whole yet."""
        while (blank := re.match(rb"\r?\n", self.rest)):
            self.rest = self.rest[blank.end():]
        if b"\n" not in self.rest[:LIMIT]:
            if len(self.rest) > LIMIT:
                raise Refused(414)
            return None
        line, fields = self.rest.split(b"\n", 1)
        message, used = Message(line.removesuffix(b"\r")), 0
        while b"\n" in fields[used:LIMIT]:
            end = fields.index(b"\n", used)
            line, used = fields[used:end].removesuffix(b"\r"), end + 1
            if not line:
                self.rest = fields[used:]
                return message
            message.add(line)
        if len(fields) > LIMIT:
            raise Refused(431)
        return None

    def take(self, chunk):
        """What a chunk is answered. The empty one is the end of input, which closes."""
        if not chunk:
            self.closed = True
            return b""
        self.rest += chunk
        out = b""
        try:
            while True:
                used = min(self.drop, len(self.rest))
                self.rest, self.drop = self.rest[used:], self.drop - used
                message = None if self.drop else self.next_message()
                if message is None:
                    return out
                answer = message.answer()
                if len(out) + len(answer) > ROOM:
                    raise Refused(503)
                out += answer
                if message.closes():
                    self.closed = True
                    return out
                self.drop = message.body_length()
        except Refused as why:
            self.closed = True
            return out + head(why.args[0], 0, True)


LONGEST = [1, 5, 20, 100, 500, 2048, 2048, 2048]  # chunks


def drawn_text(draws, parts):
    """One to five requests, each a piece of each part, and one text in eight damaged."""
    text = b"".join(part[draws.below(len(part))] for _ in range(1 + draws.below(5)) for part in parts if part)
    if draws.below(8):
        return text
    at, kind, byte = draws.below(len(text) + 1), draws.below(4), bytes([draws.below(256)])
    return text[:at] + [b"", byte, byte, b"\r\n"][kind] + text[at + (kind < 2):]


def drawn_chunks(draws, text):
    """A text cut anywhere. After some the input ends."""
    longest, ends = LONGEST[draws.below(8)], draws.below(8) == 0
    while text:
        size = 1 + draws.below(longest)
        yield text[:size]
        text = text[size:]
    if ends:
        yield b""


class Tally:
    """What came of connections."""

    def __init__(self):
        self.answers, self.bytes, self.closed, self.digest = 0, 0, 0, hashlib.md5()

    def count(self, at, out):
        if out:
            self.answers += 1
            self.bytes += len(out)
            self.digest.update(at.to_bytes(4, "big") + out)

    def play(self, chunks, server, greeting=b""):
        self.count(2**32 - 1, greeting)
        for at, chunk in enumerate(chunks):
            self.count(at, server.take(chunk))
            if server.closed:
                self.closed += 1
                return

    def said(self):
        return f"{self.answers} answers, {self.bytes} bytes, {self.closed} closed, {self.digest.hexdigest()}"


class Connections:
    """The lines of a script about the web server, and those about drawn sessions of mail. It keeps the pieces of each part of a request."""

    def __init__(self):
        self.parts, self.last = [], 0

    def played(self, line):
        """What the program prints for a line, or None where it prints nothing."""
        word, _, rest = line.partition(" ")
        if word == "part":
            self.last = int(rest)
            self.parts[self.last : self.last + 1] = [[]]
            return None
        if word == "piece":
            weight, times, text = rest.split(" ", 2)
            self.parts[self.last] += [unquote_to_bytes(text) * int(times)] * int(weight)
            return None
        tally = Tally()
        if word == "say":
            tally.play([unquote_to_bytes(rest)], Server())
        else:
            count, seed = map(int, rest.split(" "))
            draws = Draws(seed)
            for _ in range(count):
                tally.play(drawn_chunks(draws, drawn_text(draws, self.parts)), *((Session(), GREETING) if word == "sessions" else (Server(),)))
        return tally.said()


def write_bytes(count):
    sys.stdout.buffer.write(bytes(i % 251 for i in range(count)))


if __name__ == "__main__":
    {"bytes": write_bytes}[sys.argv[1]](int(sys.argv[2]))
