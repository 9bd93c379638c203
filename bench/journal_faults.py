#!/usr/bin/env python3
"""What `ftnode logger --journal FILE` does with bad files and bad disks: journal_faults.py PROGRAM FOLDER.

In each case the status and the text are checked, that a damaged file isn't changed, and that what a logger has answered is never lost. tools/journal_model.py says
which files are damaged, and where. bench/journal_faults.sh runs it as root in its own mount namespace, in which FOLDER is empty.
"""
import os
import random
import shutil
import socket
import subprocess
import sys
import time
from pathlib import Path

sys.path.insert(0, str(Path(__file__).resolve().parent.parent / "tools"))
from journal_model import HEAD, HEADER, KEY, MAGIC, OLDER, ROUND, Refused, Wrong, blocks, data, file_of, header, hello, opening, read, reading, said, wide
from twin_model import PLAIN, WIDE, read_message

HERE, PIECE = ("127.0.0.1", 7360), 1400
DONE = "turns 1 datagrams 0 sent 0 lost 0 failed 0\n"
FAULT, IN_USE, USAGE = "ftnode: journal fault\n", "ftnode: journal in use\n", "ftnode: usage\n"
REFUSED = {
    "missing": "ftnode: journal: no such file\n",
    "present": "ftnode: journal: the file is there\n",
    "empty": "ftnode: journal: the file is empty\n",
    "unfinished": "ftnode: journal: the file ends in its header\n",
    "older": "ftnode: journal: version 1\n",
    "other": "ftnode: journal: another profile\n",
}
BEGIN = ["--begin", "yes"]
WAN = ["--profile", "wan"]
NOBODY = ["setpriv", "--reuid=65534", "--regid=65534", "--clear-groups", "--"]
program, room = sys.argv[1], Path(sys.argv[2])
counts = {"cases": 0, "failed": 0}


def expect(what, got, wanted):
    counts["cases"] += 1
    if got != wanted:
        counts["failed"] += 1
        print(f"{what}: {got}, wanted {wanted}")


def words(journal, turns, at=HERE):
    return ["logger", "--local", f"{at[0]}:{at[1]}", "--turns", str(turns), *journal]


def ended(path, before=(), more=()):
    """The status and the text of a logger with one turn."""
    run = subprocess.run([*before, program, *words(["--journal", str(path), *more], 1)], capture_output=True, text=True, timeout=60)
    return run.returncode, run.stdout + run.stderr


class Logger:
    """A logger that runs, and a socket that asks it."""

    def __init__(self, path, more=()):
        self.version = WIDE if WAN[1] in more else PLAIN
        self.process = subprocess.Popen([program, *words(["--journal", str(path), *more], 1_000_000)], stdout=subprocess.PIPE, stderr=subprocess.STDOUT, text=True)
        self.connect()

    def connect(self):
        self.link = socket.socket(socket.AF_INET, socket.SOCK_DGRAM)
        self.link.connect(HERE)
        self.link.settimeout(3)

    def asked(self, message):
        """The answer, or None once the logger has ended. Each try has a socket of its own: so a late answer isn't taken for that of a later message."""
        while self.process.poll() is None:
            try:
                self.link.send(message)
                return read_message(self.link.recv(2048), self.version)
            except (ConnectionRefusedError, TimeoutError):
                self.link.close()
                self.connect()
                time.sleep(0.01)
        return None

    def end(self):
        """Its status and its text, if it has ended; else it is killed."""
        status = self.process.poll()
        if status is None:
            self.process.kill()
        text = self.process.communicate()[0]
        self.link.close()
        return status, text


def wanted_of(content, version=PLAIN):
    """What a logger with one turn ends with, and the file after it, by the model."""
    try:
        said, tip, tail = reading(content, version)
    except Wrong as wrong:
        return (12, f"ftnode: journal: byte {wrong.args[0]}\n"), content
    except Refused as refused:
        return (12, REFUSED[refused.args[0]]), content
    return (0, DONE + (f"ftnode: journal: cut {len(tail)} bytes\n" if tail else "")), content[: tip[0]]


def content_case(what, content, version=PLAIN):
    path = room / "content"
    path.write_bytes(content)
    expect(what, (ended(path, more=WAN if version == WIDE else ()), path.read_bytes()), wanted_of(content, version))
    path.unlink()


def contents():
    """Files of each kind: parts of a header, foreign bytes, and a journal that is cut at each byte, and has each of its bits changed, and pairs of them."""
    whole = file_of(hello(5) + opening(5), data(5, 0, b"abc") + read(5, 0, 2), tail=b"\x03\xd1.")
    for what, content in [("text", b"root:x:0:0\n" * 9), ("zeros", bytes(4096)), ("a later version", b"ftlog 3\n."), ("version 1", OLDER + b"."), ("one byte", b"x")]:
        content_case(what, content)
    content_case("a tail of the longest block", whole[:-3] + bytes(HEAD + ROUND))
    content_case("a longer tail", whole[:-3] + bytes(HEAD + ROUND + 1))
    content_case("a block of other bytes", header() + blocks(b"root"))
    for size in range(len(whole) + 1):
        content_case(f"cut at {size}", whole[:size])
    for at in range(len(whole)):
        for bit in range(8):
            content_case(f"bit {bit} of byte {at} changed", whole[:at] + bytes([whole[at] ^ 1 << bit]) + whole[at + 1 :])
    draw = random.Random(83)
    for _ in range(300):
        changed = bytearray(whole)
        first, second = draw.sample(range(8 * len(whole)), 2)
        for place in (first, second):
            changed[place // 8] ^= 1 << place % 8
        content_case(f"bits {first} and {second} changed", bytes(changed))


def moved():
    """Blocks that were dropped, repeated, exchanged, or taken from another journal, and words that were exchanged."""
    bodies = [hello(5), opening(5), data(5, 0, b"abc"), read(5, 0, 2)]
    cut = lambda salt: [blocks(*bodies[: n + 1], salt=salt)[len(blocks(*bodies[:n], salt=salt)) :] for n in range(4)]
    parts, other = cut(header()[16:]), cut(header(bytes(8))[16:])
    for n in range(4):
        content_case(f"block {n + 1} dropped", header() + b"".join(parts[:n] + parts[n + 1 :]))
        content_case(f"block {n + 1} repeated", header() + b"".join(parts[: n + 1] + parts[n:]))
        content_case(f"block {n + 1} of another journal", header() + b"".join(parts[:n] + [other[n]] + parts[n + 1 :]))
        for m in range(n):
            some = parts[:]
            some[n], some[m] = some[m], some[n]
            content_case(f"blocks {m + 1} and {n + 1} exchanged", header() + b"".join(some))
    whole = header() + b"".join(parts)
    for at in range(0, len(whole) - 8, 4):
        content_case(f"words at {at} exchanged", whole[:at] + whole[at + 4 : at + 8] + whole[at : at + 4] + whole[at + 8 :])


def no_files():
    """What is at the name and is no file of this name alone, or may not be written; and nothing."""
    journal = file_of(hello(5))
    (room / "folder").mkdir()
    (room / "target").write_bytes(journal)
    (room / "link").symlink_to("target")
    for name in (room / "folder", room / "link", "/dev/null"):
        expect(f"`{name}`", ended(name), (11, FAULT))
        expect(f"`{name}` to be made", ended(name, more=BEGIN), (12, REFUSED["present"]))
    for name in (room / "none", room / "none" / "journal"):
        expect(f"`{name}`", (ended(name), name.exists()), ((12, REFUSED["missing"]), False))
    expect("no folder to make it in", ended(room / "none" / "journal", more=BEGIN), (11, FAULT))
    os.link(room / "target", room / "second")
    expect("a second name", ended(room / "second"), (11, FAULT))
    (room / "second").unlink()
    room.chmod(0o755)
    for mode in (0o600, 0o444):
        (room / "target").chmod(mode)
        expect(f"no right to write, {mode:o}", (ended(room / "target", NOBODY), (room / "target").read_bytes()), ((11, FAULT), journal))
    expect("no right to make it", (ended(room / "new", NOBODY, BEGIN), (room / "new").exists()), ((11, FAULT), False))
    expect("the rights again", ended(room / "target"), (0, DONE))


def begins():
    """A file is made where none is, and never taken where one is."""
    path = room / "begun"
    expect("made", ended(path, more=BEGIN), (0, DONE))
    expect("what was made", (path.read_bytes()[:8], len(path.read_bytes()), reading(path.read_bytes(), PLAIN)[0]), (MAGIC, HEADER, []))
    expect("opened", ended(path), (0, DONE))
    for what, content in (("a journal", path.read_bytes()), ("an empty file", b""), ("a part of a header", MAGIC), ("other bytes", bytes(99))):
        path.write_bytes(content)
        expect(f"{what} to be made", (ended(path, more=BEGIN), path.read_bytes()), ((12, REFUSED["present"]), content))
    times = set()
    for n in range(4):
        other = room / f"begun{n}"
        expect("another", ended(other, more=BEGIN), (0, DONE))
        times.add(other.read_bytes())
        other.unlink()
    expect("no two are alike", len(times), 4)


def names():
    """A name that is taken away, or given to another file, while the logger runs: it ends before it answers anything more."""
    path = room / "named"
    for what in ("gone", "moved", "another"):
        path.unlink(missing_ok=True)
        logger = Logger(path, BEGIN)
        expect("before", logger.asked(hello(3)).name, "Summary")
        if what == "gone":
            path.unlink()
        elif what == "moved":
            path.rename(room / "elsewhere")
        else:
            (room / "new").write_bytes(path.read_bytes())
            (room / "new").rename(path)
        expect(f"nothing is answered once it is {what}", logger.asked(hello(4)), None)
        expect(f"the end once it is {what}", logger.end(), (11, FAULT))


def wrong_words():
    path = str(room / "words")
    server = ["server", "--local", "127.0.0.1:7361", "--logger", "127.0.0.1:7360", "--service", "echo", "--boot", "1", "--isn", "1", "--turns", "1"]
    option = ["--journal", path]
    names = [["--journal", "-x"], ["--journal=-x"], ["--journal", ""], ["--journal="], ["--journal"]]
    begins = [[*option, "--begin", word] for word in ("no", "", "Yes", "yes ", "1")] + [[*option, "--begin"], [*option, *BEGIN, *BEGIN], BEGIN]
    for line in (words(option * 2, 1), *(words(name, 1) for name in names + begins), server + option, server + option + BEGIN, words([*option, "--boot", "1"], 1)):
        run = subprocess.run([program, *line], capture_output=True, text=True, timeout=60)
        expect(" ".join(line), (run.returncode, run.stdout + run.stderr, Path(path).exists()), (2, USAGE, False))


def two_loggers():
    """The second one is refused, and the first one runs on. A port that is taken is a fault of the link, after the opening."""
    path = room / "shared"
    first = Logger(path, BEGIN)
    expect("the first", first.asked(hello(3)).name, "Summary")
    before = path.read_bytes()
    for name in (path, room / "." / "folder" / ".." / "shared"):
        expect("the second", (ended(name), path.read_bytes()), ((13, IN_USE), before))
    expect("the first again", first.asked(hello(4)).name, "Summary")
    expect("the second, to make it", (ended(path, more=BEGIN), path.read_bytes()), ((12, REFUSED["present"]), path.read_bytes()))
    expect("a taken port", ended(room / "other", more=BEGIN), (4, "ftnode: link fault\n"))
    expect("the first at its end", first.end()[0], None)
    expect("the file once the first is dead", ended(path), (0, DONE))


def fill(logger, told):
    """Sends text until the logger has ended; how much of it was told to be in the log."""
    while True:
        text = bytes((told + i) % 251 for i in range(PIECE))
        answer = logger.asked(data(5, told, text))
        if answer is None:
            return told
        told = max(told, answer.fields["length"])


def is_there(logger, told):
    """Whether all that was told is in the log, byte for byte."""
    at = 0
    while at < told:
        part = logger.asked(said(5, 5, KEY + at.to_bytes(4, "big")))
        if part is None or part.name != "Part" or part.fields["bytes"] != bytes((at + i) % 251 for i in range(len(part.fields["bytes"]))):
            return False
        at += len(part.fields["bytes"])
    return True


def boots(logger, first, count):
    """Tells a logger of so many servers, one after the other; whether it answered each."""
    return all(getattr(logger.asked(hello(boot)), "name", None) == "Summary" for boot in range(first, first + count))


def shorter():
    """A file that is replaced by a shorter one when it has 4,096 bytes, and what is at the new file's name. The log stays the same."""
    path, aside = room / "grown", room / "grown.new"
    compact = ["--compact", "4096"]
    logger = Logger(path, [*BEGIN, *compact])
    expect("boots", boots(logger, 1, 5), True)
    logger.asked(opening(5))
    expect("bytes", logger.asked(data(5, 0, bytes(range(200)))).fields["length"], 200)
    expect("a read", logger.asked(read(5, 0, 150)).name, "Reads")
    expect("more boots", boots(logger, 6, 200), True)
    expect("the file is short, and the new one is gone", (path.stat().st_size < 4096, aside.exists()), (True, False))
    expect("its mode", path.stat().st_mode & 0o777, 0o600)
    logger.end()
    left = (("a left file", lambda: aside.write_bytes(b"left")), ("a newer journal", lambda: aside.write_bytes(file_of(hello(9999)))), ("a link", lambda: aside.symlink_to("target")))
    for what, there in left:
        there()
        logger = Logger(path, compact)
        expect(f"{what} is removed at the start", (boots(logger, 300, 1), os.path.lexists(aside)), (True, False))
        logger.end()
    logger = Logger(path, compact)
    expect("boots again", boots(logger, 301, 1), True)
    aside.mkdir()
    expect("a folder in its place", (boots(logger, 302, 200), path.stat().st_size > 4096), (True, True))
    aside.rmdir()
    expect("and once it is gone", (boots(logger, 502, 200), path.stat().st_size < 4096), (True, True))
    part = logger.asked(said(5, 502 + 199, KEY + bytes(4)))
    expect("the bytes", part is not None and part.fields["bytes"], bytes(range(200)))
    second = subprocess.run([program, *words(["--journal", str(path)], 1)], capture_output=True, text=True, timeout=60)
    expect("the new file is locked", (second.returncode, second.stderr), (13, IN_USE))
    logger.end()
    said_in, tip, tail = reading(path.read_bytes(), PLAIN)
    expect("the file by the model", (tip[0], tail), (path.stat().st_size, b""))
    for value in ("4095", "1099511627777", "0", "-1", "x", ""):
        run = subprocess.run([program, *words(["--journal", str(path), "--compact", value], 1)], capture_output=True, text=True, timeout=60)
        expect(f"--compact {value}", run.returncode, 2)


def profiles():
    """A journal of the profile wan, which is replaced by a shorter one too: a plain logger refuses it, and a logger of the profile wan a plain one."""
    path = room / "wide"
    logger = Logger(path, [*BEGIN, *WAN, "--compact", "4096"])
    logger.link.send(hello(5))
    expect("a plain message has no answer", logger.asked(wide(hello(5))).name, "Summary")
    logger.asked(wide(opening(5)))
    logger.link.send(wide(data(5, 0, b"abc"), 2))
    expect("the last of two is answered", logger.asked(wide(data(5, 3, b"d"))).fields["length"], 4)
    before = path.read_bytes()
    expect("boots", all(getattr(logger.asked(wide(hello(boot))), "name", None) == "Summary" for boot in range(6, 106)), True)
    expect("the file is replaced", (path.stat().st_size < 4096, path.read_bytes()[:HEADER] != before[:HEADER]), (True, True))
    logger.end()
    content = path.read_bytes()
    for what, file, version in (("wide", content, PLAIN), ("wide", content, WIDE), ("wide, before", before, PLAIN), ("wide, before", before, WIDE), ("plain", file_of(hello(5)), WIDE), ("no messages", header(), WIDE), ("cut in the first block", before[:80], PLAIN)):
        content_case(f"{what}, by version {version}", file, version)
    logger = Logger(path, WAN)
    part = logger.asked(wide(said(5, 105, KEY + bytes(4))))
    expect("its bytes", part is not None and part.fields["bytes"], b"abcd")
    logger.end()


def full_disk():
    """A disk that gets full: the logger ends before it answers what it couldn't keep. On the full disk it opens its file again, and ends at the next change; with
    room it goes on."""
    disk = room / "disk"
    disk.mkdir()
    subprocess.run(["mount", "-t", "tmpfs", "-o", "size=64k", "tmpfs", disk], check=True)
    path = disk / "journal"
    logger = Logger(path, BEGIN)
    logger.asked(hello(5))
    logger.asked(opening(5))
    told = fill(logger, 0)
    expect("a disk that gets full", logger.end(), (11, FAULT))
    expect("what was told before it was", 40_000 < told < 65_536, True)
    logger = Logger(path)
    expect("the full disk again", logger.asked(hello(5)).name, "Summary")
    expect("what was told, on the full disk", is_there(logger, told), True)
    logger.end()
    logger = Logger(path)
    expect("no more is told", fill(logger, told), told)
    expect("the full disk at the next change", logger.end(), (11, FAULT))
    subprocess.run(["mount", "-o", "remount,size=256k", disk], check=True)
    logger = Logger(path)
    expect("what was told, with room", is_there(logger, told), True)
    more = logger.asked(data(5, told, b"")).fields["length"]
    expect("more with room", logger.asked(data(5, more, bytes(9))).fields["length"], more + 9)
    logger.end()
    expect("at the end", ended(path), (0, DONE))
    subprocess.run(["umount", disk], check=True)


def full_while_replaced():
    """A disk without room for a second file beside the first: the old file stays, and the logger goes on."""
    disk = room / "narrow"
    disk.mkdir()
    subprocess.run(["mount", "-t", "tmpfs", "-o", "size=64k", "tmpfs", disk], check=True)
    path = disk / "journal"
    logger = Logger(path, [*BEGIN, "--compact", "4096"])
    logger.asked(hello(5))
    logger.asked(opening(5))
    told = 0
    for _ in range(33):
        answer = logger.asked(data(5, told, bytes((told + i) % 251 for i in range(PIECE))))
        told = answer.fields["length"] if answer else told
    expect("what is told while no second file fits", told, 33 * PIECE)
    expect("no part of one is left", sorted(os.listdir(disk)), ["journal"])
    expect("what was told is there", is_there(logger, told), True)
    logger.end()
    expect("at the end", ended(path), (0, DONE))
    subprocess.run(["umount", disk], check=True)


def full_at_first():
    """A disk that is full before the first start: nothing was ever told, and with room a file is made once what is left of the first is removed."""
    disk = room / "first"
    disk.mkdir()
    subprocess.run(["mount", "-t", "tmpfs", "-o", "size=8k", "tmpfs", disk], check=True)
    (disk / "ballast").write_bytes(bytes(8192))
    path = disk / "journal"
    expect("full at the first start", ended(path, more=BEGIN), (11, FAULT))
    (disk / "ballast").unlink()
    expect("with room", (ended(path), path.read_bytes()), wanted_of(path.read_bytes()))
    path.unlink()
    expect("made with room", (ended(path, more=BEGIN), len(path.read_bytes())), ((0, DONE), HEADER))
    subprocess.run(["umount", disk], check=True)


for part in (wrong_words, no_files, begins, names, two_loggers, shorter, profiles, full_disk, full_while_replaced, full_at_first, moved, contents):
    begun, cases = time.monotonic(), counts["cases"]
    part()
    print(f"{part.__name__}: {counts['cases'] - cases} checks, {time.monotonic() - begun:.1f} s")
shutil.rmtree(room)
print(f"{counts['cases']} checks, {counts['failed']} failed")
sys.exit(counts["failed"] != 0)
