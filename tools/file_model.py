#!/usr/bin/env python3
"""A disk over an open file that shortens writes and fails calls, in plain Python, written from the rules and not from the program.

file_model.py        writes the lines `short FAILS;HALVES` of `io_script`, and what it must print for each, in turn
"""


class Failed(Exception):
    pass


class File:
    """Its writes, changes of length and syncs are numbered together, and its writes also by themselves."""

    def __init__(self, content, fails, halves):
        self.content, self.synced, self.fails, self.halves, self.changes, self.writes = content, b"", fails, halves, 0, 0

    def change(self):
        self.changes += 1
        if self.changes in self.fails:
            raise Failed

    def write(self, data, at):
        self.writes += 1
        self.change()
        data = data[: len(data) // 2] if self.writes in self.halves else data
        self.content = self.content[:at] + data + self.content[at + len(data) :]
        return len(data)

    def cut(self, length):
        self.change()
        self.content = self.content[:length]

    def sync(self):
        self.change()
        self.synced = self.content


class Disk:
    """All of a call is done, or it failed. Where a write failed, the next append begins where that one began."""

    def __init__(self, file):
        file.sync()
        self.file, self.count, self.faults = file, len(file.content), 0

    def whole(self, data, at):
        while data:
            done = self.file.write(data, at)
            if done == 0:
                raise Failed
            data, at = data[done:], at + done

    def append(self, data):
        self.whole(data, self.count)
        self.count += len(data)

    def put(self, at, byte):
        at = min(at, self.count)
        self.whole(byte, at)
        self.count = max(self.count, at + 1)

    def cut(self, at):
        self.count = min(at, self.count)
        self.file.cut(self.count)

    def told(self, call, *what):
        try:
            call(*what)
            return "done"
        except Failed:
            self.faults += 1
            return "failed"


def short(fails, halves):
    file = File(b"abc", fails, halves)
    try:
        disk = Disk(file)
    except Failed:
        return "no disk"
    calls = [(disk.append, b"XYZ"), (file.sync,), (disk.put, 1, b"!"), (disk.put, 99, b"?"), (disk.cut, 5), (disk.cut, 99), (disk.append, b"UVWXYZ"), (file.sync,)]
    said = [disk.told(*call) for call in calls]
    return " ".join(said + [str(disk.faults), file.content.decode(), file.synced.decode() or "-"])


def lines():
    lists = [((), ()), ((), (1,)), ((), (1, 2)), ((), (1, 2, 3)), ((), (2,)), ((), (4, 5, 6))] + [((n,), ()) for n in range(1, 10)] + [((3,), (1,)), ((9,), (4,)), ((2, 3), ())]
    comment = "# a disk over a file in memory, some of whose calls fail and some of whose writes are short: each call, faults; the content, and that at the last sync"
    yield comment, comment
    for fails, halves in lists:
        numbers = [" ".join(map(str, some)) for some in (fails, halves)]
        yield f"short {numbers[0]};{numbers[1]}", short(fails, halves)


if __name__ == "__main__":
    for script, printed in lines():
        print(script, printed, sep="\n")
