#!/usr/bin/env python3
"""Processor minutes of the merge gate, by crate: proof, tests, and edits that must be refused.

    tools/gate_times.py run [--save FILE] [--anew] [NAME..]   starts `rt ci NAME..` here, and watches it
    tools/gate_times.py watch PID [--save FILE]               watches an `rt ci` that is already running
    tools/gate_times.py table FILE                            prints the table of what was saved
    tools/gate_times.py page [--check]                        prints docs/GATE.md from tools/gate_times.tsv, or says whether it is up to date
    tools/gate_times.py log FILE                              prints what the log of a run says, which has no times

The log of `rt ci` has no times, so they are read from /proc while it runs (only on Linux), twice a second: for each process of the prover,
user and system time, and that of the children for which it waited. Time after the last reading is lost, at most half a second for each process.
What an earlier run on this machine passed is not proved again: for the times of a whole run give `--anew`.

A crate's row has its proof (with the building of its library or program), the proof and building of its tests, and its edits. `chain` is the
proof of the crate and of the longest chain of crates below it: a run takes at least as long, however many processors it has. `below` is the
proof of the crate and of all crates below it, as a first check of it takes; `above` how many crates depend on it, directly or not; `again` what
it and they take, which is done again after a change of it.

tools/gate_times.tsv is what a run saved, below lines that begin with `#`, which say of what run it is; the page has them.
"""
import argparse
import collections
import contextlib
import io
import os
import re
import subprocess
import sys
import textwrap
import time

TICKS = os.sysconf("SC_CLK_TCK")
KINDS = ("proof", "tests", "edits")
TOP = os.path.dirname(os.path.dirname(os.path.abspath(__file__)))
KEPT, PAGE = "tools/gate_times.tsv", "docs/GATE.md"
HEAD = """# What each crate of the gate takes

{made}

*Proof* includes the building of the library or program. *Chain* is the proof of the crate and of the longest chain of crates below it, *below* that of the crate
and of all below it, as a first check of it takes. *Above* is how many crates depend on it, directly or not; after a change of it, it and they are proved again,
which takes *again*.
[ARCHITECTURE.md](ARCHITECTURE.md#what-the-gate-costs) says how this is measured.
"""
MADE = f"`tools/gate_times.py page` prints this page from `{KEPT}`, in processor minutes."
# A run of the prover: which crate, what for, how many processor seconds, when it was first and last seen (seconds of the clock), and the most
# memory that it held (MB).
Run = collections.namedtuple("Run", "crate kind seconds first last memory")


def processes():
    """Every process there is: its parent, its processor seconds with those of children it waited for, and when it began."""
    found = {}
    for name in os.listdir("/proc"):
        if not name.isdigit():
            continue
        try:
            with open(f"/proc/{name}/stat", encoding="utf-8", errors="replace") as file:
                fields = file.read().rpartition(")")[2].split()
        except OSError:
            continue
        found[int(name)] = (int(fields[1]), sum(map(int, fields[11:15])) / TICKS, int(fields[19]))
    return found


def below(found, root):
    """The processes that stand anywhere below the root."""
    children = collections.defaultdict(list)
    for pid, (parent, _, _) in found.items():
        children[parent].append(pid)
    left, reached = [root], []
    while left:
        new = children[left.pop()]
        reached += new
        left += new
    return reached


def purpose(pid):
    """The crate and the purpose of a process of the prover, or None of another process."""
    try:
        with open(f"/proc/{pid}/cmdline", "rb") as file:
            words = file.read().decode(errors="replace").split("\0")
        folder = os.readlink(f"/proc/{pid}/cwd")
    except OSError:
        return None
    if os.path.basename(words[0]) != "rattle" or "--crate-name" not in words:
        return None
    crate = words[words.index("--crate-name") + 1]
    if os.path.basename(folder).startswith("rt-edit-"):
        return crate, "edits"
    return crate, "tests" if "--test" in words else "proof"


def most_memory(pid):
    """The most memory that a process has held so far, in MB."""
    try:
        with open(f"/proc/{pid}/status", encoding="utf-8", errors="replace") as file:
            return max((int(line.split()[1]) // 1024 for line in file if line.startswith("VmHWM")), default=0)
    except OSError:
        return 0


def look(root, runs):
    """Notes the times of all of the run's provers, as they stand now."""
    found, now = processes(), time.time()
    for pid in below(found, root):
        parent, seconds, began = found[pid]
        name = (pid, began)
        known = runs.get(name)
        what = (known.crate, known.kind) if known else purpose(pid)
        if what and (parent, found.get(parent, (0, 0, 0))[2]) not in runs:
            memory = max(most_memory(pid), known.memory if known else 0)
            runs[name] = Run(*what, seconds, known.first if known else now, now, memory)


def is_running(pid):
    try:
        with open(f"/proc/{pid}/stat", encoding="utf-8", errors="replace") as file:
            return file.read().rpartition(")")[2].split()[0] not in "ZX"
    except OSError:
        return False


def watch(root, save, ended):
    runs, saved = {}, 0.0
    while not ended():
        look(root, runs)
        if save and time.time() - saved > 10:
            write(runs.values(), save)
            saved = time.time()
        time.sleep(0.5)
    if save:
        write(runs.values(), save)
    return list(runs.values())


def write(runs, path):
    with open(path + ".new", "w", encoding="utf-8") as file:
        for run in runs:
            file.write(f"{run.crate}\t{run.kind}\t{run.seconds:.2f}\t{run.first:.1f}\t{run.last:.1f}\t{run.memory}\n")
    os.replace(path + ".new", path)


def read(path):
    with open(path, encoding="utf-8") as file:
        rows = [line.rstrip("\n").split("\t") for line in file if not line.startswith("#")]
    return [Run(row[0], row[1], float(row[2]), float(row[3]), float(row[4]), int(row[5])) for row in rows]


def crates_below():
    """Each crate of crates.txt with the crates of the repository that it names."""
    below_of = {}
    with open(f"{TOP}/crates.txt", encoding="utf-8") as file:
        for line in file:
            head, colon, rest = line.partition("#")[0].partition(":")
            if colon:
                below_of[head.split()[0]] = rest.split()
    return {crate: [name for name in names if name in below_of] for crate, names in below_of.items()}


def chains(proof, below_of):
    """For each crate, the proof seconds of the longest way from it downward, and that way."""
    longest = {}

    def chain(crate):
        if crate not in longest:
            under = max((chain(name) for name in below_of.get(crate, [])), default=(0.0, []))
            longest[crate] = (under[0] + proof.get(crate, 0.0), under[1] + [crate])
        return longest[crate]

    return {crate: chain(crate) for crate in below_of}


def crates_above(below_of):
    """For each crate the crates that depend on it, directly or not."""
    above = collections.defaultdict(set)

    def visit(crate, lower):
        for name in below_of.get(lower, []):
            if crate not in above[name]:
                above[name].add(crate)
                visit(crate, name)

    for crate in below_of:
        visit(crate, crate)
    return above


def print_table(runs):
    spent = collections.defaultdict(float)
    for run in runs:
        spent[run.crate, run.kind] += run.seconds
    crates = {run.crate for run in runs}
    ways, above = chains({crate: spent[crate, "proof"] for crate in crates}, crates_below()), crates_above(crates_below())
    first = {crate: sum(spent[name, "proof"] for name in crates if name == crate or crate in above[name]) for crate in crates}
    kinds = [kind for kind in KINDS if any(spent[crate, kind] for crate in crates)]
    print(f"| crate | {' | '.join(kinds)} | all | chain | below | above | again |")
    print(f"|---|{'---|' * len(kinds)}---|---|---|---|---|")
    for crate in sorted(crates, key=lambda name: (-sum(spent[name, kind] for kind in kinds), name)):
        parts = [spent[crate, kind] for kind in kinds]
        figures = [f"{part / 60:.1f}" if part else "" for part in parts] + [f"{sum(parts) / 60:.1f}"]
        again = sum(spent[name, kind] for name in {crate, *above[crate]} for kind in kinds)
        print(f"| `{crate}` | {' | '.join(figures)} | {ways.get(crate, (0, 0))[0] / 60:.1f} | {first[crate] / 60:.1f} | {len(above[crate])} | {again / 60:.1f} |")
    sums = [sum(spent[crate, kind] for crate in crates) for kind in kinds]
    print(f"| all | {' | '.join(f'{part / 60:.1f}' for part in sums)} | {sum(sums) / 60:.1f} | | | | |")
    if ways:
        seconds, way = max(ways.values())
        print("\n" + textwrap.fill(f"The longest chain of proofs is {seconds / 60:.1f} processor minutes: {', '.join(way)}.", 160))
    if runs:
        minutes = (max(run.last for run in runs) - min(run.first for run in runs)) / 60
        largest = max(runs, key=lambda run: run.memory)
        held = f" The most memory that one process held: {largest.memory} MB ({largest.crate}, {largest.kind})." if largest.memory else ""
        print(f"By the clock {minutes:.0f} minutes.{held}")


def page():
    """The text of docs/GATE.md."""
    with open(f"{TOP}/{KEPT}", encoding="utf-8") as file:
        notes = [line[1:].strip() for line in file if line.startswith("#")]
    runs, out = read(f"{TOP}/{KEPT}"), io.StringIO()
    with contextlib.redirect_stdout(out):
        print(HEAD.format(made=textwrap.fill(" ".join([MADE, *notes]), 160)))
        print_table(runs)
        if unseen := sorted(set(crates_below()) - {run.crate for run in runs}):
            print("\n" + textwrap.fill(f"Not measured: {', '.join(f'`{crate}`' for crate in unseen)}.", 160))
    return out.getvalue()


def print_page(is_check):
    """Prints the page, or says whether it is up to date; the status."""
    text = page()
    if not is_check:
        sys.stdout.write(text)
        return 0
    with open(f"{TOP}/{PAGE}", encoding="utf-8") as file:
        is_same = file.read() == text
    print("up to date" if is_same else f"{PAGE} isn't what tools/gate_times.py page prints")
    return 0 if is_same else 1


def print_log(path):
    """What the log of a run tells of each crate: how many functions were proved, and how many edits refused."""
    functions, edits, proved = collections.Counter(), collections.Counter(), []
    with open(path, encoding="utf-8", errors="replace") as file:
        for line in file:
            if match := re.match(r"fn (\w+)::.*: proved", line):
                functions[match[1]] += 1
            elif match := re.match(r"(?:rt: )?must-fail (\w+)/\S+: (?:refused|REFUSED)", line):
                edits[match[1]] += 1
            elif match := re.match(r"rt: (\w+) proved", line):
                proved.append(match[1])
    print("| crate | functions proved, its tests among them | edits refused |")
    print("|---|---|---|")
    for crate in proved:
        print(f"| `{crate}` | {functions[crate]} | {edits[crate] or ''} |")


def main():
    parser = argparse.ArgumentParser(description=__doc__, formatter_class=argparse.RawDescriptionHelpFormatter)
    verbs = parser.add_subparsers(dest="verb", required=True)
    run = verbs.add_parser("run", help="starts `rt ci` and watches it")
    run.add_argument("--save", metavar="FILE", help="where to keep the measurements")
    run.add_argument("--anew", action="store_true", help="proves what an earlier run has passed, too")
    run.add_argument("names", nargs="*", metavar="NAME", help="crates; without one, all")
    by_pid = verbs.add_parser("watch", help="watches an `rt ci` that is already running")
    by_pid.add_argument("pid", type=int)
    by_pid.add_argument("--save", metavar="FILE", help="where to keep the measurements")
    for verb in ("table", "log"):
        verbs.add_parser(verb).add_argument("file")
    verbs.add_parser("page").add_argument("--check", action="store_true")
    words = parser.parse_args()
    if words.verb == "run":
        gate = subprocess.Popen(["rt", "ci", *(["--anew"] if words.anew else []), *words.names])
        print_table(watch(gate.pid, words.save, lambda: gate.poll() is not None))
        sys.exit(gate.returncode)
    elif words.verb == "watch":
        print_table(watch(words.pid, words.save, lambda: not is_running(words.pid)))
    elif words.verb == "table":
        print_table(read(words.file))
    elif words.verb == "page":
        sys.exit(print_page(words.check))
    else:
        print_log(words.file)


if __name__ == "__main__":
    main()
