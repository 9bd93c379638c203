#!/usr/bin/env python3
"""Tries the wrong bodies of crates, each of which must be refused: `must-fail/*.edit`, which the gate tries too, and `wrong-bodies/*.edit`, which it doesn't.

    tools/wrong_bodies.py CRATE..      in the repository's root; without names, of all crates
    tools/wrong_bodies.py --list       prints how many there are, by crate: those that the gate tries, and the others
    tools/wrong_bodies.py --table      prints docs/EXCLUDED.md: what each wrong body does and what refuses it, and what stands for it in the gate
    tools/wrong_bodies.py --check      says whether that page is up to date

The crates' files at HEAD are checked out in a temporary folder, where all wrong bodies are edits that `rt must-fail` tries. The status is that of `rt must-fail`:
0 if all are refused. Each takes 15 to 80 processor seconds, after the crate and those below it are built.

The table has the first line of each edit. In it, a function of the module `excluded` stands for the wrong body of its name, and `tools/excluded.tsv` says of each which clause or law it stands on and
whether it was seen to fail once that was taken out. The status is 1 if the two don't agree, or the page isn't up to date. The end of the page lists bodies that
were planted by hand, from `tools/planted.tsv`.
"""
import argparse
import csv
import pathlib
import re
import subprocess
import sys
import tempfile

TRIED = "must-fail"
UNTRIED = "wrong-bodies"
RECORDS = "tools/excluded.tsv"
PLANTED = "tools/planted.tsv"
PAGE = "docs/EXCLUDED.md"

HEAD = """# What stands for each wrong body

`tools/wrong_bodies.py --table` writes this page. [EDITS.md](EDITS.md) says what a wrong body is. Each is an edit, in `crates/CRATE/must-fail` or
`crates/CRATE/wrong-bodies`, and `tools/wrong_bodies.py CRATE` tries all edits of a crate. The edit's first line says what refuses it, and what is wrong. In the
gate one of these stands for it:

- *the edit itself*, which the gate tries;
- *a function* of the module `excluded` with the edit's name. It calls the function whose body the edit changes, and promises what the wrong body makes false; so it
  isn't proved once the clause in the last column is gone;
- *a law*, a function without a body, which is proved of the definitions alone;
- *nothing*: the tool alone tries it. The clause that its first line names is proved, as all are, and what it says is compared with nothing.

Of each function it was seen that it isn't proved once its clause is taken out or weakened, unless the last column says otherwise. The gate refused each edit that a
function stands for on 30 November 2026, when it still tried them; those of `schedule_text` and `plain_world`, `takes_every_word_for_a_run` and
`a_stray_packet_counts` it had refused earlier. Those of December 2026 it never tried: of marks,
of openings that are pending, of another client's segments, of turns and journals of `node_process` and `link_parts`, and of acknowledgements of what was never sent.
"""

# What the file of bodies planted by hand leaves out.
THE_CONTRACT, EARLIER = "the contract of the function that is changed", "before December 2026"
BY_HAND = """
## Planted by hand

These bodies have no edit. They were put in once, on the day named. A clause that is named wasn't proved of its function any more ("the contract", "that function":
of the function that was changed). Where none is named, the program was built without proof, and the lines named differed from the stored ones.

| wrong body | refused by | day |
|---|---|---|"""


def edits_of(top, folder):
    """The names of the edits in this folder of each crate."""
    found = {}
    for path in sorted(top.glob(f"crates/*/{folder}/*.edit")):
        found.setdefault(path.parts[-3], []).append(path.stem)
    return found


def excluded_functions(top):
    """The functions of each crate's module `excluded`, each with whether it has a body."""
    found = {}
    for path in sorted(top.glob("crates/*/src/excluded.rt")):
        text = path.read_text()
        for match in re.finditer(r"^(?:pub )?fn (\w+)(?:.|\n)*?^(\{\}|\{)$", text, re.M):
            found[path.parts[-3], match[1]] = match[2] == "{"
    return found


def records_of(top):
    """What `tools/excluded.tsv` says: crate and edit, the law that stands for it or nothing, the clause, and what was seen."""
    with open(top / RECORDS, newline="", encoding="utf-8") as file:
        return {(row["crate"], row["edit"]): row for row in csv.DictReader(file, delimiter="\t", quoting=csv.QUOTE_NONE)}


def planted(top):
    """The lines about bodies that were planted by hand, as `tools/planted.tsv` says; none without that file."""
    path = top / PLANTED
    if not path.is_file():
        return []
    with open(path, newline="", encoding="utf-8") as file:
        rows = csv.DictReader(file, delimiter="\t", quoting=csv.QUOTE_NONE)
        return [BY_HAND, *(f"| {row['body']} | {row['refused'] or THE_CONTRACT} | {row['day'] or EARLIER} |" for row in rows)]


def first_line(top, crate, edit):
    """What the first line of an edit says."""
    path = next(top.glob(f"crates/{crate}/*/{edit}.edit"))
    return path.read_text(encoding="utf-8").partition("\n")[0].removeprefix("# ")


def stand_in(key, tried, functions, records):
    """What stands for a wrong body in the gate, in words."""
    if tried:
        return "the edit itself"
    if key in functions:
        return f"the function `{key[1]}`" if functions[key] else f"the law `{key[1]}`"
    if key in records:
        return f"the law `{records[key]['law']}`"
    return "nothing"


def page(top):
    """The text of the page, and the status: 1 if a function has no edit, or no record, or a record nothing that it speaks of."""
    tried, untried = edits_of(top, TRIED), edits_of(top, UNTRIED)
    functions, records = excluded_functions(top), records_of(top)
    keys = [(crate, edit) for crate in sorted({*tried, *untried}) for edit in sorted([*tried.get(crate, []), *untried.get(crate, [])])]
    out = [HEAD, "| crate | wrong body | what refuses it, and what is wrong | in the gate stands for it | which rests on |", "|---|---|---|---|---|"]
    count = {}
    for crate, edit in keys:
        words = stand_in((crate, edit), edit in tried.get(crate, []), functions, records)
        kind = words.split(" `")[0]
        count[kind] = count.get(kind, 0) + 1
        record = records.get((crate, edit))
        rests = "" if record is None else record["clause"] + ("" if record["seen"] == "yes" else f" ({record['seen']})")
        out.append(f"| `{crate}` | `{edit}` | {first_line(top, crate, edit)} | {words} | {rests} |")
    out.append(f"\n{len(keys)} in all: " + ", ".join(f"{n} {kind}" for kind, n in sorted(count.items())) + ".")
    out += planted(top)
    wrong = [key for key in functions if key not in keys or key not in records]
    wrong += [key for key, row in records.items() if key not in keys or not (row["law"] or key in functions)]
    for key in sorted(set(wrong)):
        print(f"{RECORDS} and the crates don't agree on {key[0]}/{key[1]}", file=sys.stderr)
    return "\n".join(out) + "\n", 1 if wrong else 0


def table(top):
    """Prints the page."""
    text, status = page(top)
    sys.stdout.write(text)
    return status


def check(top):
    """Says whether the page is up to date."""
    text, status = page(top)
    kept = top / PAGE
    if kept.is_file() and kept.read_text(encoding="utf-8") == text:
        print("up to date")
        return status
    print(f"{PAGE} isn't what tools/wrong_bodies.py --table prints")
    return 1


def put_in_place(top):
    """Gives all wrong bodies the place of edits that are tried."""
    for path in top.glob(f"crates/*/{UNTRIED}/*.edit"):
        folder = path.parent.with_name(TRIED)
        folder.mkdir(exist_ok=True)
        path.rename(folder / path.name)


def try_all(names):
    """Tries the wrong bodies of these crates, in a checkout of HEAD of their own."""
    with tempfile.TemporaryDirectory(prefix="wrong-bodies-") as room:
        top = pathlib.Path(room) / "checkout"
        subprocess.run(["git", "worktree", "add", "--quiet", "--detach", top], check=True)
        try:
            put_in_place(top)
            return subprocess.run(["rt", "must-fail", *names], cwd=top, check=False).returncode
        finally:
            subprocess.run(["git", "worktree", "remove", "--force", top], check=True)


def main():
    parser = argparse.ArgumentParser(description=__doc__, formatter_class=argparse.RawDescriptionHelpFormatter)
    parser.add_argument("crates", nargs="*", metavar="CRATE")
    parser.add_argument("--list", action="store_true")
    parser.add_argument("--table", action="store_true")
    parser.add_argument("--check", action="store_true")
    words = parser.parse_args()
    top = pathlib.Path.cwd()
    tried, untried = edits_of(top, TRIED), edits_of(top, UNTRIED)
    names = sorted({*tried, *untried})
    lacking = [name for name in words.crates if name not in names]
    if lacking:
        parser.error(f"no wrong bodies in {lacking[0]}")
    if words.table or words.check:
        return table(top) if words.table else check(top)
    if words.list:
        for name in names:
            print(f"{len(tried.get(name, [])):3} {len(untried.get(name, [])):3} {name}")
        print(f"{sum(map(len, tried.values())):3} {sum(map(len, untried.values())):3} in all")
        return 0
    return try_all(words.crates or names)


if __name__ == "__main__":
    sys.exit(main())
