#!/usr/bin/env python3
"""Finds lemmas in `proofs/` that state the same, in one crate or in several, even under different names and with different names of variables.

    tools/lemma_twins.py [--crate NAME]

Each group is a signature and the places of the lemmas that have it, the lowest crate first: keep that one, and import it in the others. Laws about Booleans,
numbers, lists, options or results that std doesn't have are in `ft_io/proofs` (`Booleans`, `Numbers`, `Lists`, `Choices`, `Outcomes`). Answers are left out.

Two signatures are the same if their words are: a word is read as the module that defines it and its name, by the imports of its file, so two definitions of one
name are two words. Words of the kit's crates count by their names alone.
"""
import argparse
import collections
import functools
import pathlib
import re

TOP = pathlib.Path(__file__).resolve().parent.parent
NAME = r"[\w'-]+"
HEAD = re.compile(rf"^(?:pub )?({NAME}) : ")
DEFINED = re.compile(rf"^ *(?:(?:pub|unfoldable|abbrev|open|data|record) )*({NAME}|[^\s(){{}}]*◌[^\s(){{}}]*)(?: :|$| [({{:])")
BINDER = re.compile(r"[({]([\w' -]+) : |λ ([\w' -]+)\. ")
IMPORT = re.compile(r"^(pub )?use Rattle\.([\w.]+?)(?:\.\{(.*)\}| as ([\w'-]+))$")
TOKEN = re.compile(rf"\$?{NAME}(?:\.{NAME})*|[^\s\w(){{}}]+|[(){{}}]")


def order_of_crates():
    """The crates, each behind those that it stands on."""
    below = {}
    for line in (TOP / "crates.txt").read_text().splitlines():
        head, colon, rest = line.partition("#")[0].partition(":")
        if colon:
            below[head.split()[0]] = rest.split()
    order = []

    def visit(crate):
        if crate in below and crate not in order:
            for name in below[crate]:
                visit(name)
            order.append(crate)

    for crate in below:
        visit(crate)
    return {crate: place for place, crate in enumerate(order)}


class Module:
    """The words of a module: those that its file defines, and those that it imports, each with where it comes from."""

    def __init__(self, path, text):
        self.path = path
        self.imported, self.handed_on, self.defined = {}, {}, set()
        for line in text.splitlines():
            use = IMPORT.match(line)
            if use:
                public, module, names, alias = use.groups()
                if alias:
                    self.imported[alias] = (module, None)
                for entry in (names or "").split(", "):
                    name, _, other = entry.strip().partition(" as ")
                    if name:
                        self.imported[other or name] = (module, name)
                        if public:
                            self.handed_on[other or name] = (module, name)
            else:
                defined = DEFINED.match(line)
                if defined:
                    self.defined.add(defined.group(1))
        # An operator's signs, as `≡` of `◌≡◌`, each stand for its name.
        self.signs = {sign: name for name in [*self.imported, *self.defined] for sign in name.split("◌") if "◌" in name and sign}

    def meaning(self, word):
        """The word with the module that defines it, unless it is a word of the language."""
        first, dot, rest = word.partition(".")
        first = self.signs.get(first, first)
        if first in self.imported:
            module, name = self.imported[first]
            return origin(module, name) + dot + rest
        return f"{self.path}.{first}{dot}{rest}" if first in self.defined else word


@functools.cache
def module_in(file, path):
    return Module(path, file.read_text()) if file.exists() else None


def module_at(path):
    return module_in(TOP / "crates" / (path.replace(".", "/") + ".antt"), path)


def origin(module, name):
    """The module that defines what another one imports from `module`, and the name."""
    if not (TOP / "crates" / module.partition(".")[0]).exists():
        return f"kit.{name}"
    known = module_at(module)
    if known and name in known.handed_on:
        return origin(*known.handed_on[name])
    return f"{module}.{name}" if name else module


def signatures(module, text):
    """The lemmas of a file, each with its signature as it is written and with what it says: its variables are numbered, and its words have their meaning."""
    lines = text.splitlines()
    for i, line in enumerate(lines):
        head = HEAD.match(line)
        if not head:
            continue
        signature = line[head.end():]
        for more in lines[i + 1:]:
            if not more.startswith(" "):
                break
            signature += " " + more.strip()
        binders = [name for binder in BINDER.finditer(signature) for name in (binder.group(1) or binder.group(2)).split()]
        for number, name in enumerate(dict.fromkeys(binders)):
            signature = re.sub(rf"(?<![\w.'])({re.escape(name)})(?![\w'])", f"${number}", signature)
        says = " ".join(word if word.startswith("$") else module.meaning(word) for word in TOKEN.findall(signature))
        if binders or "≡" in signature:  # else it is the type of a function, as `List ℕ → ℕ`
            yield head.group(1), signature, says


def main():
    options = argparse.ArgumentParser(description=__doc__, formatter_class=argparse.RawDescriptionHelpFormatter)
    options.add_argument("--crate", help="only the groups that stand in this crate, too")
    wanted = options.parse_args().crate
    place = order_of_crates()
    groups = collections.defaultdict(list)
    for file in sorted(TOP.glob("crates/*/proofs/*.antt")):
        crate = file.relative_to(TOP).parts[1]
        if crate in place:
            module = module_at(f"{crate}.proofs.{file.stem}")
            for name, signature, says in signatures(module, file.read_text()):
                groups[says].append((place[crate], crate, file.stem, name, signature))
    found = [sorted(places) for places in groups.values() if len(places) > 1]
    for places in sorted(found, key=lambda places: -len(places)):
        if wanted is None or wanted in {crate for _, crate, _, _, _ in places}:
            print(places[0][-1])
            for _, crate, file, name, _ in places:
                print(f"    {crate}/proofs/{file}: {name}")
    print(f"{len(found)} signatures stand more than once")


if __name__ == "__main__":
    main()
