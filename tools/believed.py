#!/usr/bin/env python3
"""Follows names from contracts, and lists the definitions that a reader of them has to believe.

    tools/believed.py replay_tool::replay       of one public function
    tools/believed.py tcp_endpoint::Endpoint::new  .. of a method
    tools/believed.py mark_laws                 of all public functions of a crate
    tools/believed.py --all                     of each library, one line a crate
    tools/believed.py --names ..                with the names of the definitions
    tools/believed.py --why PLACE ..            how they lead to a file, as ft_model/specs/World, or to its definition ft_model/specs/World:Joint
    tools/believed.py --table                   prints docs/BELIEVED.md
    tools/believed.py --check                   says whether that page and the table of docs/ARCHITECTURE.md are up to date

From the clauses and the types of a function's signature it follows each name to its definition, and from there each name in that one, until nothing new is
found. A type stands for its declaration, for the definitions of its `impl Model`, and for those by which it implements a trait that is found too; a
trait stands for its ghost members. What a trait promises as a law needs no belief, and isn't followed.

For each file it prints how many definitions of it were found, their lines with the comments directly above them, and the lines of the whole file, both without
blank lines and imports. Names of the kit are listed by module. It ends with status 1 if a name leads into a `proofs/` of this repository: what must
be believed stands in `specs/` and `src/`. It reads the text only, and takes a name to be used where the word occurs, so a list may be too long.
"""
import argparse
import collections
import functools
import pathlib
import re
import signal
import sys

# The calls of which docs/BELIEVED.md has a column, with the column's head.
CALLS = [
    ("replay_tool::replay", "`replay`"),
    ("ft_model::every_joint_trace_is_masked", "the headline"),
    ("trace_check::check_trace", "`check_trace`"),
    ("node_link::node", "`node`"),
    ("node_process::run", "`run`"),
]

INTRODUCTION = """# What the contracts lead to

`tools/believed.py --table` writes this page. The tool follows names: from the clauses and the types of a function's signature to their definitions, and from
each definition on to what it names. This is what a reader of the contract has to believe. None of it is in a folder `proofs`: the tool fails where a contract of
a public function leads there. [ARCHITECTURE.md](ARCHITECTURE.md#what-has-to-be-believed) says what these files are about, in reading order.

A name counts where its word occurs, so the lists may be too long: a variable that has the name of a definition leads to that definition."""

OF_CALLS = """For each file of `specs/` its lines, without blank lines and imports. For each call the lines of the definitions to which it leads, with the comments directly
above them; in a file of `src/` these are types with what they stand for (`impl Model`), traits' ghost members, and constants."""

OF_LIBRARIES = """All public functions of a library together, its laws included. The last columns say which files of its `specs/` only contracts beyond the calls above lead to
(its own or another crate's), and to which no public contract leads: those are for proofs, and for functions inside a crate."""

TOP = pathlib.Path(__file__).resolve().parent.parent
CRATES = TOP / "crates"
WORD = re.compile(r"[^\s(){}\[\],;:.&*@\"?!|λ]+(?:\.[^\s(){}\[\],;:.&*@\"?!|λ]+)*|\|\|?|&&|\*")
HEAD = re.compile(r"^((?:(?:abbrev|unfoldable|opaque|pub|record|data|ruleset|syntax|infix[lr]?|mutual) )*)(\S+)(?= |$)")
KEYWORDS = {"abbrev", "unfoldable", "opaque", "record", "data", "ruleset", "syntax", "infix", "infixl", "infixr"}
RUST_ITEM = re.compile(r"^(?:pub(?:\([\w ]+\))? )?(struct|enum|trait|type|const|static|union) (\w+)")
FUNCTION = re.compile(r"^( *)(pub(?:\([\w ]+\))? )?(?:unsafe )?fn (\w+)")


class Place(collections.namedtuple("Place", "crate file name")):
    """A definition: of a file of `specs` or `proofs` (the file's path below the crate), or an item of a file of `src`."""


def joined(lines):
    return "\n".join(lines)


def without_comment(line):
    """A line of antt or of Rattle without its comment."""
    return re.sub(r"(^|\s)(--|//).*$", "", line)


def words(lines):
    """The words of a text, each also cut at its dots."""
    found = []
    for line in lines:
        found += [w for w in WORD.findall(without_comment(line))]
    return found


def named(text):
    """The names between braces: what is imported, and under which name."""
    for part in text.split(","):
        name, _, other = part.strip().partition(" as ")
        if name:
            yield name.strip(), (other or name).strip()


@functools.lru_cache(None)
def lines_of(crate, file):
    return (CRATES / crate / file).read_text().splitlines()


def crates():
    names = [line.partition("#")[0].partition(":")[0].split() for line in (TOP / "crates.txt").read_text().splitlines()]
    return [n[0] for n in names if n]


@functools.lru_cache(None)
def file_below(crate, folder, parts, ending):
    """The file of a module's path, and what follows it in the path."""
    for length in range(len(parts), 0, -1):
        file = "/".join((folder,) + parts[:length]) + ending
        if (CRATES / crate / file).is_file():
            return file, parts[length:]
    if folder == "src" and (CRATES / crate / "src/lib.rt").is_file():
        return "src/lib.rt", parts
    return None, parts


def target(path, name):
    """Where an antt path with a name leads: a place, or a module and a word of the kit, or nothing for what has no text."""
    parts = tuple(path.split("."))
    if parts[0] == "Rattle":
        parts = parts[1:]
    crate, parts = parts[0], parts[1:]
    if not (CRATES / crate / "src").is_dir():
        return ("kit", crate + "." + ".".join(parts), name)
    if parts[0] in ("specs", "proofs") and parts[1:2] == ("declared",):
        file, rest = file_below(crate, "src", parts[2:], ".rt")
        inner = [p for p in rest if p not in ("TheVariants", "TheConstants")]
        return Place(crate, file, inner[0] if inner else name) if file else None
    if parts[0] == "specs" and parts[1:2] == ("contracts",):
        return None
    if parts[0] in ("specs", "proofs"):
        file, rest = file_below(crate, parts[0], parts[1:], ".antt")
        if file:
            return Place(crate, file, rest[0] if rest else name)
        return Place(crate, "/".join(parts), name) if parts[0] == "proofs" else None
    return None


USE = re.compile(r"^ *(?:ghost )?(?:pub )?use (Rattle\.[^\s{;]+?)(?:\.\{(.*?)\}| as (\S+?)|)(;?)$")


def ghost_imports(lines):
    """What each name means that an antt import of these lines brings in; an alias of a module stands as its path with a final dot."""
    found = {}
    for line in lines:
        use = USE.match(line.rstrip())
        if not use:
            continue
        path, group, alias = use.group(1), use.group(2), use.group(3)
        if group is not None:
            for name, here in named(group):
                found[here] = target(path, name)
        elif alias:
            found[alias + "."] = path
        else:
            found[path.split(".")[-1] + "."] = path
    return found


class Definitions:
    """An antt file: its imports, its definitions (name -> lines), what their constructors and fields belong to, the heads of modules around them."""

    def __init__(self, crate, file):
        self.imports, self.lines, self.inside, self.around = ghost_imports(lines_of(crate, file)), {}, {}, {}
        above, modules = [], []
        now = kind = None
        for line in lines_of(crate, file):
            if not line.strip():
                above = []
                continue
            while modules and len(line) - len(line.lstrip()) <= modules[-1][0]:
                modules.pop()
            depth = 2 * len(modules)
            cut = line[depth:]
            module = re.match(r"module _ .*where$", cut)
            if module:
                modules.append((depth, line))
                above, now = [], None
                continue
            if cut.startswith("--"):
                above.append(cut)
                continue
            if cut[0] != " ":
                if cut.startswith(("use ", "ghost use ", "pub use ", "pub mod ", "mod ")):
                    above, now = [], None
                    continue
                head = HEAD.match(cut)
                kinds, rest = set(head.group(1).split()), cut[head.end():].lstrip()
                if kinds & KEYWORDS or rest.startswith(": ") or rest == ":":
                    now, kind = head.group(2), kinds & {"data", "record"}
                    self.around[now] = [head_line for _, head_line in modules]
                elif head.group(2) in self.lines and not cut.startswith("unfolding"):
                    now, kind = head.group(2), None
            elif kind:
                part = re.match(r"^ +(?:pub )?(\S+) : ", cut)
                if part:
                    self.inside.setdefault(part.group(1), now)
            if now is not None:
                self.lines.setdefault(now, []).extend(above + [cut])
            above = []


@functools.lru_cache(None)
def antt_file(crate, file):
    return Definitions(crate, file)


@functools.lru_cache(None)
def source_file(crate, file):
    """A file of code: its antt imports, its Rust imports, its items, impls and functions."""
    return Source(crate, file)


def block(lines, start):
    """The lines from this one to the end of the item that begins there, by its indentation."""
    indent = len(lines[start]) - len(lines[start].lstrip())
    end = start
    while end < len(lines):
        line = lines[end]
        closes = line[indent:indent + 1] in ("}", ")") and not line[:indent].strip()
        if end == start and line.rstrip().endswith((";", "}")) and line.count("{") == line.count("}"):
            break
        if end > start and closes and line.rstrip().endswith(("}", ";")):
            break
        end += 1
    return lines[start:end + 1]


def contract(lines, start):
    """The signature and the clauses of the function that begins at this line."""
    indent = len(lines[start]) - len(lines[start].lstrip())
    taken, open_braces = [], 0
    for line in lines[start:]:
        at_its_head = len(line) - len(line.lstrip()) == indent
        if taken and at_its_head and line.strip() in ("{", "{}"):
            break
        taken.append(line)
        open_braces += line.count("{") - line.count("}")
        if line.rstrip().endswith(";") and open_braces == 0:
            break
        if at_its_head and line.rstrip().endswith((" {", " {}")):
            break
    return taken


class Source:
    def __init__(self, crate, file):
        self.crate, self.file = crate, file
        lines = lines_of(crate, file)
        self.ghosts = ghost_imports(lines)
        self.uses, self.items, self.impls, self.functions, self.starts, self.exports = {}, {}, [], [], [], []
        self.tests = next((i for i, line in enumerate(lines) if line.startswith("#[cfg(test)]")), len(lines))
        lines = lines[:self.tests]
        text = joined(lines)
        for use in re.finditer(r"^ *(pub(?:\([\w ]+\))? )?use ([\w:]+)::(?:\{([^}]*)\}|(\w+(?: as \w+)?));", text, re.M):
            for name, here in named((use.group(3) or use.group(4)).replace("\n", " ")):
                self.uses[here] = (use.group(2), name)
                if use.group(1) == "pub ":
                    self.exports.append(here)
        self.modules = re.findall(r"^pub mod (\w+);", text, re.M)
        owner, i = None, 0
        while i < len(lines):
            line = lines[i]
            item, fun = RUST_ITEM.match(line), FUNCTION.match(line)
            if item:
                above = i
                while above and lines[above - 1].startswith(("///", "#[")):
                    above -= 1
                self.items[item.group(2)] = (item.group(1), lines[above:i] + block(lines, i), line.startswith("pub "))
                owner = (item.group(2), [line], line.startswith("pub ")) if item.group(1) == "trait" else None
            elif re.match(r"^(unsafe )?impl\b", line):
                whole = block(lines, i)
                head = whole[:next((k for k, l in enumerate(whole) if l.rstrip().endswith(("{", "{}"))), 0) + 1]
                flat = re.sub(r"<[^<>]*>", "", re.sub(r"<[^<>]*>", "", re.sub(r"<[^<>]*>", "", " ".join(head))))
                match = re.match(r"^(?:unsafe )?impl\s+(?:(\S+) for )?&?(?:mut )?([\w:]+)", flat)
                if match:
                    ghosts = self.ghost_members(whole)
                    self.impls.append((match.group(1), match.group(2).split("::")[-1], head, ghosts))
                    owner = (match.group(2).split("::")[-1], head, match.group(1) is not None)
            elif line.startswith("}"):
                owner = None
            elif fun:
                inside = owner if fun.group(1) else None
                shown = fun.group(2) == "pub " or (inside is not None and inside[2])
                self.functions.append((inside[0] if inside else None, fun.group(3), shown, (inside[1] if inside else []) + contract(lines, i)))
                self.starts.append(i)
            i += 1

    @staticmethod
    def ghost_members(lines):
        """The ghost members of an impl or a trait: name -> lines; of a trait those before its last function, since what follows are laws."""
        found, k = {}, 0
        is_trait = any(re.match(r"(pub )?trait ", line) for line in lines)
        last = max((n for n, line in enumerate(lines) if is_trait and FUNCTION.match(line)), default=len(lines))
        while k < last:
            member = re.match(r"^ +ghost (?!use)(\w+)", lines[k])
            if member:
                part = [lines[k]]
                while part and joined(part).count("{") > joined(part).count("}") and k + 1 < len(lines):
                    k += 1
                    part.append(lines[k])
                found[member.group(1)] = part
            k += 1
        return found


@functools.lru_cache(None)
def files_of(crate):
    return sorted(str(f.relative_to(CRATES / crate)) for f in (CRATES / crate / "src").rglob("*.rt"))


@functools.lru_cache(None)
def item_of(crate, name):
    """The file of a crate that declares this item, also one that is exported from another crate."""
    for file in files_of(crate):
        if name in source_file(crate, file).items:
            return Place(crate, file, name)
    root = "src/lib.rt" if "src/lib.rt" in files_of(crate) else "src/main.rt"
    if name in source_file(crate, root).uses:
        path, original = source_file(crate, root).uses[name]
        other = path.split("::")[0]
        if other != "crate" and (CRATES / other).is_dir():
            return item_of(other, original)
    return None


def rust_target(source, name):
    """Where a Rust name of this file leads, if to an item of this repository."""
    if name in source.items:
        return Place(source.crate, source.file, name)
    if name in source.uses:
        path, original = source.uses[name]
        first = path.split("::")[0]
        crate = source.crate if first in ("crate", "super", "self") else first
        return item_of(crate, original) if (CRATES / crate / "src").is_dir() else item_of(source.crate, original) if first not in ("std", "core") else None
    return None


def ghost_words(imports, local, lines):
    """The places that the words of these lines lead to."""
    for word in words(lines):
        parts = word.split(".")
        if parts[0] + "." in imports and len(parts) > 1:
            yield target(imports[parts[0] + "."], parts[1])
        if parts[0] in local:
            yield local[parts[0]]
        elif parts[0] in imports:
            yield imports[parts[0]]
    text = " ".join(without_comment(line) for line in lines)
    for name, place in imports.items():
        if "◌" in name and all(sign in text for sign in name.split("◌") if sign):
            yield place


def leads(place):
    """The places to which a definition leads."""
    if place.file.endswith(".antt"):
        file = antt_file(place.crate, place.file)
        local = {name: Place(place.crate, place.file, name) for name in file.lines}
        yield from ghost_words(file.imports, local, file.around[place.name] + file.lines[place.name])
    elif place.file.endswith(".rt"):
        source = source_file(place.crate, place.file)
        kind, lines, _ = source.items.get(place.name, (None, [], None))
        if kind == "trait":
            members = source.ghost_members(lines)
            lines = [line for line in lines if re.match(r"(pub )?trait ", line)] + [line for part in members.values() for line in part]
        yield from text_leads(source, lines)
    else:
        return


def text_leads(source, lines):
    """The places to which a text of a file of code leads: its Rust names and its antt names."""
    yield from ghost_words(source.ghosts, {}, lines)
    for word in set(re.findall(r"\w+", " ".join(without_comment(line) for line in lines))):
        place = rust_target(source, word)
        if place:
            yield place


@functools.lru_cache(None)
def implemented():
    """The impls of all crates: (trait, type's place) -> the file and the ghost members."""
    found = []
    for crate in crates():
        for file in files_of(crate):
            source = source_file(crate, file)
            for trait, name, head, ghosts in source.impls:
                if trait and ghosts:
                    kind = Place("std", "", "Model") if trait == "Model" else rust_target(source, trait.split("::")[-1])
                    own = rust_target(source, name) or item_of(crate, name)
                    if kind and own:
                        found.append((kind, own, source, head, ghosts))
    return found


def members_of(kind):
    """The ghost members of a trait that are definitions."""
    source = source_file(kind.crate, kind.file)
    return set(source.ghost_members(source.items[kind.name][1]))


@functools.lru_cache(None)
def defined_at(place):
    """Where a name is defined that a file has, or only passes on; a constructor and a field stand for their type."""
    if place.file.endswith(".antt"):
        file = antt_file(place.crate, place.file)
        if place.name in file.lines:
            return place
        if place.name in file.inside:
            return Place(place.crate, place.file, file.inside[place.name])
        other = file.imports.get(place.name)
        return defined_at(other) if isinstance(other, Place) else other
    if place.file.endswith(".rt"):
        return place if place.name in source_file(place.crate, place.file).items else item_of(place.crate, place.name)
    return place


class Reached:
    """What was found from some contracts: the places, each with the one that led to it, and the lines of impls."""

    def __init__(self):
        self.places, self.kit, self.implemented = {}, collections.defaultdict(set), {}
        self.todo = []

    def add(self, place, by):
        if place is None:
            return
        if place[0] == "kit":
            self.kit[place[1]].add(place[2])
            return
        place = defined_at(place)
        if place is None or place in self.places:
            return
        if place[0] == "kit":
            self.kit[place[1]].add(place[2])
            return
        self.places[place] = by
        self.todo.append(place)

    def follow(self):
        while True:
            while self.todo:
                place = self.todo.pop()
                for other in leads(place):
                    self.add(other, place)
            for kind, own, source, head, ghosts in implemented():
                key = (source.crate, source.file, kind, own)
                if key in self.implemented or own not in self.places or (kind.crate != "std" and kind not in self.places):
                    continue
                wanted = set(ghosts) if kind.crate == "std" else members_of(kind)
                lines = head + [line for name, part in ghosts.items() if name in wanted for line in part]
                self.implemented[key] = lines
                for other in text_leads(source, lines):
                    self.add(other, own)
            if not self.todo:
                return

    def way(self, place):
        """How a place was reached, from the contract on."""
        steps = [place]
        while isinstance(self.places.get(steps[-1]), Place):
            steps.append(self.places[steps[-1]])
        start = self.places.get(steps[-1])
        return [start] + [f"{s.crate}/{s.file} {s.name}" for s in reversed(steps)]

    def lines(self, place):
        if place.file.endswith(".antt"):
            return antt_file(place.crate, place.file).lines[place.name]
        kind, lines, _ = source_file(place.crate, place.file).items[place.name]
        if kind == "trait":
            return [line for part in source_file(place.crate, place.file).ghost_members(lines).values() for line in part]
        return [line for line in lines if line.strip()]

    def table(self):
        """For each file: its definitions that were found, their lines, the lines of the file."""
        found = collections.defaultdict(lambda: [set(), 0])
        for place in self.places:
            found[place.crate, place.file][0].add(place.name)
            found[place.crate, place.file][1] += len(self.lines(place))
        for (crate, file, _, own), lines in self.implemented.items():
            found[crate, file][0].add(own.name)
            found[crate, file][1] += len(lines)
        return found


def whole(crate, file):
    """The lines of a file of definitions without blank lines and imports; of a file of code nothing, since most of it isn't a definition."""
    if not file.endswith(".antt"):
        return None
    return sum(1 for line in lines_of(crate, file) if line.strip() and not re.match(r"^(ghost )?(pub )?(use|mod) ", line))


def shown_names(crate):
    """The names that a library exports."""
    root = source_file(crate, "src/lib.rt")
    shown = {name for name in root.exports}
    for file in files_of(crate):
        source = source_file(crate, file)
        module = pathlib.Path(file).stem
        if file != "src/lib.rt" and file.count("/") == 1 and module in root.modules:
            shown |= {name for name in source.exports}
            shown |= {name for _, name, public, _ in source.functions if public}
            shown |= {name for name, (_, _, public) in source.items.items() if public}
    return shown | {name for _, name, public, _ in root.functions if public} | {name for name, (_, _, public) in root.items.items() if public}


def placed_functions(crate):
    """The functions that a library exports: (owner or nothing, name, source, lines of the contract, the line at which it begins). Of a program: none."""
    if "src/lib.rt" not in files_of(crate):
        return
    shown = shown_names(crate)
    for file in files_of(crate):
        source = source_file(crate, file)
        for (owner, name, public, lines), start in zip(source.functions, source.starts):
            if public and (owner or name) in shown:
                yield owner, name, source, lines, start


def public_functions(crate):
    """The functions that a library exports, with their contracts: (name, source, lines)."""
    for owner, name, source, lines, _ in placed_functions(crate):
        yield (f"{owner}::{name}" if owner else name), source, lines


def believed(asked):
    """What the contracts of these functions lead to: of a crate, or of one of its functions."""
    crate, _, name = asked.partition("::")
    if not (CRATES / crate).is_dir():
        sys.exit(f"no crate {crate}")
    functions = [f for f in public_functions(crate) if not name or f[0] == name]
    if name and not functions:
        sys.exit(f"no public function {name} in {crate}")
    reached = Reached()
    for title, source, lines in functions:
        for place in text_leads(source, lines):
            reached.add(place, f"{crate}::{title}")
    reached.follow()
    return functions, reached


def short(crate, file):
    """A file's name in the table."""
    return f"`{crate}/{file.removesuffix('.antt')}`"


def columns(cells):
    return "| " + " | ".join(str(cell) for cell in cells) + " |"


def sum_of(found):
    """How many files of `specs` a table has, definitions and types, and their lines."""
    return sum(1 for _, file in found if file.startswith("specs")), sum(len(v[0]) for v in found.values()), sum(v[1] for v in found.values())


def specs_of(crate):
    """The files of `specs`, but for those that only name others."""
    files = (str(f.relative_to(CRATES / crate)) for f in (CRATES / crate / "specs").rglob("*.antt"))
    return sorted(file for file in files if antt_file(crate, file).lines)


def listed(files):
    return ", ".join(f"`{file.removeprefix('specs/').removesuffix('.antt')}`" for file in files)


def page():
    """The text of docs/BELIEVED.md, and whether a contract of any library leads into proofs."""
    found = [believed(asked)[1] for asked, _ in CALLS]
    tables = [reached.table() for reached in found]
    order = crates()
    files = sorted({key for t in tables for key in t}, key=lambda key: (order.index(key[0]), key[1]))
    out = [INTRODUCTION, "", "## Of the calls", "", OF_CALLS, ""]
    out.append(columns(["file", "lines"] + [head for _, head in CALLS]))
    out.append("|" + "---|" * (len(CALLS) + 2))
    for place, head in enumerate(("files of `specs/`", "definitions and types", "lines")):
        out.append(columns([f"**{head}**", ""] + [f"**{sum_of(t)[place]:,}**" for t in tables]))
    for key in files:
        out.append(columns([short(*key), whole(*key) or ""] + [t[key][1] if key in t else "" for t in tables]))
    out += ["", "## Words of the kit", "", "The same calls lead to these words of std and of the kit's crates. Operators are left out.", "", "| module | words |", "|---|---|"]
    kit = collections.defaultdict(set)
    for reached in found:
        for module, names in reached.kit.items():
            kit[module] |= {name for name in names if "◌" not in name}
    for module, names in sorted(kit.items()):
        if names:
            out.append(columns([f"`{module.replace('.specs.', '.')}`", ", ".join(f"`{name}`" for name in sorted(names))]))
    out += ["", "## Of each library", "", OF_LIBRARIES, ""]
    out += ["| crate | contracts | files | definitions and types | lines | own files, beyond the calls | no public contract leads to |", "|---|---|---|---|---|---|---|"]
    each = {crate: believed(crate) for crate in order}
    reached_by_any = {key for _, reached in each.values() for key in reached.table()}
    wrong = False
    for crate, (functions, reached) in each.items():
        if not functions:
            continue
        here = reached.table()
        own = [file for file in specs_of(crate) if (crate, file) in reached_by_any and (crate, file) not in files]
        inner = [file for file in specs_of(crate) if (crate, file) not in reached_by_any and (crate, file) not in files]
        out.append(columns([f"`{crate}`", len(functions)] + [f"{n:,}" for n in sum_of(here)] + [listed(own), listed(inner)]))
        wrong = tell_proofs(reached, sys.stderr) or wrong
    return "\n".join(out) + "\n", wrong


def differences(text):
    """What in docs isn't up to date: the page, and the table of ARCHITECTURE.md on `replay`."""
    kept = TOP / "docs/BELIEVED.md"
    if not kept.is_file() or kept.read_text() != text:
        yield "docs/BELIEVED.md isn't what tools/believed.py --table prints"
    section = (TOP / "docs/ARCHITECTURE.md").read_text().partition("### What has to be believed")[2].partition("\nOther contracts")[0]
    crate, named_files = None, set()
    for row in re.findall(r"^\|(.*?)\|(.*?)\|", section, re.M):
        crate = next(iter(re.findall(r"`(\w+)`", row[0])), crate)
        named_files |= {word.removeprefix("specs/") for word in re.findall(r"`([\w/]+)`", re.sub(r"\([^()]*\)", "", row[1]))}
        for word in named_files:
            if (CRATES / str(crate) / f"specs/{word}.antt").is_file() and word in row[1]:
                if (crate, f"specs/{word}.antt") not in believed(CALLS[0][0])[1].table():
                    yield f"docs/ARCHITECTURE.md lists {crate}/specs/{word}, to which `replay` doesn't lead"
    for other, file in believed(CALLS[0][0])[1].table():
        if file.startswith("specs") and file.removeprefix("specs/").removesuffix(".antt") not in named_files:
            yield f"docs/ARCHITECTURE.md doesn't list {other}/{file}"


def tell_proofs(reached, out):
    """Prints what leads into proofs, and says whether anything does."""
    places = into_proofs(reached)
    for place in places:
        print(f"  IN PROOFS {place.crate}/{place.file}: {place.name}\n    by " + "\n    -> ".join(reached.way(place)), file=out)
    return bool(places)


def tell_why(reached, asked):
    """Prints how the contracts lead to a file, or to a definition of it."""
    file, _, name = asked.partition(":")
    for place in reached.places:
        if f"{place.crate}/{place.file}".removesuffix(".antt") == file.removesuffix(".antt") and name in ("", place.name):
            print("  " + "\n    -> ".join(reached.way(place)))


def into_proofs(reached):
    return sorted((p for p in reached.places if p.file.startswith("proofs")), key=str)


def tell(asked, functions, reached, options):
    """Prints what some contracts lead to."""
    found, order = reached.table(), crates()
    specs, definitions, lines = sum_of(found)
    print(f"{asked}: contracts {len(functions)}, files of specs {specs}, definitions and types {definitions}, lines {lines}")
    if options.all:
        return
    for (crate, file), (names, lines) in sorted(found.items(), key=lambda row: (order.index(row[0][0]), row[0][1])):
        full = whole(crate, file)
        print(f"  {crate}/{file}: definitions {len(names)}, lines {lines}" + (f" of {full}" if full else ""))
        if options.names:
            print("    " + ", ".join(sorted(names)))
    for module, names in sorted(reached.kit.items()):
        print(f"  kit {module}: {', '.join(sorted(names))}")


def main():
    signal.signal(signal.SIGPIPE, signal.SIG_DFL)
    parser = argparse.ArgumentParser(description=__doc__.splitlines()[0])
    parser.add_argument("asked", nargs="*", metavar="CRATE[::FUNCTION]")
    parser.add_argument("--all", action="store_true", help="each library, one line a crate")
    parser.add_argument("--names", action="store_true", help="with the names of the definitions")
    parser.add_argument("--why", metavar="PLACE", help="how the contracts lead to this file or definition")
    parser.add_argument("--table", action="store_true", help="prints docs/BELIEVED.md")
    parser.add_argument("--check", action="store_true", help="says whether the docs are up to date")
    options = parser.parse_args()
    if options.all + options.table + options.check + bool(options.asked) != 1:
        parser.error("give --all, --table, --check, or what to follow")
    if options.table or options.check:
        text, wrong = page()
        told = list(differences(text)) if options.check else [text.removesuffix("\n")]
        print("\n".join(told) if told else "up to date")
        sys.exit(1 if wrong or (options.check and told) else 0)
    wrong = False
    for asked in crates() if options.all else options.asked:
        functions, reached = believed(asked)
        if not functions:
            continue
        if options.why:
            tell_why(reached, options.why)
            continue
        tell(asked, functions, reached, options)
        wrong = tell_proofs(reached, sys.stdout) or wrong
    sys.exit(1 if wrong else 0)


if __name__ == "__main__":
    main()
