#!/usr/bin/env python3
"""Lists the public functions of each library with the clauses of their contracts.

    tools/contracts.py CRATE..      prints the list of these crates
    tools/contracts.py --table      prints docs/CONTRACTS.md
    tools/contracts.py --check      says whether that page is up to date

Crates are in the order of crates.txt, functions in the order of their files. A line has a function's name with its parameters, the first sentence of its
comment, and its clauses. Of a clause it has the name and, where that fits, the text. Of a longer one it has the definitions of this repository that it names.
It reads the text only, as tools/believed.py does, whose functions find what a library exports and what a contract says.
"""
import argparse
import re
import signal
import sys

import believed

PAGE = "docs/CONTRACTS.md"
# The longest text of a clause that is printed, in characters: of a clause with a name, and of one without.
NAMED_LIMIT, UNNAMED_LIMIT = 100, 200

INTRODUCTION = f"""# Contracts of the libraries

`tools/contracts.py --table` writes this page: for each crate, in the order of [crates.txt](../crates.txt), its public functions, each with the first sentence of
its comment and its clauses. The code has the whole comments and clauses. The gate refuses a function that isn't proved with its contract.
[PROMISES.md](PROMISES.md) says what these contracts mean, what they leave open, and what is only tested.

- A *clause* is a precondition (requires), which the caller has to prove, or a promise (ensures). Its name is in italics. A clause without a name says all that
  is required or ensured at this place.
- The text of a clause follows its name, up to {NAMED_LIMIT} characters, or {UNNAMED_LIMIT} if it has no name. Of a longer clause the page names the definitions of
  this repository that it cites. `.old` and `.new` are a value before and after the call, `.now` one that the call doesn't change.
- A *law* is a function without a body: its contract is a theorem, and calling it does nothing. What a trait promises beyond its functions is a law too.
- A function of a trait has the contract of the trait in each type that implements it. The page gives only the clauses that a type adds."""

HEAD = re.compile(r"^ *(requires|ensures)\b\*? *(\w+)? *(\{.*)$")
SENTENCE = re.compile(r"(.+?\.)(?: (?=[A-Z`*\"])|$)")
LINK = re.compile(r"\[([^\]]+)\](?:\([^)]*\))?")
# What a formula introduces, as (n : ℕ).
BINDER = re.compile(r"\([^():→]+ : [^()→]*\)")


def without_note(line):
    """A line without the Rattle comment at its end."""
    return re.sub(r"(^|\s)//.*$", "", line).rstrip()


class Clause:
    """A clause: whether it is required, its name or nothing, its text, and the definitions of this repository that it cites."""

    def __init__(self, word, name, text):
        self.required, self.name = word == "requires", name
        self.text = re.sub(r"^\{ *| *\}[;,]?$", "", " ".join(text.split()))

    def cited(self, source):
        """The definitions that the text names, in its order, without the types of its variables and without those of std and of the kit."""
        found = []
        for word in believed.words([BINDER.sub("", self.text)]):
            name = word.split(".")[0]
            place = source.ghosts.get(name)
            if isinstance(place, believed.Place) and place.file and name not in found:
                found.append(name)
        return found

    def shown(self, source):
        """The clause in a line of the page."""
        name = f"*{self.name}*" if self.name else ""
        if len(self.text) <= (NAMED_LIMIT if self.name else UNNAMED_LIMIT):
            return f"{name} `{self.text}`".strip()
        cited = ", ".join(f"`{word}`" for word in self.cited(source))
        return f"{name} ({cited})".strip() if cited else name or "a clause"


def clauses_of(lines):
    """The clauses of a contract."""
    found = []
    for line in lines:
        head = HEAD.match(without_note(line))
        if head:
            found.append([head.group(1), head.group(2), head.group(3)])
        elif found and re.match(r"^ *(decreases|where)\b", line):
            break
        elif found:
            found[-1][2] += " " + without_note(line)
    return [Clause(*parts) for parts in found]


def parameters(lines):
    """The names of a function's parameters, with the `&` and `mut` of self."""
    text = " ".join(without_note(line) for line in lines)
    text = text[re.search(r"\bfn \w+", text).end():]
    if text.startswith("<"):
        text = text[closing(text, "<", ">") + 1:]
    inner = text[1:closing(text, "(", ")")]
    names = (re.match(r"^(&(?:'\w+ )?(?:mut )?self|mut self|self|(?:mut )?\w+)", part.strip()) for part in at_depth_zero(inner))
    return [re.sub(r"^mut |'\w+ |^_", "", name.group(1)) for name in names if name]


def closing(text, opens, closes):
    """Where the bracket that a text begins with is closed."""
    depth = 0
    for place, sign in enumerate(text):
        arrow = sign == ">" and text[place - 1] in "-="
        depth += (sign == opens) - (sign == closes and not arrow)
        if depth == 0:
            return place
    return len(text)


def at_depth_zero(text):
    """The parts of a list of parameters."""
    parts, depth = [""], 0
    for place, sign in enumerate(text):
        if sign in "(<[":
            depth += 1
        elif sign in ")]" or sign == ">" and text[place - 1] != "-":
            depth -= 1
        if sign == "," and depth == 0:
            parts.append("")
        else:
            parts[-1] += sign
    return parts


def comment_above(lines, start, mark="///"):
    """The comment directly above a line, attributes passed over."""
    found, place = [], start - 1
    while place >= 0 and lines[place].strip() and len(lines[place]) - len(lines[place].lstrip()) >= len(lines[start]) - len(lines[start].lstrip()):
        if lines[place].strip().startswith(mark):
            found.insert(0, lines[place].strip()[len(mark):].strip())
        elif found:
            break
        place -= 1
    return " ".join(found)


def first_sentence(text):
    """The first sentence of a comment, with a full stop."""
    match = SENTENCE.match(text)
    sentence = LINK.sub(r"\1", (match.group(1) if match else text).strip())
    return sentence + ("." if sentence and not sentence.endswith(".") else "")


def is_law(lines, start, contract):
    """Whether the function that begins here has an empty body."""
    after = start + len(contract)
    return contract[-1].rstrip().endswith(" {}") or after < len(lines) and lines[after].strip() == "{}"


def clauses_shown(clauses, source):
    """What a line says of the clauses."""
    parts = []
    for required, word in ((True, "Requires"), (False, "Ensures")):
        shown = [clause.shown(source) for clause in clauses if clause.required == required]
        if shown:
            parts.append(f"{word} {'; '.join(shown)}.")
    return " ".join(parts)


def trait_impl(source, start):
    """The trait that the impl around a line implements, or nothing."""
    lines = believed.lines_of(source.crate, source.file)
    for line in reversed(lines[:start]):
        if line.startswith(("impl", "unsafe impl")):
            match = re.match(r"^(?:unsafe )?impl(?:<.*?>)? (?:\w+::)*(\w+)(?:<.*>)? for ", line)
            return match.group(1) if match else None
        if line.startswith("}"):
            return None
    return None


def function_line(owner, name, source, contract, start, trait):
    """The line of a function."""
    lines = believed.lines_of(source.crate, source.file)
    own = believed.contract(lines, start)
    law = "Law " if is_law(lines, start, own) else ""
    title = f"{owner}::{name}" if owner else name
    of = f" of `{trait}`" if trait else ""
    told = " ".join(part for part in (first_sentence(comment_above(lines, start)), clauses_shown(clauses_of(own), source)) if part)
    return f"- {law}`{title}({', '.join(parameters(own))})`{of}" + (f": {told}" if told else "")


def trait_laws(source, name):
    """The lines of what a trait promises beyond its functions."""
    kind, lines, _ = source.items[name]
    if kind != "trait":
        return
    last = max((n for n, line in enumerate(lines) if believed.FUNCTION.match(line)), default=len(lines))
    for place, line in enumerate(lines):
        member = re.match(r"^ +ghost (\w+): (.*)$", line)
        if member and place > last:
            text = member.group(2)
            for more in lines[place + 1:]:
                if text.count("{") <= text.count("}"):
                    break
                text += " " + more
            clause = Clause("ensures", member.group(1), text)
            yield " ".join(part for part in (f"- Law of `{name}`:", first_sentence(comment_above(lines, place)), clause.shown(source) + ".") if part)


def crate_lines(crate):
    """The lines of a library, or nothing for a program."""
    shown, plain, kinds = [], {}, []
    for owner, name, source, contract, start in believed.placed_functions(crate):
        if owner in source.items and (owner, source) not in kinds:
            kinds.append((owner, source))
        trait = trait_impl(source, start) if owner else None
        if trait and not clauses_of(believed.contract(believed.lines_of(crate, source.file), start)):
            names = plain.setdefault((owner, trait), [])
            names += [name] if name not in names else []
        else:
            shown.append(function_line(owner, name, source, contract, start, trait))
    for owner, source in kinds:
        shown += trait_laws(source, owner)
    shown += [f"- `{owner}` implements `{trait}`: {', '.join(f'`{name}`' for name in names)}" for (owner, trait), names in plain.items()]
    return shown


def crate_sentence(crate):
    """The first sentence of a library's comment."""
    lines = [line[3:].strip() for line in believed.lines_of(crate, "src/lib.rt") if line.startswith("//!")]
    return first_sentence(" ".join(" ".join(lines).split()))


def section(crate):
    """The section of a library, or no lines."""
    lines = crate_lines(crate)
    return [f"## `{crate}`", "", crate_sentence(crate), "", *lines, ""] if lines else []


def page():
    """The text of docs/CONTRACTS.md."""
    sections = {crate: lines for crate in believed.crates() if (lines := section(crate))}
    index = ", ".join(f"[`{crate}`](#{crate})" for crate in sections)
    return "\n".join([INTRODUCTION, "", index + ".", ""] + [line for lines in sections.values() for line in lines])


def check(text):
    """Says whether the page is up to date, and returns the status."""
    kept = believed.TOP / PAGE
    if kept.is_file() and kept.read_text() == text:
        print("up to date")
        return 0
    print(f"{PAGE} isn't what tools/contracts.py --table prints")
    return 1


def main():
    signal.signal(signal.SIGPIPE, signal.SIG_DFL)
    parser = argparse.ArgumentParser(description=__doc__, formatter_class=argparse.RawDescriptionHelpFormatter)
    parser.add_argument("crates", nargs="*", metavar="CRATE")
    parser.add_argument("--table", action="store_true", help=f"prints {PAGE}")
    parser.add_argument("--check", action="store_true", help="says whether that page is up to date")
    options = parser.parse_args()
    if options.table + options.check + bool(options.crates) != 1:
        parser.error("give --table, --check, or crates")
    lacking = [name for name in options.crates if not (believed.CRATES / name).is_dir()]
    if lacking:
        parser.error(f"no crate {lacking[0]}")
    if options.check:
        return check(page())
    sys.stdout.write(page() if options.table else "\n".join(line for crate in options.crates for line in section(crate)))
    return 0


if __name__ == "__main__":
    sys.exit(main())
