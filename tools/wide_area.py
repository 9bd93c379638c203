#!/usr/bin/env python3
"""Prints docs/WIDE_AREA.md: transfers over paths with delay and loss, as `bench/wan.py run` measured them.

    tools/wide_area.py --table     prints the page, from tools/wide_area.lines
    tools/wide_area.py --check     says whether the page is up to date

tools/wide_area.lines has the lines that `bench/wan.py run` printed, below lines that begin with `#`, which say when and where that was; the page has those, too.
The page has medians over the seeds: of the speeds (MB a second), with a star if at least half of the transfers weren't done in time, and of a whole transfer's packets.
"""
import argparse
import collections
import pathlib
import statistics
import sys
import textwrap

TOP = pathlib.Path(__file__).resolve().parent.parent
sys.path.insert(0, str(TOP / "bench"))
sys.dont_write_bytecode = True
import wan  # noqa: E402

KEPT = TOP / "tools/wide_area.lines"
PAGE = TOP / "docs/WIDE_AREA.md"
Median = collections.namedtuple("Median", "kind delay loss way speed late packets")

HEAD = """# Transfers over paths with delay and loss

{made}

The columns: `ftnode`'s client and server with a profile; a kernel's client with a congestion control, through the bridge, to a server with a profile; two *bare*
sockets of the kernel, without window scaling, selective acknowledgements and timestamps; and two with all options. A delay is a round trip's. A star: at least
half of the transfers weren't done in time, and count by what had come. [PERFORMANCE.md](PERFORMANCE.md#processes-over-udp) says what the figures show."""

MADE = "`tools/wide_area.py --table` prints this page from `tools/wide_area.lines`, the lines that `bench/wan.py run` printed."


def medians_of(file):
    """The medians of a file's transfers, by kind, delay, loss and way."""
    groups = collections.defaultdict(list)
    for row in wan.rows_of([file]):
        groups[row.kind, row.delay, row.loss, row.way].append(row)
    for key, rows in sorted(groups.items(), key=lambda group: (wan.KINDS.index(group[0][0]), *group[0][1:3], wan.WAYS.index(group[0][3]))):
        whole = [row.packets for row in rows if row.came == row.size]
        speed = statistics.median(row.came / row.seconds / 1e6 for row in rows)
        yield Median(*key, speed, 2 * len(whole) <= len(rows), statistics.median(whole) if whole else None)


def notes_of(file):
    """What the file says of when and where."""
    return [line[1:].strip() for line in pathlib.Path(file).read_text(encoding="utf-8").splitlines() if line.startswith("#")]


def heading(way):
    first, second, *more = way.split("-")
    if first == "ftnode":
        return f"`ftnode`, {second}"
    if first == "kernel":
        return f"bare, {second}" if more == ["bare"] else second
    return f"{first}, {more[0]}"


def speed_of(median):
    return (f"{median.speed:.2f}" if median.speed < 10 else f"{median.speed:.1f}") + "*" * median.late


def table_of(title, medians, label, tell):
    """One table: a line for each label, a column for each way."""
    cells = {(label(median), median.way): tell(median) for median in medians}
    ways = [way for way in wan.WAYS if any(way == key[1] for key in cells)]
    yield f"\n| {title} | {' | '.join(map(heading, ways))} |"
    yield f"|---|{'---|' * len(ways)}"
    for name in dict.fromkeys(map(label, medians)):
        yield f"| {name} | {' | '.join(cells.get((name, way), '') for way in ways)} |"


def goals_of(medians):
    """The ratios to two bare sockets of the kernel with the same congestion control, with the profile `wan`; in bold what misses its goal."""
    found = {(median.kind, median.delay, median.loss, median.way): median for median in medians}
    ways = [way for way in wan.WAYS if way.endswith("wan")]
    yield f"\n| beside bare sockets with the same congestion control | {' | '.join(map(heading, ways))} | goal |"
    yield f"|---|{'---|' * len(ways)}---|"

    def ratios(key, tell):
        for way in ways:
            mine, other = found.get((*key, way)), found.get((*key, f"kernel-{'bbr' if way.startswith('bbr') else 'reno'}-bare"))
            known = mine and other and tell(mine) and tell(other)
            yield tell(mine) / tell(other) if known else None

    def line(name, values, goal, is_met):
        cells = ["" if value is None else f"{value:.2f}" if is_met(value) else f"**{value:.2f}**" for value in values]
        return f"| {name} | {' | '.join(cells)} | {goal} |"

    for kind, delay, loss in dict.fromkeys(median[:3] for median in medians if median.delay == 50 and median.loss <= 1):
        yield line(f"speed, {kind}, {delay} ms, {loss:g} %", ratios((kind, delay, loss), lambda it: it.speed), "at least 0.5", lambda value: value >= 0.5)
    for kind, delay, loss in dict.fromkeys(median[:3] for median in medians if median.loss == 0):
        yield line(f"packets, {kind}, {delay} ms, 0 %", ratios((kind, delay, loss), lambda it: it.packets), "at most 1.4", lambda value: value <= 1.4)


def page(notes, medians):
    out = [HEAD.format(made=textwrap.fill(" ".join([MADE, *notes]), 160))]
    for kind in dict.fromkeys(median.kind for median in medians):
        out += table_of(f"{kind}, MB a second", [it for it in medians if it.kind == kind], lambda it: f"{it.delay} ms, {it.loss:g} %", speed_of)
    whole = [it for it in medians if it.loss == 0]
    out += table_of("packets, without loss", whole, lambda it: f"{it.kind}, {it.delay} ms", lambda it: "" if it.packets is None else f"{it.packets:,.0f}")
    out += goals_of(medians)
    return "\n".join(out) + "\n"


def main():
    parser = argparse.ArgumentParser(description=__doc__, formatter_class=argparse.RawDescriptionHelpFormatter)
    what = parser.add_mutually_exclusive_group(required=True)
    what.add_argument("--table", action="store_true")
    what.add_argument("--check", action="store_true")
    words = parser.parse_args()
    text = page(notes_of(KEPT), list(medians_of(KEPT)))
    if words.table:
        sys.stdout.write(text)
        return 0
    is_same = PAGE.is_file() and PAGE.read_text(encoding="utf-8") == text
    print("up to date" if is_same else f"{PAGE.relative_to(TOP)} isn't what tools/wide_area.py --table prints")
    return 0 if is_same else 1


if __name__ == "__main__":
    sys.exit(main())
