#!/usr/bin/env python3
"""How fast echoes and downloads are over paths with delay and loss (bench/relay.py), by `ftnode` in both profiles and by sockets of the kernel.

    bench/wan.py run PROGRAM [--size BYTES] [--delays MS..] [--losses PERCENT..] [--seeds N..] [--kinds KIND..] [--ways WAY..] [--patience SECONDS]
    bench/wan.py table FILE..

`run` makes each transfer of so many bytes in turn, each way with the same seeds, and prints a line for each. A delay is that of a round trip. KIND is `echo`, or
`download`, which is a script of requests to the service Transfer. A transfer that isn't done in time ends there, and its line says how many bytes had come. A
WAY is one of these, with each of the kernel's congestion controls `reno` and `bbr` in place of CONTROL:

    ftnode-PROFILE           `ftnode client` to `ftnode server`, both with this profile
    CONTROL-to-PROFILE       a client of the kernel, through tools/bridge.py, to `ftnode server` with this profile
    kernel-CONTROL-bare      two sockets of the kernel without window scaling, selective acknowledgements and timestamps (of these `ftnode` has timestamps, with wan)
    kernel-CONTROL-options   two sockets of the kernel with them

`table` reads such lines, of one run or of several, and prints tables of their medians, and which goals are met: at 50 ms at least half as fast as two bare
sockets of the kernel at 0 and at 1 % loss, and at most 1.4 times their packets without loss. tools/wide_area.py prints docs/WIDE_AREA.md from them.

All is done in network namespaces that it makes and removes, so it needs Linux, root and TUN devices. Runs at the same time don't meet.
"""
import argparse
import collections
import itertools
import os
import pathlib
import re
import select
import signal
import socket
import statistics
import subprocess
import sys
import tempfile
import time

TOP = pathlib.Path(__file__).resolve().parent.parent
sys.path.insert(0, str(TOP / "tools"))
sys.dont_write_bytecode = True
import tun  # noqa: E402
from socket_echo import LONGEST, PERIOD, choose, exchange  # noqa: E402

HOME, HERE, THERE = (f"wan_{name}{os.getpid()}" for name in ("home", "here", "there"))
SERVER, LOGGER, CLIENT, RELAY = (f"127.0.0.1:{port}" for port in range(7300, 7304))
CLIENT_IP, SERVER_IP, SERVICE_PORT = "10.78.0.1", "10.78.0.2", 7
OPTIONS = "tcp_window_scaling", "tcp_sack", "tcp_timestamps"
PROFILES, CONTROLS, KINDS = ("plain", "wan"), ("reno", "bbr"), ("echo", "download")
WAYS = [f"ftnode-{profile}" for profile in PROFILES] + [f"{control}-to-{profile}" for control in CONTROLS for profile in PROFILES]
WAYS += [f"kernel-{control}-{options}" for options in ("bare", "options") for control in CONTROLS]
STARTED = 10  # seconds in which a process has to be up

Row = collections.namedtuple("Row", "kind delay loss seed way came size seconds packets lost known repeated")
LINE = re.compile(r"(\w+) (\d+) ms (\S+) % seed (\d+) (\S+): (\d+) of (\d+) bytes in (\S+) s; (\d+) packets, (\d+) lost, (\d+) sent again, (\d+) repeated")


class Transfer:
    """What is sent, what has to come back, and the processes of one transfer, which end with it."""

    def __init__(self, words, kind, loss, delay, seed):
        self.words, self.path, self.processes = words, [str(loss), str(delay / 2), str(seed)], []
        self.kept = []  # further words of the logger
        whole, rest = divmod(words.size, LONGEST)
        self.service = "echo" if kind == "echo" else "transfer"
        self.wanted = bytes(place % PERIOD for place in range(words.size))
        self.script = self.wanted if kind == "echo" else LONGEST.to_bytes(4, "big") * whole + (rest.to_bytes(4, "big") if rest else b"")

    def start(self, space, *words, up=None, given=subprocess.DEVNULL):
        """Starts a process in a namespace, and waits until its first line has this word, if one is given."""
        with tun.inside(space):
            it = subprocess.Popen(words, stdin=given, stdout=subprocess.PIPE, stderr=subprocess.PIPE)
        self.processes.append(it)
        if up and up not in it.stdout.readline().decode():
            raise OSError(f"{words[0]} doesn't start: {it.stderr.read().decode()}")
        return it

    def relay(self, listen, target):
        return self.start(HOME, TOP / "bench/relay.py", listen, target, *self.path, up="up")

    def serve(self, profile):
        """A logger and a server with this profile, which is ready to serve, and the relay before it."""
        program, profiled = self.words.program, ["--profile", profile] if profile != "plain" else []
        self.start(HOME, program, "logger", "--local", LOGGER, "--turns", "1000000", *profiled, *self.kept)
        self.start(HOME, program, "server", "--local", SERVER, "--logger", LOGGER, "--service", self.service, "--boot", "1", "--isn", "1007", "--turns",
                   "1000000", *profiled)
        until = time.monotonic() + STARTED
        with tun.inside(HOME):
            while subprocess.run([TOP / "tools/server_status.py", "--server", SERVER, "--wait", "1"], capture_output=True, check=False).returncode:
                if time.monotonic() > until:
                    raise OSError("the server doesn't serve")
        return self.relay(RELAY, SERVER)

    def by_ftnode(self, profile):
        """What came to `ftnode client`, the seconds from its start to the last byte, and the relay."""
        relay = self.serve(profile)
        with tempfile.TemporaryFile() as file:
            file.write(self.script)
            file.seek(0)
            begun = last = time.monotonic()
            it = self.start(HOME, self.words.program, "client", "--local", CLIENT, "--server", RELAY, "--isn", "1000", "--turns", "1000000",
                            *(["--profile", profile] if profile != "plain" else []), given=file)
            back = bytearray()
            os.set_blocking(it.stdout.fileno(), False)
            while len(back) < self.words.size and time.monotonic() < begun + self.words.patience:
                more = os.read(it.stdout.fileno(), 65536) if select.select([it.stdout], [], [], 0.2)[0] else None
                if more == b"":
                    raise OSError(f"the client ended after {len(back)} bytes: {it.stderr.read().decode()}")
                if more:
                    back += more
                    last = time.monotonic()
        return back, last - begun, relay

    def by_socket(self, control, relay):
        """The same by a socket of the kernel in the namespace of the client."""
        begun = time.monotonic()
        with tun.inside(HERE), socket.socket() as link:
            choose(link, control)
            link.settimeout(self.words.patience)
            link.connect((SERVER_IP, SERVICE_PORT))
            back, last = exchange(link, self.script, begun + self.words.patience, self.words.size)
        return back, last - begun, relay

    def bridged(self, control, profile):
        relay, device = self.serve(profile), f"wanc{os.getpid()}"
        set_options(HERE, True)
        self.start(HOME, TOP / "tools/bridge.py", "--client", CLIENT_IP, "--server", f"{SERVER_IP}:{SERVICE_PORT}", "--node", RELAY, "--local", "127.0.0.1",
                   "--netns", HERE, "--device", device, up="up")
        return self.by_socket(control, relay)

    def by_kernel(self, control, options):
        devices = [f"wan{end}{os.getpid()}" for end in "ab"]
        relay = self.relay(*(f"tun:{name}" for name in devices))
        for space, name, ip in zip((HERE, THERE), devices, (CLIENT_IP, SERVER_IP)):
            set_options(space, options == "options")
            with tun.inside(HOME):
                run_ip("link", "set", name, "netns", space)
            run_ip("-n", space, "addr", "add", f"{ip}/24", "dev", name)
            run_ip("-n", space, "link", "set", name, "mtu", "1500", "up")
        self.start(THERE, TOP / "bench/socket_echo.py", "serve", SERVER_IP, str(SERVICE_PORT), self.service, control, up="up")
        return self.by_socket(control, relay)

    def go(self, way):
        """The transfer by this way: how many bytes came, in which time, which is all that it had if not all bytes came, and the relay's counts."""
        try:
            first, second, *more = way.split("-")
            if first == "ftnode":
                back, seconds, relay = self.by_ftnode(second)
            else:
                back, seconds, relay = self.by_kernel(second, *more) if first == "kernel" else self.bridged(first, *more)
            if back != self.wanted[: len(back)]:
                raise OSError(f"{way}: other bytes came")
            relay.send_signal(signal.SIGTERM)
            return len(back), seconds if len(back) == self.words.size else self.words.patience, relay.communicate()[0].decode()
        finally:
            for it in self.processes:
                it.kill()
                it.communicate()


def set_options(space, are_on):
    """Gives the sockets of a namespace window scaling, selective acknowledgements and timestamps, or takes them."""
    with tun.inside(space):
        for name in OPTIONS:
            pathlib.Path("/proc/sys/net/ipv4", name).write_text(str(int(are_on)), encoding="ascii")


def run_ip(*words):
    subprocess.run(["ip", *words], check=True)


def make_spaces():
    """The namespaces: nothing is remembered of an earlier connection, and only what the transfers send is sent."""
    for space in HOME, HERE, THERE:
        run_ip("netns", "add", space)
        run_ip("-n", space, "link", "set", "lo", "up")
        with tun.inside(space):
            pathlib.Path("/proc/sys/net/ipv4/tcp_no_metrics_save").write_text("1", encoding="ascii")
            pathlib.Path("/proc/sys/net/ipv6/conf/default/disable_ipv6").write_text("1", encoding="ascii")


def dropped():
    """How many datagrams found no room at a socket of `ftnode`, its relay or its bridge."""
    with tun.inside(HOME):
        names, counts = [line.split() for line in open("/proc/net/snmp", encoding="ascii") if line.startswith("Udp:")]
    return int(counts[names.index("RcvbufErrors")])


def run(words):
    make_spaces()
    try:
        for delay, loss, kind, seed, way in itertools.product(words.delays, words.losses, words.kinds, words.seeds, words.ways):
            before = dropped()
            came, seconds, counts = Transfer(words, kind, loss, delay, seed).go(way)
            packets, lost, _, _, known, repeated = map(int, re.findall(r"(\d+) ", counts))
            print(f"{kind} {delay} ms {loss:g} % seed {seed} {way}: {came} of {words.size} bytes in {seconds:.3f} s; {packets} packets, {lost} lost, "
                  f"{known} sent again, {repeated} repeated; no room for {dropped() - before}", flush=True)
    finally:
        for space in HOME, HERE, THERE:
            subprocess.run(["ip", "netns", "del", space], check=False)


def rows_of(files):
    for name in files:
        for found in filter(None, map(LINE.match, pathlib.Path(name).read_text(encoding="utf-8").splitlines())):
            kind, delay, loss, seed, way, *counts = found.groups()
            came, size, seconds, *more = counts
            yield Row(kind, int(delay), float(loss), int(seed), way, int(came), int(size), float(seconds), *map(int, more))


def medians(rows, measure):
    """By kind, delay, loss and way the median of what this function tells of each transfer."""
    groups = collections.defaultdict(list)
    for row in rows:
        groups[row.kind, row.delay, row.loss, row.way].append(measure(row))
    return {key: statistics.median(values) for key, values in groups.items()}


def print_table(title, values, spell):
    """One table: a line for each kind, delay and loss, a column for each way."""
    ways = [way for way in WAYS if any(key[3] == way for key in values)]
    print(f"\n{title}\n\n| | {' | '.join(ways)} |\n|---|{'---|' * len(ways)}")
    for kind, delay, loss in sorted({key[:3] for key in values}, key=lambda key: (KINDS.index(key[0]), *key[1:])):
        cells = (values.get((kind, delay, loss, way)) for way in ways)
        print(f"| {kind}, {delay} ms, {loss:g} % | {' | '.join('' if value is None else spell(value) for value in cells)} |")


def goals(rates, packets):
    """Each goal with what was measured: a way's two ends have the congestion control of RFC 5681, if they are `ftnode`'s."""
    for (kind, delay, loss, way), rate in sorted(rates.items()):
        if not way.endswith("wan"):
            continue
        other = kind, delay, loss, f"kernel-{'bbr' if way.startswith('bbr') else 'reno'}-bare"
        if delay == 50 and loss in (0, 1) and other in rates:
            share = rate / rates[other]
            yield f"{kind}, {delay} ms, {loss:g} %, {way}: {share:.2f} of {other[3]}'s speed, goal 0.5: {'met' if share >= 0.5 else 'missed'}"
        if loss == 0 and other in packets and (kind, delay, loss, way) in packets:
            share = packets[kind, delay, loss, way] / packets[other]
            yield f"{kind}, {delay} ms, {loss:g} %, {way}: {share:.2f} times {other[3]}'s packets, goal 1.4: {'met' if share <= 1.4 else 'missed'}"


def tables(words):
    rows = list(rows_of(words.files))
    rates = medians(rows, lambda row: row.came / row.seconds / 1e6)
    whole = [row for row in rows if row.came == row.size]
    packets = medians(whole, lambda row: row.packets)
    print_table("MB a second", rates, "{:.3f}".format)
    print_table("Packets of a whole transfer, in both directions together", packets, "{:.0f}".format)
    print_table("Packets with text that had been sent before, and acknowledgements that repeat the last one", {
        key: f"{known:.0f}, {medians(whole, lambda row: row.repeated)[key]:.0f}" for key, known in medians(whole, lambda row: row.known).items()}, str)
    print(*["", *goals(rates, packets)], sep="\n")
    late = collections.Counter(row.way for row in rows if row.came < row.size)
    print(f"\n{len(rows)} transfers; not done in time: {', '.join(f'{way} {count}' for way, count in late.items()) or 'none'}")


def words_of():
    parser = argparse.ArgumentParser(description=__doc__, formatter_class=argparse.RawDescriptionHelpFormatter)
    verbs = parser.add_subparsers(dest="verb", required=True)
    go = verbs.add_parser("run")
    go.add_argument("program", type=lambda text: str(pathlib.Path(text).resolve()), help="a built ftnode")
    go.add_argument("--size", type=int, default=2000000)
    for name, kind, values, allowed in (("--delays", int, [0, 16, 50, 150], None), ("--losses", float, [0, 1, 3], None), ("--seeds", int, [1, 2, 3], None),
                                        ("--kinds", str, KINDS, KINDS), ("--ways", str, WAYS, WAYS)):
        go.add_argument(name, type=kind, nargs="+", default=values, choices=allowed)
    go.add_argument("--patience", type=float, default=60, help="seconds")
    verbs.add_parser("table").add_argument("files", nargs="+")
    return parser.parse_args()


def main():
    words = words_of()
    if words.verb == "table":
        return tables(words)
    if not sys.platform.startswith("linux") or os.geteuid() != 0:
        sys.exit("wan: it needs Linux and root")
    signal.signal(signal.SIGTERM, lambda *_: sys.exit("wan: ended"))
    try:
        return run(words)
    except OSError as why:
        sys.exit(f"wan: {why}")


if __name__ == "__main__":
    main()
