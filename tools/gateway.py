#!/usr/bin/env python3
"""The server's side of `ftnode` for unchanged TCP clients: a gateway between two TUN devices. Nothing runs on the clients' machines.

    tools/gateway.py [--outside ftgw0] [--inside ftn0] [--netns ftnode] [--pass ADDRESS].. [--user nobody]

The kernel routes the service's addresses into the device --outside. `ftnode` runs in the network namespace --netns, whose default route is the device --inside.
A TCP packet that comes from outside is written inside as the UDP datagram that `ftnode` expects: the packet with 28 bytes in front, which are an IPv4 and a UDP
header with the packet's own addresses and ports. A datagram that comes from inside is written outside without these 28 bytes, if what follows is a TCP packet
with the datagram's own addresses and ports. Nothing else gets through, except, unchanged, UDP from and to the addresses of --pass: loggers on other machines.

It knows no service and no client, and keeps no state, so it may end and be started again at any time: what is lost meanwhile is retransmitted. Both devices have
to exist already (`ip tuntap add`), so that routes stay while it is down. If systemd keeps its descriptors meanwhile (FileDescriptorStoreMax=2), next to nothing is
lost.

It needs Linux, root at its start, and only Python's standard library. It then becomes --user, and has no right left. SIGUSR1 has it print how many packets it has
carried and refused; SIGTERM ends it with the same line. It is outside the proofs: nothing about it is proved.
"""
import argparse
import contextlib
import errno
import os
import pwd
import select
import signal
import socket
import sys
import time

import tun
from internet import address

TCP, UDP = 6, 17
HEADERS = 28  # bytes of an IPv4 and a UDP header
LONGEST = 1500  # bytes of a packet that `ftnode` reads
ROOM = 2048  # more than a packet of either device
BURST = 64
NO_NEW_RIGHTS = 38  # PR_SET_NO_NEW_PRIVS
PATIENCE = 2  # seconds until a descriptor that systemd was told to forget is closed


def is_whole(packet, protocol):
    """Whether it is one IPv4 packet of this protocol, as long as its header says, without options and not a fragment."""
    return (len(packet) >= HEADERS and packet[0] == 0x45 and packet[9] == protocol and packet[2] << 8 | packet[3] == len(packet)
            and not packet[6] & 0x3F and not packet[7])


def headers_for(packet):
    """The IPv4 and UDP headers of the datagram that holds this packet. The first is the packet's own, with a length greater by 28 and a protocol greater by 11, so
    its checksum is less by 39 (RFC 1624), and wrong exactly if the packet's is. A UDP checksum of 0 says that there is none."""
    length = len(packet) + HEADERS
    checksum = packet[10] << 8 | packet[11]
    checksum -= 39 if checksum >= 39 else 39 - 0xFFFF
    return (packet[:2] + length.to_bytes(2, "big") + packet[4:9] + b"\x11" + checksum.to_bytes(2, "big") + packet[12:24]
            + (length - 20).to_bytes(2, "big") + b"\0\0")


def enclosed(packet):
    """The datagram for a packet from outside, in two parts; None if it isn't TCP as `ftnode` reads it."""
    if 40 <= len(packet) <= LONGEST and is_whole(packet, TCP):
        return headers_for(packet), packet
    return None


def released(datagram):
    """The packet in a datagram from inside; None if it isn't TCP, or has other addresses or ports than the datagram."""
    packet = datagram[HEADERS:]
    if len(packet) >= 40 and is_whole(datagram, UDP) and is_whole(packet, TCP) and datagram[12:24] == packet[12:24]:
        return packet
    return None


def ends_in(packet, passed, host, port):
    """Whether this is UDP with one of these addresses at these places of its headers. A fragment other than the first has no ports, so of fragments only the host
    is compared; what `ftnode` sends to clients is never fragmented."""
    if len(packet) < HEADERS or packet[0] != 0x45 or packet[9] != UDP:
        return False
    is_fragment = packet[6] & 0x3F or packet[7]
    return any(packet[host:host + 4] == ip and (is_fragment or packet[port:port + 2] == number) for ip, number in passed)


def waiting(device):
    """The packets that a device has, at most BURST, so that the other device gets its turn."""
    with contextlib.suppress(BlockingIOError):
        for _ in range(BURST):
            yield os.read(device, ROOM)


class Gateway:
    """The two devices, the addresses whose UDP passes, and the counts."""

    def __init__(self, outside, inside, passed=()):
        self.outside, self.inside = outside, inside
        self.passed = [(ip, port.to_bytes(2, "big")) for ip, port in passed]
        self.to_server = self.to_clients = self.through = self.refused = self.lost = 0

    def put(self, device, *parts):
        """Writes a packet, and says whether it was written. If the device is down, or the kernel refuses the packet, it is lost as in any network."""
        try:
            os.writev(device, parts)
            return True
        except OSError as why:
            if why.errno == errno.EBADFD:
                raise
            self.lost += 1
            return False

    def from_outside(self):
        for packet in waiting(self.outside):
            if parts := enclosed(packet):
                self.to_server += self.put(self.inside, *parts)
            elif self.passed and ends_in(packet, self.passed, 12, 20):
                self.through += self.put(self.inside, packet)
            else:
                self.refused += 1

    def from_inside(self):
        for datagram in waiting(self.inside):
            if packet := released(datagram):
                self.to_clients += self.put(self.outside, packet)
            elif self.passed and ends_in(datagram, self.passed, 16, 22):
                self.through += self.put(self.outside, datagram)
            else:
                self.refused += 1

    def run(self):
        poll = select.epoll()
        takes = {self.outside: self.from_outside, self.inside: self.from_inside}
        for device in takes:
            poll.register(device, select.EPOLLIN)
        while True:
            for device, _ in poll.poll():
                takes[device]()

    def counts(self):
        return (f"gateway: to the server {self.to_server}, to clients {self.to_clients}, passed through {self.through}, refused {self.refused}, "
                f"lost {self.lost}")


def kept():
    """The descriptors that systemd has kept for us since an earlier run, by name."""
    if os.environ.get("LISTEN_PID") != str(os.getpid()):
        return {}
    names = os.environ.get("LISTEN_FDNAMES", "").split(":")
    return {name: 3 + number for number, name in enumerate(names[:int(os.environ.get("LISTEN_FDS", "0"))])}


def tell(message, *descriptors):
    """Sends systemd a message, if it is systemd that started us."""
    where = os.environ.get("NOTIFY_SOCKET")
    if where:
        with socket.socket(socket.AF_UNIX, socket.SOCK_DGRAM) as link:
            link.connect("\0" + where[1:] if where[0] == "@" else where)
            socket.send_fds(link, [message.encode()], descriptors)


def attach(name, netns):
    """A descriptor of a device that exists. One that systemd has just been told to forget may hold it for a moment still."""
    until = time.monotonic() + PATIENCE
    with tun.inside(netns):
        if tun.is_up(name) is None:
            raise OSError(errno.ENODEV, f"{name}: there is no such device; make it by `ip tuntap add`")
        while True:
            try:
                return tun.attach(name)
            except OSError as why:
                if why.errno != errno.EBUSY or time.monotonic() > until:
                    raise
            time.sleep(0.05)


def descriptors(wanted):
    """A descriptor for each of the wanted devices, which are a name and a namespace: those that systemd kept, and where there is none of that device, a new one,
    which systemd then keeps."""
    held = kept()
    for role, (name, netns) in wanted.items():
        if role in held and not tun.is_of(held[role], name, netns):
            os.close(held.pop(role))
            tell(f"FDSTOREREMOVE=1\nFDNAME={role}")
        if role not in held:
            held[role] = attach(name, netns)
            tell(f"FDSTORE=1\nFDNAME={role}", held[role])
    return held


def become(name):
    """Gives all rights up for good."""
    user = pwd.getpwnam(name)
    os.setgroups([])
    os.setresgid(user.pw_gid, user.pw_gid, user.pw_gid)
    os.setresuid(user.pw_uid, user.pw_uid, user.pw_uid)
    tun.system_call("prctl", NO_NEW_RIGHTS, 1, 0, 0, 0)


def words_of():
    parser = argparse.ArgumentParser(description=__doc__, formatter_class=argparse.RawDescriptionHelpFormatter)
    parser.add_argument("--outside", default="ftgw0", metavar="DEVICE", help="the TUN device into which the service's addresses are routed")
    parser.add_argument("--inside", default="ftn0", metavar="DEVICE", help="the TUN device in the namespace")
    parser.add_argument("--netns", default="ftnode", metavar="NAME", help="the network namespace of ftnode")
    parser.add_argument("--pass", dest="passed", type=address, action="append", default=[], metavar="ADDRESS", help="a logger on another machine; may be repeated")
    parser.add_argument("--user", default="nobody", metavar="NAME", help="who it is once it has both devices")
    return parser.parse_args()


def stop(*_):
    raise KeyboardInterrupt


def main():
    words = words_of()
    if not sys.platform.startswith("linux") or os.geteuid() != 0:
        sys.exit("gateway: it needs Linux and root")
    try:
        held = descriptors({"outside": (words.outside, None), "inside": (words.inside, words.netns)})
        gateway = Gateway(held["outside"], held["inside"], words.passed)
        signal.signal(signal.SIGTERM, stop)
        signal.signal(signal.SIGUSR1, lambda *_: print(gateway.counts(), flush=True))
        tell("READY=1")
        become(words.user)
        print("gateway: up", flush=True)
        gateway.run()
    except (OSError, KeyError) as why:
        sys.exit(f"gateway: {why}")
    except KeyboardInterrupt:
        print(gateway.counts(), flush=True)


if __name__ == "__main__":
    main()
