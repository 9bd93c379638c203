#!/bin/sh
# Makes the network namespace of ftnode and the two devices of its gateway on the server's machine, or removes them. It needs root, ip and nft:
#     SERVICES=10.77.0.2 INNER=10.77.0.3 examples/systemd/netns.sh up
#     examples/systemd/netns.sh down
# The environment has lists of addresses, and more:
#     SERVICES  what clients connect to. None of them may be an address of the machine itself: its kernel would answer clients by a reset
#     INNER     further addresses of the namespace, of loggers that run in it
#     REMOTE    the hosts of loggers on other machines, whose UDP the gateway passes (--pass)
#     MTU       of the way to these (1500). A message with a full segment has 1,519 bytes: where the route isn't told, it is sent whole, and lost
#     SYNPROXY  yes: the kernel's SYN proxy is in front (ftnode-synproxy.nft)
#     NETNS     the namespace's name (ftnode)
# It also raises the machine's default for sockets' buffers to 16 MiB, where that is allowed: a datagram that finds a full buffer is lost, and the usual 212,992 bytes are
# too few for several clients at full speed.
set -eu
here=$(dirname "$0") space=${NETNS:-ftnode} room=/proc/sys/net/core/rmem_default

up() {
    [ ! -w $room ] || [ "$(cat $room)" -ge 16777216 ] || echo 16777216 >$room
    echo 1 >/proc/sys/net/ipv4/ip_forward
    ip netns add "$space"
    ip -n "$space" link set lo up
    ip tuntap add dev ftgw0 mode tun
    ip link set ftgw0 mtu 1500 txqueuelen 10000 up
    # a datagram has 28 bytes more than the packet in it
    ip -n "$space" tuntap add dev ftn0 mode tun
    ip -n "$space" link set ftn0 mtu 1528 txqueuelen 10000 up
    ip -n "$space" route add default dev ftn0
    for address in ${SERVICES:-}; do ip route add "$address/32" dev ftgw0; done
    for address in ${SERVICES:-} ${INNER:-}; do ip -n "$space" addr add "$address/32" dev lo; done
    for address in ${REMOTE:-}; do ip -n "$space" route add "$address/32" dev ftn0 mtu "${MTU:-1500}"; done
    nft -f "$here/ftnode.nft"
    [ "${SYNPROXY:-no}" != yes ] || syn_proxy
}

syn_proxy() {
    nft -f "$here/ftnode-synproxy.nft"
    echo 0 >/proc/sys/net/netfilter/nf_conntrack_tcp_loose
    echo 1 >/proc/sys/net/ipv4/tcp_syncookies
    echo 1 >/proc/sys/net/ipv4/tcp_timestamps
}

# The inner device is removed by name: a gateway that still has it open would keep it, and the namespace, alive.
down() {
    for table in ftnode ftnode_synproxy; do nft delete table ip "$table" 2>/dev/null || true; done
    ip link del ftgw0 || true
    ip -n "$space" link del ftn0 || true
    ip netns del "$space" || true
}

case ${1:-} in
up) up ;;
down) down ;;
*) sed -n '2,11s/^# //p' "$0" >&2; exit 2 ;;
esac
