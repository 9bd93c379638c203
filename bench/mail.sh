#!/usr/bin/env bash
# How many small messages a second are accepted over one connection, pipelined (bench/mail_client.py): by own_node's receiver of mail, whose logger has a journal on
# this disk, through tools/bridge.py; and by other receivers that this machine has (Postfix, which queues each message on the disk and discards it; aiosmtpd, which
# keeps none), over bench/relay.py, which carries the packets between two TUN devices. RUNS runs of each (3) in turn, and the medians.
#     sudo bench/mail.sh [COUNT]        default: 10000 messages
# The environment may set PYTHON, a python3 that has aiosmtpd (/usr/bin/python3), and PROGRAM, a built own_node. Status 2 where it can't run.
set -eu
count=${1:-10000}
. "$(dirname "$0")/common.sh"
[ "$(id -u)" = 0 ] && [ -c /dev/net/tun ] && command -v ip >/dev/null || { echo "mail.sh: not run: it needs root, ip and TUN devices" >&2; exit 2; }
[ -n "${PROGRAM:-}" ] || build own_node mail logger --local 127.0.0.1:7043 --turns 1
program=$(realpath "${PROGRAM:-crates/own_node/out/own_node}") python=${PYTHON:-/usr/bin/python3}

send() { # NAMESPACE ADDRESS PORT
    ip netns exec "$1" bench/mail_client.py "$2" "$3" "$count" || { echo "mail.sh: not all messages were accepted" >"$work/failed"; exit 1; }
}

# by own_node, in a shell of its own, whose end takes all away that examples/bridged.sh started
own_node() {
    (
        set +eu
        name=mail loss=0 own=(mail) service=()
        . examples/bridged.sh
        server=10.77.0.2:25
        add_spaces
        begin_logger --journal "$room/journal" --begin yes
        start_server 1
        start_bridge
        send "$inside" "${server%:*}" "${server#*:}"
    )
}

# Runs a receiver on port 25 behind two TUN devices.
over_relay() { # WORD..: a command that starts the receiver, in the foreground
    (
        set +eu
        here=maila$$ there=mailb$$
        rm -f "$work/relay" # of the receiver before
        bench/relay.py "tun:$here" "tun:$there" 0 0 1 >"$work/relay" 2>&1 &
        pids=("$!")
        trap 'exec 2>/dev/null; ip netns pids "$there" | xargs -r kill -9; kill -9 "${pids[@]}"; wait; ip netns del "$here"; ip netns del "$there"' EXIT
        for _ in {1..600}; do grep -qs up "$work/relay" && break; sleep 0.05; done
        ip=10.78.0.1
        for space in "$here" "$there"; do
            ip netns add "$space"
            ip -n "$space" link set lo up
            ip link set "$space" netns "$space"
            ip -n "$space" addr add "$ip/24" dev "$space"
            ip -n "$space" link set "$space" mtu 1500 up
            ip=10.78.0.2
        done
        ip netns exec "$there" "$@" >"$work/receiver" 2>&1 &
        pids+=("$!")
        for _ in {1..300}; do ip netns exec "$here" bash -c 'exec 3<>/dev/tcp/10.78.0.2/25' 2>/dev/null && break; sleep 0.1; done
        send "$here" 10.78.0.2 25
    )
}

aiosmtpd() { over_relay "$python" -m aiosmtpd --nosetuid --class aiosmtpd.handlers.Sink --listen 10.78.0.2:25; }

# A Postfix of its own, below $work: it takes mail for mail.example, and discards it.
postfix() {
    chmod 711 "$work"
    over_relay bench/postfix.sh "$work/postfix" 10.78.0.2
}

receivers=(own_node)
type -P postfix >/dev/null && receivers+=(postfix)
"$python" -c 'import aiosmtpd' 2>/dev/null && receivers+=(aiosmtpd)
runs=${RUNS:-3}
for ((run = 0; run < runs; run++)); do
    for receiver in "${receivers[@]}"; do
        "$receiver" >>"$work/of.$receiver"
        [ ! -e "$work/failed" ] || { cat "$work/failed" "$work/receiver" >&2; exit 1; }
    done
done
median() { sort -n "$work/of.$1" | sed -n "$((runs / 2 + 1))p"; }
own=$(median own_node)
for receiver in "${receivers[@]}"; do
    median "$receiver" | awk -v name="$receiver" -v count="$count" -v own="$own" '{
        printf "%-9s %6.0f messages a second; own_node has %.2f of it\n", name, count / $1, $1 / own
    }'
done
