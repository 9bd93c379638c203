#!/usr/bin/env bash
# How fast the gateway (tools/gateway.py) is, in two parts.
# Alone: a C program sends packets of 40 and of 1,440 bytes through it as fast as it can, and nobody takes them. Printed are how many came through in a second, and
# the gateway's processor time for one. Goal: 50,000 packets of 1,440 bytes a second.
# In use: plain clients in three network namespaces echo through it by ftnode's server and logger, and by a kernel's echo server behind the same two hops, three
# times each in turn: one connection of 8 MB, and 16 connections of 1 MB at once; these also with sockets' default buffers of 16 MiB (net.core.rmem_default), which
# it sets back at the end. No socket has window scaling or selective acknowledgements. Printed are medians, their ratio, and the processor time of gateway, server
# and logger for a megabyte each way. That of the gateway includes what the kernel does with its packets at once, up to the clients' TCP. Goal: the gateway takes at
# most 15 % of the three with 16 connections.
#     sudo bench/gateway.sh [PROGRAM]        a built ftnode, by default this checkout's
# Status 0 if both goals are met, 1 if one is missed, 2 if it can't run. The environment may set SECONDS_EACH (4) of the first part and MEGABYTES (8) of the second.
set -eu
program=${1:+$(realpath "$1")}
. "$(dirname "$0")/common.sh"
if [ -z "$program" ]; then
    build ftnode logger --local 127.0.0.1:7040 --turns 1
    program=$PWD/crates/ftnode/out/ftnode
fi
buffers=/proc/sys/net/core/rmem_default usual=$(cat /proc/sys/net/core/rmem_default)
name=gateway seconds=${SECONDS_EACH:-4} megabytes=${MEGABYTES:-8} missed=0 kernel=ftkern$$ kernel_ip=10.79.0.2
. examples/behind_gateway.sh
spaces+=("$kernel")
trap 'set +e; echo "$usual" >$buffers; clean_up; rm -rf "$work"' EXIT
machine
gcc -O2 -Wall -o "$work/flood" bench/flood.c

now() { echo "${EPOCHREALTIME//[!0-9]/}"; }                                       # microseconds
spent_by() { awk '{ printf "%d\n", $1 / 1000 }' "/proc/$1/schedstat"; }           # microseconds of the processor
written() { ip netns exec "$node" cat /sys/class/net/ftn0/statistics/rx_packets; } # packets that the gateway has written inside

# A flood of packets of this size: how many came through, in how many microseconds, and the gateway's time for them
flood() { # BYTES
    local begun packets spent
    begun=$(now) packets=$(written) spent=$(spent_by "$gateway_process")
    ip netns exec "${machines[0]}" "$work/flood" 10.78.1.2 "$service" "$port" "$1" "$seconds" >"$work/sent"
    echo "$(($(written) - packets)) $(($(now) - begun)) $(($(spent_by "$gateway_process") - spent))"
    sleep 1
}

alone() {
    local bytes packets time spent
    start_in "$node" sink python3 -c '
import socket, sys, time
link = socket.socket(type=socket.SOCK_DGRAM)
link.bind((sys.argv[1], int(sys.argv[2])))
time.sleep(1e6)' "$service" "$port"
    sink=$last
    sleep 0.5
    for bytes in 40 1440; do
        for _ in 1 2 3; do flood "$bytes"; done | sort -n >"$work/flood.$bytes"
        read -r packets time spent < <(sed -n 2p "$work/flood.$bytes")
        awk -v bytes="$bytes" -v n="$packets" -v t="$time" -v s="$spent" 'BEGIN {
            goal = bytes == 1440 ? (n / t * 1e6 >= 50000 ? ", goal met" : ", goal MISSED") : ""
            printf "alone, %d bytes: %d packets a second, %.1f us of the processor each, so at most %d a second%s\n", bytes, n / t * 1e6, s / n, n / s * 1e6, goal
            exit goal ~ /MISSED/
        }' || missed=1
    done
    end_by 9 "$sink" || true
}

# A kernel's echo server behind a second link of the server's machine
add_kernel_server() {
    ip netns add "$kernel"
    ip -n "$kernel" link set lo up
    ip link add vkern netns "$host" type veth peer name eth0 netns "$kernel"
    ip -n "$host" addr add 10.79.0.1/24 dev vkern
    ip -n "$host" link set vkern up
    ip -n "$kernel" addr add "$kernel_ip/24" dev eth0
    ip -n "$kernel" link set eth0 up
    ip -n "$kernel" route add default via 10.79.0.1
    start_in "$kernel" kernel.server bench/soak_clients.py serve "$kernel_ip" "$port"
}

# Echoes by so many connections, each of so many bytes; the seconds that it took
echoes() { # ADDRESS CONNECTIONS BYTES
    local spaces=() i done_ time
    for ((i = 0; i < $2; i++)); do spaces+=("${machines[i % 3]}"); done
    bench/soak_clients.py ask "$1" "$port" "$3" 0 0 120 "${spaces[@]}" >"$work/clients"
    read -r _ time _ _ _ _ done_ _ < <(grep '^end' "$work/clients")
    [ "$done_" = "$2" ] || { cat "$work/clients" >&2; exit 1; }
    echo "$time"
}

median() { sort -g "$work/$1" | sed -n 2p; }

# The processor time that each of the three has taken
note_times() {
    local process
    for process in gateway server logger; do
        local number=${process}_process
        spent_by "${!number}" >>"$work/$process"
    done
}

# The numbers of a series in a line: connections, megabytes, buffers, seconds by ours and by the kernel's, and the times of the three before and after
in_use() { # CONNECTIONS
    local bytes=$((megabytes * 1000000)) all=$megabytes
    [ "$1" = 1 ] || { bytes=1000000 all=$1; }
    rm -f "$work"/{ours,kernels,gateway,server,logger}
    start_logger
    boot=$((boot + 1))
    start_server "$boot"
    sleep 1
    note_times
    for _ in 1 2 3; do
        echoes "$service" "$1" "$bytes" >>"$work/ours"
        echoes "$kernel_ip" "$1" "$bytes" >>"$work/kernels"
    done
    note_times
    end_by 9 "$server_process" || true
    end_by 9 "$logger_process" || true
    echo "$1 $all $(cat $buffers) $(median ours) $(median kernels) $(cat "$work"/{gateway,server,logger} | tr '\n' ' ')"
}

show() {
    awk '{
        all = 3 * $2; gateway = ($7 - $6) / 1000; server = ($9 - $8) / 1000; logger = ($11 - $10) / 1000; share = 100 * gateway / (gateway + server + logger)
        goal = $1 == 16 ? (share <= 15 ? ", goal met" : ", goal MISSED") : ""
        printf "%d connections, buffers of %d bytes: %.2f MB a second each way; the kernel server %.2f; ratio %.3f\n", $1, $3, $2 / $4, $2 / $5, $5 / $4
        printf "    processor time for a megabyte: gateway %.1f ms, server %.1f, logger %.1f; ", gateway / all, server / all, logger / all
        printf "the gateway %.1f %% of them%s\n", share, goal
        exit goal ~ /MISSED/
    }' "$work/series" || missed=1
}

add_machines
for space in "${machines[@]}"; do ip netns exec "$space" sh -c 'cd /proc/sys/net/ipv4; echo 0 >tcp_window_scaling; echo 0 >tcp_sack'; done
start_gateway
alone
add_kernel_server
boot=0
in_use 1 >"$work/series" && show
in_use 16 >"$work/series" && show
echo 16777216 >$buffers
in_use 16 >"$work/series" && show
stop_gateway
exit $missed
