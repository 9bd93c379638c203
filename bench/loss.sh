#!/usr/bin/env bash
# How long it takes to echo SIZE bytes over a path (bench/relay.py) that loses packets and delays each by 8 ms in each direction: by ftnode's own client through
# server and logger; where root and TUN devices allow it, by a kernel's client through tools/bridge.py to ftnode's server; and by two of the kernel's sockets in
# network namespaces. The kernel's sockets have no window scaling and no selective acknowledgements. Each runs with three seeds, alternately, at each loss. Printed
# are the seconds, the medians and their ratios. A kernel's transfer that isn't done in five minutes is reported so, and counts as longer than all others.
#     bench/loss.sh [PROGRAM [OLDER]]     a built ftnode, by default this checkout's; and an older one to compare with
# The environment may set SIZE (500000), LOSS (1; a list of percents such as "0 1 3 5"), DELAY (8, in ms), SWAPPED and FLIPPED (0, percents of packets that are late
# or have a flipped bit), PORT (7300) and CONTROL (the congestion control of the kernel's sockets, such as reno; by default the system's).
set -eu
older=${2:+$(realpath "$2")} program=${1:+$(realpath "$1")}
. "$(dirname "$0")/common.sh"
size=${SIZE:-500000} losses=${LOSS:-1} delay=${DELAY:-8} swapped=${SWAPPED:-0} flipped=${FLIPPED:-0} base=${PORT:-7300} at=127.0.0.1
control=${CONTROL:-$(cat /proc/sys/net/ipv4/tcp_congestion_control 2>/dev/null || true)}
if [ -z "$program" ]; then
    build ftnode logger --local 127.0.0.1:7040 --turns 1
    program=$PWD/crates/ftnode/out/ftnode
fi
here=loss_a$$ there=loss_b$$ pids=()
clean_up() {
    for pid in "${pids[@]}"; do kill -9 "$pid" 2>/dev/null || true; done
    ip netns del "$here" 2>/dev/null || true
    ip netns del "$there" 2>/dev/null || true
    rm -rf "$work"
}
trap clean_up EXIT

# starts something in the background; its process number is in `last`, and what it prints in a file of its name
start() { # NAME WORD..
    local name=$1
    shift
    rm -f "$work/$name"
    "$@" >"$work/$name" 2>"$work/$name.err" &
    last=$!
    pids+=("$last")
}

# starts the relay and waits until it is up
relay() { # LISTEN TARGET SEED
    start relay bench/relay.py "$1" "$2" "$loss" "$delay" "$3" "$swapped" "$flipped"
    relay_pid=$last
    for _ in {1..100}; do
        grep -qs up "$work/relay" && return
        sleep 0.05
    done
    echo "loss.sh: the relay doesn't start: $(cat "$work/relay.err")" >&2
    exit 1
}

# ends what was started
finish() {
    kill "$relay_pid"
    wait "$relay_pid" || true
    tail -n 1 "$work/relay" >"$work/counts"
    for pid in "${pids[@]}"; do { kill -9 "$pid" && wait "$pid"; } 2>/dev/null || true; done
    pids=()
}

told() { # NAME SECONDS
    echo "$2" >>"$work/$1.seconds"
    if [ "$2" = inf ]; then
        echo "$1: not done: $(cat "$work/why"); $(cat "$work/counts")"
        return
    fi
    awk -v name="$1" -v s="$2" -v n="$size" -v counts="$(cat "$work/counts")" 'BEGIN { printf "%s: %.2f s, %.3f MB a second; %s\n", name, s, n / s / 1e6, counts }'
}

# starts a logger, a server and the relay before it
serve_behind_relay() { # PROGRAM SEED
    start logger "$1" logger --local "$at:$((base + 1))" --turns 1000000
    sleep 0.2
    start server "$1" server --local "$at:$base" --logger "$at:$((base + 1))" --service echo --boot 1 --isn 1007 --turns 1000000
    relay "$at:$((base + 3))" "$at:$base" "$2"
}

# Echo by a built ftnode
through_ftnode() { # NAME PROGRAM SEED
    local begun ended status=0
    serve_behind_relay "$2" "$3"
    begun=$(date +%s%N)
    "$2" client --local "$at:$((base + 2))" --server "$at:$((base + 3))" --isn 1000 --turns 1000000 <"$work/script" >"$work/back" 2>"$work/client.err" || status=$?
    ended=$(date +%s%N)
    finish
    if [ "$status" != 0 ] || ! cmp -s "$work/script" "$work/back"; then
        echo "$1: the client ended with $status ($(cat "$work/client.err")), and $(stat -c %s "$work/back") bytes came" >&2
        exit 1
    fi
    told "$1" "$(awk -v ns=$((ended - begun)) 'BEGIN { print ns / 1e9 }')"
}

# a network namespace whose sockets have neither window scaling nor selective acknowledgements, and this congestion control
add_space() { # NAME
    ip netns add "$1"
    ip netns exec "$1" sh -c "cd /proc/sys/net/ipv4; echo 0 >tcp_window_scaling; echo 0 >tcp_sack; echo $control >tcp_congestion_control"
}

# Echo by a client of the kernel, through the bridge, to a built ftnode
through_bridge() { # SEED
    local seconds
    serve_behind_relay "$program" "$1"
    add_space "$here"
    start bridge tools/bridge.py --client 10.78.0.1 --server 10.78.0.2:7 --node "$at:$((base + 3))" --local "$at" --netns "$here" --device "lossc$$"
    for _ in {1..100}; do
        grep -qs up "$work/bridge" && break
        sleep 0.05
    done
    seconds=$(ip netns exec "$here" bench/socket_echo.py ask 10.78.0.2 7 "$work/script" 2>"$work/why") || seconds=inf
    finish
    ip netns del "$here"
    told bridged "$seconds"
}

# whether network namespaces and TUN devices can be made here
may_make_devices() {
    [ "$(id -u)" = 0 ] && [ -c /dev/net/tun ] && command -v ip >/dev/null && ip netns add "$here" 2>/dev/null && ip netns del "$here"
}

# Echo by two sockets of the kernel
through_kernel() { # SEED
    local ip=10.78.0.1 space seconds
    relay "tun:lossa$$" "tun:lossb$$" "$1"
    for space in "$here" "$there"; do
        add_space "$space"
        ip link set "loss${space:5:1}$$" netns "$space"
        ip -n "$space" addr add "$ip/24" dev "loss${space:5:1}$$"
        ip -n "$space" link set "loss${space:5:1}$$" mtu 1500 up
        ip=10.78.0.2
    done
    start serve ip netns exec "$there" bench/socket_echo.py serve 10.78.0.2 7
    sleep 0.5
    seconds=$(ip netns exec "$here" bench/socket_echo.py ask 10.78.0.2 7 "$work/script" 2>"$work/why") || seconds=inf
    finish
    ip netns del "$here"
    ip netns del "$there"
    told kernel "$seconds"
}

median() { sort -g "$work/$1.seconds" | sed -n 2p; }

# three runs of each at this loss, in turn, and what their medians are
compare_at() { # LOSS
    loss=$1
    echo "$size bytes each way, $loss % lost, $swapped % swapped, $flipped % with a flipped bit, $delay ms each way"
    rm -f "$work"/*.seconds
    for seed in 1 2 3; do
        through_ftnode ftnode "$program" "$seed"
        [ -n "$older" ] && through_ftnode older "$older" "$seed"
        if [ -n "$kernel" ]; then
            through_bridge "$seed"
            through_kernel "$seed"
        fi
    done
    for other in ${older:+older} ${kernel:+kernel}; do
        for one in ftnode ${kernel:+bridged}; do
            awk -v a="$(median "$one")" -v b="$(median "$other")" -v one="$one" -v other="$other" 'BEGIN {
                if (a == "inf" || b == "inf") { print "median of " one ", of " other ": not done in five minutes"; exit }
                printf "median of %s %.2f s, of %s %.2f s: as fast as %s: %.3f\n", one, a, other, b, other, b / a
            }'
        done
    done
}

machine
awk -v n="$size" 'BEGIN { for (i = 1; i <= n; i++) printf "%c", i % 64 ? 97 + i % 26 : 10 }' >"$work/script"
if may_make_devices; then
    kernel=yes
    echo "sockets of the kernel have the congestion control $control"
else
    kernel=''
    echo "no sockets of the kernel: they need root, ip and TUN devices"
fi
for each in $losses; do compare_at "$each"; done
