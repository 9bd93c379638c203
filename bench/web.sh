#!/usr/bin/env bash
# The web server's speed. First how many megabytes of output a second the service alone makes, beside Transfer: the best of three runs. Then, where root and TUN
# devices allow it, a download of 1,000,000 bytes by curl, through tools/bridge.py from own_node with its logger, and from Python's http.server through
# bench/relay.py, which carries the packets between two TUN devices: three runs of each in turn, and the medians.
#     bench/web.sh
set -eu
. "$(dirname "$0")/common.sh"
build node_cases bench service echo <crates/node_cases/stdin
build own_node web logger --local 127.0.0.1:7043 --turns 1

best() { # NAME INPUT
    local least= start nanoseconds written
    for _ in 1 2 3; do
        start=$(date +%s%N)
        written=$(crates/node_cases/out/node_cases bench service "$1" <"$2")
        nanoseconds=$(($(date +%s%N) - start))
        if [ -z "$least" ] || [ "$nanoseconds" -lt "$least" ]; then least=$nanoseconds; fi
    done
    awk -v name="$1" -v written="$written" -v ns="$least" 'BEGIN { printf "%-8s %6.0f MB/s out\n", name, written * 1000 / ns }'
}

machine
python3 -c 'import sys; sys.stdout.buffer.write(b"\0\0\7\377" * 262144)' >"$work/requests"
# at most 54 requests in a chunk of 2,048 bytes, whose answers have room
python3 -c 'import sys; sys.stdout.buffer.write(b"GET /bytes/19000 HTTP/1.1\r\nHost: a\r\n\r\n" * 30000)' >"$work/pages"
best transfer "$work/requests"
best web "$work/pages"

may_make_devices() {
    [ "$(id -u)" = 0 ] && [ -c /dev/net/tun ] && command -v ip >/dev/null && command -v curl >/dev/null && ip netns add "web$$" 2>/dev/null && ip netns del "web$$"
}
may_make_devices || { echo "no downloads: they need root, curl, ip and TUN devices"; exit 0; }

download() { # NAMESPACE URL
    rm -f "$work/got"
    ip netns exec "$1" curl --silent --show-error --max-time 60 --output "$work/got" --write-out '%{time_total}\n' "$2" &&
        cmp -s "$work/got" "$work/served/bytes" || { echo "web.sh: not all bytes came" >"$work/failed"; exit 1; }
}

# from own_node, in a shell of its own, whose end takes all away that examples/bridged.sh started
through_node() {
    (
        set +eu
        name=web program=crates/own_node/out/own_node loss=0 own=(web) service=()
        . examples/bridged.sh
        start_all
        download "$inside" "http://$server/bytes/1000000"
    )
}

# from Python's http.server, over two TUN devices
through_python() {
    (
        set +eu
        here=weba$$ there=webb$$
        bench/relay.py "tun:weba$$" "tun:webb$$" 0 0 1 >"$work/relay" 2>&1 &
        pids=("$!")
        trap 'kill -9 "${pids[@]}"; wait; ip netns del "$here"; ip netns del "$there"' EXIT
        exec 2>/dev/null
        for _ in {1..100}; do grep -qs up "$work/relay" && break; sleep 0.05; done
        ip=10.78.0.1
        for space in "$here" "$there"; do
            ip netns add "$space"
            ip -n "$space" link set lo up
            ip link set "$space" netns "$space"
            ip -n "$space" addr add "$ip/24" dev "$space"
            ip -n "$space" link set "$space" mtu 1500 up
            ip=10.78.0.2
        done
        ip netns exec "$there" python3 -m http.server --directory "$work/served" --bind 10.78.0.2 80 >"$work/python" 2>&1 &
        pids+=("$!")
        for _ in {1..100}; do ip netns exec "$there" curl --silent --max-time 1 --head --output "$work/head" http://10.78.0.2/ && break; sleep 0.1; done
        download "$here" "http://10.78.0.2/bytes"
    )
}

median() { sort -n "$work/$1" | sed -n 2p; }

mkdir "$work/served"
tools/web_model.py bytes 1000000 >"$work/served/bytes"
for _ in 1 2 3; do
    through_node >>"$work/node"
    through_python >>"$work/kernel"
done
[ ! -e "$work/failed" ] || { cat "$work/failed" >&2; exit 1; }
awk -v a="$(median node)" -v b="$(median kernel)" 'BEGIN {
    printf "a download of 1,000,000 bytes: own_node %.2f s, %.3f MB a second; http.server %.2f s, %.3f MB a second; %.3f of it\n", a, 1 / a, b, 1 / b, b / a
}'
