#!/usr/bin/env bash
# When ftnode's server retransmits a SYN-ACK that isn't acknowledged, with ftnode's logger: without other traffic, and with stray datagrams that another port sends
# to it, one every 10 ms, one every millisecond, and 20,000 a second. Printed are the milliseconds from the first SYN-ACK to each of the next five, the minimum of
# three runs. Each must arrive within twice its time without traffic; the first is sent at the next tick, so a time below one tick counts as one, 24 ms.
#     bench/ticks.sh [PORT] [PROGRAM]       three ports from PORT (default 7300) on; a PROGRAM that is given isn't built
set -eu
. "$(dirname "$0")/common.sh"
base=${1:-7300} ours=${2:-} at=127.0.0.1 count=5 pids=()
if [ -z "$ours" ]; then
    build ftnode logger --local 127.0.0.1:7040 --turns 1
    ours=$PWD/crates/ftnode/out/ftnode
fi
end() {
    for pid in "${pids[@]}"; do
        kill -9 "$pid" 2>/dev/null || true
        wait "$pid" 2>/dev/null || true
    done
    pids=()
}
trap 'end; rm -rf "$work"' EXIT
start() {
    "$@" >"$work/said" 2>&1 &
    pids+=("$!")
}

# one run among so many stray datagrams a second
run() {
    start "$ours" logger --local "$at:$((base + 1))" --turns 1000000
    start "$ours" server --local "$at:$base" --logger "$at:$((base + 1))" --service echo --boot 1 --isn 5000 --turns 1000000
    sleep 0.5
    [ "$1" = 0 ] || start python3 tools/stray.py "$at:$base" "$1"
    sleep 0.2
    python3 bench/ticks.py "$at:$base" "$at:$((base + 2))" $count || true
    end
}

# the least of three runs, place by place
least() {
    for _ in 1 2 3; do run "$1"; done | awk '{ for (i = 1; i <= NF; i++) if (NR == 1 || $i < low[i]) low[i] = $i; n = NF }
        END { for (i = 1; i <= n; i++) printf "%s%d", (i > 1 ? " " : ""), low[i]; print "" }'
}

machine
silence=$(least 0)
[ "$(wc -w <<<"$silence")" = $count ] || { echo "ticks: the server doesn't answer" >&2; exit 1; }
echo "in silence: $silence ms"
status=0
for rate in 100 1000 20000; do
    seen=$(least "$rate")
    late=$(awk -v a="$silence" -v b="$seen" 'BEGIN { n = split(a, x, " "); split(b, y, " "); for (i = 1; i <= n; i++) if (y[i] == "" || y[i] > 2 * (x[i] < 24 ? 24 : x[i])) late++; print late + 0 }')
    echo "among $rate stray datagrams a second: $seen ms, $late of $count later than twice the time in silence"
    [ "$late" = 0 ] || status=1
done
exit $status
