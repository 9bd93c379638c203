#!/usr/bin/env bash
# Two loggers of ftnode beside one, as processes over UDP on this machine's loopback, in one run: a client that sends SIZE bytes (3,000,000 unless one is given) and
# reads their echo, by the least time of three turns each, taken in turn, with the counts of the loggers' calls; then the time from Open to Opened, and bursts of 64
# messages (bench/twin_messages.py). Each time the client has to end with 0 and its bytes to be the script's.
#     bench/twin_ftnode.sh [SIZE] [PORT]        five ports from PORT (7300) on
set -eu
. "$(dirname "$0")/common.sh"
size=${1:-3000000} base=${2:-7300}
build ftnode logger --local 127.0.0.1:7040 --turns 1
ours=$PWD/crates/ftnode/out/ftnode
server=127.0.0.1:$base first=127.0.0.1:$((base + 1)) second=127.0.0.1:$((base + 2)) client=127.0.0.1:$((base + 3))
pids=()
end_all() { for pid in "${pids[@]}"; do { kill -9 "$pid" && wait "$pid"; } 2>/dev/null || true; done; pids=(); }
trap 'end_all; rm -rf "$work"' EXIT

start() { # NAME WORD..
    local name=$1
    shift
    "$ours" "$@" >"$work/$name" 2>&1 &
    pids+=("$!")
}

# The loggers, whose turns end within seconds of silence, so that they tell their counts
loggers() { # one|two TURNS
    if [ "$1" = one ]; then
        start first logger --local "$first" --turns "$2"
        second_words=() at=("$first")
    else
        start first logger --local "$first" --turns "$2" --part head --other "$second"
        start second logger --local "$second" --turns "$2" --part tail --other "$first"
        second_words=(--second "$second") at=("$first" "$second")
    fi
    sleep 0.2
}

echo_through() { # one|two: nanoseconds in `taken`
    local begun
    loggers "$1" 1000000
    start server server --local "$server" --logger "$first" "${second_words[@]}" --service echo --boot 1 --isn 5000 --turns 1000000
    begun=$(date +%s%N)
    "$ours" client --local "$client" --server "$server" --isn 1000 --turns 1000000 --script "fill:$size" >"$work/came"
    taken=$(($(date +%s%N) - begun))
    cmp "$work/wanted" "$work/came"
    end_all
}

machine
awk -v n="$size" 'BEGIN { for (i = 0; i < n; i++) printf "%c", 97 + i % 26 }' >"$work/wanted"
least_one=999999999999 least_two=999999999999
for _ in 1 2 3; do
    echo_through one
    ((taken < least_one)) && least_one=$taken
    echo_through two
    ((taken < least_two)) && least_two=$taken
done
awk -v n="$size" -v a="$least_one" -v b="$least_two" 'BEGIN {
    printf "%d bytes sent and answered: %.2f MB a second with one logger, %.2f with two; as 1 to %.2f\n", n, n * 1e3 / a, n * 1e3 / b, a / b
}'
for how in one two; do
    loggers "$how" 1000000
    echo "$how:"
    python3 bench/twin_messages.py "$server" "${at[@]}"
    end_all
done
