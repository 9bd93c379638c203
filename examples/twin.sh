#!/usr/bin/env bash
# Two loggers that act as one, of which one dies: a client of ftnode sends 200,000 bytes to an echo of ftnode whose log a head and a tail keep, all of them processes
# on the loopback. When 20,000 bytes have come back, one of the two loggers is killed (kill -9), and the other is told three times that it serves alone. When 40,000
# have, the server is killed too, and started again with the next boot number. The client has to end with 0 and to have all its bytes. The head is killed in the
# first half of the runs, the tail in the second. A run takes a few seconds. It wants a built ftnode:
#     examples/twin.sh [PROGRAM] [RUNS] [PORT]
# PROGRAM is crates/ftnode/out/ftnode and RUNS, for each of the two, 10 where nothing is said; it takes five ports from PORT (7120) on. The environment may set PROFILE
# (wan), which all of them get.
set -u
cd "$(dirname "$0")/.." || exit 2
program=$(realpath "${1:-crates/ftnode/out/ftnode}") runs=${2:-10} base=${3:-7120} bytes=200000
[ -x "$program" ] || { echo "twin: there is no program $program; build it: (cd crates/ftnode && rt run)" >&2; exit 2; }
server=127.0.0.1:$base head=127.0.0.1:$((base + 1)) tail=127.0.0.1:$((base + 2)) client=127.0.0.1:$((base + 3)) teller=127.0.0.1:$((base + 4))
room=$(mktemp -d) profile=(${PROFILE:+--profile "$PROFILE"})
pids=()
end_all() { for pid in "${pids[@]}"; do { kill -9 "$pid" && wait "$pid"; } 2>/dev/null; done; pids=(); }
trap 'end_all; rm -rf "$room"' EXIT

start() { # NAME WORD..: its process number is in `last`
    local name=$1
    shift
    "$program" "$@" >"$room/$name.out" 2>"$room/$name.err" &
    last=$!
    pids+=("$last")
}
start_server() { # BOOT
    start "server.$1" server --local "$server" --logger "$head" --second "$tail" --service echo --boot "$1" --isn $((5000 + $1)) --turns 1000000 "${profile[@]}"
}
end() { { kill -9 "$1" && wait "$1"; } 2>/dev/null; } # PROCESS

one_run() { # VICTIM: 0 where all bytes came
    local head_pid tail_pid server_pid client_pid survivor status=0
    rm -rf "$room"/*
    start head logger --local "$head" --turns 1000000 --part head --other "$tail" "${profile[@]}"
    head_pid=$last
    start tail logger --local "$tail" --turns 1000000 --part tail --other "$head" "${profile[@]}"
    tail_pid=$last
    start_server 1
    server_pid=$last
    # The client writes into a pipe: behind what is read from it, only what the pipe and the client's TCP hold can have come.
    mkfifo "$room/client.out"
    start client client --local "$client" --server "$server" --isn 1000 --turns 1000000 "${profile[@]}" --script "fill:$bytes"
    client_pid=$last
    exec 3<"$room/client.out"
    head -c 20000 <&3 >"$room/came"
    [ "$1" = head ] && { end "$head_pid"; survivor=$tail; } || { end "$tail_pid"; survivor=$head; }
    for _ in 1 2 3; do
        [ "$("$program" alone --local "$teller" --to "$survivor")" = "sent 1 lost 0" ] || { echo "an Alone wasn't sent"; status=1; }
    done
    head -c 20000 <&3 >>"$room/came"
    end "$server_pid"
    start_server 2
    cat <&3 >>"$room/came"
    exec 3<&-
    wait "$client_pid" || { echo "the client ended with $?: $(cat "$room/client.err")"; status=1; }
    cmp "$wanted" "$room/came" || status=1
    end_all
    return $status
}

passed=0
wanted=$(mktemp)
awk -v n="$bytes" 'BEGIN { for (i = 0; i < n; i++) printf "%c", 97 + i % 26 }' >"$wanted"
for victim in head tail; do
    for ((run = 1; run <= runs; run++)); do
        SECONDS=0
        if one_run "$victim"; then
            passed=$((passed + 1))
            echo "the $victim dies, run $run: passed in $SECONDS seconds"
        else
            echo "the $victim dies, run $run: FAILED"
        fi
    done
done
rm -f "$wanted"
echo "twin: $passed of $((2 * runs)) passed"
[ $passed = $((2 * runs)) ]
