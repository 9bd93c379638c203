#!/usr/bin/env bash
# A log that survives the death of its logger. A kernel's TCP client, through tools/bridge.py, and ftnode's own client each send 2,000,000 bytes to an echo server
# of ftnode, whose logger has a journal. The file is replaced by a new one when it has more than a megabyte, and at each start from then on. During the transfers the
# server and the logger are each killed (kill -9) 30 times, independently and at random moments, and started again: the server with the next boot number, the logger
# with the same words. Both clients must get all bytes back, and at the end the journal must open once more. The moments and the bytes are drawn from a seed, which
# is printed. It makes two network namespaces and a TUN device, and removes them at the end.
# A run takes about a minute. It needs root and a built ftnode:
#     sudo examples/logger_crash.sh [PROGRAM] [RUNS] [SEED]
# Defaults: PROGRAM crates/ftnode/out/ftnode, RUNS 10, SEED random. SEED is the first run's seed; each further run has the next number.
set -u
cd "$(dirname "$0")/.." || exit 2
name=logger_crash program=${1:-crates/ftnode/out/ftnode} runs=${2:-10} seed=${3:-$RANDOM} loss=0 own=() service=(--service echo)
bytes=2000000 kills=30 own_client=10.77.0.4

# The shell prints nothing about killed processes.
end_by() { # SIGNAL PROCESS: its status
    { kill "-$1" "$2" && wait "$2"; } 2>/dev/null
}

start_logger() { # NUMBER
    ip netns exec "$outside" "$program" logger --local "$logger" --turns 1000000 --journal "$room/journal" --compact 1000000 >"$room/logger.$1" 2>&1 &
    process=$!
}
# Makes the journal, in a run of one turn.
make_journal() {
    ip netns exec "$outside" "$program" logger --local "$logger" --turns 1 --journal "$room/journal" --begin yes >"$room/made" 2>&1 || { cat "$room/made"; exit 1; }
}
start_numbered_server() { # BOOT
    start_server "$1"
    process=$server_process
}

# Starts a process by START, kills it at moments that are drawn from the seed, and starts it again. It runs until it is killed itself.
kill_again() { # NAME START SEED
    RANDOM=$3
    trap '{ kill -9 "$process" && wait "$process"; } 2>/dev/null' EXIT
    trap 'exit 0' TERM
    "$2" 1
    for ((number = 1; number <= kills; number++)); do
        sleep "$(printf '%d.%03d' $((RANDOM % 2)) $((RANDOM % 1000)))"
        end_by 9 "$process"
        status=$?
        [ $status = 137 ] || { echo "$1 $number ended by itself, with $status" >>"$room/early"; exit 1; }
        sleep "$(printf '0.%03d' $((RANDOM % 200)))"
        "$2" $((number + 1))
    done
    echo "$(cat "$room/progress") $(stat -c %s "$room/came")" >"$room/$1.killed"
    wait "$process"
    echo "$1 $number ended by itself, with $?" >>"$room/early"
}

# Both transfers are slowed down to 45 kB a second, so that they last longer than the kills: the kernel's client sends at this rate, and the output of ftnode's
# client is read at this rate.
start_own_client() {
    mkfifo "$room/pipe"
    ip netns exec "$outside" "$program" client --local "$own_client:7009" --server "$server" --isn 1000 --turns 1000000 \
        <"$room/sent.own" >"$room/pipe" 2>"$room/client" &
    own_process=$!
    started+=("$own_process")
    { for ((come = 0; come < bytes; come += 4500)); do head -c 4500 && sleep 0.1; done; cat; } <"$room/pipe" >"$room/came" &
    reading=$!
    started+=("$reading")
}

draw_bytes() { # SEED
    python3 -c "import random, sys; sys.stdout.buffer.write(random.Random($1).randbytes($bytes))"
}

# The share of all bytes that was transferred when each process was killed for the last time.
shares() {
    awk -v bytes="$bytes" '{
        printf(NR == 1 ? "%d %% and %d %%" : ", %d %% and %d %%", 100 * $1 / bytes, 100 * $2 / bytes)
        if ($1 >= bytes && $2 >= bytes) late = 1
    } END { exit late }' "$room/server.killed" "$room/logger.killed"
}

transfer() { # SEED: 0 where all bytes came to both clients, under all kills
    draw_bytes "$1" >"$room/sent"
    draw_bytes "$1 + 0.5" >"$room/sent.own"
    echo 0 >"$room/progress"
    kill_again logger start_logger $((2 * $1)) &
    logger_killer=$!
    kill_again server start_numbered_server $((2 * $1 + 1)) &
    server_killer=$!
    start_own_client
    ip netns exec "$inside" examples/socket_client.py "$room/sent" "$room/sent" "${server%:*}" "${server#*:}" "$room/progress" 900 >"$room/socket" 2>&1 &
    client=$!
    started+=("$client")
    wait "$client" || { echo "the kernel's client: $(tail -n 1 "$room/socket")"; failed=1; }
    wait "$own_process" || { echo "ftnode's client ended with $?: $(cat "$room/client")"; failed=1; }
    wait "$reading"
    cmp "$room/sent.own" "$room/came" || failed=1
    end_by TERM "$server_killer"
    end_by TERM "$logger_killer"
    [ -e "$room/early" ] && cat "$room/early" "$room"/server.* "$room"/logger.* && failed=1
    { [ -e "$room/server.killed" ] && [ -e "$room/logger.killed" ] && at=$(shares); } || { echo "the transfers were done before the last kill"; failed=1; }
}

# After the end nothing is written to the journal. Its bytes, and those that the clients sent:
look_at_journal() {
    ip netns exec "$outside" "$program" logger --local "$logger" --turns 1 --journal "$room/journal" >"$room/last" 2>&1 || { cat "$room/last"; failed=1; }
    awk -v size="$(stat -c %s "$room/journal")" -v bytes="$bytes" 'BEGIN { printf "the journal has %d bytes, %.3f of those sent", size, size / 2 / bytes }'
}

one_run() ( # SEED
    . examples/bridged.sh
    failed=0
    trap 'for pid in "${server_killer:-}" "${logger_killer:-}"; do end_by TERM "$pid"; done; clean_up' EXIT
    add_spaces "$own_client"
    make_journal
    start_bridge
    SECONDS=0
    transfer "$1"
    took=$SECONDS
    said=$(look_at_journal)
    echo "seed $1: $([ $failed = 0 ] && echo passed || echo FAILED) in $took seconds; came when the last server and the last logger were killed: $at; $said"
    exit $failed
)

. examples/repeated.sh
repeat "$runs" one_run "$seed"
