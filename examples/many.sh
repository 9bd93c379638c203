#!/usr/bin/env bash
# A service that outlives its 64 places. 10,000 TCP clients of a kernel, up to 40 at a time and ten a second, each send 100 to 100,000 bytes through
# tools/bridge.py to one echo server of ftnode with a quarantine of a second, whose logger recycles the entries of what is done, and has a journal. The same local
# ports are used again and again. Meanwhile the server and the logger are killed (kill -9) every two seconds each, on average, and started again: the server with
# the next boot number, the logger with the same words. The moments are random, since even ones keep step with the seconds after which a kernel sends a SYN again.
# Each client must get its bytes back, and none may be refused or reset. In between come 1,000 SYNs of strangers, who never answer: within a minute all places that
# they took must be back, and a client served. Until then nothing is killed, since the age of a half-open place, which comes back after five seconds, dies with
# the server. The age of a place in quarantine does too, so more than some twelve clients a second find all 64 places taken. At the end the journal must open once
# more.
# It makes two network namespaces and a TUN device, and removes them at the end. It takes about 20 minutes, and needs root and a built ftnode:
#     sudo examples/many.sh [PROGRAM] [CLIENTS] [SEED] [SECONDS]
# Defaults: PROGRAM crates/ftnode/out/ftnode, CLIENTS 10000, SEED random, SECONDS between the kills 2.
set -u
cd "$(dirname "$0")/.." || exit 2
name=many program=${1:-crates/ftnode/out/ftnode} clients=${2:-10000} seed=${3:-$RANDOM} every=${4:-2} loss=0 own=() service=(--service echo --forget 50 --silence 3000)
. examples/bridged.sh

# The shell prints nothing about killed processes.
end_by() { # SIGNAL PROCESS: its status
    { kill "-$1" "$2" && wait "$2"; } 2>/dev/null
}
start_logger() { # NUMBER
    ip netns exec "$outside" "$program" logger --local "$logger" --turns 1000000 --journal "$room/journal" --compact 1000000 --forget yes >"$room/logger.$1" 2>&1 &
    process=$!
}
start_numbered_server() { # BOOT
    start_server "$1"
    process=$server_process
}

random_wait() { # half of EVERY to one and a half, in seconds
    local wait=$((500 * every + RANDOM % (1000 * every)))
    sleep "$((wait / 1000)).$(printf %03d $((wait % 1000)))"
}

# Starts a process by START, kills it again and again, and starts it again, until it is killed itself. How much memory it had at most stands in a file.
kill_again() { # NAME START
    trap '{ kill -9 "$process" && wait "$process"; } 2>/dev/null' EXIT
    trap 'exit 0' TERM
    "$2" 1
    for ((number = 1; ; number++)); do
        echo $number >"$room/$1.starts"
        random_wait
        while [ -e "$room/calm" ]; do sleep 0.2; done
        awk '/VmHWM/ { print $2 }' "/proc/$process/status" >>"$room/$1.memory" 2>/dev/null
        end_by 9 "$process"
        status=$?
        [ $status = 137 ] || { echo "$1 $number ended by itself, with $status" >>"$room/early"; exit 1; }
        "$2" $((number + 1))
    done
}
most() { sort -n "$room/$1.memory" | tail -n 1; }

clients_of() { # COUNT SEED
    ip netns exec "$inside" examples/many_clients.py "$1" 40 10 "${server%:*}" "${server#*:}" "$2" 2>&1
}

# Waits, at most a minute, until nothing in the log is of a client that never sent anything.
await_places() {
    local status
    for ((second = 0; second < 60; second++)); do
        status=$(ip netns exec "$outside" tools/log_status.py --logger "$logger")
        [[ ${status%%$'\n'*} == *"of 64 places"* && ${status%%$'\n'*} != *empty* ]] && return 0
        sleep 1
    done
    return 1
}

add_spaces
for setting in net.ipv4.tcp_max_tw_buckets=0 net.ipv4.ip_local_port_range="40000 40499"; do
    ip netns exec "$inside" sysctl -qw "$setting" || missing "the kernel's setting $setting can't be made"
done
ip netns exec "$outside" "$program" logger --local "$logger" --turns 1 --journal "$room/journal" --begin yes --forget yes >"$room/made" 2>&1 || { cat "$room/made"; exit 1; }
start_bridge
trap 'for pid in "${server_killer:-}" "${logger_killer:-}"; do end_by TERM "$pid"; done; clean_up' EXIT
kill_again logger start_logger &
logger_killer=$!
kill_again server start_numbered_server &
server_killer=$!

failed=0
half=$((clients / 2))
clients_of $half "$seed" || failed=1
touch "$room/calm"
ip netns exec "$outside" examples/strangers.py 1000 "${server%:*}" "${server#*:}" "$seed"
SECONDS=0
await_places || failed=1
places=$SECONDS
clients_of 1 $((seed + 1)) >"$room/first" || failed=1
first=$SECONDS
rm "$room/calm"
[ $first -le 60 ] || failed=1
echo "$places seconds after the strangers their places were back, and after $first a client was served"
clients_of $((clients - half)) $((seed + 2)) || failed=1
end_by TERM "$server_killer"
end_by TERM "$logger_killer"
[ -e "$room/early" ] && cat "$room/early" "$room"/server.* "$room"/logger.* && failed=1
ip netns exec "$outside" "$program" logger --local "$logger" --turns 1 --journal "$room/journal" --forget yes >"$room/last" 2>&1 || { cat "$room/last"; failed=1; }
echo "seed $seed; $(cat "$room/server.starts") servers with at most $(most server) kB, $(cat "$room/logger.starts") loggers with at most $(most logger) kB;" \
    "the journal has $(stat -c %s "$room/journal") bytes"
echo "$name: $([ $failed = 0 ] && echo passed || echo FAILED)"
exit $failed
