#!/usr/bin/env bash
# A server that is killed again and again while many clients use it, and, if KILL says so, its logger too. CLIENTS clients of the kernel, each in its own network
# namespace and with its own tools/bridge.py, send BYTES bytes each to an echo of ftnode and compare what is returned. Meanwhile the server is killed (kill -9) KILLS
# times, and the logger as often, alternately. If clients send at a rate, the time that this takes has as many parts as there are kills, and each kill comes at a
# random moment of its part; else one comes each time that a further part of all bytes has been returned. Each process is started again PAUSE seconds later: the server with the next boot number, the logger with its
# journal. As many clients send the same to an echo server of the kernel over paths (bench/relay.py) with the same loss, without window scaling and selective
# acknowledgements; nothing is killed there, and the pauses that ftnode's clients had are added to the time. Both run at each loss. Printed are resets, bytes lost,
# the longest time in which a client received nothing, and the time; and after the last kill again the time and that silence, with the longest timeout of a client.
# The goal: no reset, no byte lost, and all clients done within three times the kernel's time. Status 0 if it is met, 1 if it is missed, 2 if it can't run.
#     sudo bench/soak.sh [PROGRAM]        a built ftnode, by default this checkout's
# The environment may set:
#     CLIENTS   16; at most 64, since a log has room for no more
#     KILLS     100, of each process
#     KILL      "server"; or "server logger", and then the logger has a journal
#     BYTES     400000, of each client
#     LOSS      "0 1 5", in percent
#     PAUSE     0.2, in seconds
#     RATE      4000, or 2000 with the logger: bytes that a client sends in a second, so that there is one kill a second; 0: as fast as it can
#     LIMIT     400, or 800 with the logger: seconds after which one of the two runs at a loss is ended
#     PROFILE   plain; or wan: of the server and of the logger
#     CONTROL   the kernel's congestion control of the clients, as reno or bbr; the kernel's own without it
#     STAMPS    1; or 0: the clients send no timestamps
#     SEED      1: of what is lost, and of the moments of the kills
#     RTO_MAX   the longest retransmission timeout of the clients, in milliseconds, at least 1000, on Linux 6.15 or later; the kernel's own is 120,000. They give
#               up after 255 retransmissions then, and not after 15, so that they don't give up earlier
# A storm of kills at twelve clients: CLIENTS=12 KILLS=36 BYTES=160000 LOSS=1 PROFILE=wan CONTROL=bbr, with a SEED.
# It takes eleven minutes, or 22 with the logger, and at most LIMIT and half a minute for each run. It makes network namespaces and TUN devices, and removes them at
# the end.
set -eu
program=${1:+$(realpath "$1")}
. "$(dirname "$0")/common.sh"
clients=${CLIENTS:-16} kills=${KILLS:-100} bytes=${BYTES:-400000} losses=${LOSS:-0 1 5} pause=${PAUSE:-0.2}
read -ra victims <<<"${KILL:-server}"
rate=${RATE:-$((4000 / ${#victims[@]}))} limit=${LIMIT:-$((400 * ${#victims[@]}))} rto_max=${RTO_MAX:-}
profile=${PROFILE:-plain} control=${CONTROL:-} seed=${SEED:-1} stamps=${STAMPS:-1}
server=10.79.1.1 port=7 logger=10.79.1.2:7008 outside=soak_$$ pids=() spaces=()
for ((k = 1; k <= clients; k++)); do spaces+=("soak_${k}_$$"); done

missing() { echo "soak.sh: not run: $1" >&2; exit 2; }
[ "$(id -u)" = 0 ] || missing "it needs root"
[ -c /dev/net/tun ] || missing "there is no /dev/net/tun: the kernel has no TUN devices"
command -v ip >/dev/null || missing "the command ip is missing (package iproute2)"
((clients >= 1 && clients <= 64)) || missing "a log takes 1 to 64 clients"
case $profile in plain | wan) ;; *) missing "PROFILE is 'plain' or 'wan'" ;; esac
case ${victims[*]} in server | 'server logger') ;; *) missing "KILL is 'server' or 'server logger'" ;; esac
if [ -z "$program" ]; then
    build ftnode logger --local 127.0.0.1:7040 --turns 1
    program=$PWD/crates/ftnode/out/ftnode
fi

# ends what was started, and removes the namespaces with the devices in them
finish() {
    for pid in "${pids[@]}"; do { kill -9 "$pid" && wait "$pid"; } 2>/dev/null || true; done
    pids=()
    for space in "${spaces[@]}" "$outside"; do ip netns del "$space" 2>/dev/null || true; done
}
trap 'finish; rm -rf "$work"' EXIT
trap 'exit 1' INT TERM

# starts something in the namespace of the servers; its process number is in `last`, and what it prints in a file of its name
start() { # NAME WORD..
    local name=$1
    shift
    rm -f "$work/$name"
    ip netns exec "$outside" "$@" >"$work/$name" 2>"$work/$name.err" &
    last=$!
    pids+=("$last")
}
wait_for_up() { # NAME
    for _ in {1..200}; do
        grep -qs up "$work/$1" && return
        sleep 0.05
    done
    missing "$1 doesn't start: $(cat "$work/$1.err")"
}
client_ip() { echo "10.79.0.$1"; } # NUMBER

# the namespaces: one of servers and logger, and one for each client
add_spaces() {
    ip netns add "$outside" 2>"$work/why" || missing "no network namespace can be made: $(cat "$work/why")"
    ip -n "$outside" link set lo up
    for address in "$server" "${logger%:*}"; do ip -n "$outside" addr add "$address/32" dev lo; done
    for space in "${spaces[@]}"; do ip netns add "$space"; done
    for space in "${spaces[@]}" "$outside"; do
        ip netns exec "$space" sh -c 'cd /proc/sys/net/ipv4; echo 0 >tcp_window_scaling; echo 0 >tcp_sack; echo $0 >tcp_timestamps' "$stamps"
        [ -z "$control" ] || ip netns exec "$space" sh -c "echo $control >/proc/sys/net/ipv4/tcp_congestion_control" || missing "there is no congestion control $control"
        [ -z "$rto_max" ] || ip netns exec "$space" sh -c "cd /proc/sys/net/ipv4; echo $rto_max >tcp_rto_max_ms; echo 255 >tcp_retries2" || missing "RTO_MAX can't be set"
    done
}

start_server() { # BOOT
    start "server.$1" "$program" server --local "$server:$port" --logger "$logger" --service echo --boot "$1" --isn "$((100000 * $1))" --profile "$profile" --turns 1000000
    server_process=$last
}
start_logger() { # LIFE
    local journal=()
    ((${#victims[@]} == 1)) || journal=(--journal "$work/journal")
    [ ${#journal[@]} = 0 ] || [ -e "$work/journal" ] || journal+=(--begin yes)
    start "logger.$1" "$program" logger --local "$logger" --profile "$profile" --turns 1000000 "${journal[@]}"
    logger_process=$last
}
now() { echo "${EPOCHREALTIME//[!0-9]/}"; } # microseconds

# whether this process still runs; it is counted where it ended by itself
runs() { # NAME PROCESS
    kill -0 "$2" 2>/dev/null || { echo "$1 ended by itself: $(cat "$work/$1" "$work/$1.err")" && ended_early=$((ended_early + 1)); }
}
still_run() {
    runs "server.$boot" "$server_process"
    runs "logger.$life" "$logger_process"
}

# leaves a process out of those that are ended at last: its number may soon be another's
forget() { # PROCESS
    local pid left=()
    for pid in "${pids[@]}"; do [ "$pid" = "$1" ] || left+=("$pid"); done
    pids=("${left[@]}")
}

# what is due is killed and started again; `away` is how long it wasn't there, in microseconds
kill_next() {
    local begun victim=${victims[killed % ${#victims[@]}]} process
    begun=$(now)
    still_run
    process=$server_process
    [ "$victim" = server ] || process=$logger_process
    { kill -9 "$process"; wait "$process"; } 2>/dev/null || true
    forget "$process"
    sleep "$pause"
    if [ "$victim" = server ]; then
        boot=$((boot + 1))
        start_server "$boot"
    else
        life=$((life + 1))
        start_logger "$life"
    fi
    killed=$((killed + 1))
    away=$((away + $(now) - begun))
}

# the clients, and the kills that they ask for; their `end` line is in `told`
run_clients() { # KILLS
    local word rest asking
    told='' boot=1 life=1 killed=0 away=0 ended_early=0 last_kill=0
    mkfifo "$work/events"
    SEED=$((seed == 1 ? $1 : seed)) bench/soak_clients.py ask "$server" "$port" "$bytes" "$rate" "$1" "$limit" "${spaces[@]}" >"$work/events" &
    asking=$!
    pids+=("$asking")
    while read -r word rest; do
        case $word in
            kill) last_kill=$rest && kill_next ;;
            end) told=$rest ;;
            *) echo "$word $rest" ;;
        esac
    done <"$work/events"
    rm "$work/events"
    forget "$asking"
    wait "$asking" || { echo "soak.sh: the clients ended with $?" >&2; exit 1; }
}

through_ftnode() { # LOSS
    add_spaces
    rm -f "$work/journal"
    start_logger 1
    for ((k = 1; k <= clients; k++)); do
        ip -n "$outside" addr add "$(client_ip "$k")/32" dev lo
        start "bridge$k" tools/bridge.py --client "$(client_ip "$k")" --server "$server:$port" --netns "${spaces[k - 1]}" --device "soak${k}_$$" --loss "$1" --seed "$((100 * (seed - 1) + k))"
    done
    for ((k = 1; k <= clients; k++)); do wait_for_up "bridge$k"; done
    start_server 1
    run_clients $((kills * ${#victims[@]}))
    still_run
    finish
}

through_kernel() { # LOSS
    add_spaces
    start serve bench/soak_clients.py serve "$server" "$port"
    for ((k = 1; k <= clients; k++)); do start "relay$k" bench/relay.py "tun:a${k}_$$" "tun:b${k}_$$" "$1" 0 "$((100 * (seed - 1) + k))"; done
    for ((k = 1; k <= clients; k++)); do
        wait_for_up "relay$k"
        ip -n "$outside" link set "a${k}_$$" netns "${spaces[k - 1]}"
        ip -n "${spaces[k - 1]}" addr add "$(client_ip "$k")/32" dev "a${k}_$$"
        ip -n "${spaces[k - 1]}" link set "a${k}_$$" mtu 1500 up
        ip -n "${spaces[k - 1]}" route add "$server/32" dev "a${k}_$$"
        ip -n "$outside" link set "b${k}_$$" mtu 1500 up
        ip -n "$outside" route add "$(client_ip "$k")/32" dev "b${k}_$$" src "$server"
    done
    run_clients 0
    finish
}

show() { # NAME
    local seconds resets lost wrong silence served after late longest
    read -r seconds resets lost wrong silence served after late longest <<<"$told"
    echo "$1: $served of $clients clients done in $seconds s; resets $resets, bytes lost $lost, bytes wrong $wrong, longest silence $silence s"
    ((killed == 0)) || echo "  after the last kill: $after s, longest silence $late s; longest timeout $longest s"
}

# both halves at this loss; `missed` says whether the goal was missed at one
soak_at() { # LOSS
    echo "$1 % lost, load $(cut -d' ' -f1 /proc/loadavg):"
    through_ftnode "$1"
    local ours=$told gone=$away restarts=$killed early=$ended_early
    show "ftnode, $((boot - 1)) kills of the server and $((life - 1)) of the logger, the last at $last_kill s"
    through_kernel "$1"
    show "kernel, no kill"
    echo "$ours $told" | awk -v away="$gone" -v clients="$clients" -v early="$early" -v all="$((restarts == kills * ${#victims[@]}))" '{
        seconds = away / 1e6; times = $1 / ($10 + seconds); met = $2 + $3 + $4 + early == 0 && $6 == clients && all && times <= 3
        printf "pauses of %.1f s in all; %.2f times as long as the kernel with them; goal %s\n", seconds, times, met ? "met" : "MISSED"
        exit !met
    }' || missed=1
}

machine
echo "$clients clients, $bytes bytes each way, $rate bytes a second each, $kills kills of each of: ${victims[*]}, each for $pause s"
missed=0
for each in $losses; do soak_at "$each"; done
exit $missed
