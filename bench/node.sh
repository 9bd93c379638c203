#!/usr/bin/env bash
# Turns a second of a server with 1, 16 and 64 live connections, by `node_cases bench node`: clients in turn send segments of 64 bytes, or of 1,460; a log in
# the same program stores each, and Echo returns it; then segments that are before the bytes taken, each answered only by an acknowledgement; then ticks. All is
# in memory, and packets and messages are passed as bytes; the times include the log and the writing of the clients' packets. A segment makes three turns: its
# own, and one for each of the log's two answers. The clients offer no segment size, so 1,460 bytes are returned in three segments. Each row also has the time
# of the plain C checks of as many packets of that size (gcc -O2), in the same run, and how often memory is allocated, counted by a library that is loaded
# before libc. Times are the minimum CPU time of 5 runs each, which alternate, minus that of a run that only opens the connections. Then the memory of a live
# connection, from the peak memory of runs with 64 connections and with one.
#     bench/node.sh [OLDER]
# With OLDER, an older node_cases or a checkout that has one, both programs take the same turns and ticks, 21 times alternately (or ROUNDS times), and the
# minimum times, each minus that of a run that only opens the connections, are compared. Status 1 if one of the new times is over 5 % longer.
set -eu
before=${1:+$(realpath "$1")}
. "$(dirname "$0")/common.sh"
build node_cases bench node 1 1 64 1 0
program="$PWD/crates/node_cases/out/node_cases"

# what is timed, how a run is timed, connections, bytes of text, and rounds of segments and of ticks
beside() {
    local what=$1 measure=$2 words="bench node 1 $3 $4" rounds="$5 $6" whole opened
    # shellcheck disable=SC2086
    same_output "$before" "$program" $words $rounds
    whole=$(in_turn "$ROUNDS" "$measure $before $words $rounds" "$measure $program $words $rounds") || exit 1
    opened=$(in_turn "$ROUNDS" "$measure $before $words 0 0" "$measure $program $words 0 0") || exit 1
    printf '%d connections, %s: ' "$3" "$what"
    # shellcheck disable=SC2086
    compare_times $((${whole% *} - ${opened% *})) $((${whole#* } - ${opened#* }))
}

if [ -n "$before" ]; then
    before=$(older node_cases "$before" bench node 1 1 64 1 0)
    machine
    status=0
    for clients in 1 16 64; do
        beside "64 bytes" spent "$clients" 64 $((102400 / clients)) 0 || status=1
        beside "1460 bytes, four runs" "spent four_times" "$clients" 1460 $((10240 / clients)) 0 || status=1
        beside "an acknowledgement alone" spent "$clients" 0 $((409600 / clients)) 0 || status=1
        beside "ticks" spent "$clients" 64 0 $((6400000 / clients)) || status=1
    done
    exit $status
fi
gcc -O2 -Wall -o "$work/packets" bench/packets.c
gcc -O2 -Wall -shared -fPIC -o "$work/refuse.so" bench/refuse.c -ldl

# how often a run asks for memory, and how much it holds at most, in KiB
asked() {
    REFUSED=0 LD_PRELOAD=$work/refuse.so "$program" bench node "$@" >"$work/out" 3>"$work/calls"
    wc -c <"$work/calls"
}

held() { command time -f %M "$program" bench node "$@" 2>&1 >/dev/null; }

least() { echo $(($1 < $2 ? $1 : $2)); }

# what is timed, connections, bytes of text, segments in all, and what the bench must print of them
row() {
    local what=$1 clients=$2 size=$3 all=$4 rounds=$(($4 / $2)) whole=999999 opened=999999 c=999999 more turns
    for _ in 1 2 3 4 5; do
        whole=$(least "$whole" "$(spent "$program" bench node 1 "$clients" "$size" "$rounds" 0)")
        [ "$(head -2 "$work/out" | tr '\n' ' ')" = "$5 " ] || { cat "$work/out"; exit 1; }
        turns=$(awk '/turns/ { print $1 }' "$work/out")
        opened=$(least "$opened" "$(spent "$program" bench node 1 "$clients" "$size" 0 0)")
        c=$(least "$c" "$(spent "$work/packets" $((40 + size)) $((all / 64 * 20)))")
    done
    more=$(($(asked 1 "$clients" "$size" $((rounds / 5)) 0) - $(asked 1 "$clients" "$size" $((rounds / 10)) 0)))
    awk -v what="$what" -v clients="$clients" -v n="$all" -v turns="$turns" -v a=$((whole - opened)) -v c="$c" -v more="$more" -v calls="$((rounds / 10 * clients))" 'BEGIN {
        printf "%d connections, %s: %d turns a second, %.2f us each; %d segments a second; a segment takes %.1f times the C check of one packet, and asks for memory %.3f times\n",
            clients, what, turns / a * 1000, a / turns * 1000, n / a * 1000, 20 * a / c, more / calls
    }'
}

ticks() {
    local clients=$1 rounds=$2 whole=999999 opened=999999 more
    for _ in 1 2 3 4 5; do
        whole=$(least "$whole" "$(spent "$program" bench node 1 "$clients" 64 0 "$rounds")")
        opened=$(least "$opened" "$(spent "$program" bench node 1 "$clients" 64 0 0)")
    done
    more=$(($(asked 1 "$clients" 64 0 200) - $(asked 1 "$clients" 64 0 100)))
    awk -v clients="$clients" -v n="$rounds" -v a=$((whole - opened)) -v more="$more" 'BEGIN {
        printf "%d connections: %d ticks a second, %.2f us a connection; a tick asks for memory %.2f times\n", clients, n / a * 1000, a / n / clients * 1000, more / 100
    }'
}

machine
for clients in 1 16 64; do
    all=102400
    row "64 bytes" "$clients" 64 $all "$((3 * all)) turns, $((3 * all)) packets to clients $((64 * all)) bytes of text, $((2 * all)) messages to the log"
done
for clients in 1 16 64; do
    all=10240
    row "1460 bytes" "$clients" 1460 $all "$((3 * all)) turns, $((5 * all)) packets to clients $((1460 * all)) bytes of text, $((2 * all)) messages to the log"
done
for clients in 1 16 64; do
    all=409600
    row "an acknowledgement alone" "$clients" 0 $all "$all turns, $all packets to clients 0 bytes of text, 0 messages to the log"
done
for clients in 1 16 64; do
    ticks "$clients" $((6400000 / clients))
done
awk -v one="$(held 1 1 64 100 0)" -v all="$(held 1 64 64 100 0)" 'BEGIN { printf "%d KiB held with 1 connection, %d with 64: %.1f KiB a connection, its log included\n", one, all, (all - one) / 63 }'
