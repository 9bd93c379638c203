#!/usr/bin/env bash
# Real processes over UDP on this machine's loopback, built with LLVM: a client sends SIZE bytes (default 15,000,000) in lines of 64, and reads what is returned,
# through a server and a logger: first with Echo of ftnode, then with Counter of own_node. For both it prints the bytes a second, and for server and logger the
# counts of their calls, the CPU time for each received datagram, and the peak memory. For the first run it also prints the CPU time of a C loop that sends and
# receives datagrams of 1,400 bytes (bench/link.c), and the server's datagrams a second with those of a C process that echoes (bench/echo.c). Then a transfer of
# 1,000,000 bytes whose server is killed (kill -9) when a quarter, a half and three quarters of them have been returned, and started again with the next boot
# number. Each time the client must end with status 0, and its bytes must be the script's.
#     bench/ftnode.sh [SIZE] [PORT]        it uses seven ports from PORT (default 7200) on, three from PORT + 10 on, and three from PORT + 20 on
# The environment may set PROGRAM and OWN, a built ftnode and a built own_node; otherwise it builds this checkout's.
set -eu
. "$(dirname "$0")/common.sh"
size=${1:-15000000} base=${2:-7200}
[ -n "${PROGRAM:-}" ] || build ftnode logger --local 127.0.0.1:7040 --turns 1
[ -n "${OWN:-}" ] || build own_node counter logger --local 127.0.0.1:7041 --turns 1
ours=$(realpath "${PROGRAM:-crates/ftnode/out/ftnode}") own=$(realpath "${OWN:-crates/own_node/out/own_node}")
program=$ours own_words=() service=(--service echo)
pids=()
clean_up() {
    for pid in "${pids[@]}"; do pkill -9 -P "$pid" || true; done
    rm -rf "$work"
}
trap clean_up EXIT
at=127.0.0.1

# starts a role in the background, with its times and its memory in a file of its name; its process number is in `last`
start() { # NAME PROGRAM WORD..
    local name=$1
    shift
    command time -o "$work/$name.time" -f '%U %S %M' "$@" <"$work/script" >"$work/$name.out" 2>"$work/$name.err" &
    last=$!
    pids+=("$last")
}

logger() { start "logger$1" "$program" "${own_words[@]}" logger --local "$at:$((base + 1))" --turns "$2"; }
server() {
    start "server$1" "$program" "${own_words[@]}" server --local "$at:$base" --logger "$at:$((base + 1))" "${service[@]}" --boot "$2" --isn $((1000 * $2 + 7)) --turns "$3"
}
client() { start "client$1" "$ours" client --local "$at:$((base + 2))" --server "$at:$base" --isn 1000 --turns 1000000; }

# Sends datagrams of one byte to a port of this machine, which no role takes for a message or a segment, until a process has ended; prints how many.
use_up() { # PID PORT
    python3 - "$1" "$2" "$at" <<'END'
import os, socket, sys, time

pid, port, host = int(sys.argv[1]), int(sys.argv[2]), sys.argv[3]
sender = socket.socket(socket.AF_INET, socket.SOCK_DGRAM)
sent = 0


def runs():
    try:
        with open(f"/proc/{pid}/stat") as stat:
            return stat.read().rsplit(")", 1)[1].split()[0] != "Z"
    except FileNotFoundError:
        return False


while runs():
    for _ in range(20):
        sender.sendto(b"x", (host, port))
    sent += 20
    time.sleep(0.001)
print(sent)
END
}

lines() { awk -v n="$1" 'BEGIN { for (i = 1; i <= n; i++) printf "%c", i % 64 ? 97 + i % 26 : 10 }' >"$work/script"; }

same() { # NAME STATUS WANTED
    cmp -s "$3" "$work/client$1.out" && echo "the client ended with $2, and what came is what was wanted" || { echo "the client ended with $2, and other bytes came"; exit 1; }
}

told() {
    local line time
    for role in server logger; do
        line=$(cat "$work/$role$1.out")
        time=$(tail -1 "$work/$role$1.time")
        awk -v role="$role" -v line="$line" -v t="$time" -v used="$(cat "$work/$role$1.used")" 'BEGIN {
            split(line, c, " "); split(t, x, " ")
            printf "%s: %s, %d of them to use up its turns; %.1f us of processor a datagram that came, %d KiB held\n",
                role, line, used, (x[1] + x[2]) * 1e6 / (c[4] - used), x[3]
        }'
    done
}

# The server of the first run, whose client took so many nanoseconds, beside a C process that sends back what a partner sends it: datagrams of 400 bytes, as
# long as the server's are on average, with one under way, so that each waits for the other, and with 45, as many segments as the window has. A datagram
# counts where it comes and where it is sent.
beside_echo() {
    local ahead begun spun port=$((base + 5))
    gcc -O2 -Wall -o "$work/echo" bench/echo.c
    for ahead in 1 45; do
        begun=$(date +%s%N)
        command time -o "$work/echo.time" -f '%U %S' "$work/echo" "$port" 200000 >"$work/echo.out" &
        last=$!
        pids+=("$last")
        sleep 0.2
        "$work/echo" "$port" 200000 400 "$ahead" >"$work/partner.out" &
        wait "$last"
        spun=$(($(date +%s%N) - begun - 200000000))
        wait $!
        echo "$(cat "$work/serverA.out") $(tail -1 "$work/serverA.time") $1 $(cat "$work/echo.out") $(tail -1 "$work/echo.time") $spun $(cat "$work/serverA.used")" >"$work/row"
        awk -v ahead="$ahead" '{
            ours = $4 - $19 + $6; our_us = ($11 + $12) * 1e6 / ours; our_rate = ours * 1e9 / $14
            theirs = 2 * $15; their_us = ($16 + $17) * 1e6 / theirs; their_rate = theirs * 1e9 / $18
            printf "C echo, %d under way: %d datagrams a second, %.2f us of processor each; server: %d, %.2f us; ", ahead, their_rate, their_us, our_rate, our_us
            printf "as many as C: %.2f, in a second of the processor %.2f\n", our_rate / their_rate, their_us / our_us
        }' "$work/row"
    done
}

machine
lines "$size"

# A run whose client sends the script, and to whom the bytes of a file have to come. Server and logger have so many turns for ten segments of the client, as
# many datagrams as come then, and 600 more. A lost datagram costs further turns, so they have a quarter more; what is left when the client ends is used up.
transfer() { # NAME WANTED SERVER_TURNS LOGGER_TURNS
    local logger_pid server_pid begun status=0
    logger "$1" $((size / 14600 * $4 * 5 / 4 + 600))
    logger_pid=$last
    sleep 0.2
    server "$1" 1 $((size / 14600 * $3 * 5 / 4 + 600))
    server_pid=$last
    begun=$(date +%s%N)
    client "$1"
    wait "$last" || status=$?
    taken=$(($(date +%s%N) - begun))
    same "$1" "$status" "$2"
    awk -v n="$size" -v ns="$taken" 'BEGIN { printf "%d bytes sent and answered in %.2f s: %.2f MB a second\n", n, ns / 1e9, n * 1e3 / ns }'
    use_up "$server_pid" "$base" >"$work/server$1.used"
    use_up "$logger_pid" "$((base + 1))" >"$work/logger$1.used"
    wait "$server_pid" "$logger_pid" || true
    told "$1"
}
echo "Echo:"
transfer A "$work/script" 54 34
echo_taken=$taken
echo "Counter:"
head -n $((size / 64)) "$work/script" | awk '{ count += length($0) + 1; print count }' >"$work/counts"
base=$((base + 20)) program=$own own_words=(counter) service=()
transfer C "$work/counts" 76 43
base=$((base - 20)) program=$ours own_words=() service=(--service echo)

gcc -O2 -Wall -o "$work/link" bench/link.c
awk -v ms="$(spent "$work/link" 1400 200000)" 'BEGIN { printf "the C loop: %.1f us of processor for a datagram of 1,400 bytes sent and received\n", ms / 200 }'
beside_echo "$echo_taken"

# killed and started again
base=$((base + 10)) size=1000000
lines "$size"
logger B 1000000
sleep 0.2
server B1 1 1000000
server_pid=$last
begun=$(date +%s%N)
# The client writes into a pipe: behind what is read from it only what the pipe holds can come, however fast the transfer is
mkfifo "$work/clientB.out"
client B
client_pid=$last
exec 3<"$work/clientB.out"
for boot in 2 3 4; do
    head -c $((size / 4)) <&3 >>"$work/back"
    echo "killed when $(stat -c %s "$work/back") bytes had come back"
    pkill -9 -P "$server_pid" || true
    wait "$server_pid" 2>/dev/null || true
    server "B$boot" "$boot" 1000000
    server_pid=$last
done
cat <&3 >>"$work/back"
status=0
wait "$client_pid" || status=$?
mv "$work/back" "$work/clientB.out"
ended=$(date +%s%N)
awk -v n="$size" -v ns=$((ended - begun)) 'BEGIN { printf "%d bytes each way with three kills: %.1f s\n", n, ns / 1e9 }'
same B "$status" "$work/script"
