#!/usr/bin/env bash
# A logger that keeps its log in a file, compared with one that doesn't, and with a C program that also makes one write and one sync a round (bench/journal.c), and with
# SQLite's write-ahead log (bench/journal_sqlite.py), in one run:
#  1. messages a second, for Data of 1,460 bytes with 1, 64 and 256 of them in flight, by the minimum time of many runs, which alternate. Goal: 0.9 of the C
#     program's, at 1 and 64; and at 1 under way 0.9 of SQLite's, with `synchronous` full;
#  2. the size of the file, compared with what a client sent in full segments, through a server with the service Meter, which answers little, and with Echo. Goal:
#     at most 1.05 times;
#  3. the opening of a file of 64 MiB that is read from the disk, the minimum of ROUNDS. Goal: 100 MB a second;
#  4. the peak memory of a logger that takes 16 MiB, with a journal and without one. Goal: at most 1 MiB more;
#  5. the length of the file of a logger that keeps 64 connections of 1 MB each and is given GROWTH megabytes for them (bench/journal_growth.py), its longest silence, and a
#     start with that file. Goal: at most 2.2 times the log and 64 MiB, and less than a second.
# Status 0 if all goals are met, 1 if one is missed, 2 if it can't run.
#     sudo bench/journal.sh [PROGRAM] [FOLDER]
# PROGRAM is a built ftnode, by default this checkout's. The files are in FOLDER, by default /tmp. The environment may set ROUNDS (9) and GROWTH (4,096). It takes about four minutes.
# While it runs, net.core.rmem_default of the machine is raised, so that 256 datagrams fit into a socket's buffer.
set -eu
program=${1:+$(realpath "$1")} folder=${2:-}
. "$(dirname "$0")/common.sh"
rounds=${ROUNDS:-9} port=7300 missed=0 running=()
room=/proc/sys/net/core/rmem_default usual=$(cat /proc/sys/net/core/rmem_default)
[ "$(id -u)" = 0 ] && [ -w $room ] || { echo "journal.sh: not run: it needs root, and a machine whose $room can be set" >&2; exit 2; }
if [ -z "$program" ]; then
    build ftnode logger --local 127.0.0.1:7040 --turns 1
    program=$PWD/crates/ftnode/out/ftnode
fi
folder=$(mktemp -d "${folder:-/tmp}/journal.XXXXXX")
trap 'stop; echo "$usual" >$room; rm -rf "$work" "$folder"' EXIT
trap 'exit 1' INT TERM
echo 8388608 >$room
gcc -O2 -Wall -o "$work/journal" bench/journal.c

stop() {
    for pid in "${running[@]}"; do { kill -9 "$pid" && wait "$pid"; } 2>/dev/null || true; done
    running=()
}
start() {
    "$@" >"$work/said" 2>&1 &
    running+=("$!")
}
goal() { # WORD..: whether a goal is met is the status of awk with these words
    if awk "$@"; then echo " goal met"; else echo " goal MISSED" && missed=1; fi
}

# starts one of the four on a new file
start_one() { # KIND
    rm -f "$folder"/file*
    case $1 in
        without) start "$program" logger --local 127.0.0.1:$port --turns 1000000 ;;
        with) start "$program" logger --local 127.0.0.1:$port --turns 1000000 --journal "$folder/file" --begin yes ;;
        c) start "$work/journal" serve $port "$folder/file" ;;
        sqlite) start bench/journal_sqlite.py $port "$folder/file" ;;
    esac
}

# microseconds for COUNT messages
taken() { # KIND AHEAD COUNT
    local asked
    start_one "$1"
    asked=$("$work/journal" ask $port "$2" "$3")
    stop
    echo "$asked"
}

# A sync takes a tenth of a millisecond or ten, as the disk is busy with others: so with few messages under way there are many short turns.
measure_messages() {
    local ahead turns count kind us
    for ahead in 1 64 256; do
        declare -A least=([without]=999999999 [with]=999999999 [c]=999999999 [sqlite]=999999999)
        turns=$((rounds * (ahead == 1 ? 8 : ahead == 64 ? 2 : 1)))
        for ((turn = 0; turn < turns; turn++)); do
            for kind in without with c sqlite; do
                [ $kind = sqlite ] && [ $ahead != 1 ] && continue
                count=$((20 * ahead))
                [ $kind = without ] && count=11000
                us=$(($(taken $kind $ahead $count) * 1000 / count)) # nanoseconds a message
                ((us < least[$kind])) && least[$kind]=$us
            done
        done
        goal -v ahead=$ahead -v without="${least[without]}" -v with="${least[with]}" -v c="${least[c]}" -v sqlite="${least[sqlite]}" 'BEGIN {
            printf "%d under way: without a journal %d messages a second, with one %d, C %d; %.2f of C,", ahead, 1e9 / without, 1e9 / with, 1e9 / c, c / with
            if (ahead == 1) printf " SQLite %d; %.2f of SQLite,", 1e9 / sqlite, sqlite / with
            exit (ahead < 256 && c / with < 0.9) || (ahead == 1 && sqlite / with < 0.9)
        }'
    done
}

# a client sends SIZE bytes, and the file is measured after that
measure_file() { # SERVICE
    local size=8000000
    start_one with
    start "$program" server --local 127.0.0.1:$((port + 1)) --logger 127.0.0.1:$port --service "$1" --boot 1 --isn 5000 --turns 1000000
    "$program" client --local 127.0.0.1:$((port + 2)) --server 127.0.0.1:$((port + 1)) --isn 1000 --turns 1000000 <"$work/script" >"$work/came"
    stop
    goal -v service="$1" -v sent=$size -v file="$(stat -c %s "$folder/file")" 'BEGIN {
        printf "%s: the file has %d bytes for %d that a client sent, %.3f times;", service, file, sent, file / sent
        exit file / sent > 1.05
    }'
}

# microseconds from the start to the end of a logger with one turn
opened_in() { # FILE WORD..
    local begun
    begun=$(date +%s%N)
    "$program" logger --local 127.0.0.1:$port --turns 1 --journal "$@" >"$work/said"
    echo $((($(date +%s%N) - begun) / 1000))
}

measure_opening() {
    local large=999999999 small=999999999 disk=999999999 us bytes
    tools/journal_model.py make "$folder/large" 67108864
    rm -f "$folder/small"
    opened_in "$folder/small" --begin yes >/dev/null
    for ((round = 0; round < rounds; round++)); do
        us=$(opened_in "$folder/large") && ((us < large)) && large=$us
        us=$(opened_in "$folder/small") && ((us < small)) && small=$us
        read -r bytes us <<<"$("$work/journal" read "$folder/large")" && ((us < disk)) && disk=$us
    done
    goal -v bytes="$bytes" -v us=$((large - small)) -v disk="$disk" 'BEGIN {
        printf "opening: %d bytes in %d ms, %d MB a second; reading the file from the disk alone takes %d ms;", bytes, us / 1000, bytes / us, disk / 1000
        exit bytes / us < 100
    }'
}

held() { # KIND: KiB, the least of three
    local least=999999999 kib
    for _ in 1 2 3; do
        start_one "$1"
        "$work/journal" ask $port 256 11000 >/dev/null
        kib=$(awk '/^VmHWM/ { print $2 }' "/proc/${running[0]}/status")
        stop
        ((kib < least)) && least=$kib
    done
    echo "$least"
}
measure_memory() {
    goal -v without="$(held without)" -v with="$(held with)" 'BEGIN {
        printf "memory: %d KiB without a journal, %d KiB with one, %d KiB more;", without, with, with - without
        exit with - without > 1024
    }'
}

machine
echo "the files lie on $(df --output=fstype "$folder" | tail -1)"
measure_messages
head -c 8000000 /dev/urandom >"$work/script"
measure_file meter
measure_file echo
measure_opening
measure_memory
bench/journal_growth.py "$program" "$folder" "${GROWTH:-4096}" || missed=1
echo "load $(cut -d' ' -f1 /proc/loadavg)"
exit $missed
