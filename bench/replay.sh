#!/usr/bin/env bash
# Times `ftreplay run` on schedules of 10,000 and 100,000 events. Printed are the minimum of five runs of each, their ratio, and the memory of a run, with the sizes
# of its packets, schedule and report. Eight clients send their scripts byte by byte, each byte is logged, echoed and acknowledged before the next, and at every
# 1,000th event the server crashes and restarts from the log (bench/crash_schedule.awk). Then the same with one client and no crash (bench/echo_schedule.awk). Then the lines of the larger
# report, without its first and last ones, as `part_cases wire lines` writes them from events and packets as bytes, compared with a C loop of fprintf of the same lines (gcc
# -O2); and the reading of a schedule of 8 MiB. Of each the minimum CPU time of 7 runs.
#     bench/replay.sh [OLDER | marks]
# With OLDER, an older ftreplay or a checkout that has one, both programs run the schedules of 100,000 events four times, 21 times alternately (or ROUNDS times), with
# their reports written to a file, and the events a second by the minimum CPU times are compared. With the word marks, the schedules of 100,000 events are compared in
# the same way with those that have `marks 4`, in which each mark is logged and answered, and the restarts begin at marks.
set -eu
before=${1:-}
[ -z "$before" ] || [ "$before" = marks ] || before=$(realpath "$before")
. "$(dirname "$0")/common.sh"
build ftreplay run <examples/first_path.schedule
program=$PWD/crates/ftreplay/out/ftreplay

schedules=$work out=/dev/null

# one client that sends so many bytes; with a second word there is a mark after so many
write_schedule() { awk -v cycles="$1" -v marks="${2:-0}" -f bench/echo_schedule.awk >"$schedules/$1${2:+marked}"; }

# The nanoseconds of the best of five runs, and the kilobytes of the last one.
time_schedule() {
    best=
    for _ in 1 2 3 4 5; do
        start=$(date +%s%N)
        "$program" run <"$schedules/$1" >"$schedules/report"
        nanoseconds=$(($(date +%s%N) - start))
        if [ -z "$best" ] || [ "$nanoseconds" -lt "$best" ]; then
            best=$nanoseconds
        fi
    done
    /usr/bin/time -f %M -o "$schedules/memory" "$program" run <"$schedules/$1" >"$schedules/report"
    printf '%s %s\n' "$best" "$(cat "$schedules/memory")"
}

write_schedule 999
write_schedule 9999
for events in 10000 100000; do
    awk -v events="$events" -f bench/crash_schedule.awk >"$schedules/crash$events"
done
machine
playing() { "$1" run <"$schedules/$2"; }

# the name of a schedule of 100,000 events, and what it is
beside() {
    local least
    playing "$before" "$1" >"$work/older"
    playing "$program" "$1" >"$work/newer"
    cmp -s "$work/older" "$work/newer" || { echo "the older program writes another report of $2" >&2; exit 1; }
    grep -q '^end ' "$work/newer" || { echo "the schedule isn't played to its end: $2" >&2; exit 1; }
    least=$(out=$work/report in_turn "$ROUNDS" "spent four_times playing $before $1" "spent four_times playing $program $1") || exit 1
    awk -v what="$2" -v a="${least% *}" -v b="${least#* }" -v rounds="$ROUNDS" 'BEGIN {
        printf "%s, four runs: older %d ms, %d events a second, ", what, a, 4e8 / a
        printf "newer %d ms, %d events a second, least of %d each: %.2f times as many\n", b, 4e8 / b, rounds, a / b
    }'
}

# a schedule, how many events it has, the same with marks, how many events that has, and what it is
with_marks() {
    local least
    for schedule in "$1" "$3"; do
        playing "$program" "$schedule" >"$work/newer"
        tail -n 1 "$work/newer" | grep -q "^end [0-9]*\$" || { echo "the schedule isn't played to its end: $5" >&2; exit 1; }
    done
    grep -q '^packet [0-9]* L>S Marked ' "$work/newer" || { echo "nothing is marked: $5" >&2; exit 1; }
    least=$(out=$work/report in_turn "$ROUNDS" "spent four_times playing $program $1" "spent four_times playing $program $3") || exit 1
    awk -v what="$5" -v a="${least% *}" -v b="${least#* }" -v m="$2" -v n="$4" -v rounds="$ROUNDS" 'BEGIN {
        printf "%s, four runs: without marks %d ms, %d events a second, ", what, a, 4000 * m / a
        printf "with marks 4 %d ms, %d events a second, least of %d each: %.2f times as many\n", b, 4000 * n / b, rounds, (n / b) / (m / a)
    }'
}

events_of() { sed -n 's/^end //p' < <("$program" run <"$schedules/$1"); }

if [ "$before" = marks ]; then
    write_schedule 8000 4
    write_schedule 8000
    awk -v events=100000 -v marks=4 -f bench/crash_schedule.awk >"$schedules/crash_marked"
    with_marks crash100000 "$(events_of crash100000)" crash_marked "$(events_of crash_marked)" "eight clients, with crashes"
    with_marks 8000 "$(events_of 8000)" 8000marked "$(events_of 8000marked)" "one client, without a crash"
    exit
fi
if [ -n "$before" ]; then
    before=$(older ftreplay "$before" run <examples/first_path.schedule)
    beside crash100000 "eight clients, with crashes"
    beside 9999 "one client, without a crash"
    exit
fi
compare() {
    awk '
        NR == 1 { small = $1; printf "10,000 events: %.1f ms, %d MB\n", $1 / 1000000, $2 / 1000 }
        NR == 2 { printf "100,000 events: %.1f ms, %d MB, %.1f times the smaller, %.0f events a second\n", $1 / 1000000, $2 / 1000, $1 / small, 1e14 / $1 }'
}
echo 'eight clients, with crashes'
{ time_schedule crash10000; time_schedule crash100000; } | compare
grep -q '^end ' "$schedules/report" || { echo "the schedule with crashes isn't played to its end"; exit 1; }
# the bytes of the packets: 40 for a segment and 44 with its option, and the length of each kind of message
awk '
    BEGIN {
        split("Hello 16 Summary 18 List 18 Entry 48 Bytes 26 Cuts 26 Open 32 Opened 32 Stable 31 Read 28 Reads 31 Done 22 Ended 22 Stale 24 Full 22 Part 26 Lens 26 Data 30", kind)
        for (i = 1; i in kind; i += 2) size[kind[i]] = kind[i + 1]
    }
    $1 == "packet" {
        packets += 1
        name = $4
        if (name in size) { bytes += size[name]; if (name == "Data" || name == "Part") bytes += $NF == "-" ? 0 : length($NF) / 2; if (name == "Lens") bytes += 2 * split($NF, lens, ",") }
        else bytes += 40 + ($12 == "-" ? 0 : 4) + ($NF == "-" ? 0 : length($NF) / 2)
    }
    END { printf "%d packets of %.1f MB; 1.2 times that and 64 bytes for each are %.1f MB\n", packets, bytes / 1e6, (1.2 * bytes + 64 * packets) / 1e6 }' "$schedules/report"
printf 'schedule %s bytes, report %s bytes\n' "$(wc -c <"$schedules/crash100000")" "$(wc -c <"$schedules/report")"
# a stream that is full: its end is acknowledged with no window, a byte more gets the same acknowledgement, and nothing is reset
awk -f bench/limit_schedule.awk >"$schedules/limit"
"$program" run <"$schedules/limit" >"$schedules/report"
for packet in 91941 91945; do
    grep -q "^packet $packet S>1 A seq 62[0-9]* ack 16778217 window 0 mss - data -\$" "$schedules/report" || { echo "packet $packet of a full stream is another"; exit 1; }
done
! grep -q '^packet [0-9]* S>1 [A-Z]*R' "$schedules/report" || { echo 'a full stream is reset'; exit 1; }
echo 'one client, without a crash'
{ time_schedule 999; time_schedule 9999; } | compare

build part_cases wire lines write 9 1
cases=$PWD/crates/part_cases/out/part_cases
lines() { "$cases" wire lines "$@"; }
gcc -O2 -Wall -o "$schedules/lines" bench/lines.c
lines write 9999 1 >"$schedules/ours"
"$schedules/lines" 9999 1 >"$schedules/theirs"
sed -n '/^event 11 /,/^client /p' "$schedules/report" | sed '$d' >"$schedules/reported"
cmp -s "$schedules/ours" "$schedules/reported" || { echo "part_cases and the report differ"; exit 1; }
cmp -s "$schedules/ours" "$schedules/theirs" || { echo "the two loops differ"; exit 1; }

read -r made written < <(in_turn 7 "spent lines write 9999 0" "spent lines write 9999 20")
read -r none printed < <(in_turn 7 "spent $schedules/lines 9999 0" "spent $schedules/lines 9999 20")
awk -v n=$((20 * $(wc -l <"$schedules/ours"))) -v a=$((written - made)) -v b=$((printed - none)) 'BEGIN {
    printf "lines: %d a second, %.0f ns each; fprintf %d a second, %.0f ns each; %.2f times as many\n", n / a * 1000, a / n * 1e6, n / b * 1000, b / n * 1e6, b / a
}'

# a script of 3,400,000 bytes, then deliveries up to the limit of 100,000 events, then a comment up to the limit of bytes
awk 'BEGIN {
    printf "service echo\nserver 192.0.2.100:7\nclient 1 192.0.2.1:40000 1000 hex:"
    for (i = 0; i < 3400000; i++) printf "%02x", i % 256
    print ""
    for (i = 1; i <= 100000; i++) printf "deliver %d\n", i
    printf "#"
}' >"$schedules/large"
awk -v left=$((8388608 - $(wc -c <"$schedules/large"))) 'BEGIN { for (i = 0; i < left; i++) printf "." }' >>"$schedules/large"
reading() { lines read "$1" <"$schedules/large"; }
[ "$(reading 1)" = 100000 ] || { echo "the schedule is refused"; exit 1; }
read -r once often < <(in_turn 7 "spent reading 1" "spent reading 11")
awk -v a=$((often - once)) 'BEGIN { printf "reading of 8 MiB: %.1f ms, %.0f MB/s\n", a / 10, 83.88608 / a * 1000 }'
