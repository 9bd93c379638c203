#!/usr/bin/env bash
# Times `ftreplay check` on reports, and `ftreplay run` on their schedules: eight clients with a crash at each 1,000th event (bench/crash_schedule.awk), one client
# without a crash (bench/echo_schedule.awk), and one whose text is all behind a gap (bench/held_schedule.awk), of 10,000 and of 100,000 events each. The two run
# alternately, 21 times (or ROUNDS times), four runs each time, with their output written to a file. Printed are the events a second by the least CPU time of each,
# their ratio, how much longer the larger report takes than the smaller, and the memory of both. The number of the last packet of each larger report is changed,
# too, which must be found at its line.
set -eu
. "$(dirname "$0")/common.sh"
build ftreplay run <examples/first_path.schedule
program=$PWD/crates/ftreplay/out/ftreplay

playing() { "$program" run <"$work/$1.schedule"; }
checking() { "$program" check <"$work/$1.report"; }

# the kilobytes of a run of the program with this word, on this file
memory() {
    /usr/bin/time -f %M -o "$work/memory" "$program" "$1" <"$work/$2" >"$out"
    cat "$work/memory"
}

# the name of a schedule: its report is written, and must be legal
report() {
    playing "$1" >"$work/$1.report"
    sed -n 's/^end /legal events /p' "$work/$1.report" >"$work/wanted"
    printf 'packets %d\n' "$(grep -c '^packet ' "$work/$1.report")" | paste -d ' ' "$work/wanted" - | cmp -s - <(checking "$1") || {
        echo "the report isn't found legal: $1" >&2
        exit 1
    }
}

# what the schedules of these two names are, of which the second has ten times the events of the first
compare() {
    local small large
    report "$1"
    report "$2"
    small=$(out=$work/told in_turn "$ROUNDS" "spent four_times playing $1" "spent four_times checking $1") || exit 1
    large=$(out=$work/told in_turn "$ROUNDS" "spent four_times playing $2" "spent four_times checking $2") || exit 1
    awk -v what="$3" -v events="$(sed -n 's/^end //p' "$work/$2.report")" -v small="${small#* }" -v run="${large% *}" -v check="${large#* }" -v rounds="$ROUNDS" \
        -v bytes="$(wc -c <"$work/$2.report")" -v memory="$(memory check "$2.report")" -v played="$(memory run "$2.schedule")" 'BEGIN {
        printf "%s, %d events, report %.1f MB, four runs: run %d ms, %d events a second, ", what, events, bytes / 1e6, run, 4000 * events / run
        printf "check %d ms, %d events and %.0f MB a second, least of %d each: %.2f times as many\n", check, 4000 * events / check, bytes / 250 / check, rounds, run / check
        printf "%s: %.1f times the time of the smaller report; memory %d MB, of the run %d MB\n", what, check / small, memory / 1000, played / 1000
    }'
    spoil "$2"
}

# the last packet line of a report gets another number
spoil() {
    local line status=0
    line=$(grep -n '^packet ' "$work/$1.report" | tail -n 1 | cut -d: -f1)
    sed "${line}s/^packet /&1/" "$work/$1.report" >"$work/spoilt.report"
    checking spoilt >"$out" 2>"$work/err" || status=$?
    if [ "$status" -ne 9 ] || ! grep -q "^ftreplay: line $line: " "$work/err"; then
        echo "a spoilt report is judged otherwise: $1" >&2
        exit 1
    fi
}

machine
for events in 10000 100000; do
    awk -v events="$events" -f bench/crash_schedule.awk >"$work/crash$events.schedule"
    awk -v cycles="$((events / 10 - 1))" -f bench/echo_schedule.awk >"$work/echo$events.schedule"
    awk -v events="$events" -f bench/held_schedule.awk >"$work/held$events.schedule"
done
compare crash10000 crash100000 'eight clients, with crashes'
compare echo10000 echo100000 'one client, without a crash'
compare held10000 held100000 'one client, whose text is all behind a gap'
