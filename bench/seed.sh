#!/usr/bin/env bash
# Times generated runs: `ftreplay seed` with the seeds 1 to 50 and 20,000 events each, with 1, 8 and 16 clients. Printed are the events a second of CPU time (user
# and system), and the time of a run with one event, which is included in the others.
set -eu
. "$(dirname "$0")/common.sh"
build ftreplay run <examples/first_path.schedule
program=$PWD/crates/ftreplay/out/ftreplay

# fifty runs of $1 events for $2 clients
runs() { for seed in {1..50}; do "$program" seed "$seed" "$2" "$1"; done; }

# the least of five turns, in milliseconds
least() {
    local best=999999 time
    for _ in 1 2 3 4 5; do
        time=$(spent runs "$@")
        ((time < best)) && best=$time
    done
    echo "$best"
}

machine
printf 'a run of one event: %s ms for fifty\n' "$(least 1 8)"
for clients in 1 8 16; do
    awk -v clients="$clients" -v ms="$(least 20000 "$clients")" 'BEGIN { printf "%d clients: %d ms for a million events, %d events a second\n", clients, ms, 1e9 / ms }'
done
