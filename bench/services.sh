#!/usr/bin/env bash
# Times each service on an input made here, and prints how many megabytes of input and of output it processes a second: the best of three runs. Echo, Line and Meter
# read 256 MiB of lines of 64 bytes, and Transfer reads 1 MiB of requests for 2,047 bytes each.
set -eu
. "$(dirname "$0")/common.sh"
build node_cases bench service echo <crates/node_cases/stdin
program=$PWD/crates/node_cases/out/node_cases
inputs=$work

yes 'a line of sixty-three bytes, and with its line feed sixty-four.' | head -c 268435456 >"$inputs/lines"
printf '\000\000\007\377' >"$inputs/requests"
for _ in 1 2 3 4 5 6 7 8 9 10 11 12 13 14 15 16 17 18; do
    cat "$inputs/requests" "$inputs/requests" >"$inputs/twice"
    mv "$inputs/twice" "$inputs/requests"
done

time_service() {
    name=$1
    input=$2
    best=
    for _ in 1 2 3; do
        start=$(date +%s%N)
        written=$("$program" bench service "$name" <"$input")
        nanoseconds=$(($(date +%s%N) - start))
        if [ -z "$best" ] || [ "$nanoseconds" -lt "$best" ]; then
            best=$nanoseconds
        fi
    done
    awk -v name="$name" -v read="$(wc -c <"$input")" -v written="$written" -v nanoseconds="$best" \
        'BEGIN { printf "%-8s %6.0f MB/s in %6.0f MB/s out\n", name, read * 1000 / nanoseconds, written * 1000 / nanoseconds }'
}

machine
time_service echo "$inputs/lines"
time_service line "$inputs/lines"
time_service meter "$inputs/lines"
time_service transfer "$inputs/requests"
