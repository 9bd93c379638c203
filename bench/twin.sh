#!/usr/bin/env bash
# Two loggers that act as one, by `part_cases wire log twin`, compared with one log, in one run: how many messages of 100 bytes a second each takes in memory, by the
# minimum CPU time of 7 runs each, which alternate; and how many Forwards a burst of messages causes before any of them arrives, and the time of a message in bursts,
# for plain messages and for wide ones, of which each is forwarded once.
set -eu
. "$(dirname "$0")/common.sh"
build part_cases wire log twin one 1000 1
ours="$PWD/crates/part_cases/out/part_cases"

count=100000
machine
least_one=999999 least_pair=999999
for _ in 1 2 3 4 5 6 7; do
    a=$(spent "$ours" wire log twin one "$count" 1)
    b=$(spent "$ours" wire log twin pair "$count" 1)
    ((a < least_one)) && least_one=$a
    ((b < least_pair)) && least_pair=$b
done
awk -v n="$count" -v a="$least_one" -v b="$least_pair" 'BEGIN {
    printf "one log: %d messages a second; a pair: %d a second; as %.2f to 1\n", n / a * 1000, n / b * 1000, a / b
}'
for who in pair wide; do
    for burst in 1 8 34 64; do
        least=999999
        for _ in 1 2 3 4 5 6 7; do
            a=$(spent "$ours" wire log twin "$who" "$count" "$burst")
            ((a < least)) && least=$a
        done
        printf '%s, bursts of %d: %s, %s us a message\n' "$who" "$burst" "$("$ours" wire log twin "$who" 6400 "$burst")" "$(awk -v a="$least" -v n="$count" 'BEGIN { printf "%.2f", a * 1000 / n }')"
    done
done
held() { command time -f %M "$ours" wire log twin "$@" 2>&1 >/dev/null; }
printf 'a head and a tail hold %d KiB more than one log, after 100,000 messages\n' $(($(held pair "$count" 1) - $(held one "$count" 1)))
