#!/usr/bin/env bash
# The log, by `part_cases wire log`, compared with a plain C program that checks, copies and answers the same datagrams (gcc -O2), in one run. One entry is filled with
# 16 MiB in Data of 1,460 bytes, each with its Read, and is fetched completely in Parts and Lens. Printed is how many messages a second are spelled, read and
# answered, with reads of equal lengths and with reads of 1,459 and 1,461 bytes alternately, by the minimum CPU time of 7 runs of 8 rounds each, which alternate.
# Then the time for the sixteenth MiB compared with that for the first, and the peak memory of a run, minus that of a run with an empty entry. Then the log with
# marks: the same messages without any mark, compared with a log's; and over 2^20 reads of 16 bytes on average, with a mark after each 64, how many bytes it
# keeps, the peak memory, and the time of one of the first 16 marks compared with one of the last 16.
set -eu
. "$(dirname "$0")/common.sh"
build part_cases wire log equal 1000 1
ours="$PWD/crates/part_cases/out/part_cases"
gcc -O2 -Wall -o "$work/log" bench/log.c

# the least of 7 turns
least() {
    local best=999999 a
    for _ in 1 2 3 4 5 6 7; do
        a=$(spent "$@")
        ((a < best)) && best=$a
    done
    echo "$best"
}

whole=16777216 rounds=8
machine
for reads in equal other; do
    least_ours=999999 least_c=999999
    for _ in 1 2 3 4 5 6 7; do
        a=$(spent "$ours" wire log "$reads" "$whole" "$rounds")
        mv "$work/out" "$work/said"
        b=$(spent "$work/log" "$reads" "$whole" "$rounds")
        cmp -s "$work/said" "$work/out" || { echo "the two differ"; exit 1; }
        ((a < least_ours)) && least_ours=$a
        ((b < least_c)) && least_c=$b
    done
    messages=$(cut -d' ' -f1 "$work/out")
    awk -v reads="$reads" -v n="$messages" -v a="$least_ours" -v b="$least_c" 'BEGIN {
        printf "%s lengths: %d messages in %d ms, %d a second; C %d a second; time as %d to 100\n", reads, n, a, n / a * 1000, n / b * 1000, 100 * a / b
    }'
done
made=$(least "$ours" wire log made "$whole" "$rounds")
printf 'the messages alone, made and not given: %d ms\n' "$made"

# one MiB more, at the front and at the end of an entry, 32 times
one=$(least "$ours" wire log other 1048576 32)
none=$(least "$ours" wire log other 0 32)
before=$(least "$ours" wire log other 15728640 32)
all=$(least "$ours" wire log other "$whole" 32)
printf 'the first MiB: %d ms; the sixteenth MiB: %d ms; 32 times each\n' $((one - none)) $((all - before))

held() { command time -f %M "$ours" wire log "$1" "$2" 1 2>&1 >/dev/null; }
for reads in equal other; do
    awk -v reads="$reads" -v a="$(held "$reads" "$whole")" -v b="$(held "$reads" 0)" 'BEGIN {
        printf "%s lengths: %d KiB held for 16,384 KiB, %.3f times\n", reads, a - b, (a - b) / 16384
    }'
done

# the two are near each other: the least of 31 turns of 16 rounds
least_log=999999 least_marked=999999
for _ in {1..31}; do
    a=$(spent "$ours" wire log equal "$whole" 16)
    mv "$work/out" "$work/said"
    b=$(spent "$ours" wire log equal "$whole" 16 marked)
    cmp -s "$work/said" "$work/out" || { echo "the two logs differ"; exit 1; }
    ((a < least_log)) && least_log=$a
    ((b < least_marked)) && least_marked=$b
done
awk -v a="$least_log" -v b="$least_marked" 'BEGIN { printf "without marks: %d ms, the log %d ms; time as %.3f to 1\n", b, a, b / a }'
printf '1,024 reads: %s\n' "$("$ours" wire log marks 1024 100)"
printf '2^20 reads: %s\n' "$("$ours" wire log marks 1048576 6)"
few=$(held marks 1024) many=$(held marks 1048576)
printf '2^20 reads: %d KiB held more than for 1,024 reads\n' $((many - few))
