#!/usr/bin/env bash
# One send and one receive of a datagram on this machine's loopback, by the UDP socket of `part_cases wire link`, compared with a C loop of sendto and recvfrom (gcc -O2), in one
# run: for 100 and for 1,400 bytes, the minimum CPU time (user and system) of 7 runs each, which alternate.
set -eu
. "$(dirname "$0")/common.sh"
build part_cases wire link 100 1
ours="$PWD/crates/part_cases/out/part_cases"
gcc -O2 -Wall -o "$work/link" bench/link.c

rounds=200000
machine
for bytes in 100 1400; do
    least_ours=999999 least_c=999999
    for _ in 1 2 3 4 5 6 7; do
        a=$(spent "$ours" wire link "$bytes" "$rounds")
        mv "$work/out" "$work/said"
        b=$(spent "$work/link" "$bytes" "$rounds")
        [ "$(cut -d' ' -f1 "$work/said")" = "$(cat "$work/out")" ] || { echo "the two differ"; exit 1; }
        ((a < least_ours)) && least_ours=$a
        ((b < least_c)) && least_c=$b
    done
    echo "$bytes bytes: $((least_ours * 1000000 / rounds)) ns a send and a receive, C $((least_c * 1000000 / rounds)), time as $((100 * least_ours / least_c)) to 100"
done
