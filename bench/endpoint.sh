#!/usr/bin/env bash
# Segments a second of two endpoints in memory that echo 64 MiB, by `node_cases bench echo`, compared with packets a second of a plain C loop of a packet's
# checks (gcc -O2), in one run: segments of 1,460 bytes with packets of 1,500 bytes, and of 64 with 40. Printed is the minimum CPU time of 7 runs each, which
# alternate. A segment counts once: it is written, handed over, read, and its text echoed or compared. Then the same echo in segments of 1,460 bytes with a
# whole window in flight: in order, with every two segments swapped, and with one packet of 100 lost; each compared with the first of these.
#     bench/endpoint.sh [OLDER]
# With OLDER, a program with the same words, or a checkout whose node_cases has them, both programs echo 1 GiB (minus one byte, in segments of 1,460 bytes) 21
# times alternately (or ROUNDS times), and the minimum times are compared. Status 1 if the new one takes over 5 % longer.
set -eu
before=${1:+$(realpath "$1")}
. "$(dirname "$0")/common.sh"
build node_cases bench echo 1460 1460
program="$PWD/crates/node_cases/out/node_cases"
is_echoed() { grep -q "^echoed $all bytes\$" "$work/out" || { echo "not echoed"; exit 1; }; }

if [ -n "$before" ]; then
    all=1073741823
    before=$(older node_cases "$before" bench echo 1460 1460)
    machine
    compare_least spent_in_user is_echoed "$before" "$program" bench echo "$all" 1460
    exit
fi
all=67108864
gcc -O2 -Wall -o "$work/packets" bench/packets.c

machine
for row in "1460 1500 6000" "64 40 120000"; do
    read -r text bytes rounds <<<"$row"
    least_echo=999999 least_c=999999
    for _ in 1 2 3 4 5 6 7; do
        a=$(spent_in_user "$program" bench echo "$all" "$text")
        segments=$(awk '/segments/ { n += $2 } END { print n }' "$work/out")
        is_echoed
        b=$(spent_in_user "$work/packets" "$bytes" "$rounds")
        ((a < least_echo)) && least_echo=$a
        ((b < least_c)) && least_c=$b
    done
    awk -v text="$text" -v segments="$segments" -v a="$least_echo" -v packets="$((64 * rounds))" -v b="$least_c" -v bytes="$bytes" 'BEGIN {
        printf "%d bytes: %d segments in %d ms, %d a second; C, packets of %d bytes, %d a second; ratio %.3f\n",
            text, segments, a, segments / a * 1000, bytes, packets / b * 1000, segments / a * b / packets
    }'
done

# a whole window under way: in order, swapped, and with losses, in turn
declare -A least segments ticks
for _ in 1 2 3 4 5 6 7; do
    for way in window swapped lossy; do
        a=$(spent_in_user "$program" bench echo "$all" 1460 "$way")
        is_echoed
        segments[$way]=$(awk '/segments/ { n += $2 } END { print n }' "$work/out")
        ticks[$way]=$(awk '/ticks/ { n = $1 } END { print n + 0 }' "$work/out")
        [ "${least[$way]:-999999}" -le "$a" ] || least[$way]=$a
    done
done
for way in window swapped lossy; do
    awk -v way="$way" -v segments="${segments[$way]}" -v ticks="${ticks[$way]}" -v a="${least[$way]}" -v b="${least[window]}" 'BEGIN {
        printf "%s: %d segments in %d ms, %d a second, %d ticks; bytes a second beside those in order %.3f\n", way, segments, a, segments / a * 1000, ticks, b / a
    }'
done
