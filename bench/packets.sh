#!/usr/bin/env bash
# Packets and messages by `part_cases wire`, compared with plain C loops of the same checks and updates (gcc -O2), in one run: packets of 40 and of 1,500 bytes are read,
# with their checksums; three fields of such a packet are set in place; and messages are read and written, a Data of 1,460 bytes and the length of a read. Printed
# is the minimum CPU time of 7 runs each, which alternate.
#     bench/packets.sh [OLDER]
# With OLDER, an older part_cases or a checkout that has one, both programs do the same 21 times alternately (or ROUNDS times), and the minimum times are compared,
# of whole runs. Status 1 if one of the new times is over 5 % longer.
set -eu
before=${1:+$(realpath "$1")}
. "$(dirname "$0")/common.sh"
build part_cases wire packets 40 1
program=$PWD/crates/part_cases/out/part_cases
[ -z "$before" ] || before=$(older part_cases "$before" wire packets 40 1)
gcc -O2 -Wall -o "$work/packets" bench/packets.c
gcc -O2 -Wall -o "$work/messages" bench/messages.c

# what is timed, the first word of ours and the C program of that name, their other words, and how many calls they make
row() {
    local what=$1 word=$2 words=$3 calls=$4 least_ours=999999 least_c=999999 a b
    [ -z "$before" ] || { beside "$what" "wire $word $words"; return; }
    for _ in 1 2 3 4 5 6 7; do
        # shellcheck disable=SC2086
        a=$(spent_in_user "$program" wire "$word" $words)
        mv "$work/out" "$work/said"
        # shellcheck disable=SC2086
        b=$(spent_in_user "$work/$word" $words)
        cmp -s "$work/said" "$work/out" || { echo "the two differ"; exit 1; }
        ((a < least_ours)) && least_ours=$a
        ((b < least_c)) && least_c=$b
    done
    awk -v what="$what" -v calls="$calls" -v a="$least_ours" -v b="$least_c" 'BEGIN {
        printf "%s: %d a second, %.1f ns each; C %d a second, %.1f ns; time as %d to 100\n", what, calls / a * 1000, a / calls * 1e6, calls / b * 1000, b / calls * 1e6, 100 * a / b
    }'
}

# what is timed, and the words of both programs
beside() {
    local least
    # shellcheck disable=SC2086
    same_output "$before" "$program" $2
    least=$(in_turn "$ROUNDS" "spent_in_user $before $2" "spent_in_user $program $2") || exit 1
    printf '%s: ' "$1"
    # shellcheck disable=SC2086
    compare_times $least || status=1
}

status=0
machine
row "packets of 40 bytes read" packets "40 200000" $((64 * 200000))
row "packets of 1500 bytes read" packets "1500 20000" $((64 * 20000))
row "fields of packets of 40 bytes set" packets "40 300000 set" $((3 * 64 * 300000))
row "fields of packets of 1500 bytes set" packets "1500 300000 set" $((3 * 64 * 300000))
row "Data of 1460 bytes read" messages "read data 20000" $((64 * 20000))
row "Data of 1460 bytes written" messages "write data 20000" $((64 * 20000))
row "lengths of reads read" messages "read cut 200000" $((64 * 200000))
row "lengths of reads written" messages "write cut 200000" $((64 * 200000))
exit $status
