#!/usr/bin/env bash
# Segments a second of wrapped connections, by `node_cases bench connection`, compared with those of two endpoints, by `node_cases bench echo`, in one run:
# eight clients one after another, each with its own key, send 8 MiB each to a wrapped connection with a log, which echoes them; the two endpoints echo the same
# 64 MiB. Segments have 1,460 bytes, and then 64. Printed is the minimum CPU time of 7 runs each, which alternate. A segment counts once: it is written, handed
# over, read, and its text echoed or compared. The connection also sends segments without text, and the text of each segment is sent to the log in a message and
# answered, and so is its read. So the comparison is by the segments with text, of which both have as many; the number of all segments is printed too.
#     bench/connection.sh [OLDER]
# With OLDER, an older node_cases or a checkout that has one, both programs echo 480 MB, in 4 runs of 8 connections with segments of 1,460 bytes, and then 64
# MiB in segments of 64 bytes, 21 times alternately (or ROUNDS times), and the minimum times are compared. Status 1 if one of the new times is over 5 % longer.
set -eu
before=${1:+$(realpath "$1")}
. "$(dirname "$0")/common.sh"
build node_cases bench connection 1460 1460
program="$PWD/crates/node_cases/out/node_cases"
are_ended() { [ "$(grep -c '^ended 8 connections$' "$work/out")" = "$1" ] || { echo "not ended"; exit 1; }; }
all_ended() { are_ended 4; }
one_ended() { are_ended 1; }

if [ -n "$before" ]; then
    before=$(older node_cases "$before" bench connection 1460 1460)
    machine
    status=0
    printf '1460 bytes: '
    compare_least "spent four_times" all_ended "$before" "$program" bench connection 15000000 1460 || status=1
    printf '64 bytes: '
    compare_least spent one_ended "$before" "$program" bench connection 8388608 64 || status=1
    exit $status
fi

# how many segments both sides sent in all
segments() { awk '/segments/ { n += $2 } END { print n }' "$work/out"; }

each=8388608 all=67108864
machine
for text in 1460 64; do
    least_bare=999999 least_wrapped=999999
    for _ in 1 2 3 4 5 6 7; do
        a=$(spent "$program" bench echo "$all" "$text")
        bare=$(segments)
        grep -q "^echoed $all bytes\$" "$work/out" || { echo "not echoed"; exit 1; }
        b=$(spent "$program" bench connection "$each" "$text")
        wrapped=$(segments)
        messages=$(awk '/messages/ { print $2 }' "$work/out")
        are_ended 1
        ((a < least_bare)) && least_bare=$a
        ((b < least_wrapped)) && least_wrapped=$b
    done
    awk -v text="$text" -v count="$((2 * 8 * ((each + text - 1) / text)))" -v a="$least_bare" -v b="$least_wrapped" \
        -v bare="$bare" -v wrapped="$wrapped" -v messages="$messages" 'BEGIN {
        printf "%d bytes: %d segments with text in %d ms, %d a second; endpoints alone in %d ms, %d a second; ratio %.3f\n",
            text, count, b, count / b * 1000, a, count / a * 1000, a / b
        printf "  in all %d segments, %d a second, and %d messages to the log; endpoints alone %d segments, %d a second\n",
            wrapped, wrapped / b * 1000, messages, bare, bare / a * 1000
    }'
done
