#!/usr/bin/env bash
# The restart, by `node_cases bench restart`: an entry whose output is all acknowledged is fetched from a log by messages as bytes, replayed and spliced.
# Measured with Echo and 15,000,000 bytes in reads of 2,048, and with Meter and 1 MiB in reads of 1 byte: the bytes of input a second, and the messages a
# second, questions and answers together. Of each the minimum CPU time of 5 runs with 40 restarts, minus that of 5 runs that only fill the log, which alternate.
# Then the peak memory of a run with one restart, minus that of a run without it: the largest difference of three. At last restarts from a mark, 4 reads before
# the end of entries of 2^10, 2^16 and 2^20 reads of 16 bytes with Echo, timed the same way, of 15 runs each, with 20,000 restarts: how long one takes, and how
# many questions it asks, and an entry without bytes.
set -eu
. "$(dirname "$0")/common.sh"
build node_cases bench restart echo 1000 1 1
ours="$PWD/crates/node_cases/out/node_cases"

held() { command time -f %M "$ours" bench restart "$@" 2>&1 >/dev/null; }

rounds=40
machine
while read -r service bytes size; do
    with=999999 without=999999
    for _ in 1 2 3 4 5; do
        a=$(spent "$ours" bench restart "$service" "$bytes" "$size" 0)
        b=$(spent "$ours" bench restart "$service" "$bytes" "$size" "$rounds")
        ((a < without)) && without=$a
        ((b < with)) && with=$b
    done
    more=-999999
    for _ in 1 2 3; do
        c=$(($(held "$service" "$bytes" "$size" 1) - $(held "$service" "$bytes" "$size" 0)))
        ((c > more)) && more=$c
    done
    awk -v service="$service" -v bytes="$bytes" -v size="$size" -v n="$(cut -d' ' -f1 "$work/out")" -v rounds="$rounds" -v ms="$((with - without))" -v more="$more" 'BEGIN {
        printf "%s, %d bytes in reads of %d: %d restarts in %d ms, %.1f MB a second, %d messages a second, %d KiB more held\n",
            service, bytes, size, rounds, ms, rounds * bytes / ms / 1000, 2 * n / ms * 1000, more
    }'
done <<'END'
echo 15000000 2048
meter 1048576 1
END

# The C library's allocator keeps freed memory here, as it does by itself with a long log; otherwise restarts with a short log measure its calls of mmap too.
export MALLOC_MMAP_THRESHOLD_=33554432 MALLOC_TRIM_THRESHOLD_=268435456 MALLOC_TOP_PAD_=67108864

# CPU time of so many restarts of an entry, in ms, which is that of filling the log less.
restarts=20000
marked() {
    local with=999999 without=999999 a b
    for _ in {1..15}; do
        a=$(spent "$ours" bench restart echo "$1" 16 0 "$2")
        b=$(spent "$ours" bench restart echo "$1" 16 "$restarts" "$2")
        ((a < without)) && without=$a
        ((b < with)) && with=$b
    done
    echo $((with - without))
}
"$ours" bench restart echo 0 16 1 >"$out"
read -r none _ <"$out"
for reads in 1024 65536 1048576; do
    ms=$(marked $((16 * reads)) $((reads - 4)))
    "$ours" bench restart echo $((16 * reads)) 16 1 $((reads - 4)) >"$out"
    read -r asked _ <"$out"
    awk -v reads="$reads" -v ms="$ms" -v n="$restarts" -v asked="$asked" -v none="$none" 'BEGIN {
        printf "a mark 4 reads before the end of %d: %d restarts in %d ms, %.2f us each, %d questions each, %d of an entry without bytes\n", reads, n, ms, 1000 * ms / n, asked, none
    }'
done
