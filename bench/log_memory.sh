#!/usr/bin/env bash
# Runs the script `log` of `part_cases` on its cases, without the random ones and those on a journal's file, and lets one allocation of each run fail: the first,
# the second and so on. The script plays a line whose allocation failed once more, so each run must print what it prints when no allocation fails: the log was as
# before. Or, where the allocation was for reading the input, it ends with status 1 and an error, having printed a prefix of that.
set -eu
. "$(dirname "$0")/common.sh"
build part_cases <crates/part_cases/stdin
program=$PWD/crates/part_cases/out/part_cases
folder=$work
gcc -O2 -Wall -shared -fPIC -o "$folder/refuse.so" bench/refuse.c -ldl

# the cases up to the long runs of reads, and those of pages
sed -n '/^= log$/,/^= /p' crates/part_cases/stdin | sed '/^= /d' >"$folder/log"
sed '/^# paged log$/,$d' "$folder/log" >"$folder/script"
sed -n '/^# pages: /,/^# runs: /p' "$folder/log" >>"$folder/script"

# a run in which allocation $1 is refused; 0 refuses none
refuse() {
    status=0
    REFUSED=$1 LD_PRELOAD=$folder/refuse.so "$program" log <"$folder/script" >"$folder/printed" 2>"$folder/told" 3>"$folder/calls" || status=$?
}

refuse 0
cp "$folder/printed" "$folder/wanted"
calls=$(wc -c <"$folder/calls")
n=0 same=0 ended=0
while [ "$n" -lt "$calls" ]; do
    n=$((n + 1))
    refuse "$n"
    if [ "$status" -eq 0 ] && cmp -s "$folder/wanted" "$folder/printed"; then
        same=$((same + 1))
    elif [ "$status" -eq 1 ] && [ -s "$folder/told" ] \
        && head -c "$(wc -c <"$folder/printed")" "$folder/wanted" | cmp -s - "$folder/printed"; then
        ended=$((ended + 1))
    else
        echo "allocation $n: status $status"
        cat "$folder/told"
        exit 1
    fi
done
echo "$calls allocations refused, one a run: $same print all as wanted, $ended end while the input is read"
