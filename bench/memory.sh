#!/usr/bin/env bash
# Runs `ftreplay run` on the first path, and lets one allocation of each run fail: the first, the second and so on. A run may end with status 3 and `ftreplay: no
# memory`, having written a prefix of the report; with status 0 and the whole report, where it could do without the memory; or, where the allocation was for the
# program's words, before `replay` is called, with status 1 and std's own error. The malloc that fails is in a library that is loaded before libc.
set -eu
. "$(dirname "$0")/common.sh"
build ftreplay run <examples/first_path.schedule
cd crates/ftreplay
program=$PWD/out/ftreplay
folder=$work

gcc -O2 -Wall -shared -fPIC -o "$folder/refuse.so" ../../bench/refuse.c -ldl

# a run in which allocation $1 is refused; 0 refuses none
refuse() {
    status=0
    REFUSED=$1 LD_PRELOAD=$folder/refuse.so "$program" run <stdin >"$folder/report" 2>"$folder/told" 3>"$folder/calls" || status=$?
}

refuse 0
calls=$(wc -c <"$folder/calls")
n=0 words=0 whole=0 ended=0
while [ "$n" -lt "$calls" ]; do
    n=$((n + 1))
    refuse "$n"
    if [ "$status" -eq 0 ] && cmp -s stdout "$folder/report"; then
        whole=$((whole + 1))
    elif [ "$status" -eq 1 ] && [ "$words" -eq "$((n - 1))" ] && grep -q OutOfMemory "$folder/told"; then
        words=$n
    elif [ "$status" -eq 3 ] && [ "$(cat "$folder/told")" = "ftreplay: no memory" ] \
        && head -c "$(wc -c <"$folder/report")" stdout | cmp -s - "$folder/report"; then
        ended=$((ended + 1))
    else
        echo "allocation $n: status $status"
        cat "$folder/told"
        exit 1
    fi
done
echo "$calls allocations refused, one a run: $ended end with status 3 and a front of the report, $whole with the whole report, $words while the words are made"
