# The common beginning of the other scripts in this folder, which source it after `set -eu`. It changes to the top of the repository, and makes a folder $work that
# is removed when the script ends.
cd "$(dirname "$0")/.."
work=$(mktemp -d)
out=$work/out
trap 'rm -rf "$work"' EXIT

# build CRATE WORD..: proves and builds a program by running it once with these words. If that fails, its output is shown and the script ends.
build() {
    local crate=$1
    shift
    if ! (cd "crates/$crate" && rt run -- "$@") >"$work/build" 2>&1; then
        tail -n 30 "$work/build" >&2
        echo "$(basename "$0"): crates/$crate isn't built, or doesn't run" >&2
        exit 1
    fi
}

# Milliseconds of one run, whose output goes to $out: of user and system, and of user alone.
spent() {
    local user system TIMEFORMAT='%U %S'
    read -r user system < <({ { time "$@" >"$out"; } 2>&1; } | tr -d .)
    echo $((10#$user + 10#$system))
}
spent_in_user() {
    local user TIMEFORMAT=%U
    user=$({ { time "$@" >"$out"; } 2>&1; } | tr -d .)
    echo $((10#$user))
}

# older CRATE PATH WORD..: prints where an older program is: at PATH, or where that is a checkout, in its crate, built by running it once with these words.
older() {
    local crate=$1 path=$2
    shift 2
    if [ -d "$path" ]; then
        cd "$path"
        build "$crate" "$@"
        path=$path/crates/$crate/out/$crate
    fi
    [ -x "$path" ] || { echo "$(basename "$0"): there is no program $path" >&2; exit 1; }
    echo "$path"
}

# How many rounds a comparison with an older program has.
ROUNDS=${ROUNDS:-21}

# in_turn ROUNDS FIRST SECOND: runs these two commands, so many times in turn, and prints the least number that each of them printed.
in_turn() {
    local first=999999999 second=999999999 a b i
    for ((i = 0; i < $1; i++)); do
        # shellcheck disable=SC2086
        a=$($2) || exit 1
        # shellcheck disable=SC2086
        b=$($3) || exit 1
        ((a < first)) && first=$a
        ((b < second)) && second=$b
    done
    echo "$first $second"
}

# same_output OLDER NEWER WORD..: fails unless both programs print the same with these words.
same_output() {
    local older=$1 newer=$2
    shift 2
    "$older" "$@" >"$work/older" || exit 1
    "$newer" "$@" >"$work/newer" || exit 1
    cmp -s "$work/older" "$work/newer" || { echo "the older program prints something else with these words: $*" >&2; exit 1; }
}

# compare_times OLDER NEWER: prints the two, which are the least milliseconds of $ROUNDS runs each. It fails where the newer program takes over 5 % longer.
compare_times() {
    awk -v a="$1" -v b="$2" -v rounds="$ROUNDS" 'BEGIN {
        printf "older %d ms, newer %d ms, least of %d each: %+.1f %%\n", a, b, rounds, 100 * (b - a) / a
        exit (100 * b > 105 * a)
    }'
}

# compare_least MEASURE CHECK OLDER NEWER WORD..: runs both programs with these words, $ROUNDS times in turn, and compares the least time of each. MEASURE is one
# of the two functions above, CHECK a function that looks at $out after each run. It fails where the newer program takes over 5 % longer.
compare_least() {
    local measure=$1 check=$2 older=$3 newer=$4 least
    shift 4
    measured() { $measure "$@" && $check >&2; }
    least=$(in_turn "$ROUNDS" "measured $older $*" "measured $newer $*") || exit 1
    # shellcheck disable=SC2086
    compare_times $least
}

# Runs a program four times, since one run is too short to be timed.
four_times() { for _ in {1..4}; do "$@"; done; }

machine() { printf '%s processors, %s, load %s\n' "$(nproc)" "$(lscpu | sed -n 's/^Model name: *//p')" "$(cut -d' ' -f1 /proc/loadavg)"; }
