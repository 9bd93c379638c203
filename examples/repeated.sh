# Sourced by gateway.sh, mail.sh and logger_crash.sh, which set `name`.

# repeat RUNS FUNCTION [SEED]: calls a function so many times, with the seed and the numbers behind it if there is one, and prints how often it passed. The status
# is 0 if it always passed. Where the function returns 2, because something is missing here, the script ends with that status.
repeat() {
    local runs=$1 function=$2 seed=${3:-} passed=0 run
    for ((run = 0; run < runs; run++)); do
        "$function" ${seed:+$((seed + run))}
        case $? in
        0) passed=$((passed + 1)) ;;
        2) exit 2 ;;
        esac
    done
    echo "$name: $passed of $runs passed"
    [ $passed = "$runs" ]
}
