#!/usr/bin/env bash
# Times a warm call of ./bqsim beside the same call of the program that it runs, in turn, and of each takes the least.
#
#     bench/launcher/run.sh [RUNS]
#
# Prints milliseconds by the wall: of the launcher with standard error to a file, of the launcher on a terminal (by script(1), whose own
# cost is measured beside it), of the program, and what the launcher adds.
set -eu
runs=${1:-40}
top=$(cd "$(dirname "$0")/../.." && pwd)
"$top/bqsim" --version > /dev/null
program=$top/out/bqsim
[ -x "$program" ] || { echo "out/ can't be written, so there is no warm call to measure" >&2; exit 1; }

# the least milliseconds of so many runs of a command
least() {
    local from to low=
    for _ in $(seq "$runs"); do
        from=$(date +%s%N)
        "$@" > /dev/null 2> /dev/null
        to=$(date +%s%N)
        if [ -z "$low" ] || [ $((to - from)) -lt "$low" ]; then low=$((to - from)); fi
    done
    echo "$low"
}

plain=$(least "$program" --version)
warm=$(least "$top/bqsim" --version)
plain_there=$(least script -qc "$program --version" /dev/null)
warm_there=$(least script -qc "$top/bqsim --version" /dev/null)
awk -v a="$plain" -v b="$warm" -v c="$plain_there" -v d="$warm_there" 'BEGIN {
    printf "%-34s %8s %8s %8s\n", "ms", "program", "./bqsim", "added"
    printf "%-34s %8.1f %8.1f %8.1f\n", "standard error to a file", a / 1e6, b / 1e6, (b - a) / 1e6
    printf "%-34s %8.1f %8.1f %8.1f\n", "standard error is a terminal", c / 1e6, d / 1e6, (d - c) / 1e6
}'
