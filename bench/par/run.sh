#!/usr/bin/env bash
# Times `bqsim par --rule cfs` at 1, 2 and 4 processors, each with a thread of its own, beside plain Rust with the same locks,
# the same history and the same receipts.
#
#     bench/par/run.sh [RUNS] [TICKS]
#
# Both must write the same line. They run in turn, and of each the least time is taken: by the wall, and of the processor.
# BQSIM names a bqsim that is built already; else ./bqsim builds it. With PERF=1 the instructions of one thread are counted,
# too, which no other job changes.
set -eu
runs=${1:-9}
ticks=${2:-200000}
here=$(cd "$(dirname "$0")" && pwd)
work=${BENCH:-/tmp/bqsim-bench}/par
bqsim=${BQSIM:-$here/../../bqsim}

mkdir -p "$work"
rustc --edition 2024 -O -o "$work/plain" "$here/plain.rs"
"$bqsim" par --rule cfs --processors 4 --ticks 10 >"$work/ours"
"$work/plain" 4 10 >"$work/theirs"
cmp "$work/ours" "$work/theirs"
# the script at the top is not to be timed, but what it built
[ -n "${BQSIM:-}" ] || bqsim=$here/../../out/bqsim

# the seconds of one run, by the wall and of the processor
seconds() {
    local TIMEFORMAT='%3R %3U %3S'
    { time "$@" >/dev/null 2>&1; } 2>&1 | awk '{ print $1, $2 + $3 }'
}

printf '%-10s %12s %12s %8s %16s %16s %8s\n' processors 'bqsim, s' 'plain, s' times 'bqsim, proc. s' 'plain, proc. s' times
for processors in 1 2 4; do
    : >"$work/ours.times"
    : >"$work/theirs.times"
    for _ in $(seq "$runs"); do
        seconds "$bqsim" par --rule cfs --processors "$processors" --ticks "$ticks" >>"$work/ours.times"
        seconds "$work/plain" "$processors" "$ticks" >>"$work/theirs.times"
    done
    paste "$work/ours.times" "$work/theirs.times" | awk -v processors="$processors" '
        NR == 1 || $1 < a { a = $1 }
        NR == 1 || $2 < b { b = $2 }
        NR == 1 || $3 < c { c = $3 }
        NR == 1 || $4 < d { d = $4 }
        END { printf "%-10s %12.3f %12.3f %8.2f %16.3f %16.3f %8.2f\n", processors, a, c, a / c, b, d, b / d }'
done
if [ -n "${PERF:-}" ]; then
    for program in "$bqsim par --rule cfs --processors 1 --ticks $ticks" "$work/plain 1 $ticks"; do
        valgrind --tool=callgrind --callgrind-out-file="$work/callgrind.out" $program 2>&1 >/dev/null | sed -n 's/.*Collected : /instructions /p'
    done
fi
