#!/usr/bin/env bash
# Times the replay of a trace of a million lines beside plain Rust that answers the same lines: from a file to /dev/null,
# both gathering their output.
#
#     bench/replay/run.sh [RUNS]
#
# generate.rs writes the trace: 32 tasks on one processor under CFS, with ticks, blocks, wakes and drains, none of them
# refused. plain.rs is the plain Rust, with a BTreeMap as its queue. Both programs must write the same bytes. They run in
# turn, and of each the least processor time is taken. BQSIM names a bqsim that is built already; else ./bqsim builds it.
set -eu
runs=${1:-15}
here=$(cd "$(dirname "$0")" && pwd)
work=${BENCH:-/tmp/bqsim-bench}/replay
bqsim=${BQSIM:-$here/../../bqsim}

mkdir -p "$work"
for program in generate plain; do
    rustc --edition 2024 -O -o "$work/$program" "$here/$program.rs"
done
"$work/generate" >"$work/trace"
"$bqsim" replay <"$work/trace" >"$work/ours"
"$work/plain" <"$work/trace" >"$work/theirs"
cmp "$work/ours" "$work/theirs"
# the script at the top is not to be timed, but what it built
[ -n "${BQSIM:-}" ] || bqsim=$here/../../out/bqsim

# the processor seconds of one run
seconds() {
    local TIMEFORMAT='%3U %3S'
    { time "$@" <"$work/trace" >/dev/null 2>&1; } 2>&1 | awk '{ print $1 + $2 }'
}

: >"$work/ours.times"
: >"$work/theirs.times"
for _ in $(seq "$runs"); do
    seconds "$bqsim" replay >>"$work/ours.times"
    seconds "$work/plain" >>"$work/theirs.times"
done
paste "$work/ours.times" "$work/theirs.times" | awk '
    NR == 1 || $1 < ours { ours = $1 }
    NR == 1 || $2 < theirs { theirs = $2 }
    END { printf "bqsim %.3f s   plain Rust %.3f s   times %.2f\n", ours, theirs, ours / theirs }'
