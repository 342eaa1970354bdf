#!/bin/sh
# Times the crates of this repository beside plain Rust that does the same.
#
#     bench/run.sh FOLDER      one of the folders beside this file, as programs
#
# A FOLDER has
#   plain.rs       the plain Rust, built by `rustc -O`. `plain WORD TURNS` does that so often with its standard input, and
#                  `plain INPUT` writes an input;
#   NAME.rattle    the `main` of a program over the crates that its line "// crates: .." names, built by `rt run`, which
#                  proves what it builds. It takes TURNS, and standard input;
#   cases          a line for each figure:  what | NAME | WORD | INPUT | units in a turn | turns   ('#' starts a comment)
# Both programs print the nanoseconds that all turns took, and a result, which must be the same. Of seven runs each, in
# turn, the least is taken.
#
# Everything is built in $BENCH, else /tmp/bqsim-bench: no .rt file may stand in the repository outside of its crates. A
# second run there only builds what has changed.
set -eu
top=$(cd "$(dirname "$0")/.." && pwd)
from=$top/bench/${1:?which folder}
work=${BENCH:-/tmp/bqsim-bench}
runs=7

mkdir -p "$work/crates"
for part in "$work"/crates/*/src "$work"/crates/*/specs "$work"/crates/*/proofs; do
    rm -rf "$part"
done
(cd "$top" && tar -cf - --exclude=out --exclude=must-fail crates) | (cd "$work" && tar -xf -)
cp "$top/crates.txt" "$work/crates.txt"
for program in "$from"/*.rattle; do
    name=$(basename "$program" .rattle)
    mkdir -p "$work/crates/$name/src"
    cp "$program" "$work/crates/$name/src/main.rt"
    echo "$name:$(sed -n 's,^// crates:,,p' "$program")" >>"$work/crates.txt"
done
for program in "$from"/*.rattle; do
    name=$(basename "$program" .rattle)
    (cd "$work/crates/$name" && rt run --jobs 1 -- 0 </dev/null) >"$work/$name.log" 2>&1 || {
        tail "$work/$name.log"
        exit 1
    }
done
rustc -O -A dead_code -o "$work/plain" "$from/plain.rs"

# the least nanoseconds of its runs so far, and its result
least() {
    awk 'NR == 1 || $1 < low { low = $1 } { result = $2 } END { print low, result }' "$1"
}

printf '%-28s %14s %14s %8s\n' what 'ns a unit' 'in plain Rust' times
while IFS='|' read -r what name word input units turns; do
    case $what in '#'*) continue ;; esac
    name=$(echo $name) word=$(echo $word) input=$(echo $input)
    "$work/plain" "$input" >"$work/input"
    : >"$work/ours"
    : >"$work/theirs"
    for _ in $(seq $runs); do
        "$work/crates/$name/out/$name" $turns <"$work/input" >>"$work/ours"
        "$work/plain" "$word" $turns <"$work/input" >>"$work/theirs"
    done
    echo "$(least "$work/ours") $(least "$work/theirs") $units $turns" | awk -v what="$what" '
        $2 != $4 { print what ": the results differ, " $2 " and " $4; exit 1 }
        { printf "%-28s %14.1f %14.1f %8.2f\n", what, $1 / ($5 * $6), $3 / ($5 * $6), $1 / $3 }'
done <"$from/cases"
