#!/bin/sh
# One run of the study, from the top of the repository: one.sh BQSIM FOLDER WORKLOAD DISCIPLINE HOOK POLICY SEED
# Its answer becomes a file only when it is whole. What a run that fails says is kept in FOLDER/failed.
set -eu
program=$1 folder=$2 workload=$3 discipline=$4 hook=$5 policy=$6 seed=$7
answer=$folder/$workload.$discipline.$hook.$policy.$seed.json
[ ! -e "$answer" ] || exit 0
mkdir -p "$folder/failed"
complaint=$folder/failed/$workload.$discipline.$hook.$policy.$seed
set -- simulate "workloads/$workload.toml" --discipline "$discipline" --seed "$seed" --as json
[ "$hook" = none ] || set -- "$@" "--$hook" "policies/$policy.s"
if "$program" "$@" > "$answer.part" 2> "$complaint"; then
    rm -f "$complaint"
    mv "$answer.part" "$answer"
else
    rm -f "$answer.part"
    exit 1
fi
