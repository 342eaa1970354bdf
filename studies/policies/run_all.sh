#!/bin/sh
# Makes the runs of the study, one at a time on each processor: run_all.sh BQSIM FOLDER
# BQSIM is the built program, FOLDER takes the answers. SEEDS says how many seeds there are (10).
# Exit status: 0 if all runs have an answer, 123 if one failed.
set -eu
[ $# -eq 2 ] || { echo "usage: $0 BQSIM FOLDER" >&2; exit 2; }
mkdir -p "$2"
program=$(realpath "$1") folder=$(realpath "$2")
cd "$(dirname "$0")/../.."
studies/policies/list.py ${SEEDS:-} | xargs -P "$(nproc)" -L 1 studies/policies/one.sh "$program" "$folder"
