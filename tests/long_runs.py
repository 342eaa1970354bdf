#!/usr/bin/env python3
"""Checks that no run of policies/c/long_runs.c ends by a preemption before it has lasted for four milliseconds.

    tests/long_runs.py BQSIM [SEEDS]    each workload of workloads/ under both disciplines, with so many seeds (1 if left out)

BQSIM is the path of a built program. When runs begin and end is read from the trace of each simulation and the replies to it, and
not from what the policy sees. Needs what policies/c/Makefile needs. It is run by hand, and is no part of the gate.
Last seen: 2026-12-01, with clang 19.1.7 and one seed, 3,163 runs ended by a preemption, the shortest after 4,000,000 ns.
"""
import os
import pathlib
import shutil
import subprocess
import sys
import tempfile

TOP = pathlib.Path(__file__).resolve().parent.parent
TURN = 4_000_000


def answers(program, *words, **more):
    return subprocess.run([program, *map(str, words)], check=True, capture_output=True, text=True, timeout=600, **more).stdout


def preempted_runs(trace, replies):
    """How long each run lasted that ended as another task took the processor, in nanoseconds."""
    replies, runs = iter(replies.splitlines()), {}
    for line in trace.splitlines():
        event, *words = line.split()
        if event.startswith("#") or event == "machine":
            continue
        reply = next(replies).split()
        if event == "wake":
            next(replies)
        elif "run" in reply:
            processor, now, task = words[0], int(words[-1]), reply[reply.index("run") + 1]
            before, begun = runs.get(processor, ("none", 0))
            if event == "block" or task != before:
                runs[processor] = task, now
                if event != "block" and before != "none":
                    yield now - begun


def main(program, seeds=1):
    program, lasted = os.path.abspath(program), []
    with tempfile.TemporaryDirectory() as room:
        shutil.copytree(TOP / "policies/c", room, dirs_exist_ok=True)
        subprocess.run(["make", "-s", f"BQSIM={program}", "long_runs.bqp"], cwd=room, check=True)
        for workload in sorted(TOP.glob("workloads/*.toml")):
            for rule in ("cfs", "eevdf"):
                for seed in range(1, int(seeds) + 1):
                    words = workload, "--discipline", rule, "--seed", seed, "--preempt", f"{room}/long_runs.bqp"
                    trace = answers(program, "simulate", *words, "--as", "trace")
                    found = list(preempted_runs(trace, answers(program, "replay", input=trace)))
                    short = [run for run in found if run < TURN]
                    if short:
                        sys.exit(f"{workload.name} {rule} seed {seed}: {len(short)} of {len(found)} lasted less than 4 ms, the shortest {min(short)} ns")
                    lasted += found
    if not lasted:
        sys.exit("no run was preempted, so nothing was seen")
    print(f"{len(lasted)} runs ended by a preemption, the shortest of {min(lasted)} ns, the longest of {max(lasted)}")


if __name__ == "__main__":
    if len(sys.argv) not in (2, 3):
        sys.exit(__doc__)
    main(*sys.argv[1:])
