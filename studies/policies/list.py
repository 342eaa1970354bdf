#!/usr/bin/env python3
"""Prints the runs of the study, one on each line: workload, discipline, hook, policy, seed.

The line `;@ hook place` of a policy's file names its hook. `none none` is a run without a policy.
"""
import argparse
import pathlib
import re
import sys

TOP = pathlib.Path(__file__).resolve().parents[2]


def hook(policy):
    named = re.search(r"^;@ hook (place|preempt|pull)\s*$", policy.read_text(), re.M)
    if not named:
        sys.exit(f"{policy}: no line says `;@ hook place`, `;@ hook preempt` or `;@ hook pull`")
    return named[1]


def number(word):
    if not word.isdecimal() or int(word) < 1:
        raise argparse.ArgumentTypeError(f"{word} is not a number of seeds: 1 or more")
    return int(word)


def main():
    words = argparse.ArgumentParser(description=__doc__, formatter_class=argparse.RawDescriptionHelpFormatter)
    words.add_argument("seeds", nargs="?", type=number, default=10, help="how many seeds there are (10)")
    seeds = words.parse_args().seeds
    choices = [("none", "none")]
    choices += [(hook(policy), policy.stem) for policy in sorted((TOP / "policies").glob("*.s"))]
    for workload in sorted((TOP / "workloads").glob("*.toml")):
        for discipline in ("cfs", "eevdf"):
            for at, policy in choices:
                for seed in range(1, seeds + 1):
                    print(workload.stem, discipline, at, policy, seed)


if __name__ == "__main__":
    main()
