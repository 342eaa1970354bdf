#!/usr/bin/env python3
"""Gathers the answers of the study into one table (CSV), a row a workload, discipline, hook and policy.

    studies/policies/gather.py FOLDER                      the table
    studies/policies/gather.py FOLDER --best [--by FIGURE] where each policy gains most and loses most, in proportion, beside no policy

Each figure has its mean and its standard deviation (that of a sample) over the seeds. studies/README.md says what the figures are.
A policy gains if it lowers the figure by which policies are compared.
"""
import argparse
import collections
import csv
import json
import pathlib
import statistics
import sys

FIGURES = ["latency", "worst_latency", "unfair", "switches", "migrations", "overruled"]


def figures(answer):
    """The figures of one run, of the object that `--as json` writes."""
    tasks, processors = answer["tasks"], answer["processors"]
    # a task that never ran after a wake has no latency: `unfair` shows it
    latencies = [task["latency"] for task in tasks if task["latency"]["p99"] is not None]
    hooks = [processor[hook] for processor in processors for hook in ("place", "preempt", "pull") if processor.get(hook)]
    return {
        "latency": statistics.fmean(it["p99"] for it in latencies) / 1e3 if latencies else 0.0,
        "worst_latency": max((it["max"] for it in latencies), default=0) / 1e3,
        "unfair": sum(abs(task["cpu"] - task["fair"]) for task in tasks) / 1e6,
        "switches": sum(processor["switches"] for processor in processors),
        "migrations": sum(task["counts"]["migrated"] for task in tasks),
        "overruled": sum(hook["overruled"] for hook in hooks),
    }


def gathered(folder):
    """The figures of all runs: by workload, discipline, hook and policy, a list with one for each seed."""
    rows = collections.defaultdict(list)
    for file in sorted(folder.glob("*.json")):
        workload, discipline, hook, policy, _ = file.stem.split(".")
        rows[workload, discipline, hook, policy].append(figures(json.loads(file.read_text())))
    if not rows:
        sys.exit(f"{folder}: no answers (files *.json) are there")
    return dict(sorted(rows.items()))


def mean(runs, figure):
    return statistics.fmean(run[figure] for run in runs)


def table(rows, to):
    out = csv.writer(to, lineterminator="\n")
    head = [f"{figure}_{what}" for figure in FIGURES for what in ("mean", "deviation")]
    out.writerow(["workload", "discipline", "hook", "policy", "runs", *head])
    for key, runs in rows.items():
        told = []
        for figure in FIGURES:
            deviation = statistics.stdev(run[figure] for run in runs) if len(runs) > 1 else ""
            told += [f"{mean(runs, figure):.3f}", deviation if deviation == "" else f"{deviation:.3f}"]
        out.writerow([*key, len(runs), *told])


def best(rows, figure):
    changes = collections.defaultdict(list)
    for (workload, discipline, hook, policy), runs in rows.items():
        if policy == "none" or (workload, discipline, "none", "none") not in rows:
            continue
        before, after = mean(rows[workload, discipline, "none", "none"], figure), mean(runs, figure)
        share = (after - before) / before if before else 0.0 if after == before else float("inf")
        changes[hook, policy].append((share, workload, discipline, before, after))
    print(f"{'policy':<20} {figure + ':':<12} {'workload':<18} {'':<6} {'none':>12} {'policy':>12} {'difference':>12}")
    for (hook, policy), found in sorted(changes.items()):
        for word, (share, workload, discipline, before, after) in (("best", min(found)), ("worst", max(found))):
            if share < 0 if word == "best" else share > 0:
                print(f"{policy:<20} {word:<12} {workload:<18} {discipline:<6} {before:>12.1f} {after:>12.1f} {after - before:>+12.1f}")
            else:
                print(f"{policy:<20} {word:<12} nowhere")


def main():
    words = argparse.ArgumentParser(description=__doc__, formatter_class=argparse.RawDescriptionHelpFormatter)
    words.add_argument("folder", type=pathlib.Path)
    words.add_argument("--best", action="store_true")
    words.add_argument("--by", choices=FIGURES, default="unfair")
    said = words.parse_args()
    rows = gathered(said.folder)
    if said.best:
        best(rows, said.by)
    else:
        table(rows, sys.stdout)


if __name__ == "__main__":
    main()
