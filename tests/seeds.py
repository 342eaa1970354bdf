#!/usr/bin/env python3
"""Compares what `bqsim simulate --seeds` and `--against` tell with the figures of single runs.

    tests/seeds.py BQSIM [SEEDS [FIRST]]    with this number of seeds (3 if left out), from FIRST on (5 if left out)

BQSIM is the path of the program. Each workload of workloads/ is run for DURATION under both disciplines, with no policy against
those of OTHERS, and again the other way round. The figures are those of single runs, one by one with `--seed`, as `--as json` has
them. Their means and deviations, and those of the differences seed by seed, are computed here in fractions, as docs/SEEDS.md says,
and each line of the report, the csv and the json has to be the same. `tests/quick.py` runs it. Last seen: 10 workloads, 10,594 figures alike
in three forms.
"""
import csv
import io
import json
import math
import statistics
import subprocess
import sys
from fractions import Fraction
from pathlib import Path

TOP = Path(__file__).resolve().parent.parent
DURATION = "40ms"
OTHERS = {"place": TOP / "policies/keep_home.s", "preempt": TOP / "policies/run_to_the_end.s"}
HEAD = "of,name,figure,unit,runs,mean,deviation,against_runs,against_mean,against_deviation,difference,difference_deviation,difference_runs".split(",")
SIDES = "against: with the policies of --against; difference: against less mean, seed by seed"
TIMES = ["cpu", "fair", "waited"]
COUNTS = ["switches", "preempted", "migrated", "wakes"]


def run(program, *words):
    done = subprocess.run([program, "simulate", *map(str, words)], capture_output=True, text=True, timeout=600)
    if done.returncode:
        sys.exit(f"{words}: {done.stderr}")
    return done.stdout


def figures(program, words, seed):
    """Each figure of one run: what it is of, the task's name, the figure and its unit, with its value."""
    told = json.loads(run(program, *words, "--seed", seed, "--as", "json"))
    values = {}
    for task in told["tasks"]:
        of = f"task {task['task']}", task["name"] or ""
        values |= {(*of, figure, "ns"): task[figure] for figure in TIMES}
        values |= {(*of, figure, "1"): task["counts"][figure] for figure in COUNTS}
        values |= {(*of, figure, "ns"): task["latency"][figure] for figure in ("p50", "p95", "p99", "max")}
        values[*of, "still_waiting", "ns"] = task["still_waiting"]
    for processor in told["processors"]:
        of = f"cpu {processor['processor']}"
        values |= {(of, "", figure, unit): processor[figure] for figure, unit in (("busy", "ns"), ("idle", "ns"), ("switches", "1"))}
        for hook in ("place", "preempt", "pull"):
            values |= {(f"{of} {hook}", "", figure, "1"): processor[hook][figure] for figure in ("asked", "overruled", "steps")}
    return values


def summed(values):
    """How many values there are, and their mean and deviation in whole thousandths."""
    values = [Fraction(value) for value in values if value is not None]
    mean = math.floor(1000 * statistics.mean(values)) if values else None
    deviation = math.isqrt(math.floor(10**6 * statistics.variance(values))) if len(values) > 1 else None
    return len(values), mean, deviation


def differences(pairs):
    """The difference of the means of the pairs of which both are there, the deviation of their differences, and how many there are."""
    pairs = [pair for pair in pairs if None not in pair]
    count, _, deviation = summed([their - our for our, their in pairs])
    (_, our, _), (_, their, _) = (summed([pair[side] for pair in pairs]) for side in (0, 1))
    return their - our if pairs else None, deviation, count


def lines(ours, theirs):
    """The figures that have a line, each with both sides and what the seeds say of the differences."""
    for figure in ours[0]:
        row, their, paired = summed([run[figure] for run in ours]), (None, None, None), (None, None, None)
        if theirs:
            their = summed([run[figure] for run in theirs])
            paired = differences([(our[figure], other[figure]) for our, other in zip(ours, theirs)])
        if figure[0].count(" ") == 2 and row[1] == 0 and their[1] in (0, None):
            continue
        yield figure, row, their, paired


def decimal(thousandths, sign="", unit=1):
    """Thousandths of something, in so many times that unit, cut off after three decimals."""
    if thousandths is None:
        return ""
    sign, size = "-" if thousandths < 0 else sign, abs(thousandths) // unit
    return f"{sign}{size // 1000}.{size % 1000:03}"


def as_csv(told):
    text = io.StringIO()
    writer = csv.writer(text, lineterminator="\n")
    writer.writerow(HEAD)
    for figure, (runs, *ours), (their_runs, *theirs), (difference, deviation, count) in told:
        cells = [runs, *map(decimal, ours), "" if their_runs is None else their_runs, *map(decimal, theirs)]
        writer.writerow([*figure, *cells, decimal(difference, "+"), decimal(deviation), "" if count is None else count])
    return text.getvalue()


def as_json(told):
    keys = [f"{side}{key}" for side in ("", "against_") for key in ("runs", "mean_thousandths", "deviation_thousandths")]
    keys += ["difference_thousandths", "difference_deviation_thousandths", "difference_runs"]
    figures = [dict(zip(["of", "name", "figure", "unit", *keys], [*figure, *ours, *theirs, *paired])) for figure, ours, theirs, paired in told]
    return {"schema": 1, "figures": figures}


def as_report(told, wide):
    """The words of each line: what stands in a column, without how wide it is."""
    head = "of name figure unit mean deviation" + (" against deviation difference deviation" if wide else "")
    rows = [SIDES.split(), head.split()] if wide else [head.split()]
    for (of, name, figure, unit), (_, *ours), (_, *theirs), (difference, deviation, _) in told:
        size, shown = (1000, ["us"]) if unit == "ns" else (1, [])
        values = [*ours, *theirs] if wide else ours
        cells = [decimal(value, unit=size) or "-" for value in values]
        cells += [decimal(difference, "+", size) or "-", decimal(deviation, unit=size) or "-"] if wide else []
        rows.append([*of.split(), *name[:15].split(), figure, *shown, *cells])
    return rows


def compare(program, words, against, theirs_words, seeds):
    ours = [figures(program, words, seed) for seed in seeds]
    theirs = [figures(program, theirs_words, seed) for seed in seeds] if against else None
    told = list(lines(ours, theirs))
    asked = [*words, "--seed", seeds[0], "--seeds", len(seeds), *against]
    if run(program, *asked, "--as", "csv") != as_csv(told):
        sys.exit(f"{asked}: the csv differs")
    if json.loads(run(program, *asked, "--as", "json")) != as_json(told):
        sys.exit(f"{asked}: the json differs")
    if [line.split() for line in run(program, *asked).splitlines()] != as_report(told, bool(against)):
        sys.exit(f"{asked}: the report differs")
    return len(told)


def main(program, count="3", first="5"):
    workloads, compared, seeds = sorted((TOP / "workloads").glob("*.toml")), 0, range(int(first), int(first) + int(count))
    installed = [word for hook, file in OTHERS.items() for word in (f"--{hook}", file)]
    against = [word for file in OTHERS.values() for word in ("--against", file)]
    for workload in workloads:
        for rule in ("cfs", "eevdf"):
            plain = [workload, "--duration", DURATION, "--discipline", rule]
            compared += compare(program, plain, [], None, seeds)
            compared += compare(program, plain, against, [*plain, *installed], seeds)
            compared += compare(program, [*plain, *installed], ["--against", "none"], plain, seeds[:2])
    print(f"{len(workloads)} workloads, {compared} figures alike in three forms")


if __name__ == "__main__":
    sys.exit(main(*sys.argv[1:]) if len(sys.argv) > 1 else __doc__)
