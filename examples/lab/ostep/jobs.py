#!/usr/bin/env python3
"""Prints the turnaround and the response of each job, in seconds, from what `bqsim simulate --as csv` writes.

    bqsim simulate --as csv JOBS.toml | jobs.py [ARRIVAL..]

A job arrives at 0, or at its ARRIVAL, in seconds: one for each job, in the order of the workload. Turnaround is from there to the job's last run,
response to its first.
"""
import csv
import sys


def runs(rows):
    """When each job begins to run and when it is done, by its number."""
    found = {}
    for row in rows:
        job, begin, end = (int(row[name]) for name in ("task", "from", "to"))
        if begin < end:
            first, _ = found.get(job, (begin, end))
            found[job] = first, end
    return [(first / 1e9, end / 1e9) for _, (first, end) in sorted(found.items())]


def main():
    jobs = runs(csv.DictReader(sys.stdin))
    arrivals = [float(word) for word in sys.argv[1:]] or [0.0] * len(jobs)
    if len(arrivals) != len(jobs):
        sys.exit(f"{len(jobs)} jobs ran, and {len(arrivals)} arrivals are given")
    for name, values in (
        ("turnaround", [end - came for (_, end), came in zip(jobs, arrivals)]),
        ("response", [first - came for (first, _), came in zip(jobs, arrivals)]),
    ):
        print(f"{name:10}", *(f"{it:8.3f}" for it in values), f"  mean {sum(values) / len(values):.3f}")


if __name__ == "__main__":
    sys.exit(main())
