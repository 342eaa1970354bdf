#!/usr/bin/env python3
"""Compares what `bqsim simulate` tells with theory that everybody knows.

    tests/simulate_theory.py BQSIM

BQSIM is the path of the program. Four laws, under both disciplines:

- Tasks that never sleep have shares of one processor by their weights (those of Linux's table of nice values), within four of
  the longest slices.
- N sources, each of which thinks for an exponential time and then needs an exponential time of one processor, make the machine
  repairman's queue (M/M/1//N). Its mean response is N / X - Z, where X = (1 - p0) / S is the throughput, S the mean need, Z the
  mean thinking time and 1 / p0 the sum over k of N! / (N - k)! (S / Z)^k. That holds under each discipline that wastes nothing and
  knows no need beforehand. With many sources it comes near M/M/1. Four seeds have to come within 5 percent of it together.
- While no task is pinned and more can run than there are processors, no processor idles.
- A processor on which a task runs from the beginning is busy for as long as its tasks run, and idles for all the rest of the duration.

`tests/quick.py` runs it. Last seen: shares within 5.5 ms of 10 s under CFS and 3.1 ms under EEVDF; mean
responses of 3.062 and 3.090 ms over 167,000 visits each, by the formula 3.111; no processor idle.
"""
import json
import subprocess
import sys

sys.dont_write_bytecode = True

WEIGHTS = {-10: 9548, -5: 3121, 0: 1024, 5: 335, 10: 110}
MS = 1_000_000


def told(program, text, *options):
    done = subprocess.run([program, "simulate", "--as", "json", *options], input=text, capture_output=True, text=True, timeout=600)
    if done.returncode:
        sys.exit(f"{options}: {done.stderr}")
    return json.loads(done.stdout)


def shares(program, rule):
    duration = 10_000 * MS
    text = f'[machine]\nduration = "10s"\ndiscipline = "{rule}"\n'
    for nice in WEIGHTS:
        text += f'[[task]]\nname = "nice{nice}"\nnice = {nice}\nrun = "1s"\n'
    worst = 0
    for task, weight in zip(told(program, text)["tasks"], WEIGHTS.values()):
        due = duration * weight / sum(WEIGHTS.values())
        worst = max(worst, abs(task["cpu"] - due))
    if worst > 4 * 4 * MS:
        sys.exit(f"{rule}: a share is {worst / MS:.3f} ms off")
    print(f"{rule}: shares by weight, at most {worst / MS:.3f} ms of 10 s off")


def repairman(sources, need, think):
    term, total = 1.0, 1.0
    for k in range(1, sources + 1):
        term *= (sources - k + 1) * need / think
        total += term
    throughput = (1 - 1 / total) / need
    return sources / throughput - think


def queue(program, rule):
    sources, need, think = 100, 1.0, 140.0
    text = f'[machine]\nduration = "60s"\ndiscipline = "{rule}"\n[[task]]\nname = "source"\ncount = {sources}\n'
    text += f'do = [{{ sleep = {{ exponential = "{think:.0f}ms" }} }}, {{ run = {{ exponential = "{need:.0f}ms" }} }}]\n'
    spent = visits = 0
    for seed in range(1, 5):
        for task in told(program, text, "--seed", str(seed))["tasks"]:
            spent += task["cpu"] + task["waited"]
            visits += task["counts"]["wakes"] - 1  # the first wake only begins to think
    mean, due = spent / visits / MS, repairman(sources, need, think)
    if abs(mean - due) > 0.05 * due:
        sys.exit(f"{rule}: the mean response is {mean:.3f} ms, and should be {due:.3f}")
    print(f"{rule}: the mean response of {visits} visits is {mean:.3f} ms, by the formula {due:.3f}; M/M/1 has {1 / (1 / need - sources / think):.3f}")


def work(program, rule):
    text = f'[machine]\nprocessors = 4\nduration = "1s"\ndiscipline = "{rule}"\n[[task]]\nname = "busy"\ncount = 9\nrun = "7ms"\n'
    for processor in told(program, text)["processors"]:
        if processor["idle"]:
            sys.exit(f"{rule}: processor {processor['processor']} idles for {processor['idle']} ns")
    print(f"{rule}: no processor idles")


def rest(program, rule):
    text = f'[machine]\nprocessors = 2\nduration = "200ms"\ndiscipline = "{rule}"\n'
    needs = [10, 70]
    for processor, need in enumerate(needs):
        text += f'[[task]]\nname = "job{processor}"\ncpus = "{processor}"\nrun = "{need}ms"\nloops = 1\n'
    for processor, need in zip(told(program, text)["processors"], needs):
        if (processor["busy"], processor["idle"]) != (need * MS, (200 - need) * MS):
            sys.exit(f"{rule}: processor {processor['processor']} is busy for {processor['busy']} ns and idles for {processor['idle']} of 200 ms, and runs {need} ms")
    print(f"{rule}: processors idle for all the rest of the duration")


def main(program):
    for rule in ("cfs", "eevdf"):
        shares(program, rule)
        queue(program, rule)
        work(program, rule)
        rest(program, rule)


if __name__ == "__main__":
    main(*sys.argv[1:])
