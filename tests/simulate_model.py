#!/usr/bin/env python3
"""Compares `bqsim simulate --as trace` with a loop that is written from docs/LOOP.md alone, on drawn workloads.

    tests/simulate_model.py BQSIM [WORKLOADS [SEED]]    compares the traces of so many drawn workloads (50 if left out)
    tests/simulate_model.py --model [WORKLOADS [SEED]]  runs the model alone: it stops where its world refuses an event

BQSIM is the path of the program. Workloads are of both disciplines and all sizes, with all kinds of actions and lengths,
masks, nice values, slices, loops and costs. Each line of the trace must be the same, and `--as json` must count as many wakes that
found no task waiting as the loop does. The first workload that differs is left in differs.toml. `tests/quick.py` compares some of
these. Last seen: 200 workloads, 27,402 lines alike.
"""
import json
import random
import subprocess
import sys

sys.dont_write_bytecode = True

from model.loop import Loop

SIZES = [1, 2, 4, 8, 16, 32, 64]


def a_length(draw, most):
    kind = draw.choice(["fixed", "uniform", "exponential"])
    if kind != "uniform":
        return kind, draw.randint(1, most)
    return kind, *sorted([draw.randint(1, most), draw.randint(1, most)])


def an_action(draw, kinds):
    name = draw.choice(["run", "run", "sleep", "wait", "wake"])
    if name == "run":
        return name, a_length(draw, 3_000_000)
    if name == "sleep":
        return name, a_length(draw, 5_000_000)
    return (name,) if name == "wait" else (name, draw.randrange(kinds))


def actions(draw, kinds):
    drawn = [an_action(draw, kinds) for _ in range(draw.randint(1, 5))]
    if not any(action[0] in ("run", "sleep") for action in drawn):
        drawn.append(("run", a_length(draw, 1_000_000)))
    return drawn


def a_workload(draw):
    size = draw.choice(SIZES[:4] if draw.random() < 0.8 else SIZES)
    machine = {
        "discipline": draw.choice(["cfs", "eevdf"]), "processors": size, "duration": draw.randint(1, 40_000_000),
        "tick": draw.choice([1_000_000, 4_000_000, 250_000, 3_333_333]), "balance": draw.choice([2_000_000, 16_000_000, 777_777]),
        "migration_cost": draw.choice([0, 0, 1, 50_000]), "seed": draw.randrange(2**32),
    }  # fmt: skip
    kinds = draw.randint(1, 5)
    tasks = [
        {
            "count": draw.randint(1, 5), "nice": draw.randint(-20, 19), "mask": draw.choice([2**size - 1, draw.randrange(1, 2**size)]),
            "slice": draw.choice([3_000_000, draw.randint(100_000, 100_000_000)]), "start": draw.choice([0, 0, draw.randint(0, 20_000_000)]),
            "loops": draw.choice([None, None, draw.randint(1, 4)]), "do": actions(draw, kinds),
        }
        for _ in range(kinds)
    ]  # fmt: skip
    return machine, tasks


def written(machine, tasks):
    """The workload in TOML, as docs/WORKLOADS.md says."""
    lines = ["[machine]"]
    for key, value in machine.items():
        if key in ("processors", "seed"):
            lines.append(f"{key} = {value}")
        else:
            lines.append(f'{key} = "{value}"' if key == "discipline" else f'{key} = "{value}ns"')
    for number, task in enumerate(tasks):
        processors = ",".join(str(bit) for bit in range(64) if task["mask"] >> bit & 1)
        lines += [
            "", "[[task]]", f'name = "t{number}"', f'count = {task["count"]}', f'nice = {task["nice"]}', f'cpus = "{processors}"',
            f'slice = "{task["slice"]}ns"', f'start = "{task["start"]}ns"',
        ]  # fmt: skip
        if task["loops"]:
            lines.append(f'loops = {task["loops"]}')
        lines.append("do = [" + ", ".join(action_text(action) for action in task["do"]) + "]")
    return "\n".join(lines) + "\n"


def action_text(action):
    if action[0] == "wait":
        return "{ wait = true }"
    if action[0] == "wake":
        return f'{{ wake = "t{action[1]}" }}'
    kind, *numbers = action[1]
    if kind == "fixed":
        return f'{{ {action[0]} = "{numbers[0]}ns" }}'
    if kind == "uniform":
        return f'{{ {action[0]} = {{ uniform = ["{numbers[0]}ns", "{numbers[1]}ns"] }} }}'
    return f'{{ {action[0]} = {{ exponential = "{numbers[0]}ns" }} }}'


def simulated(program, form, text):
    done = subprocess.run([program, "simulate", "--as", form], input=text, capture_output=True, text=True, timeout=600)
    if done.returncode:
        sys.exit(leave(text, f"--as {form}: {done.stderr}"))
    return done.stdout


def leave(text, why):
    with open("differs.toml", "w") as file:
        file.write(text)
    return f"{why}\nthe workload is in differs.toml"


def main(program, workloads="50", seed="1"):
    draw, lines, missed = random.Random(int(seed)), 0, 0
    for number in range(int(workloads)):
        machine, tasks = a_workload(draw)
        text = written(machine, tasks)
        loop = Loop(machine, tasks)
        ours = loop.trace()
        lines, missed = lines + len(ours), missed + loop.missed
        if program == "--model":
            continue
        theirs = [line for line in simulated(program, "trace", text).splitlines() if not line.startswith("#")]
        if ours != theirs:
            at = next((at for at, pair in enumerate(zip(ours, theirs)) if pair[0] != pair[1]), min(len(ours), len(theirs)))
            sys.exit(leave(text, f"workload {number}, line {at + 1}: the model {ours[at:at + 1]}, the program {theirs[at:at + 1]}"))
        counted = json.loads(simulated(program, "json", text)).get("missed_wakes", 0)
        if counted != loop.missed:
            sys.exit(leave(text, f"workload {number}: the model has {loop.missed} missed wakes, the program {counted}"))
    print(f"{workloads} workloads, {lines} lines and {missed} missed wakes" + ("" if program == "--model" else " alike"))


if __name__ == "__main__":
    main(*sys.argv[1:])
