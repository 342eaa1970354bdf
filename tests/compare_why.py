#!/usr/bin/env python3
"""Compares `timeline --as why` of bqsim with what the model says of the same traces, from docs/TIMELINE.md alone.

    tests/compare_why.py BQSIM [TRACES [SEED]]   so many drawn traces (100 if left out)
    tests/compare_why.py BQSIM FILE..            the traces in these files

BQSIM is the path of the program. The model computes each mean, lag, deadline and size anew from its lists of tasks, and writes each
sentence itself; both texts must be the same, to the byte. Notes on bad and refused lines go to standard error, and are not compared here.
"""
import pathlib
import random
import re
import subprocess
import sys

sys.dont_write_bytecode = True

from compare_timeline import near_trace
from model import draw, images, scheduler
from model.replies import Bad, cut, machine, said
from model.scheduler import Eevdf, place_in_queue

FIRST_MARK = 2**32
SHOWN = {"wake", "end", "drain", "tick", "block", "pull"}


class Recorded(scheduler.machine.Run):
    """A run of a policy that leaves its answer."""

    answer = None

    def to_exit(self):
        Recorded.answer, steps = super().to_exit()
        return Recorded.answer, steps


scheduler.machine.Run = Recorded


def millis(time):
    return f"{time // 10**6}.{time // 1000 % 1000:03}"


def virtual(v):
    return ("-" if v < FIRST_MARK else "") + millis(abs(v - FIRST_MARK))


def tasks_at(here):
    """The one that runs first, then the queue by v."""
    return ([here.current] if here.current else []) + sorted(here.queue, key=place_in_queue)


class Explained:
    """The text `why` of a trace."""

    def __init__(self, world, names):
        self.world, self.text, self.names = world, [], names
        self.means = self.passed = self.ties = self.pulls = 0

    def who(self, number):
        return self.names.get(number, str(number))

    def say(self, line):
        self.text.append(line + "\n")

    def line(self, number, words):
        """Does a line, and says why."""
        name, numbers = words[0], words[1:]
        before = self.before(name, numbers)
        answers = said(self.world, words)
        if name not in SHOWN or not answers or answers[-1].startswith("refused"):
            return
        cpu, reply = int(numbers[0]), answers[-1].split()
        here = self.world.processors[cpu]
        if name in ("wake", "end"):
            heading = f"{'end of the ' if name == 'end' else ''}wake of {self.who(int(reply[1]))} at cpu {cpu}"
        else:
            heading = " ".join([name, *map(str, map(int, numbers[:-1]))])
        self.say(f"{millis(here.last)} ms  line {number}: {heading}")
        if name in ("wake", "end"):
            self.placed(reply)
        elif name in ("drain", "tick"):
            self.choice(here, before["was"], reply[-3], int(reply[-1]))
        elif name == "block":
            self.say(f"    {self.who(int(reply[1]))} goes to sleep")
            self.choice(here, before["was"], "rule", 0)
        else:
            self.pulled(cpu, int(numbers[1]), before, reply)
            if before["was"] is None:
                self.choice(here, None, "rule", 0)

    def before(self, name, numbers):
        if name not in SHOWN or not numbers or not numbers[0].isdigit() or int(numbers[0]) >= len(self.world.processors):
            return {}
        here = self.world.processors[int(numbers[0])]
        found = {"was": here.current.number if here.current else None}
        if name == "pull" and numbers[1:2] and numbers[1].isdigit() and int(numbers[1]) < len(self.world.processors):
            there = self.world.processors[int(numbers[1])]
            movable = [task for task in there.queue if task.mask >> here.number & 1]
            movable.sort(key=place_in_queue, reverse=True)
            found |= {"size": len(tasks_at(here)), "other": len(tasks_at(there)), "movable": [task.number for task in movable]}
        return found

    def decided(self, hook, by, steps, own):
        if by == "policy":
            return f"policy at {hook} answered {Recorded.answer} (steps: {steps})"
        return (f"policy's answer {Recorded.answer} is not permitted (steps: {steps}); " if steps else "") + own

    def placed(self, reply):
        own = "the least load in its mask, where it was last if that ties"
        self.say(f"    {self.who(int(reply[1]))} is placed on {reply[3]}: {self.decided('place', reply[-3], int(reply[-1]), own)}")

    def pulled(self, cpu, other, before, reply):
        self.pulls += 1
        size, other_size, movable = before["size"], before["other"], before["movable"]
        shown = ", ".join(map(self.who, movable[:8])) + (f" and {len(movable) - 8} more" if len(movable) > 8 else "")
        may_go = f"{len(movable)} may go: {shown}" if movable else "none may go"
        self.say(f"    sizes: {size} at cpu {cpu}, {other_size} at cpu {other}; {may_go}")
        own = f"{other_size} >= {size} + 2, and of those that may go it has the greatest (v, id)"
        if other_size < size + 2:
            own = f"{other_size} < {size} + 2"
        elif not movable:
            own = "none may go"
        subject = "nothing" if reply[1] == "none" else self.who(int(reply[1]))
        self.say(f"    {subject} is pulled: {self.decided('pull', reply[-3], int(reply[-1]), own)}")

    def choice(self, here, was, by, steps):
        tasks, is_eevdf = tasks_at(here), isinstance(here.rule, Eevdf)
        if tasks:
            self.table(here, tasks, is_eevdf)
        if not here.current:
            self.say("    nothing runs: nobody is there")
            return
        own = self.earliest(here.current, tasks) if is_eevdf else self.least(here.current, was, tasks)
        self.say(f"    {self.who(here.current.number)} runs: {self.decided('preempt', by, steps, own)}")

    def table(self, here, tasks, is_eevdf):
        weight = sum(task.weight for task in tasks)
        mean = sum(task.weight * task.v for task in tasks) // weight
        self.means += is_eevdf
        measured = f"mean {virtual(mean)}" if is_eevdf else f"least v {virtual(min(task.v for task in tasks))}"
        self.say(f"    mark {virtual(here.mark)}  {measured}")
        self.say("      task            weight          v" + "   deadline        lag" * is_eevdf)
        for task in tasks:
            row = f"    {'>' if task is here.current else ' '} {self.who(task.number)[:14]:<14}{task.weight:>8} {virtual(task.v):>10}"
            if is_eevdf:
                lag = task.weight * (mean - task.v)
                sign, amount = ("+", lag // 1024) if lag >= 0 else ("-", -lag // 1024)
                fits = "eligible" if lag >= 0 else "not eligible"
                row += f" {virtual(task.deadline):>10} {sign + millis(amount):>10}  {fits}"
            self.say(row)

    def earliest(self, runs, tasks):
        weight, moment = sum(task.weight for task in tasks), sum(task.weight * task.v for task in tasks)
        eligible = [task for task in tasks if weight * task.v <= moment]
        own = f"the earliest deadline of the eligible {{{', '.join(self.who(task.number) for task in eligible)}}}"
        equal = [task for task in eligible if task.deadline == runs.deadline and task is not runs]
        if equal:
            self.ties += 1
            own += f"; {self.who(equal[0].number)} has the same deadline, and the lower id wins ({runs.number} < {equal[0].number})"
        first = min(tasks, key=lambda task: (task.deadline, task.number))
        if first not in eligible:
            self.passed += 1
            own += f"; {self.who(first.number)} "
            if first.deadline == runs.deadline:
                own += f"has the same deadline and the lower id ({first.number} < {runs.number}), but is not eligible"
            else:
                own += f"is due first ({virtual(first.deadline)}) but not eligible"
        return own

    def least(self, runs, was, tasks):
        least = min(tasks, key=place_in_queue)
        if least is not runs:
            return f"{millis(runs.v - least.v)} ms ahead of {self.who(least.number)}, and gives way only beyond 1.000 ms"
        own = "least virtual runtime"
        for task in tasks:
            if task.number == was and task.v > runs.v + 1_000_000:
                own = f"{self.who(was)} gives way: {millis(task.v - runs.v)} ms ahead of {self.who(runs.number)}"
        equal = [task for task in tasks if task.v == runs.v and task is not runs]
        if equal:
            self.ties += 1
            wins = f"{self.who(was)} runs on" if was == runs.number else f"the lower id wins ({runs.number} < {equal[0].number})"
            own += f"; {self.who(equal[0].number)} has the same v, and {wins}"
        return own


def explained(lines):
    """What the model says of a trace; None where it has no machine."""
    seen, begun, names = None, False, {}
    for number, line in enumerate(lines, 1):
        line = line.removesuffix("\r")
        named = re.fullmatch(r"\s*#\s*task\s+(\d+)\s+(\S+)\s*", line)
        if named:
            names[int(named[1])] = named[2]
        try:
            words = cut(line)
            if not words:
                continue
            if not begun:
                begun = True
                seen = Explained(machine(words), names)
            elif seen:
                seen.line(number, words)
        except Bad:
            begun = True
    return seen


def compare(program, lines, place):
    """What the model has of a trace, which the program has too."""
    seen = explained(lines)
    text = "\n".join(lines) + "\n"
    done = subprocess.run([program, "timeline", "--as", "why"], input=text, capture_output=True, text=True, timeout=600)
    theirs = done.stdout.splitlines(keepends=True)
    ours = seen.text if seen else []
    for number, (one, other) in enumerate(zip(ours + [""], theirs + [""]), 1):
        if one != other:
            pathlib.Path("differs.trace").write_text(text)
            raise SystemExit(f"{place}: line {number} differs\nthe model    {one}the program  {other}the trace is in differs.trace")
    return seen


def main(program, *words):
    if words and not words[0].isdigit():
        traces = [(name, pathlib.Path(name).read_text().splitlines()) for name in words]
    else:
        count, seed = (list(map(int, words)) + [100, 1][len(words) :])[:2]
        traces = []
        for number in range(seed, seed + count):
            dice = random.Random(number)
            hooks = [draw.image(dice, hook)[0] for hook in images.HOOKS * 3]
            traces.append((f"trace {number}", draw.trace(dice, hooks) if number % 2 else near_trace(dice)))
    counts = dict.fromkeys(["lines", "means", "passed", "ties", "pulls"], 0)
    for place, lines in traces:
        seen = compare(program, lines, place)
        if seen:
            counts["lines"] += len(seen.text)
            for name in list(counts)[1:]:
                counts[name] += getattr(seen, name)
    shown = ", ".join(f"{name} {count}" for name, count in counts.items())
    print(f"{len(traces)} traces alike: {shown}")


if __name__ == "__main__":
    main(*sys.argv[1:])
