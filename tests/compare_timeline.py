#!/usr/bin/env python3
"""Compares the timelines of bqsim with those of the model, which is written from docs/ alone.

    tests/compare_timeline.py BQSIM [TRACES [SEED]]      so many drawn traces (200 if left out)
    tests/compare_timeline.py BQSIM --near [TRACES [SEED]]   drawn histories of the discipline alone, and how near they come

BQSIM is the path of the program. Of each trace `csv` must have the model's slices, `json` its figures of tasks and
processors (times, waits, latencies, fair times and counts, to the nanosecond), `report` its tables of latencies, of processors and of
bounds, and `map` its columns and its legend: of all tasks and of half of them, to the end and to the middle. With each form standard error
must name the lines that the model finds bad or refused, and standard output none of them. The second form draws ticks, wakes and blocks at
processors where no policy stands, and says how much of the bounds was reached.

`tests/quick.py` compares some of these. Last seen: 300 traces, 39,873 slices alike, the figures of `json` and the table of bounds too; of the second form 200 histories.
"""
import json
import random
import re
import subprocess
import sys

sys.dont_write_bytecode = True

from model import draw, images, scheduler
from model.replies import Bad, cut, machine, said
from model.scheduler import Eevdf, vdelta

PARTS = 10**12

LETTERS = "ABCDEFGHIJKLMNOPQRSTUVWXYZabcdefghijklmnopqrstuvwxyz0123456789"
ROUND_STEPS = [digit * 10**power for power in range(15) for digit in (1, 2, 5)]


def millis(time):
    return f"{time // 10**6}.{time // 1000 % 1000:03}"


class Figures:
    """Those of a task."""

    def __init__(self):
        self.weight = self.nice = 0
        self.place = self.since = self.woken = self.before = None
        self.joined = self.settled = 0
        self.ran = self.waited = 0
        self.latencies = []
        self.counts = dict.fromkeys(["wakes", "switches", "preempted", "migrated"], 0)


class Place:
    """What is known of a processor beside the model's own state."""

    def __init__(self):
        self.first = None
        self.weight = self.shared = self.busy = self.switches = 0
        self.hooks = {hook: dict.fromkeys(["asked", "overruled", "steps"], 0) for hook in images.HOOKS}
        self.since = None  # the rise of the clock since the discipline decided
        self.measured = self.left_out = 0
        self.greatest = None
        self.stretch = None  # of readings in which no task came or went: how far ahead at its beginning, the rise since a decision, the most
        self.asked_lags = self.began = 0
        self.owed = None


class Watched:
    """A world, and what its events tell."""

    def __init__(self, world):
        self.world, self.slices, self.tasks = world, [], {}
        self.troubles = []  # the numbers of the lines that are bad or refused
        self.places = [Place() for _ in world.processors]
        self.ran = [None] * len(world.processors)

    def task(self, number):
        return self.tasks.setdefault(number, Figures())

    # What each event tells

    def answered(self, name, operands, reply, before):
        if reply.startswith("refused"):
            return
        words = reply.split()
        if name == "admit":
            number, nice = operands[0], operands[1]
            figures = self.task(number)
            figures.nice, figures.weight = nice, scheduler.WEIGHTS[nice + 20]
        if name not in ("end", "drain", "tick", "block", "pull"):
            return
        cpu = operands[0]
        here = self.world.processors[cpu]
        self.passes(cpu, before, here.last)
        self.measures(name, cpu, operands, words, before)
        self.lags(name, cpu, operands, words, before)
        if name == "end":
            self.asked(cpu, "place", words[-3:])
            self.places_task(int(words[1]), int(words[3]), here.last)
        elif name in ("drain", "tick"):
            self.asked(cpu, "preempt", words[-3:])
            self.runs(cpu, here, "preempted")
        elif name == "block":
            self.leaves(int(words[1]))
            self.runs(cpu, here, "blocked")
        elif name == "pull":
            self.asked(cpu, "pull", words[-3:])
            if words[1] != "none":
                figures = self.task(int(words[1]))
                figures.waited += max(0, here.last - figures.since)
                self.leaves(int(words[1]))
                self.joins(int(words[1]), cpu, here.last)
            self.runs(cpu, here, "preempted")

    def passes(self, cpu, before, now):
        place, time = self.places[cpu], now - before["last"]
        place.first = now if place.first is None else place.first
        if before["runs"] is None or time == 0:
            return
        self.slices.append((cpu, before["runs"], before["last"], now))
        self.task(before["runs"]).ran += time
        place.busy += time
        if place.weight:
            place.shared += time * PARTS // place.weight

    def asked(self, cpu, hook, by):
        """`by` is the end of a reply: `rule steps 7`."""
        figures, steps = self.places[cpu].hooks[hook], int(by[2])
        figures["asked"] += by[0] == "policy" or steps > 0
        figures["overruled"] += by[0] == "rule" and steps > 0
        figures["steps"] += steps

    def leaves(self, number):
        figures = self.task(number)
        if figures.place is not None:
            place = self.places[figures.place]
            figures.settled += figures.weight * (place.shared - figures.joined)
            place.weight -= figures.weight
            figures.place = None

    def joins(self, number, cpu, now):
        figures, place = self.task(number), self.places[cpu]
        figures.place, figures.since, figures.joined = cpu, now, place.shared
        place.weight += figures.weight

    def places_task(self, number, cpu, now):
        self.joins(number, cpu, now)
        figures = self.task(number)
        figures.counts["wakes"] += 1
        figures.woken = now

    def runs(self, cpu, here, why):
        was, now = self.ran[cpu], here.current.number if here.current else None
        if was == now:
            return
        if was is not None and why == "preempted":
            self.task(was).counts["preempted"] += 1
            self.task(was).since = here.last
        self.ran[cpu] = now
        if now is None:
            return
        figures = self.task(now)
        figures.counts["switches"] += 1
        figures.counts["migrated"] += figures.before not in (None, cpu)
        figures.waited += max(0, here.last - figures.since)
        if figures.woken is not None:
            figures.latencies.append(max(0, here.last - figures.woken))
        figures.woken, figures.before = None, cpu
        self.places[cpu].switches += 1

    # Bounds

    def measures(self, name, cpu, operands, words, before):
        """The charge of the task that ran: how far it came beyond the least that waited, or ahead of the mean."""
        place, here = self.places[cpu], self.world.processors[cpu]
        time = here.last - before["last"]
        if place.since is not None:
            place.since += time
        if before["runs"] is not None:
            if place.since is None:
                place.left_out += 1
            else:
                come = min(before["v"] + vdelta(time, before["weight"]), scheduler.MOST_V)
                most = vdelta(place.since, before["weight"])
                if isinstance(here.rule, Eevdf):
                    self.measure(place, max(0, come - here.mark), most)
                elif before["waits"]:
                    self.measure(place, max(0, come - min(before["waits"])), 1_000_000 + most)
        if name in ("tick", "drain"):
            place.since = 0 if words[-3] == "rule" else None
        elif name == "block":
            place.since = 0
        elif name == "pull":
            if before["runs"] is None:
                place.since = 0
            elif words[1] != "none":
                place.since = None
            if words[1] != "none" and isinstance(here.rule, Eevdf):
                self.places[operands[1]].since = None

    def lags(self, name, cpu, operands, words, before):
        """What each task is owed after an event, and what it may be: by the rises since none came or went."""
        place, here = self.places[cpu], self.world.processors[cpu]
        if not isinstance(here.rule, Eevdf):
            return
        tasks = ([here.current] if here.current else []) + list(here.queue)
        weight = sum(task.weight for task in tasks)
        mean = sum(task.weight * task.v for task in tasks) // weight if tasks else 0
        decides = words[-3] == "rule" and (name == "tick" or name == "drain" and words[1] == "0")
        if place.stretch and (decides or name == "end"):
            ahead, since, most = place.stretch
            since += here.last - before["last"]
            most = max(most, since)
            place.stretch = ahead, 0 if decides else since, most
            for task in tasks:
                owed = task.weight * max(0, mean - task.v) // 1024
                others = (weight - task.weight) * ahead
                bound = max(0, len(tasks) - 2) * most + (others * weight + 1024 * most * task.weight) // (1024 * weight)
                assert owed <= bound, (owed, bound)
                if place.owed is None or owed > place.owed[0]:
                    place.owed = owed, bound
            place.asked_lags += bool(tasks)
        else:
            place.stretch = max([0] + [task.v - mean for task in tasks]), 0, 0
            place.began += 1
        if name == "pull" and words[1] != "none":
            self.places[operands[1]].stretch = None

    def measure(self, place, difference, bound):
        assert difference <= bound, (difference, bound)
        place.measured += 1
        if place.greatest is None or difference > place.greatest[0]:
            place.greatest = difference, bound

    # Forms

    def csv(self):
        return "processor,task,from,to\n" + "".join(f"{','.join(map(str, each))}\n" for each in self.slices)

    def percentiles(self, figures):
        """The latencies' percentiles by nearest rank, by name; None of a task without a latency."""
        values = sorted(figures.latencies)
        ranks = {name: max(1, -(-percent * len(values) // 100)) for name, percent in [("p50", 50), ("p95", 95), ("p99", 99), ("max", 100)]}
        return {name: values[rank - 1] if values else None for name, rank in ranks.items()}

    def waits(self, number):
        """How long a task has waited in all, and how long one waits that has not run since its last wake. A task waits still where it
        is runnable at a processor and does not run there: till that processor's last reading."""
        figures = self.task(number)
        if figures.place is None or self.ran[figures.place] == number:
            return figures.waited, None
        last = self.world.processors[figures.place].last
        still = None if figures.woken is None else max(0, last - figures.woken)
        return figures.waited + max(0, last - figures.since), still

    def observed(self):
        """The time from the earliest first reading of any processor's clock to the latest last one."""
        read = [(place.first, here.last) for place, here in zip(self.places, self.world.processors) if place.first is not None]
        return max(last for _, last in read) - min(first for first, _ in read) if read else 0

    def json(self):
        def fair(figures):
            there = 0
            if figures.place is not None:
                there = figures.weight * (self.places[figures.place].shared - figures.joined)
            return (figures.settled + there + PARTS // 2) // PARTS

        tasks = [
            {
                "task": number, "name": None, "nice": figures.nice, "weight": figures.weight, "cpu": figures.ran,
                "fair": fair(figures), "counts": figures.counts, "latency": self.percentiles(figures),
                **dict(zip(("waited", "still_waiting"), self.waits(number))),
            }
            for number, figures in sorted(self.tasks.items())
        ]  # fmt: skip
        processors = [
            {
                "processor": number, "busy": place.busy, "switches": place.switches, **place.hooks,
                "idle": self.observed() - place.busy,
            }
            for number, place in enumerate(self.places)
        ]  # fmt: skip
        return {"schema": 1, "tasks": tasks, "processors": processors}

    def busy(self):
        """The rows of the table of processors, as words."""
        rows, observed = [], self.observed()
        for number, place in enumerate(self.places):
            part = place.busy * 10_000 // observed if observed else 0
            rows.append([str(number), f"{part // 100}.{part % 100:02}", millis(place.busy), millis(observed - place.busy), str(place.switches)])
        return rows

    def latencies(self):
        """The rows of the table of latencies, as words."""
        rows = []
        for number, figures in sorted(self.tasks.items()):
            shown = ["-" if value is None else f"{value // 1000}.{value % 1000:03}" for value in self.percentiles(figures).values()]
            still = self.waits(number)[1]
            rows.append([str(number), str(figures.counts["wakes"]), *shown])
            rows[-1] += [] if still is None else ["still", "waiting", millis(still), "ms"]
        return rows

    def map(self, shown, to, width):
        """The map of these tasks up to a moment, so many columns wide."""
        read = [(place.first, here.last) for place, here in zip(self.places, self.world.processors) if place.first is not None]
        first, last = min((one for one, _ in read), default=0), min(to, max((other for _, other in read), default=0))
        if first >= last:
            return "no time passes in what is shown\n"
        step = next(step for step in ROUND_STEPS if last - first <= step * (width - 8))
        count, thousand, unit = -(-(last - first) // step), *((1, "us") if step < 1000 else (1000, "ms"))

        def moment(time):
            return f"{time // thousand // 1000}.{time // thousand % 1000:03} {unit}"

        marks = [f"|{moment(min(first + at * step, last))}" for at in range(0, count, 20)]
        lines = [" " * 8 + "".join(mark.ljust(20) for mark in marks[:-1]) + marks[-1]]
        letters = {number: (LETTERS + "*" * len(self.tasks))[place] for place, number in enumerate(self.tasks)}
        seen = set()
        for cpu in range(len(self.places)):
            columns = [self.column(cpu, shown, first + at * step, min(first + (at + 1) * step, last)) for at in range(count)]
            seen.update(columns)
            lines.append(f"cpu {cpu:<4}" + "".join(letters.get(column, column) for column in columns))
        lines += ["", f"a column is {moment(step)}; . is idle" + "; - runs a task that is not shown" * ("-" in seen)]
        ran = {task for _, task, start, _ in self.slices if task in shown and start < last}
        lines += [f"{letters[task]}  task {task}" + "  (in no column)" * (task not in seen) for task in self.tasks if task in ran]
        return "".join(f"{line}\n" for line in lines)

    def column(self, cpu, shown, begin, end):
        """The task that a column shows, or its sign: `-` or `.`."""
        ran = {}
        for here, task, start, stop in self.slices:
            if here == cpu and start < end and begin < stop:
                ran[task] = ran.get(task, 0) + min(stop, end) - max(start, begin)
        idle = end - begin - sum(ran.values())
        times = [(time, -task) for task, time in ran.items() if task in shown]
        if times:
            time, task = max(times)
            return -task if idle <= time else "."
        return "-" if idle <= sum(ran.values()) else "."

    def bounds(self):
        """The rows of the table, as words."""
        rows = []
        for number, (place, here) in enumerate(zip(self.places, self.world.processors)):
            law = "ahead of the mean" if isinstance(here.rule, Eevdf) else "beyond the least"
            charges = law, place.measured, place.left_out, place.greatest
            lags = "owed to any task", place.asked_lags, place.began, place.owed
            for law, measured, left_out, greatest in (charges, lags):
                if greatest:
                    difference, bound = greatest
                    part = difference * 10_000 // bound if bound else 0
                    counts = [measured, left_out, millis(difference), millis(bound), f"{part // 100}.{part % 100:02}"]
                    rows.append(f"{number} {law} {' '.join(map(str, counts))} %".split())
        return rows


def state(world, operands):
    """A processor before an event."""
    if not operands or operands[0] >= len(world.processors):
        return None
    here = world.processors[operands[0]]
    current = here.current
    return {
        "last": here.last, "runs": current.number if current else None, "v": current.v if current else 0,
        "weight": current.weight if current else 0, "waits": [task.v for task in here.queue],
    }  # fmt: skip


class Teller:
    """Stands for a world, and tells each event and its reply."""

    def __init__(self, watched):
        self.watched = watched

    def __getattr__(self, name):
        world, watched = self.watched.world, self.watched

        def event(*operands):
            before = state(world, operands)
            reply = getattr(world, name)(*operands)
            watched.answered(name, operands, reply, before)
            return reply

        return event


def watched(lines):
    """What the model has of a trace; None where it has no machine."""
    seen, begun = None, False
    for number, line in enumerate(lines, 1):
        try:
            words = cut(line.removesuffix("\r"))
            if not words:
                continue
            if begun:
                if seen and any(answer.startswith("refused") for answer in said(Teller(seen), words)):
                    seen.troubles.append(number)
                continue
            begun = True
            seen = Watched(machine(words))
        except Bad:
            begun = True
            if seen:
                seen.troubles.append(number)
    return seen


def timeline(program, form, text, *options):
    """What stands on standard output, and the numbers of the lines that standard error names as bad or refused, with their count."""
    done = subprocess.run([program, "timeline", "--as", form, *options], input=text, capture_output=True, text=True, timeout=600)
    named = [int(number) for number in re.findall(r"^line (\d+): (?!the clock )", done.stderr, re.M)]
    count = re.findall(r"^lines bad or refused: (\d+)$", done.stderr, re.M)
    return done.stdout, named, count


def table(report, head):
    """The rows of the table of a report whose head begins so, as words."""
    lines = report.splitlines()
    heads = [at for at, line in enumerate(lines) if line.startswith(head)]
    rows = lines[heads[0] + 1 :] if heads else []
    return [line.split() for line in rows[: rows.index("") if "" in rows else None]]


def compare(program, lines):
    """The number of slices, which are alike; and the model's world."""
    text, ours = "\n".join(lines) + "\n", watched(lines)
    if not ours:
        return 0, None
    shown = {}
    for form in ("csv", "json", "report"):
        shown[form], *notes = timeline(program, form, text)
        if notes != [ours.troubles, [str(len(ours.troubles))] if ours.troubles else []]:
            first = min(set(notes[0]) ^ set(ours.troubles), default="of their count")
            raise SystemExit(leave(lines, f"the notes of {form} differ, first that on line {first}"))
        if re.search(r"^line \d+: ", shown[form], re.M):
            raise SystemExit(leave(lines, f"a note stands on the standard output of {form}"))
    if shown["csv"] != ours.csv():
        raise SystemExit(leave(lines, "csv differs"))
    theirs = json.loads(shown["json"])
    if theirs != ours.json():
        for one, other in zip(ours.json()["tasks"] + ours.json()["processors"], theirs["tasks"] + theirs["processors"]):
            if one != other:
                raise SystemExit(leave(lines, f"json differs: the model has\n{one}\nthe program\n{other}"))
        raise SystemExit(leave(lines, "json differs"))
    report = shown["report"]
    tables = ("  cpu law ", ours.bounds()), (" task name               wakes ", ours.latencies()), ("  cpu  busy % ", ours.busy())
    for head, rows in tables:
        if table(report, head) != rows:
            raise SystemExit(leave(lines, f"the table{head}differs: the model has\n{rows}\nthe program\n{table(report, head)}"))
    half = sorted(to for _, _, _, to in ours.slices)[len(ours.slices) // 2] if ours.slices else 0
    for some, to in (list(ours.tasks), 2**64 - 1), (list(ours.tasks), half), (list(ours.tasks)[::2], half):
        options = ["--to", f"{to}ns", *(["--tasks", ",".join(map(str, some))] if some else [])]
        drawn, wanted = timeline(program, "map", text, *options)[0], ours.map(some, to, 80)
        if drawn != wanted:
            raise SystemExit(leave(lines, f"the map with {options} differs: the model has\n{wanted}\nthe program\n{drawn}"))
    return len(ours.slices), ours


def leave(lines, why):
    with open("differs.trace", "w") as file:
        file.write("\n".join(lines) + "\n")
    return f"{why}\nthe trace is in differs.trace"


def near_trace(dice):
    """A history of one or two processors at which the discipline alone decides, with a rise that is nearly always the same."""
    rule, size = dice.choice(["cfs", "eevdf"]), dice.choice([1, 2])
    lines, clock = [f"machine {rule} {size}"], [0] * size
    count, rise = dice.randrange(2, 7), dice.choice([1_000_000, 4_000_000, 999_999])
    for number in range(count):
        lines.append(f"admit {number} {dice.choice([0, 0, 19, -20, dice.randrange(-20, 20)])} {2**size - 1} {dice.choice([100_000, 3_000_000])}")
        lines.append(f"wake 0 {number} 0")
    for cpu in range(size):
        lines.append(f"drain {cpu} 0")
    for _ in range(300):
        cpu = dice.randrange(size)
        clock[cpu] += rise if dice.random() < 0.9 else dice.randrange(rise)
        what = dice.random()
        if what < 0.8:
            lines.append(f"tick {cpu} {clock[cpu]}")
        elif what < 0.88:
            lines.append(f"block {cpu} {clock[cpu]}")
        elif what < 0.94:
            lines.append(f"wake {cpu} {dice.randrange(count)} {clock[cpu]}")
        elif size > 1 and what < 0.96:
            lines.append(f"pull {cpu} {1 - cpu} {clock[cpu]}")
        else:
            lines.append(f"drain {cpu} {clock[cpu]}")
    return lines


def main(program, *words):
    near = bool(words) and words[0] == "--near"
    count, seed = (list(map(int, words[near:])) + [200, 1][len(words[near:]) :])[:2]
    slices, nearest = 0, {}
    for number in range(seed, seed + count):
        dice = random.Random(number)
        lines = near_trace(dice) if near else draw.trace(dice, [draw.image(dice, hook)[0] for hook in images.HOOKS * 3])
        alike, seen = compare(program, lines)
        slices += alike
        for place, here in zip(seen.places, seen.world.processors) if seen else []:
            name = type(here.rule).__name__
            for law, greatest in (f"{name}, beyond or ahead", place.greatest), (f"{name}, owed", place.owed):
                if greatest and greatest[1]:
                    part = greatest[0] / greatest[1]
                    nearest[law] = max(nearest.get(law, (0, 0)), (part, number))
    print(f"{count} traces, {slices} slices alike")
    for name, (part, number) in sorted(nearest.items()):
        print(f"{name}: {part:.6f} of the bound, in trace {number}")


if __name__ == "__main__":
    main(*sys.argv[1:])
