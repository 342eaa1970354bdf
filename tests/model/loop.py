"""The loop of a simulation, from docs/LOOP.md alone, over the model's world."""
from model.replies import said
from model.scheduler import World

MASK = 2**64 - 1
LONGEST = 2**48 - 1


class Pcg32:
    """PCG XSH RR 64/32 (O'Neill, "PCG: a family of simple fast space-efficient statistically good algorithms")."""

    def __init__(self, state, stream):
        self.increment = (stream << 1 | 1) & MASK
        self.state = (state + self.increment) & MASK
        self.step()

    def step(self):
        self.state = (self.state * 6364136223846793005 + self.increment) & MASK

    def word(self):
        old = self.state
        self.step()
        shifted = ((old >> 18 ^ old) >> 27) & 0xFFFFFFFF
        turn = old >> 59
        return (shifted >> turn | shifted << (32 - turn)) & 0xFFFFFFFF

    def double(self):
        low = self.word()
        return low | self.word() << 32


def drawn(words, length):
    """A length: ("fixed", n), ("uniform", least, greatest) or ("exponential", mean)."""
    a, b = words.double(), words.double()
    if length[0] == "fixed":
        return length[1]
    if length[0] == "uniform":
        return length[1] + (a * (length[2] - length[1] + 1) >> 64)
    mantissa, digits = 2**63 + b // 2, 0
    for _ in range(32):
        square = mantissa * mantissa
        digits = 2 * digits + (square >= 2**127)
        mantissa = square >> (64 if square >= 2**127 else 63)
    logarithm = (64 - a.bit_length() + 1) * 2**32 - digits
    return min(max(logarithm * 2977044472 * length[1] >> 64, 1), LONGEST)


class Task:
    def __init__(self, number, kind, home, seed):
        self.kind, self.home, self.words = kind, home, Pcg32(seed, number)
        self.place = self.woken = self.loops = 0
        self.takes = self.got = 0
        self.has_run, self.stance = False, "asleep"


class Loop:
    """kinds: dicts with count, nice, mask, slice, start, loops and do, whose actions are ("run", length), ("sleep", length),
    ("wait",) and ("wake", index)."""

    def __init__(self, machine, kinds):
        self.machine, self.kinds = machine, kinds
        self.size = machine["processors"]
        self.world = World(machine["discipline"], self.size)
        self.lines = [f"machine {machine['discipline']} {self.size}"]
        self.tasks, self.firsts, self.due, self.missed = [], [], {}, 0
        self.runs = [None] * self.size
        self.since = [0] * self.size
        self.sizes = [0] * self.size

    def event(self, *words):
        words = [str(word) for word in words]
        self.lines.append(" ".join(words))
        (answer,) = said(self.world, words)
        if answer.startswith("refused"):
            raise AssertionError(f"{' '.join(words)}: {answer}")
        return answer.split()

    def plan(self, kind, number, when):
        self.due.pop((kind, number), None)
        if when is not None and when <= self.machine["duration"]:
            self.due[kind, number] = when

    def trace(self):
        for kind in self.kinds:
            self.firsts.append(len(self.tasks))
            home = next(p for p in range(self.size) if kind["mask"] >> p & 1)
            for _ in range(kind["count"]):
                number = len(self.tasks)
                self.event("admit", number, kind["nice"], kind["mask"], kind["slice"])
                self.tasks.append(Task(number, kind, home, self.machine["seed"]))
                self.plan(1, number, kind["start"])
        if self.size > 1:
            for processor in range(self.size):
                self.plan(3, processor, self.machine["balance"])
        steps = [self.end, self.timer, self.tick, self.look]
        while self.due:
            now, kind, number = min((when, *what) for what, when in self.due.items())
            steps[kind](number, now)
        for processor in range(self.size):
            self.event("tick", processor, self.machine["duration"])
        return self.lines

    def switch(self, processor, word, now):
        run = None if word == "none" else int(word)
        before = self.runs[processor]
        if run == before:
            return
        if before is not None:
            self.tasks[before].got += now - self.since[processor]
        self.runs[processor], self.since[processor] = run, now
        if run is None:
            self.plan(0, processor, None)
            self.plan(2, processor, None)
            if self.size > 1:
                self.plan(3, processor, now)
            return
        task = self.tasks[run]
        if task.has_run and task.home != processor:
            task.takes += self.machine["migration_cost"]
        task.home, task.has_run = processor, True
        if before is None:
            tick = self.machine["tick"]
            self.plan(2, processor, (now // tick + 1) * tick)
        self.plan(0, processor, now + task.takes - task.got)

    def timer(self, number, now):
        self.plan(1, number, None)
        self.wake(self.tasks[number].home, number, now)

    def wake(self, waker, number, now):
        task = self.tasks[number]
        task.stance, task.takes, task.got = "runnable", 0, 0
        self.event("begin", waker, number)
        to = int(self.event("end", waker, now)[3])
        answer = self.event("drain", to, now)
        self.sizes[to] += int(answer[1])
        self.switch(to, answer[3], now)

    def tick(self, processor, now):
        self.switch(processor, self.event("tick", processor, now)[2], now)
        if self.runs[processor] is not None:
            tick = self.machine["tick"]
            self.plan(2, processor, (now // tick + 1) * tick)

    def look(self, processor, now):
        balance = self.machine["balance"]
        self.plan(3, processor, (now // balance + 1) * balance)
        greatest = max(self.sizes)
        source = self.sizes.index(greatest)
        if greatest < 2 or source == processor:
            return
        answer = self.event("pull", processor, source, now)
        if answer[1] != "none":
            self.sizes[source] -= 1
            self.sizes[processor] += 1
        self.switch(processor, answer[3], now)

    def end(self, processor, now):
        number = self.runs[processor]
        task = self.tasks[number]
        task.got += now - self.since[processor]
        self.since[processor] = now
        if task.got != task.takes:
            raise AssertionError(f"task {number} got {task.got} of {task.takes}")
        if task.loops == task.kind["loops"]:
            self.block(processor, task, "over", now)
            return
        action = task.kind["do"][task.place]
        if action[0] == "wake":
            self.wake_next(processor, task, action[1], now)
            return
        self.go_on(task)
        if action[0] == "run":
            task.takes, task.got = drawn(task.words, action[1]), 0
            self.plan(0, processor, now + task.takes)
        elif action[0] == "sleep":
            self.plan(1, number, now + drawn(task.words, action[1]))
            self.block(processor, task, "asleep", now)
        else:
            self.block(processor, task, "waits", now)

    def go_on(self, task):
        task.place, task.woken = task.place + 1, 0
        if task.place == len(task.kind["do"]):
            task.place, task.loops = 0, task.loops + 1

    def wake_next(self, processor, task, kind, now):
        target = self.firsts[kind] + task.woken
        task.woken += 1
        if task.woken == self.kinds[kind]["count"]:
            self.go_on(task)
        if self.tasks[target].stance == "waits":
            self.wake(processor, target, now)
        else:
            self.missed += 1

    def block(self, processor, task, stance, now):
        task.stance = stance
        self.sizes[processor] -= 1
        self.switch(processor, self.event("block", processor, now)[3], now)
