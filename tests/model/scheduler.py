"""The scheduler, from docs/SCHEDULING.md and docs/CONTEXTS.md alone.

It keeps lists of tasks and computes every sum anew, so it shares no idea with the program but the pages.
"""
from model import contexts, images, machine

WEIGHTS = [  # nice -20 to 19
    88761, 71755, 56483, 46273, 36291, 29154, 23254, 18705, 14949, 11916, 9548, 7620, 6100, 4904, 3906, 3121, 2501, 1991, 1586, 1277,
    1024, 820, 655, 526, 423, 335, 272, 215, 172, 137, 110, 87, 70, 56, 45, 36, 29, 23, 18, 15,
]
MOST_V = 2**62
MOST_REL = 2**30
LAST_READING = 2**48 - 1
BY_RULE = "by rule steps 0"  # where no policy was asked


def within(least, number, most):
    return max(least, min(number, most))


def vdelta(time, weight):
    return time * 1024 // weight


def advance(v, time, weight):
    return min(v + vdelta(time, weight), MOST_V)


def shift(mark, rel):
    return within(0, mark + rel, MOST_V)


class Refused(Exception):
    """An event is refused; the text says by what."""


class Task:
    def __init__(self, number, nice, mask, slice_):
        self.number, self.weight, self.mask, self.slice = number, WEIGHTS[nice + 20], mask, slice_
        self.v = self.deadline = self.rel = 0
        self.previous = None

    def __str__(self):
        return f"{self.number}:{self.v}:{self.deadline}"


def place_in_queue(task):
    return task.v, task.number


class Cfs:
    def choice(self, tasks):
        return min(tasks, key=place_in_queue, default=None)

    def gives_way(self, current, queue):
        return bool(queue) and current.v > min(task.v for task in queue) + 1_000_000

    def mark(self, mark, tasks):
        return max(mark, min(task.v for task in tasks)) if tasks else mark

    def wake_rel(self, task):
        return max(task.rel, -3_000_000)

    def deadline(self, task):
        return 0


class Eevdf:
    def choice(self, tasks):
        weights = sum(task.weight for task in tasks)
        products = sum(task.weight * task.v for task in tasks)
        eligible = [task for task in tasks if weights * task.v <= products]
        return min(eligible, key=lambda task: (task.deadline, task.number), default=None)

    def gives_way(self, current, queue):
        return self.choice(queue + [current]) is not current

    def mark(self, mark, tasks):
        weights = sum(task.weight for task in tasks)
        return sum(task.weight * task.v for task in tasks) // weights if tasks else mark

    def wake_rel(self, task):
        most = vdelta(task.slice, task.weight)
        return within(-most, task.rel, most)

    def deadline(self, task):
        return advance(task.v, task.slice, task.weight)


class Processor:
    def __init__(self, number, rule):
        self.number, self.rule, self.queue, self.current, self.mark, self.last = number, rule, [], None, 2**32, 0
        self.inbox, self.hand = [], None
        self.policies, self.newest = dict.fromkeys(images.HOOKS), dict.fromkeys(images.HOOKS, 0)

    def present(self):
        return self.queue + ([self.current] if self.current else [])

    def compute_mark(self):
        self.mark = self.rule.mark(self.mark, self.present())

    def charge(self, now):
        now = max(min(now, LAST_READING), self.last)
        time, self.last = now - self.last, now
        task = self.current
        if task:
            task.v = advance(task.v, time, task.weight)
            if task.v >= task.deadline:
                task.deadline = self.rule.deadline(task)
        self.compute_mark()

    def enter(self, task, rel):
        task.v = shift(self.mark, rel)
        task.deadline = self.rule.deadline(task)
        self.queue.append(task)

    def run(self, task):
        """The task, if any, leaves the queue and runs; the one that ran goes there."""
        if task:
            self.queue.remove(task)
        self.queue += [self.current] if self.current else []
        self.current = task

    def run_next(self):
        following = self.rule.choice(self.present())
        if following is self.current:
            following = self.rule.choice(self.queue)
        if following:
            self.run(following)

    def takes_away(self, task):
        task.rel = within(-MOST_REL, task.v - self.mark, MOST_REL)

    def runs(self):
        return self.current.number if self.current else "none"


class Policy:
    """What stands at a hook: an image, with maps of its own."""

    def __init__(self, image):
        self.image, self.maps = image, image.maps()


class World:
    """Each event is a method of its line's name, and answers its reply."""

    def __init__(self, rule, size):
        self.processors = [Processor(number, {"cfs": Cfs, "eevdf": Eevdf}[rule]()) for number in range(size)]
        self.tasks, self.lobby, self.drawn, self.counters = {}, {}, 0, [0] * machine.COUNTERS

    def processor(self, number):
        if number >= len(self.processors):
            raise Refused("C1 NoProcessor")
        return self.processors[number]

    # Choices

    def settle(self, here, hook, context, permitted, own):
        """What is chosen, and the words that say by whom. `context` gives the bytes for an image's version."""
        policy = here.policies[hook]
        if not policy:
            return own, BY_RULE
        shown = context(policy.image.version)
        run = machine.Run(policy.image.program, shown, policy.maps, here.last, here.number, self.counters)
        answer, steps = run.to_exit()
        if steps > policy.image.budget:
            raise machine.Trap(f"{steps} steps, and a budget of {policy.image.budget}")
        return (answer, f"by policy steps {steps}") if answer in permitted else (own, f"by rule steps {steps}")

    def place(self, here, task, loads):
        allowed = [number for number in range(len(loads)) if task.mask >> number & 1]
        own = min(allowed, key=lambda number: (loads[number], number != task.previous, number))
        return self.settle(
            here, "place", lambda version: contexts.place(version, task, here.number, loads, own), allowed, own
        )

    def decide(self, here):
        """Settles what runs, and answers by whom."""
        if not here.current:
            here.run(here.rule.choice(here.queue))
            return BY_RULE
        own = int(here.rule.gives_way(here.current, here.queue))
        first = here.rule.choice(here.queue)
        gives_way, by = self.settle(
            here,
            "preempt",
            lambda _: contexts.preempt(here.number, here.queue, here.current, first, own),
            [0, 1],
            own,
        )
        if gives_way:
            here.run_next()
        return by

    def pulled(self, here, there):
        """The task that is pulled, or None, and by whom."""
        movable = [task for task in there.queue if task.mask >> here.number & 1]
        movable.sort(key=place_in_queue, reverse=True)
        size, other_size = len(here.present()), len(there.present())
        own = movable[0].number if movable and other_size >= size + 2 else contexts.NONE
        numbers = {task.number: task for task in movable} | {contexts.NONE: None}
        chosen, by = self.settle(
            here,
            "pull",
            lambda _: contexts.pull(here.number, there.number, size, other_size, movable, own),
            numbers,
            own,
        )
        return numbers[chosen], by

    # Events

    def admit(self, number, nice, mask, slice_):
        mask &= 2 ** len(self.processors) - 1
        for refusal, holds in [
            ("C2 NoTask", number > 1023),
            ("C5 EmptyMask", mask == 0),
            ("C6 Nice", not -20 <= nice <= 19),
            ("C7 Slice", not 100_000 <= slice_ <= 100_000_000),
            ("C4 TaskExists", number in self.tasks),
        ]:
            if holds:
                raise Refused(refusal)
        self.tasks[number] = self.lobby[number] = Task(number, nice, mask, slice_)
        return "admit ok"

    def sleeper(self, number):
        if number not in self.tasks:
            raise Refused("C2 NoTask")
        if number not in self.lobby:
            raise Refused("C3 NotBlocked")
        return self.lobby[number]

    def retire(self, number):
        if number > 1023:
            raise Refused("C2 NoTask")
        self.sleeper(number)
        del self.tasks[number], self.lobby[number]
        return "retire ok"

    def draw(self):
        self.drawn += 1
        return f"draw {self.drawn}"

    def install(self, processor, generation, hook, image):
        """`image` is None where the policy is taken away."""
        here = self.processor(processor)
        if image and image.hook != hook:
            raise Refused("C14 WrongHook")
        newest = here.newest[hook]
        if generation <= newest and newest > 0:
            raise Refused(f"C12 Older {newest}")
        if not 1 <= generation <= self.drawn:
            raise Refused("C13 NotDrawn")
        here.newest[hook] = generation
        here.policies[hook] = Policy(image) if image else None
        return "install ok"

    def begin(self, processor, number):
        waker = self.processor(processor)
        if number > 1023:
            raise Refused("C2 NoTask")
        task = self.sleeper(number)
        if waker.hand:
            raise Refused("C10 InHand")
        loads = [len(each.present()) + len(each.inbox) for each in self.processors]
        waker.hand = self.lobby.pop(task.number), loads
        return f"begin {number} loads {' '.join(map(str, loads))}"

    def end(self, processor, now):
        waker = self.processor(processor)
        if not waker.hand:
            raise Refused("C11 NothingInHand")
        (task, loads), waker.hand = waker.hand, None
        waker.charge(now)
        to, by = self.place(waker, task, loads)
        self.processors[to].inbox.append(task)
        return f"end {task.number} to {to} {by}"

    def drain(self, processor, now):
        here = self.processor(processor)
        here.charge(now)
        placed, here.inbox = here.inbox, []
        for task in placed:
            here.enter(task, here.rule.wake_rel(task))
        by = self.decide(here)
        return f"drain {len(placed)} run {here.runs()} {by}"

    def tick(self, processor, now):
        here = self.processor(processor)
        here.charge(now)
        by = self.decide(here)
        return f"tick run {here.runs()} {by}"

    def block(self, processor, now):
        here = self.processor(processor)
        if not here.current:
            raise Refused("C8 Idle")
        here.charge(now)
        task, here.current = here.current, None
        here.takes_away(task)
        task.previous = processor
        self.lobby[task.number] = task
        here.run(here.rule.choice(here.queue))
        return f"block {task.number} run {here.runs()}"

    def pull(self, processor, source, now):
        here, there = self.processor(processor), self.processor(source)
        if here is there:
            raise Refused("C9 SameProcessor")
        here.charge(now)
        there.compute_mark()
        task, by = self.pulled(here, there)
        if task:
            there.queue.remove(task)
            there.takes_away(task)
            here.enter(task, task.rel)
        if not here.current:
            here.run(here.rule.choice(here.queue))
        return f"pull {task.number if task else 'none'} run {here.runs()} {by}"

    # What no event is

    def counter(self, number):
        return f"counter {number} {self.counters[number]}"

    def show(self, processor):
        here = self.processor(processor)
        queue = "".join(f" {task}" for task in sorted(here.queue, key=place_in_queue))
        return f"show {processor} mark {here.mark} run {here.current or 'none'} queue{queue}"
