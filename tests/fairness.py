#!/usr/bin/env python3
"""Tries the laws of crates/bq_fairness on drawn histories of one processor, and says how near to its bound each of them comes.

Run it as    python3 tests/fairness.py [HISTORIES] [SEED]
It needs nothing but Python 3, and a millisecond or so a history (20,000 where none are asked for). It is written from the
definitions alone (bq_weights/specs/VirtualTime, bq_disc/specs/OneProcessor, bq_cfs/specs/Cfs, bq_eevdf/specs/Eevdf,
bq_fairness/specs) and shares no code with the product. A bound that is exceeded is an assertion that fails, with the seed of its
history. Then it shows the counterexamples of docs/FAIRNESS.md.
"""
import random
import sys

WEIGHTS = [88761, 71755, 56483, 46273, 36291, 29154, 23254, 18705, 14949, 11916, 9548, 7620, 6100, 4904, 3906, 3121, 2501,
           1991, 1586, 1277, 1024, 820, 655, 526, 423, 335, 272, 215, 172, 137, 110, 87, 70, 56, 45, 36, 29, 23, 18, 15]
END = 2 ** 62
GRANULARITY = 1_000_000
BONUS = 3_000_000


def vdelta(d, w):
    return d * 1024 // w


class Task:
    def __init__(self, id, weight, v, slice, deadline=0):
        self.id, self.weight, self.v, self.slice, self.deadline = id, weight, v, slice, deadline
        self.start, self.served, self.time = v, 0, 0


class Cfs:
    """What the rule decides, of the tasks that are given."""

    @staticmethod
    def choice(tasks):
        return min(tasks, key=lambda t: (t.v, t.id), default=None)

    @staticmethod
    def wants_preempt(current, queue):
        least = Cfs.choice(queue)
        return least is not None and least.v + GRANULARITY < current.v

    @staticmethod
    def renew(t):
        pass

    @staticmethod
    def mark(old, tasks):
        return max(old, min(t.v for t in tasks)) if tasks else old


class Eevdf:
    @staticmethod
    def choice(tasks):
        total = sum(t.weight for t in tasks)
        moment = sum(t.weight * t.v for t in tasks)
        eligible = [t for t in tasks if total * t.v <= moment]
        return min(eligible, key=lambda t: (t.deadline, t.id), default=None)

    @staticmethod
    def wants_preempt(current, queue):
        chosen = Eevdf.choice([current] + queue)
        return chosen is not None and chosen.id != current.id

    @staticmethod
    def renew(t):
        if t.deadline <= t.v:
            t.deadline = min(t.v + vdelta(t.slice, t.weight), END)

    @staticmethod
    def mark(old, tasks):
        return sum(t.weight * t.v for t in tasks) // sum(t.weight for t in tasks) if tasks else old


class Processor:
    def __init__(self, rule, tasks, current=None, kept=2 ** 32):
        self.rule, self.queue, self.current, self.kept = rule, list(tasks), current, kept

    def present(self):
        return self.queue + ([self.current] if self.current else [])

    def charge(self, rise):
        t = self.current
        if t:
            t.v = min(t.v + vdelta(rise, t.weight), END)
            self.rule.renew(t)
            t.served += vdelta(rise, t.weight)
            t.time += rise
        self.kept = self.rule.mark(self.kept, self.present())

    def start(self):
        self.current = self.rule.choice(self.queue)
        if self.current:
            self.queue.remove(self.current)

    def decide(self):
        if not self.current:
            self.start()
        elif self.rule.wants_preempt(self.current, self.queue):
            chosen = self.rule.choice([self.current] + self.queue)
            if chosen is self.current:
                chosen = self.rule.choice(self.queue)
            self.queue.append(self.current)
            self.queue.remove(chosen)
            self.current = chosen

    def tick(self, rise):
        self.charge(rise)
        self.decide()


class Nearest:
    """The greatest part of a bound that was reached, by law."""

    def __init__(self):
        self.parts = {}

    def see(self, law, value, bound, seed, counts=True):
        """A value and its bound; the part counts where the history begins even, so that no gap at the start makes it great."""
        assert value <= bound, f"{law}: {value} exceeds {bound} in the history of seed {seed}"
        if counts and bound > 0 and value > self.parts.get(law, 0) * bound:
            self.parts[law] = value / bound


def drawn_task(r, rule, id, v, weights):
    w = r.choice(weights)
    s = r.choice([100_000, 1_000_000, 3_000_000, 100_000_000])
    return Task(id, w, v, s, v + vdelta(s, w) if rule is Eevdf else 0)


def drawn_tasks(r, rule):
    n = r.choice([1, 2, 2, 2, 3, 3, 4, 6])
    spread = r.choice([0, 0, 0, 1000, 1_000_000, 20_000_000])
    weights = r.choice([WEIGHTS, WEIGHTS[:4], WEIGHTS[-4:], [88761, 15], [15], [1024]])
    return [drawn_task(r, rule, i, 2 ** 32 + r.randint(0, spread), weights) for i in range(n)]


def drawn_rise(r, kind, d):
    if kind == "most":
        return d
    if kind == "two":
        return r.choice([0, d])
    return r.randint(0, min(d, 200) if kind == "small" else d)


RISES = [87, 1000, 100_000, 1_000_000, 4_000_000, 50_000_000]
KINDS = ["most", "most", "any", "small", "two"]


def reach(rule, t, v):
    """How far another may come beyond a task that stands at v: the granularity, or its slice."""
    return v + (GRANULARITY if rule is Cfs else vdelta(t.slice, t.weight))


def see_pairs(name, rule, tasks, r, nearest, seed):
    for a in tasks:
        for b in tasks:
            if a is not b:
                bound = max(a.start, reach(rule, b, b.start)) - a.start + vdelta(r, a.weight)
                nearest.see(f"{name}, proportional service", a.served - b.served, bound, seed, a.start == b.start)


def ticks_history(rule, name, seed, nearest, ticks):
    """Ticks alone: the laws of Histories, Work, CfsFairness, EevdfFairness and EevdfDeadlines."""
    r = random.Random(seed)
    tasks = drawn_tasks(r, rule)
    n = len(tasks)
    V, L = max(t.v for t in tasks), min(t.v for t in tasks)
    d, kind = r.choice(RISES), r.choice(KINDS)
    W = sum(t.weight for t in tasks)
    start = sum(t.weight * t.v for t in tasks)
    E = max(0, max(W * t.v - start for t in tasks))
    p = Processor(rule, tasks)
    p.start()
    clock = 0
    for number in range(1, ticks + 1):
        rise = drawn_rise(r, kind, d)
        clock += rise
        p.tick(rise)
        booked = sum(t.weight * t.served for t in tasks)
        assert booked <= 1024 * clock <= booked + 88760 * number
        see_pairs(name, rule, tasks, d, nearest, seed)
        for b in tasks:
            least = W * (b.served + max(V, reach(rule, b, b.start))) + 1024 * d * n - start
            nearest.see(f"{name}, service by share", booked, least, seed, V == L)
            if b.served == 0:
                wait = W * (V - L + reach(rule, b, 0)) + 1024 * d * n + 88760 * number
                nearest.see(f"{name}, waiting", 1024 * clock, wait, seed, V == L)
        if rule is Eevdf:
            M = start + booked
            ahead = {t.id: E + (W - t.weight) * vdelta(d, t.weight) for t in tasks}
            together = sum(t.weight * ahead[t.id] for t in tasks)
            assert W * p.current.v <= M
            for a in tasks:
                nearest.see("EEVDF, ahead of the mean", W * a.v - M, ahead[a.id], seed, E == 0)
                lag = a.weight * (M - W * a.v)
                nearest.see("EEVDF, owed, by what the others may be ahead", lag, together - a.weight * ahead[a.id], seed, E == 0)
                if n > 1:
                    owed = (W - a.weight) * E + 1024 * d * ((n - 2) * W + a.weight)
                    many = ", three or more tasks" if n > 2 else ""
                    nearest.see(f"EEVDF, owed, by n - 2 rises and a share of one{many}", lag, owed, seed, E == 0)
                for b in tasks:
                    bound = max(V - b.deadline, 0) + vdelta(d, a.weight)
                    nearest.see("EEVDF, beyond a deadline by a rise", a.v - b.deadline, bound, seed, E == 0)


def steps_history(rule, name, seed, nearest, steps):
    """Any steps, others entering and leaving: the laws of Steps. Time may pass more than once before a decision."""
    r = random.Random(seed)
    tasks = drawn_tasks(r, rule)
    d, kind = r.choice(RISES), r.choice(KINDS)
    p = Processor(rule, tasks)
    throughout, others, number, left = list(tasks), [], 100, d
    for _ in range(steps):
        what = r.random()
        if what < 0.4:
            rise = min(left, drawn_rise(r, kind, d))
            left -= rise
            p.charge(rise)
        elif what < 0.8:
            p.decide()
            left = d
        elif what < 0.9:
            new = drawn_task(r, rule, number, 2 ** 32 + r.choice([0, 0, r.randint(-10 ** 7, 10 ** 8)]), WEIGHTS)
            number += 1
            others.append(new)
            p.queue.append(new)
        elif others or len(throughout) > 2:
            gone = r.choice(others if others and r.random() < 0.8 else p.present())
            for group in (others, throughout, p.queue):
                if gone in group:
                    group.remove(gone)
            if p.current is gone:
                p.current = None
        see_pairs(f"{name}, others coming and going", rule, throughout, d, nearest, seed)


def counterexamples():
    print("Counterexamples of first forms")
    a, b = Task(1, 1024, END, 3_000_000), Task(2, 1024, END, 3_000_000)
    p = Processor(Cfs, [a, b])
    p.start()
    for _ in range(1000):
        p.tick(10 ** 9)
    print("  CFS, at the end of virtual time:          ran for", a.time, "and", b.time)
    for rule in (Cfs, Eevdf):
        tasks = [Task(1, 88761, 2 ** 32, 3_000_000, 2 ** 32 + 34610), Task(2, 1024, 2 ** 32, 3_000_000, 2 ** 32 + 3_000_000)]
        p = Processor(rule, tasks)
        p.start()
        for _ in range(100_000):
            p.tick(86)
        print(f"  {rule.__name__.upper()}, 100,000 rises of 86 ns, weight 88761: ran for", tasks[0].time, "and", tasks[1].time)
    tasks = [Task(1, 15, 2 ** 32, 3_000_000), Task(2, 15, 2 ** 32, 3_000_000)]
    p = Processor(Cfs, tasks)
    p.start()
    p.tick(1_000_000)
    print("  CFS, one Tick of 1 ms at weight 15: served", tasks[0].served, "and", tasks[1].served)
    tasks = [Task(i, 1024, 2 ** 32, 100_000, 2 ** 32 + 100_000) for i in range(3)]
    p = Processor(Eevdf, tasks)
    p.start()
    for _ in range(2):
        p.tick(4_000_000)
        mean = sum(t.v for t in tasks) / 3
        print("  EEVDF, slices of 100,000 and Ticks of 4 ms: ahead or owed", *(round(t.v - mean) for t in tasks))
    tasks = [Task(1, 1024, 2 ** 32, 3_000_000), Task(2, 1024, 2 ** 32, 3_000_000)]
    p = Processor(Cfs, tasks)
    p.start()
    for _ in range(10):
        p.charge(1_000_000)
    p.tick(1_000_000)
    print("  CFS, ten ends of wakes, then a Tick, each 1 ms after the last: served", tasks[0].served, "and", tasks[1].served)
    # under CFS tasks that enter below the least, run and go keep a waiting one from running; under EEVDF as well
    for rule in (Cfs, Eevdf):
        waiting = Task(1, 1024, 2 ** 32, 3_000_000, 2 ** 32 + 3_000_000)
        p = Processor(rule, [waiting])
        clock = 0
        for number in range(2, 1002):
            new = Task(number, 1024, p.kept - BONUS, 3_000_000, p.kept)
            p.queue.append(new)
            p.decide()
            p.tick(BONUS - 1)
            clock += BONUS - 1
            p.queue = [t for t in p.queue if t is not new]
            p.current = None
        print(f"  {rule.__name__.upper()}, 1,000 tasks enter 3 ms below the mark, run and leave:", end=" ")
        print("a waiting one ran for", waiting.time, "of", clock)


def main():
    histories = int(sys.argv[1]) if len(sys.argv) > 1 else 20_000
    first = int(sys.argv[2]) if len(sys.argv) > 2 else 1
    nearest = Nearest()
    rules = [(Cfs, "CFS"), (Eevdf, "EEVDF")]
    for seed in range(first, first + histories):
        rule, name = rules[seed % 2]
        length = 400 if seed % 1000 < 2 else 8 if seed % 10 else 30
        if seed % 6 < 4:
            ticks_history(rule, name, seed, nearest, length)
        else:
            steps_history(rule, name, seed, nearest, 3 * length)
    print(f"{histories} histories; of each bound the greatest part that was reached")
    for law in sorted(nearest.parts):
        print(f"  {nearest.parts[law]:.6f}  {law}")
    counterexamples()


if __name__ == "__main__":
    main()
