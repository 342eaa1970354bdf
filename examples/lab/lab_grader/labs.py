"""The exams of the four labs. Nice values, counts, lengths, the order of tasks and seeds are drawn, so no constant of a workload helps.

Each lab asks for an improvement, which is worth points, and has conditions on what may not get worse. So who changes nothing gets no points.
"""
import json
from pathlib import Path

from .exams import SLICES, Draw, Exam
from .program import Case

FOLDER = Path(__file__).resolve().parent.parent


def table(head, **keys):
    """A table of a workload; None leaves a key out."""
    return "\n".join([head, *(f"{key} = {json.dumps(value)}" for key, value in keys.items() if value is not None), ""])


def task(name, do, **keys):
    """A table [[task]]; `do` is the line that says what the task does. Without a count it is one task of this very name."""
    return table("[[task]]", name=name, **keys) + f"{do}\n"


def machine(**keys):
    return table("[machine]", **keys)


def sleeps_and_runs(sleep, least, most):
    return f'do = [{{ sleep = {{ exponential = "{sleep}" }} }}, {{ run = {{ uniform = ["{least}us", "{most}us"] }} }}]'


ALWAYS = 'run = "10ms"'
ONCE = 'run = "10us"\nloops = 1'


def editor(draw, nice):
    least = draw.between(800, 1200)
    return task("editor", sleeps_and_runs(f"{draw.between(15, 25)}ms", least, least + draw.between(400, 800)), nice=nice)


def guest(draw, nice):
    """A task that is no heavier than the build, and wakes more often and more briefly than the editor."""
    least = draw.between(80, 150)
    return task("guest", sleeps_and_runs(f"{draw.between(8, 15)}ms", least, least + draw.between(40, 100)), nice=nice)


def preempt(seed):
    """docs/LAB.md. Of two editors one is lighter than the guest; each comes once before and once after its build."""
    exam, draw = Exam("lab preempt", "preempt", seed), Draw(seed)
    turned = draw.between(0, 1)

    def beside(name, one, nice, turn, *aims, builds=None, duration="1s", seeds=5):
        tables = [one, task("build", ALWAYS, nice=nice, count=builds)]
        text = machine(duration=duration) + "".join(tables[::-1] if turn else tables)
        exam.add(Case(name, text, "cfs", draw.seed(), seeds), *aims)

    points = (("editor", "p95<=50%", 1), ("editor", "p95<=10%", 1), ("editor", "cpu>=100%", 0))
    light, heavy = draw.between(5, 8), draw.between(-6, -2)
    beside("light editor", editor(draw, light - draw.between(4, 5)), light, turned, *points)
    beside("heavy editor", editor(draw, heavy - draw.between(4, 7)), heavy, not turned, *points)
    lighter, equal = draw.between(-11, -8), draw.between(0, 5)
    fair = (("guest", "p50>=90%", 0), ("guest", "p95<=110%", 0))
    beside("lighter guest", guest(draw, lighter + draw.between(3, 5)), lighter, turned, *fair)
    beside("equal guest", guest(draw, equal), equal, not turned, *fair)
    nice = draw.between(-4, 4)
    beside("crowd", editor(draw, nice - 4), nice, draw.between(0, 1), ("editor", "p95<=108%", 0), builds=draw.between(4, 5), duration="2s", seeds=50)
    values = [draw.between(-3, 1)]
    for _ in range(3):
        values.append(values[-1] + draw.between(3, 5))
    tasks = [task(f"share-{number}", ALWAYS, nice=value) for number, value in enumerate(draw.in_some_order(values))]
    exam.add(Case("shares", machine(duration="2s") + "".join(tasks), "cfs", draw.seed(), 1), ("share", "cpu>=90%fair", 0), ("", "switches<=80%", 2))
    return exam


def eevdf(seed):
    """docs/LAB_EEVDF.md. Only the slices of the audio and of the builds count, which stand for the marks below."""
    exam, draw = Exam("lab eevdf", SLICES, seed), Draw(seed)
    for name, builds in (("few builds", draw.between(3, 4)), ("more builds", draw.between(5, 6))):
        period, least = draw.between(9, 14), draw.between(400, 600)
        do = f'do = [{{ sleep = {{ uniform = ["{period - 2}ms", "{period + 2}ms"] }} }}, {{ run = {{ uniform = ["{least}us", "{least + 700}us"] }} }}]'
        tables = [task("audio", do, slice="<audio>"), task("build", ALWAYS, count=builds, slice="<build>")]
        text = machine(duration="1s", tick="1ms") + "".join(draw.in_some_order(tables))
        case = Case(name, text, "eevdf", draw.seed(), 20, (("preempt", FOLDER / "parity.s"),))
        kept = (("audio", "p95<=100%", 0), ("", "switches<=110%", 0), ("build", "cpu>=90%fair", 0))
        exam.add(case, ("audio", "p95<=85%", 2), ("", "switches<=88%", 2), *kept)
    return exam


def place(seed):
    """docs/LAB_PLACE.md. One machine is busy, and moves are dear there; on two others some processors are idle, and moves are cheap."""
    exam, draw = Exam("lab place", "place", seed), Draw(seed)
    count = 4 * draw.between(1, 2)

    def clients(name, tasks, run, spread, sleep, cost, *aims, duration="2s", seeds=3):
        """Each machine has as many tasks, of which those that are no clients run once, so a task's number says nothing."""
        kinds = draw.in_some_order(["client"] * tasks + ["boot"] * (5 * count - tasks))
        do = {"client": sleeps_and_runs(f"{sleep}us", run - spread, run + spread), "boot": ONCE}
        tables = [task(f"{kind}-{number}", do[kind]) for number, kind in enumerate(kinds)]
        text = machine(processors=count, duration=duration, migration_cost=f"{cost}us") + "".join(tables)
        exam.add(Case(name, text, "cfs", draw.seed(), seeds), *aims)

    def spare(name, tasks):
        """A machine of which 60 % of the time is used."""
        run = draw.between(3000, 6000)
        sleep, cost = run * tasks * 5 // (3 * count) - run, draw.between(50, 150)
        clients(name, tasks, run, 1500, sleep, cost, ("", "wakes>=98%", 0), ("", "waited<=150%", 0))

    run, tasks = draw.between(250, 400), draw.between(3 * count, 4 * count)
    sleep, cost = run * draw.between(110, 140) // 100, run * draw.between(90, 100) // 100
    clients("busy", tasks, run, 100, sleep, cost, ("", "wakes>=107%", 2), ("", "wakes>=110%", 2), duration="500ms", seeds=5)
    spare("spare", draw.between(5 * count // 4 + 1, 3 * count // 2))
    spare("less spare", draw.between(3 * count // 2 + 1, 2 * count))
    return exam


def pull(seed):
    """docs/LAB_PULL.md. Jobs that never sleep, on two processors."""
    exam, draw = Exam("lab pull", "pull", seed), Draw(seed)

    def jobs(name, count, balance, *aims):
        """`balance` is in microseconds, and no multiple of the tick: else a search would find the same task waiting each time."""
        boot = task("boot", ONCE, count=draw.between(2, 4))  # so that the jobs' numbers differ each time
        text = machine(processors=2, duration="4s", balance=f"{balance}us") + boot + task("job", ALWAYS, count=count)
        exam.add(Case(name, text, "cfs", draw.seed(), 1), *aims)

    def between_ticks(least, most):
        return 1000 * (1 + 2 * draw.between(least, most)) + draw.between(-300, 300)

    often, seldom = between_ticks(4, 5), between_ticks(6, 7)
    two_thirds = (("job", f"cpu>={4000 * 2 // 3 * 80 // 100}ms", 2),)
    jobs("three, often", 3, often, *two_thirds)
    jobs("three, seldom", 3, seldom, *two_thirds)
    jobs("four", 4, often, ("job", f"cpu>={2000 * 97 // 100}ms", 0), ("", "migrated<=20", 0))
    return exam


LABS = {"preempt": preempt, "eevdf": eevdf, "place": place, "pull": pull}


def exam(name, seed):
    found = LABS[name](seed)
    found.solutions = tuple(sorted(FOLDER.glob("solutions/*.s")))
    return found
