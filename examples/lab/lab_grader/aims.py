"""What an exam asks for: a figure of a task, at most or at least so great, for so many points; and how far a run meets it."""
import re
from dataclasses import dataclass
from fractions import Fraction
from typing import Optional

from . import BadExam

WANT = re.compile(r"\s*([a-z][\w.]*)\s*([<>]=)\s*(\d{1,15}(?:\.\d{1,9})?)\s*(ns|us|ms|s|%)?\s*([a-z][\w.]*)?\s*")
UNITS = {"ns": 1, "us": 1000, "ms": 10**6, "s": 10**9}
FORMS = "write it as p95<=0.1ms, switches<=300, p95<=10% (of what it is without the file) or cpu>=90%fair (of another figure)"


@dataclass(frozen=True)
class Want:
    """`p95<=10%`: a figure, and the least or the most that it may be."""

    figure: str
    at_most: bool
    number: str
    unit: str  # of time, % or nothing
    of: str  # the figure of which it is a part, if it is not the same one without the file

    @property
    def sign(self):
        return "<=" if self.at_most else ">="

    def of_task(self, task):
        """The want in words."""
        amount = f"{self.number} {self.unit}".rstrip() + (f" of {self.of}" if self.of else "")
        return f"{self.figure} of {task or 'all tasks'} {self.sign} {amount}"


def want(text):
    found = WANT.fullmatch(text)
    if not found:
        raise BadExam(f"{text!r} is no aim; {FORMS}")
    figure, sign, number, unit, of = found.groups(default="")
    if of and unit != "%":
        raise BadExam(f"{text!r}: only a part in % can be of another figure; {FORMS}")
    return Want(figure, sign == "<=", number, unit, of)


@dataclass(frozen=True)
class Aim:
    """A want of a task or kind in a case; without a task, of the sum over all tasks. With 0 points it is a condition: without it, no points count."""

    case: str
    task: str
    want: Want
    points: int

    def __str__(self):
        return f"{self.case}: {self.want.of_task(self.task)}"


@dataclass(frozen=True)
class Met:
    """What came of an aim, in thousandths of a nanosecond or of a count; for a kind, of the task that is furthest from its limit."""

    aim: Aim
    unit: str
    came: Optional[Fraction]
    limit: Fraction
    is_met: bool


def limit(want, task, without, figures):
    """The limit for a task, or for all together; None if what it is a part of is missing."""
    amount = Fraction(want.number)
    if want.unit != "%":
        return amount * UNITS.get(want.unit, 1) * 1000
    whole = figures.value(task, want.of) if want.of else without.value(task, want.figure)
    return None if whole is None else whole * amount / 100


def met(aim, without, figures):
    """How far the figures of a run meet an aim, where `without` has those of the same run without the file."""
    found = []
    for task in figures.tasks(aim.task) if aim.task else [""]:
        came, bound = figures.value(task, aim.want.figure), limit(aim.want, task, without, figures)
        is_known = came is not None and bound is not None
        room = (bound - came if aim.want.at_most else came - bound) if is_known else -1
        found.append((room >= 0, room, came, bound or Fraction(0)))
    is_met, _, came, bound = min(found, key=lambda it: it[:2])
    return Met(aim, figures.units[aim.want.figure], came, bound, is_met)


def check(aim, without):
    """Refuses an aim that the figures of its case, without a file, do not have."""
    want, tasks = aim.want, without.tasks(aim.task) if aim.task else [""]
    if not tasks:
        raise BadExam(f"{aim}: the workload has no task {aim.task!r}; it has {', '.join(without.names.values())}")
    for figure in filter(None, [want.figure, want.of]):
        if figure not in without.units:
            raise BadExam(f"{aim}: there is no figure {figure!r}; there are {', '.join(without.units)}")
        if not aim.task and re.search(r"p\d|max|mean", figure):
            raise BadExam(f"{aim}: {figure} can't be added up over tasks; name a task")
    is_time = without.units[want.figure] == "ns"
    if want.unit != "%" and is_time != (want.unit in UNITS):
        raise BadExam(f"{aim}: {want.figure} is {'a time, and needs a unit: ns, us, ms or s' if is_time else 'a count, without a unit'}")
    if want.of and without.units[want.of] != without.units[want.figure]:
        raise BadExam(f"{aim}: of {want.figure} and {want.of} one is a time and one is a count")
    if want.unit == "%" and not want.of and all(without.value(task, want.figure) is None for task in tasks):
        raise BadExam(f"{aim}: without the file, {want.figure} of {aim.task} has no value")
