"""Exams: what is handed in, the cases that are run, and the aims. A teacher gives one by words or as a JSON file; labs.py draws those of the labs."""
import json
import random
import re
from dataclasses import dataclass, field
from pathlib import Path

from . import BadExam
from .aims import Aim, want
from .program import Case

HOOKS = ("place", "preempt", "pull")
SLICES = "slices"  # what is handed in where it is no policy, but a workload of which only the slices count
KEYS = {"hook", "discipline", "seeds", "aims"}
KEYS_OF_AIM = {"workload", "task", "want", "must", "points"}


class Draw:
    """Numbers drawn from a seed: the same in every version of Python."""

    def __init__(self, seed):
        self.random = random.Random(seed)

    def between(self, least, most):
        return self.random.randrange(least, most + 1)

    def seed(self):
        return self.between(0, 2**31)

    def in_some_order(self, items):
        return [it for _, it in sorted((self.between(0, 2**31), it) for it in items)]


@dataclass
class Exam:
    title: str
    takes: str  # a hook, or SLICES
    seed: int
    cases: dict = field(default_factory=dict)  # by name
    aims: list = field(default_factory=list)
    solutions: tuple = ()  # the files whose programs are not taken

    def add(self, case, *aims):
        """A case, and its aims as (task, want, points)."""
        self.cases[case.name] = case
        self.aims += [Aim(case.name, task, want(text), points) for task, text, points in aims]

    @property
    def points(self):
        return sum(aim.points for aim in self.aims)


def text_of(path):
    try:
        return Path(path).read_text(encoding="utf-8")
    except (OSError, ValueError) as failure:
        raise BadExam(f"{path} can't be read: {failure}") from failure


def by_words(words, seed):
    """The exam of --workload, --task, --want and --must."""
    exam, draw = Exam(f"workload {Path(words.workload).stem}", words.hook or "preempt", seed), Draw(seed)
    case = Case(Path(words.workload).stem, text_of(words.workload), words.discipline or "", draw.seed(), words.seeds or 5)
    task = words.task or ""
    wants = [(task, text, points) for points, text in map(points_of, words.want)]
    exam.add(case, *wants, *((task, text, 0) for text in words.must))
    return exam


def points_of(text):
    """`3: p95<=10%` is worth 3 points, and a want without a number one."""
    number, colon, aim = text.partition(":")
    if not colon:
        return 1, text
    if not re.fullmatch(r"\s*0*[1-9][0-9]{0,2}\s*|\s*1000\s*", number):
        raise BadExam(f"{text!r}: the points before the colon are a whole number from 1 to 1000")
    return int(number), aim


def by_file(path, seed):
    """The exam of a JSON file. Its workloads stand beside it."""
    try:
        given = json.loads(text_of(path))
    except (ValueError, RecursionError) as failure:
        raise BadExam(f"{path} is no JSON: {failure}") from failure
    faults = Faults(str(path))
    faults.keys(given, KEYS, "the exam")
    exam = Exam(Path(path).stem, faults.one_of(given.get("hook", "preempt"), HOOKS, "hook"), seed)
    discipline = faults.one_of(given.get("discipline", ""), ("cfs", "eevdf", ""), "discipline")
    seeds, draw = faults.whole(given.get("seeds", 5), 1, 1000, "seeds"), Draw(seed)
    for number, it in enumerate(faults.listed(given.get("aims"), "aims")):
        place = f"aims[{number}]"
        faults.keys(it, KEYS_OF_AIM, place)
        workload = faults.text(it.get("workload"), f"{place}: workload")
        name = re.sub(r"\.toml$", "", workload)
        if name not in exam.cases:
            exam.cases[name] = Case(name, text_of(Path(path).parent / workload), discipline, draw.seed(), seeds)
        exam.aims.append(aim_of(faults, it, name, place))
    return exam


def aim_of(faults, it, case, place):
    if ("want" in it) == ("must" in it) or ("must" in it and "points" in it):
        raise BadExam(f"{faults.path}: {place} needs one of want, which may have points, and must, which has none")
    points = faults.whole(it.get("points", 1), 1, 1000, f"{place}: points") if "want" in it else 0
    text = faults.text(it.get("want", it.get("must")), f"{place}: want or must")
    task = faults.text(it.get("task", ""), f"{place}: task")
    try:
        return Aim(case, task, want(text), points)
    except BadExam as failure:
        raise BadExam(f"{faults.path}: {place}: {failure}") from failure


@dataclass(frozen=True)
class Faults:
    """Refuses what an exam's file may not say, with its place."""

    path: str

    def refuse(self, text):
        raise BadExam(f"{self.path}: {text}")

    def keys(self, given, known, place):
        if not isinstance(given, dict):
            self.refuse(f"{place} is no object")
        for key in given:
            if key not in known:
                self.refuse(f"{place} has an unknown key {key!r}; there are {', '.join(sorted(known))}")

    def one_of(self, given, known, place):
        if given not in known:
            self.refuse(f"{place} is {given!r}, and not one of {', '.join(filter(None, known))}")
        return given

    def whole(self, given, least, most, place):
        if not isinstance(given, int) or isinstance(given, bool) or not least <= given <= most:
            self.refuse(f"{place} is {given!r}, and no whole number from {least} to {most}")
        return given

    def text(self, given, place):
        if not isinstance(given, str):
            self.refuse(f"{place} is {given!r}, and no text")
        return given

    def listed(self, given, place):
        if not isinstance(given, list) or not given:
            self.refuse(f"{place} is no list with at least one entry")
        return given
