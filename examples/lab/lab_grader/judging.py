"""Judges what was handed in by an exam."""
import hashlib
from dataclasses import dataclass, field, replace
from typing import Optional

from . import BadExam, NotJudged, Refused, submission
from .aims import check, met
from .exams import SLICES

PASSED, FAILED, NOT_JUDGED = "passed", "failed", "not judged"
KINDS = {"audio": 3_000_000, "build": 3_000_000}  # whose slices are handed in, with what they are without it


@dataclass
class Result:
    file: str
    outcome: str
    of: int
    points: Optional[int] = None  # none where it is not judged
    reason: str = ""
    sha256: str = ""  # of the bytes that were judged
    program: str = ""  # of the image, which has neither comments nor labels, so that copies can be found
    aims: list = field(default_factory=list)
    explanation: list = field(default_factory=list)


class Judge:
    def __init__(self, bqsim, exam, takes_solutions=False):
        self.bqsim, self.exam = bqsim, exam
        self.without = {name: self.figures(with_slices(case, KINDS)) for name, case in exam.cases.items()}
        for aim in exam.aims:
            check(aim, self.without[aim.case])
        self.solutions = [] if takes_solutions else [bqsim.image(bqsim.put("solution", path.read_bytes())) for path in exam.solutions]

    def figures(self, case):
        try:
            return self.bqsim.figures(case)
        except NotJudged as failure:
            raise BadExam("\n".join([f"{case.name}: {failure}", *failure.explanation])) from failure

    def judge(self, path):
        result = Result(path, NOT_JUDGED, self.exam.points)
        try:
            handed_in = submission.read(path)
            result.sha256 = sha256(handed_in.data)
            result.aims = self.judged(self.cases(handed_in, result))
            result.points = points(result.aims)
            result.outcome = PASSED if all(it.is_met for it in result.aims) else FAILED
        except NotJudged as failure:
            result.reason, result.explanation = str(failure), failure.explanation
            if isinstance(failure, Refused):
                result.outcome, result.points = FAILED, 0
        return result

    def cases(self, handed_in, result):
        """The exam's cases with what was handed in."""
        if not handed_in.is_text():
            raise NotJudged("bring the source: it is no text")
        if self.exam.takes == SLICES:
            slices = self.slices(handed_in)
            return {name: with_slices(case, slices) for name, case in self.exam.cases.items()}
        path = self.policy(handed_in)
        image = self.bqsim.image(path)
        result.program = sha256(image)
        if image in self.solutions:
            raise NotJudged("its program is a solution of this repository")
        return {name: replace(case, policies=(*case.policies, (self.exam.takes, path))) for name, case in self.exam.cases.items()}

    def policy(self, handed_in):
        """A copy of it, if it is a policy for the exam's hook that bqsim accepts."""
        path = self.bqsim.put("policy", handed_in.data)
        answer = self.bqsim.check(path)
        if answer["answer"] is None:
            raise NotJudged("bqsim can't check it", answer["need"])
        if not answer["accepted"]:
            raise Refused(answer["answer"], "\n".join(answer["explanation"]))
        if answer["hook"] != self.exam.takes:
            raise NotJudged(f"wrong hook: it is for {answer['hook']} and not for {self.exam.takes}")
        return path

    def slices(self, handed_in):
        """The slice of each kind in a workload, in nanoseconds."""
        there = self.bqsim.slices(self.bqsim.put("handed-in.toml", handed_in.data))
        found = {kind: {slice_ for task, slice_ in there.items() if task == kind or task.startswith(f"{kind}-")} for kind in KINDS}
        for kind, slices in found.items():
            if len(slices) != 1:
                raise Refused(f"one slice of {kind} is needed and {len(slices) or 'none'} found")
        return {kind: slices.pop() for kind, slices in found.items()}

    def judged(self, cases):
        figures = {name: self.bqsim.figures(case) for name, case in cases.items()}
        return [met(aim, self.without[aim.case], figures[aim.case]) for aim in self.exam.aims]


def sha256(data):
    return hashlib.sha256(data).hexdigest()


def with_slices(case, slices):
    text = case.text
    for kind, slice_ in slices.items():
        text = text.replace(f"<{kind}>", f"{slice_}ns")
    return replace(case, text=text)


def points(aims):
    """The points of the aims that are met; none unless each condition is."""
    if not all(it.is_met for it in aims if not it.aim.points):
        return 0
    return sum(it.aim.points for it in aims if it.is_met)
