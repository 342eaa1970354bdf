"""bqsim, as the grader runs it: in a folder of its own, on copies, so that no message names a file of the caller."""
import json
import re
import subprocess
import tempfile
from dataclasses import dataclass
from fractions import Fraction
from pathlib import Path

from . import NotJudged, Refused

SECONDS = 300  # a call that takes longer is ended


@dataclass(frozen=True)
class Case:
    """A workload to run, with some seeds. `policies` has a hook and a file for each that stands for the discipline."""

    name: str
    text: str
    discipline: str = ""
    seed: int = 1
    seeds: int = 5
    policies: tuple = ()

    def words(self):
        discipline = ["--discipline", self.discipline] if self.discipline else []
        installed = [word for hook, path in self.policies for word in (f"--{hook}", str(path))]
        return [*discipline, *installed, "--seed", str(self.seed), "--seeds", str(self.seeds)]


class Figures:
    """The means of a case, in thousandths of a nanosecond or of a count. A task goes by what bqsim calls it: `task 3`."""

    def __init__(self, answer):
        self.names, self.values, self.units = {}, {}, {}
        for it in answer["figures"]:
            if it["of"].startswith("task "):
                mean = it["mean_thousandths"]
                self.names[it["of"]] = it["name"]
                self.values[it["of"], it["figure"]] = None if mean is None else Fraction(mean)
                self.units[it["figure"]] = it["unit"]

    def tasks(self, name):
        """The tasks of this name, or of this kind, whose tasks are NAME-0, NAME-1, .."""
        return [task for task, called in self.names.items() if called == name or re.fullmatch(re.escape(name) + r"-\d+", called)]

    def value(self, task, figure):
        """Of a task; of all tasks together, if it is empty."""
        if task:
            return self.values.get((task, figure))
        return sum((value for (_, each), value in self.values.items() if each == figure and value is not None), Fraction(0))


class Bqsim:
    """The program. Use it as a context: the folder in which it runs is removed at the end."""

    def __init__(self, path):
        self.path = str(path)

    def __enter__(self):
        self.room = tempfile.TemporaryDirectory(prefix="bqsim-grade-")
        self.folder = Path(self.room.name)
        return self

    def __exit__(self, *_):
        self.room.cleanup()

    def put(self, name, data):
        path = self.folder / name
        path.write_bytes(data)
        return path

    def run(self, *words):
        """The exit status, standard output and standard error."""
        try:
            done = subprocess.run(
                [self.path, *map(str, words)], cwd=self.folder, stdin=subprocess.DEVNULL, capture_output=True, timeout=SECONDS
            )
        except subprocess.TimeoutExpired as failure:
            raise NotJudged(f"bqsim took more than {SECONDS} seconds") from failure
        except (OSError, ValueError) as failure:
            raise NotJudged(f"bqsim can't be run: {failure}") from failure
        return done.returncode, *(text.decode("utf-8", "replace") for text in (done.stdout, done.stderr))

    def json(self, *words, statuses=(0,)):
        """What it answers as JSON, if it ends with one of the statuses."""
        status, written, said = self.run(*words)
        if status not in statuses:
            raise NotJudged(f"bqsim {words[0]} ended with status {status}", said)
        try:
            return json.loads(written)
        except (ValueError, RecursionError) as failure:
            raise NotJudged(f"{self.path} answered no JSON; is it bqsim?") from failure

    def check(self, path):
        return self.json("check", "--json", "--", path.name, statuses=(0, 1))

    def image(self, path):
        """The image of an accepted policy, in which neither comments nor labels are left."""
        image = self.folder / "image"
        status, _, said = self.run("check", "--image", image.name, "--", path.name)
        if status:
            raise NotJudged(f"bqsim check ended with status {status}", said)
        return image.read_bytes()

    def figures(self, case):
        self.put("workload.toml", case.text.encode())
        return Figures(self.json("simulate", "--as", "json", *case.words(), "--", "workload.toml"))

    def slices(self, path):
        """The slice of each task of a workload, in nanoseconds, by the task's name."""
        status, written, said = self.run("simulate", "--as", "trace", "--duration", "1ns", "--max-events", "100000", "--", path.name)
        if status:
            raise Refused("refused workload", said)
        names = dict(re.findall(r"(?m)^# task (\d+) (.*)$", written))
        return {names.get(task, ""): int(slice_) for task, slice_ in re.findall(r"(?m)^admit (\d+) .* (\d+)$", written)}
