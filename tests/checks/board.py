"""The progress of the checks on standard error, and what failed on standard output."""
import shutil
import sys
import time
from collections import Counter


class Board:
    """Counts answers. On a terminal one line is written anew with each; elsewhere a line a group, when all of it is done."""

    def __init__(self, jobs):
        self.total = sum(job.count for job in jobs)
        self.left = Counter(job.group for job in jobs)
        self.passed, self.failed, self.skipped = Counter(), Counter(), []
        self.begun, self.is_terminal = time.monotonic(), sys.stderr.isatty()

    def take(self, job, answer):
        group = job.group
        if answer.skipped:
            self.skipped.append(answer)
        elif answer.failure:
            self.failed[group] += 1
            self.clear()
            print(f"FAILED {answer.name}", answer.failure, f"again: {answer.again or job.again}\n", sep="\n", flush=True)
        else:
            self.passed[group] += 1
        self.show(answer.name)

    def ends(self, group):
        """A job of the group is done."""
        self.left[group] -= 1
        if not self.left[group] and not self.is_terminal:
            print(f"{group}: {self.passed[group]} passed, {self.failed[group]} failed, {self.seconds()} s", file=sys.stderr, flush=True)

    def show(self, name=""):
        if self.is_terminal:
            passed, failed = self.sums()
            line = f"{passed + failed + len(self.skipped)} of {self.total} checks, {failed} failed, {self.seconds()} s  {name}"
            print(f"\r{line[: shutil.get_terminal_size().columns - 1]}\033[K", end="", file=sys.stderr, flush=True)

    def clear(self):
        if self.is_terminal:
            print("\r\033[K", end="", file=sys.stderr, flush=True)

    def seconds(self):
        return round(time.monotonic() - self.begun)

    def sums(self):
        return sum(self.passed.values()), sum(self.failed.values())

    def end(self):
        """Says how many were not run and why, a line a reason, and the sums; answers the exit status."""
        self.clear()
        names = {}
        for answer in sorted(self.skipped, key=lambda it: it.name):
            names.setdefault(answer.skipped, []).append(answer.name)
        for reason, skipped in names.items():
            print(f"{len(skipped)} not run, {reason}: {', '.join(skipped[:3])}{', ..' if len(skipped) > 3 else ''}")
        passed, failed = self.sums()
        print(f"{passed} passed, {failed} failed", flush=True)
        return 1 if failed else 0
