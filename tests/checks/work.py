"""Jobs that threads take one after another, and the answers of their checks as they come."""
import collections
import os
import queue
import threading
import traceback
from dataclasses import dataclass
from typing import Callable

from .runs import Answer, Stopped


@dataclass
class Job:
    """Checks that are made one after another, by a call that gives their answers."""

    group: str
    name: str
    check: Callable
    count: int = 1
    again: str = ""  # the command that makes them again


class Work:
    def __init__(self, jobs):
        self.jobs, self.left = collections.deque(jobs), len(jobs)
        self.answers = queue.Queue()
        count = min(len(os.sched_getaffinity(0)), len(jobs))
        self.threads = [threading.Thread(target=self.take) for _ in range(count)]

    def take(self):
        while True:
            try:
                self.do(self.jobs.popleft())
            except (IndexError, Stopped):
                return

    def do(self, job):
        given = 0
        try:
            for answer in job.check():
                given += 1
                self.answers.put((job, answer))
            if given != job.count:
                self.answers.put((job, Answer(job.name, f"{given} checks were made, and {job.count} are its number")))
        except Stopped:
            raise
        except Exception:
            self.answers.put((job, Answer(job.name, traceback.format_exc())))
        self.answers.put((job, None))

    def run(self, board):
        """Has all jobs done, and shows the answers on the board."""
        for thread in self.threads:
            thread.start()
        while self.left:
            try:
                job, answer = self.answers.get(timeout=1)
            except queue.Empty:
                board.show()
                continue
            if answer:
                board.take(job, answer)
            else:
                board.ends(job.group)
                self.left -= 1

    def end(self):
        for thread in self.threads:
            if thread.ident:
                thread.join()
