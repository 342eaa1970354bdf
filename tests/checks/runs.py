"""Programs that checks run: each in a process group of its own, so that all can be ended at once; and what a check answers."""
import difflib
import os
import signal
import subprocess
import threading
from dataclasses import dataclass

TOP = os.path.dirname(os.path.dirname(os.path.dirname(os.path.abspath(__file__))))
SECONDS = 300  # a program that takes longer than this is ended, and has failed
SHOWN, WIDTH = 40, 300  # lines of a difference that are shown, and characters of a line


@dataclass
class Answer:
    """What a check answers: nothing more if it passed, else why it failed, or why it was not made."""

    name: str
    failure: str = ""
    again: str = ""  # the command that makes it again
    skipped: str = ""


class Stopped(Exception):
    """All programs were ended; nothing more is to be done."""


class Failed(Exception):
    """A program could not be run to its end; the text says why."""


class Runner:
    """Runs programs, from any thread, until it is stopped."""

    def __init__(self):
        self.lock, self.running, self.is_stopped = threading.Lock(), set(), False
        self.environment = {**os.environ, "PYTHONDONTWRITEBYTECODE": "1", "LC_ALL": "C.UTF-8"}

    def run(self, words, folder):
        """The exit status, and all that was written, standard error in its place among it."""
        with self.lock:
            if self.is_stopped:
                raise Stopped
            try:
                process = subprocess.Popen(
                    words, cwd=folder, env=self.environment, start_new_session=True,
                    stdin=subprocess.DEVNULL, stdout=subprocess.PIPE, stderr=subprocess.STDOUT,
                )  # fmt: skip
            except OSError as reason:
                raise Failed(f"{words[0]} can't be run: {reason.strerror}") from reason
            self.running.add(process)
        is_late = False
        try:
            written, _ = process.communicate(timeout=SECONDS)
        except subprocess.TimeoutExpired:
            is_late = True
            end(process)
            written, _ = process.communicate()
        with self.lock:
            self.running.discard(process)
        if is_late:
            raise Failed(f"it did not end within {SECONDS} seconds, and wrote:\n{cut(text_of(written).splitlines()[-20:])}")
        if self.is_stopped:
            raise Stopped
        return process.returncode, text_of(written)

    def stop(self):
        with self.lock:
            self.is_stopped = True
            for process in self.running:
                end(process)


def text_of(written):
    """Bytes as a text, in which those that are no UTF-8 can still be told apart."""
    return written.decode("utf-8", "backslashreplace")


def read(path):
    """A file of the repository, as it stands."""
    with open(os.path.join(TOP, path), "rb") as file:
        return text_of(file.read())


def end(process):
    """Ends a program and all that it started, unless it was seen to end."""
    if process.returncode is None:
        os.killpg(process.pid, signal.SIGKILL)


def difference(expected, came):
    """A unified diff of two texts, cut where it is long; nothing where they are the same."""
    lines = list(difflib.unified_diff(expected.splitlines(), came.splitlines(), "expected", "came", lineterm="", n=2))
    if not lines and expected != came:
        lines = [f"the last line ends otherwise: expected {expected[-20:]!r}, came {came[-20:]!r}"]
    return cut(lines)


def cut(lines):
    """Lines as one text, the first ones alone where they are many, and cut where they are long."""
    more = [f".. and {len(lines) - SHOWN} lines more"] if len(lines) > SHOWN else []
    return "\n".join([*(line[:WIDTH] for line in lines[:SHOWN]), *more])
