#!/usr/bin/env python3
"""Checks a built program in less than two minutes: what is kept beside the sources, and the models on fixed seeds.

    tests/quick.py BQSIM [PART..]      with parts: only the checks whose names have one of them

BQSIM is the path of the program. What is checked, each in a file of tests/checks/:
- kept: the replies to each trace of examples/, each report in workloads/reports, each picture in docs/pictures;
- documents: each command that README.md and the other pages show, with what they show of its output;
- sessions: each command of tests/sessions, with all that it writes and its exit status;
- links: the relative links of the pages;
- scripts: the comparisons with the models, on fixed seeds, and the scripts that read the sources.

As many run side by side as there are processors. Standard error has the progress, standard output each failure: what was expected,
what came, and the command to repeat it. The last line is `N passed, M failed`; the exit status is 1 where one failed. Files are
written only in a temporary folder, which is removed at the end.
"""
import os
import shlex
import shutil
import signal
import sys
import tempfile
from functools import partial

sys.dont_write_bytecode = True

from checks import documents, kept, links, scripts, sessions
from checks.board import Board
from checks.runs import TOP, Answer, Failed, Runner
from checks.work import Job, Work

SIGNALS = [signal.SIGINT, signal.SIGTERM, signal.SIGHUP]


def all_jobs(runner, program):
    """Those that take longest come first."""

    def each(group, names, check, *given, count=lambda name: 1):
        found = [Job(group, name, partial(check, *given, name), count(name)) for name in names]
        return found or [Job(group, f"no {group}", lambda: [Answer(f"no {group}", "nothing is there to be checked")])]

    # a release has no sources, and what is checked of them is left out there
    has_sources = os.path.isdir(os.path.join(TOP, "crates"))
    sources = [
        *each("sources", scripts.SOURCES, scripts.check_script, runner, program),
        *each("sources", scripts.COMPLETE, scripts.check_complete),
        *each("sources", scripts.EXECUTABLE, scripts.check_executable),
        *each("examples", kept.stored(), kept.check_stored),
    ]
    return [
        *each("models", scripts.MODELS, scripts.check_script, runner, program),
        *each("pages", documents.with_commands(), documents.check_page, runner, program, count=documents.count),
        *each("sessions", sessions.sessions(), sessions.check_session, runner, program, count=sessions.count),
        *each("reports", kept.reports(), kept.check_report, runner, program),
        *(sources if has_sources else []),
        *each("pictures", kept.pictures(), kept.check_picture, runner, program),
        *each("examples", kept.examples(), kept.check_example, runner, program),
        *each("blocks", documents.RULES, documents.check_rule),
        *each("links", links.linked(), links.check_links),
    ]


def check_program(runner, program):
    """The one check that all others need: the program can be run."""
    failure = ""
    try:
        status, written = runner.run([program, "--version"], tempfile.gettempdir())
        if status or not written.startswith("bqsim "):
            failure = f"{program} --version ends with status {status}, and says {written[:200]!r}"
    except Failed as reason:
        failure = str(reason)
    yield Answer("the program runs", failure, f"{program} --version")


class Interrupted(BaseException):
    """A signal asks for the end."""


def interrupt(number, _):
    for each in SIGNALS:
        signal.signal(each, signal.SIG_IGN)
    raise Interrupted(number)


def make(jobs, board, runner):
    work = Work(jobs)
    try:
        work.run(board)
    except BaseException:
        runner.stop()
        board.clear()
        raise
    finally:
        work.end()


def check(runner, program, parts):
    """The exit status."""
    first = Job("program", "the program runs", partial(check_program, runner, program))
    jobs = [job for job in all_jobs(runner, program) if not parts or any(part in job.name for part in parts)]
    if not jobs:
        print(f"no check has a name with {' or '.join(map(repr, parts))}", file=sys.stderr)
        return 2
    for job in jobs:
        job.again = shlex.join(["tests/quick.py", program, job.name])
    board = Board([first, *jobs])
    make([first], board, runner)
    if not board.failed:
        make(jobs, board, runner)
    return board.end()


def main():
    if len(sys.argv) < 2 or sys.argv[1].startswith("-"):
        print(__doc__.strip(), file=sys.stderr)
        return 2
    for number in SIGNALS:
        signal.signal(number, interrupt)
    room, runner = tempfile.mkdtemp(prefix="bqsim-quick-"), Runner()
    tempfile.tempdir = runner.environment["TMPDIR"] = room
    try:
        return check(runner, os.path.abspath(sys.argv[1]), sys.argv[2:])
    except Interrupted as asked:
        ended = asked.args[0]
    finally:
        shutil.rmtree(room, ignore_errors=True)
    signal.signal(ended, signal.SIG_DFL)
    os.kill(os.getpid(), ended)


if __name__ == "__main__":
    sys.exit(main())
