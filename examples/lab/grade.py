#!/usr/bin/env python3
"""Grades what students hand in: runs it beside the discipline on workloads of an exam, and compares their figures.

Without other words the exam is that of docs/LAB.md. The files are texts; what is judged are the bytes that are read once. Links are not followed.

Exit status: 0 if each file has passed; 1 if a file has failed; 2 if a word, the exam or the program is wrong, so that nothing was judged; 3 if a file
could not be judged. Of several files it is the greatest. docs/LAB_GRADING.md says more.
"""
import os
import sys

HERE = os.path.dirname(os.path.realpath(__file__))
sys.path = [it for it in sys.path if os.path.realpath(it) != HERE] + [HERE]  # so a file beside this one, as json.py, is not taken for Python's
sys.dont_write_bytecode = True

import argparse
import pathlib
import random
import re
import shlex

from lab_grader import BadExam, exams, labs, results
from lab_grader.judging import KINDS, Judge, with_slices
from lab_grader.program import Bqsim

ROOT = pathlib.Path(HERE).parents[1]


def parser():
    words = argparse.ArgumentParser(description=__doc__, formatter_class=argparse.RawDescriptionHelpFormatter, allow_abbrev=False)
    words.add_argument("files", nargs="+", metavar="FILE", help="what a student handed in; put -- before the files if others chose their names")
    exam = words.add_mutually_exclusive_group()
    exam.add_argument("--lab", choices=labs.LABS, help="the lab whose exam it is; the default is preempt")
    exam.add_argument("--exam", metavar="FILE", help="an exam as JSON")
    exam.add_argument("--workload", metavar="FILE", help="a workload of your own, for --want and --must")
    own = words.add_argument_group("with --workload")
    own.add_argument("--task", help="the task or kind of the aims; the default is the sum over all tasks")
    own.add_argument("--want", metavar="AIM", action="append", default=[], help="an aim and its points, as in '3: p95<=10%%' or 'p95<=0.1ms'; repeat it")
    own.add_argument("--must", metavar="AIM", action="append", default=[], help="a condition, without which no points count; repeat it")
    own.add_argument("--hook", choices=exams.HOOKS, help="the hook of the policies; the default is preempt")
    own.add_argument("--discipline", choices=("cfs", "eevdf"), help="the default is the workload's")
    own.add_argument("--seeds", type=int, metavar="N", help="how many seeds each figure is the mean of, 1 to 1000; the default is 5")
    words.add_argument("--seed", type=int, metavar="N", help="repeats the grading that named this seed; without it, all that is drawn is drawn again")
    words.add_argument("--as", choices=results.FORMS, default="text", dest="form", help="the form: text (the default), csv or json")
    words.add_argument("--explain", action="store_true", help="shows why a file is refused, with text of the file")
    words.add_argument("--solutions", action="store_true", help="takes the solutions of this repository too")
    words.add_argument("--keep", metavar="FOLDER", help="writes the exam's workloads into this folder, to simulate them yourself")
    words.add_argument("--bqsim", metavar="PATH", default=ROOT / "bqsim", help="the program; the default is ./bqsim of the repository")
    return words


def said(words, given):
    """The words, unless one of them may be a file that was named to pass for a word."""
    for word in given[: given.index("--")] if "--" in given else given:
        if word.startswith("-") and os.path.lexists(word):
            words.error(f"{word} is a file here; put -- before the files")
    it = words.parse_args(given)
    if it.workload and not it.want + it.must:
        words.error("--workload needs --want or --must")
    if not it.workload and (it.want or it.must or not {it.task, it.hook, it.discipline, it.seeds} <= {None}):
        words.error("--task, --want, --must, --hook, --discipline and --seeds need --workload")
    if it.seeds is not None and not 1 <= it.seeds <= 1000:
        words.error("--seeds is 1 to 1000")
    if it.seed is not None and not 0 <= it.seed < 2**63:
        words.error("--seed is 0 to 2^63 - 1")
    return it


def exam_of(it):
    seed = random.SystemRandom().randrange(2**31) if it.seed is None else it.seed
    if it.workload:
        return exams.by_words(it, seed)
    if it.exam:
        return exams.by_file(it.exam, seed)
    return labs.exam(it.lab or "preempt", seed)


def keep(exam, folder):
    try:
        os.makedirs(folder, exist_ok=True)
        for case in exam.cases.values():
            path = pathlib.Path(folder, re.sub(r"[^\w.-]+", "-", case.name) + ".toml")
            path.write_text(f"# Run it with {shlex.join(case.words())}\n{with_slices(case, KINDS).text}", encoding="utf-8")
    except OSError as failure:
        raise BadExam(f"{folder} can't be written: {failure.strerror}") from failure


def grade(it):
    exam = exam_of(it)
    if it.keep:
        keep(exam, it.keep)
    with Bqsim(pathlib.Path(it.bqsim).absolute()) as bqsim:
        judge = Judge(bqsim, exam, it.solutions)
        judged = [judge.judge(path) for path in it.files]
    for line in results.FORMS[it.form](judged, exam, it.explain):
        print(line)
    if sys.stdout:
        sys.stdout.flush()
    return results.status(judged)


def ended(it):
    """The exit status. Python's own for an exception is 1, which is that of a file that has failed."""
    try:
        return grade(it)
    except KeyboardInterrupt:
        return 130
    except BadExam as failure:
        status, text = 2, str(failure)
    except Exception as failure:
        status, text = 3, f"a fault of the grader: {type(failure).__name__}: {failure}"
    print(f"grade.py: {text}", file=sys.stderr)
    if sys.stdout:
        os.dup2(os.open(os.devnull, os.O_WRONLY), sys.stdout.fileno())  # what could not be written is not tried again
    return status


def main():
    for stream in filter(None, (sys.stdout, sys.stderr)):
        stream.reconfigure(errors="backslashreplace")
    return ended(said(parser(), sys.argv[1:]))


if __name__ == "__main__":
    sys.exit(main())
