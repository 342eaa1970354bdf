#!/usr/bin/env python3
"""Compares the forms of `bqsim simulate` with those that `bqsim timeline` gives of its trace.

    tests/simulate_forms.py BQSIM [DURATION]      of runs of that length, as 20ms; as the workloads have it if it is left out

BQSIM is the path of the program. Each workload of workloads/ is run under both disciplines. Its trace has to be answered by
`replay` with no line bad or refused, and each form of the run has to be that of `timeline` on the trace, byte for byte, save the
count of wakes that found no task waiting, which no trace tells. Then tasks are named: the names have to show what the numbers show,
and a name that no task has is said on standard error. Options that a form does not heed have to be refused, and only those.
`tests/quick.py` runs it.
"""
import pathlib
import re
import subprocess
import sys

MISSED = r'\nwakes that found no task waiting: \d+\n|,"missed_wakes":\d+'
FORMS = ["report", "map", "timehist", "why", "svg", "perfetto", "csv", "json"]
TOP = pathlib.Path(__file__).parent.parent
DESKTOP = ["simulate", str(TOP / "workloads" / "desktop.toml"), "--duration", "60ms"]
FOUR = ["timeline", str(TOP / "examples" / "four_tasks_cfs.trace")]

# Words, tasks by their names, and the same by their numbers.
NAMED = [
    (DESKTOP, "editor", "0"),
    (DESKTOP, "player,compiler-1", "1,3"),
    (DESKTOP, "compiler-0,0-1", "0-2"),
    ([*DESKTOP, "--seeds", "2"], "editor,compiler-5", "0,7"),
    ([*DESKTOP, "--seeds", "2", "--against", "none"], "3,player", "1,3"),
    (FOUR, "editor", "3"),
    (FOUR, "player,1,index", "1-2,4"),
]

# Words, tasks by their names, what standard error has, and numbers that show the same.
ABSENT = [
    (DESKTOP, "editr", "--tasks: no task is called editr; did you mean editor?\n", "900"),
    (DESKTOP, "player,editr", "--tasks: no task is called editr; did you mean editor?\n", "1"),
    (DESKTOP, "8-9", "--tasks: there is no task with such a number\n", "900"),
    (
        [*DESKTOP, "--seeds", "2"],
        "editr",
        "--tasks: no task is called editr; did you mean editor?\n--tasks: the workload has none of these tasks; how many it has: 8\n",
        "900",
    ),
    (FOUR, "Editor,-1", "--tasks: no task is called Editor; did you mean editor?\n--tasks: no task is called -1\n", "900"),
    (FOUR, "2,e\x1bd", "--tasks: no task is called e?d\n", "2"),
]

# Words that are refused.
REFUSED = [
    *([*words, "--as", form, option, "1ms"] for words in (DESKTOP, FOUR) for form in ("report", "json") for option in ("--from", "--to")),
    *([*DESKTOP, "--seeds", "2", "--as", form, option, "1ms"] for form in ("report", "csv", "json") for option in ("--from", "--to")),
    [*DESKTOP, "--against", "none", "--to", "1ms"],
    *([*FOUR, "--tasks", word] for word in ("", "1,,4", "a,", "4-1", "1-", "1x", "65536")),
]


def run(program, *words, text=None):
    done = subprocess.run([program, *words], input=text, capture_output=True, text=True, timeout=600)
    if done.returncode:
        sys.exit(f"{words}: {done.stderr}")
    return done.stdout


def told(program, *words):
    """The exit status, what is written, and what is said."""
    done = subprocess.run([program, *words], capture_output=True, text=True, timeout=600)
    return done.returncode, done.stdout, done.stderr


def check_words(program):
    """How many tasks by name, and how many options, are as they should be."""
    rows = [(*row[:2], "", row[2]) for row in NAMED] + ABSENT
    for words, names, notes, numbers in rows:
        forms = ["report", "csv", "json"] if "--seeds" in words or "--against" in words else FORMS
        for form in forms:
            status, shown, said = told(program, *words, "--as", form, "--tasks", names)
            if (status, shown, said) != (0, run(program, *words, "--as", form, "--tasks", numbers), notes):
                sys.exit(f"{words} --as {form} --tasks {names!r}: status {status}, {said!r}, or another text than with {numbers}")
    for words in REFUSED:
        status, shown, said = told(program, *words)
        if status != 2 or shown or not said:
            sys.exit(f"{words}: status {status}, {said!r}")
    for form in set(FORMS) - {"report", "json"}:
        run(program, *FOUR, "--as", form, "--from", "1ms", "--to", "2ms")
    return len(rows), len(REFUSED)


def main(program, *duration):
    workloads = sorted((TOP / "workloads").glob("*.toml"))
    alike = 0
    for workload in workloads:
        for rule in ("cfs", "eevdf"):
            ours = ["simulate", "--discipline", rule, str(workload), *(word for it in duration for word in ("--duration", it))]
            trace = run(program, *ours, "--as", "trace")
            answers = run(program, "replay", text=trace).splitlines()
            if bad := [line for line in answers if line.startswith(("bad", "refused"))]:
                sys.exit(f"{workload.name} {rule}: {bad[0]}")
            for form in FORMS:
                shown = re.sub(MISSED, "", run(program, *ours, "--as", form))
                if shown != run(program, "timeline", "--as", form, text=trace):
                    sys.exit(f"{workload.name} {rule}: {form} differs")
                alike += 1
    named, refused = check_words(program)
    print(f"{len(workloads)} workloads, {alike} forms alike; {named} lists of names, {refused} options refused")


if __name__ == "__main__":
    main(*sys.argv[1:]) if len(sys.argv) in (2, 3) else sys.exit(__doc__)
