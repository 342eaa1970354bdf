#!/usr/bin/env python3
"""Runs `bqsim` with each of its calls failing in turn, and looks for a wrong answer in place of the error.

    tests/fail_each_call.py BQSIM [TRACE | par [TIMES]]

BQSIM is the path of the program. With a TRACE it replays that one. With `par` the runs are those of four threads under each
rule, TIMES times over (once where it is left out), since each goes another way; which of the threads finds no memory is then
left to the schedule. A run that takes over a minute is an error. Else the runs are
  - `replay` of tests/every_line.trace, which uses each line that a trace may have,
  - `replay` of examples/policies.trace, which installs images,
  - `asm` of a policy, `asm` with `--hook` and `--maps` of it, `check` of the image that this writes, and `import` of the bytes.
It is run by hand, on Linux with glibc and a C compiler, and is no part of the gate: failing_calls.c is loaded before the
program, and makes its Nth allocation, read or write fail, the Nth write take nothing, or the Nth read or write of several
bytes move one byte. For each kind N goes from 1 to the last call of that kind.

  - After a failed allocation the status is 3 and what was written is a beginning of the answer, or nothing has changed.
  - After a failed read or write, or a write that takes nothing, the status is 4, and a beginning was written.
  - A call that moves one byte changes nothing.
Last seen: 2026-12-01, without further words, 1,099 calls failed in turn, 0 wrong.
"""
import os
import subprocess
import sys
import tempfile

HERE = os.path.dirname(os.path.abspath(__file__))
TOP = os.path.dirname(HERE)
POLICY = os.path.join(TOP, "policies", "heaviest.s")
PAR = ["par", "--processors", "4", "--ticks", "50"]
IMAGE = ["asm", "--hook", "pull", "--maps", "8:2,16:4"]
IMPORT = ["import", "--hook", "pull", "--maps", "8:2,16:4"]


def failing_library(folder):
    library = os.path.join(folder, "failing_calls.so")
    subprocess.run(["cc", "-O1", "-shared", "-fPIC", "-o", library, os.path.join(HERE, "failing_calls.c")], check=True)
    return library


def runs(program, folder):
    """The words of each run, and the file that it reads."""
    if sys.argv[2:3] == ["par"]:
        times = int(sys.argv[3]) if len(sys.argv) == 4 else 1
        return [(PAR + ["--rule", rule], os.devnull) for rule in ("cfs", "eevdf")] * times
    if len(sys.argv) == 3:
        return [(["replay"], sys.argv[2])]
    image = os.path.join(folder, "image")
    section = os.path.join(folder, "section")
    for words, path in ((IMAGE, image), (["asm"], section)):
        with open(POLICY, "rb") as text, open(path, "wb") as out:
            subprocess.run([program, *words], stdin=text, stdout=out, check=True)
    return [
        (["replay"], os.path.join(HERE, "every_line.trace")),
        (["replay"], os.path.join(TOP, "examples", "policies.trace")),
        (["asm"], POLICY),
        (IMAGE, POLICY),
        (["check"], image),
        (IMPORT, section),
    ]


def wrong_answers(words, run):
    """How many failing calls of that run were answered wrongly; run(FAIL) gives status, output and whether it was reached."""
    status, whole, _ = run("")
    print(f"{' '.join(words)} with no failure: status {status}, {len(whole.splitlines())} lines")
    wrong = 0
    for kind, expected in [("alloc", 3), ("read", 4), ("write", 4), ("nothing", 4), ("short", status)]:
        turn = 1
        seen = {}
        while True:
            got, written, was_reached = run(f"{kind}:{turn}")
            if not was_reached:
                break
            if got == expected and expected != status:
                right = whole.startswith(written)
            else:
                right = kind in ("alloc", "short") and got == status and written == whole
            if not right:
                wrong += 1
                print(f"WRONG: {kind} {turn}: status {got}, {len(written)} bytes")
            seen[got] = seen.get(got, 0) + 1
            turn += 1
        print(f"{kind}: {turn - 1} calls, by status {dict(sorted(seen.items()))}")
    return wrong


def main():
    if len(sys.argv) not in (2, 3, 4):
        sys.exit(__doc__)
    program = os.path.abspath(sys.argv[1])
    with tempfile.TemporaryDirectory() as folder:
        library = failing_library(folder)
        note = os.path.join(folder, "failed")
        wrong = 0
        for words, path in runs(program, folder):

            def run(fail):
                environment = dict(os.environ, LD_PRELOAD=library, FAIL=fail, FAILED=note)
                with open(path, "rb") as stdin:
                    done = subprocess.run([program, *words], stdin=stdin, capture_output=True, env=environment, timeout=60)
                was_reached = os.path.exists(note)
                if was_reached:
                    os.remove(note)
                return done.returncode, done.stdout, was_reached

            wrong += wrong_answers(words, run)
        print(f"{wrong} wrong")
        return 1 if wrong else 0


if __name__ == "__main__":
    sys.exit(main())
