#!/usr/bin/env python3
"""Compares the reports beside the workloads with what `bqsim simulate` prints today, or writes them anew.

    tests/workload_reports.py BQSIM [NAME..]    shows how reports differ; exit status 1 if one does
    tests/workload_reports.py BQSIM --renew     writes workloads/reports/NAME.txt for each workload

BQSIM is the path of the program, and a NAME that of a workload; all if none is given. A report's file has the run under both
disciplines, each below the command that makes it. `tests/quick.py` compares them all.
"""
import difflib
import pathlib
import subprocess
import sys

TOP = pathlib.Path(__file__).resolve().parent.parent


def report(program, workload):
    """Both reports of a workload, as its file has them."""
    parts = []
    for discipline in ("cfs", "eevdf"):
        words = ["simulate", f"workloads/{workload.name}", "--discipline", discipline]
        done = subprocess.run([program, *words], cwd=TOP, capture_output=True, text=True, timeout=600)
        if done.returncode:
            sys.exit(f"{workload.name}: {done.stderr}")
        parts.append(f"$ ./bqsim {' '.join(words)}\n{done.stdout}")
    return "\n".join(parts)


def difference(file, now):
    """A unified diff of a report and what is printed now; nothing where they are the same."""
    kept = file.read_text().splitlines() if file.exists() else []
    return list(difflib.unified_diff(kept, now.splitlines(), "expected", "came", lineterm="", n=2))


def main(program, *names):
    program, differ = str(pathlib.Path(program).resolve()), 0
    renew, names = names == ("--renew",), [it for it in names if it != "--renew"]
    workloads = [TOP / "workloads" / f"{it}.toml" for it in names] or sorted((TOP / "workloads").glob("*.toml"))
    for workload in workloads:
        file, now = TOP / "workloads/reports" / f"{workload.stem}.txt", report(program, workload)
        if renew:
            file.parent.mkdir(exist_ok=True)
            file.write_text(now)
        elif not file.exists() or file.read_text() != now:
            differ += 1
            print(*difference(file, now), sep="\n")
    print(f"workloads: {len(workloads)}, reports that differ: {differ}")
    return 1 if differ else 0


if __name__ == "__main__":
    sys.exit(main(*sys.argv[1:]) if len(sys.argv) > 1 else __doc__)
