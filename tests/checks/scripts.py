"""The scripts of tests/, each on a number of cases that fits the time, drawn by a fixed seed."""
import os
import sys
import tempfile
from pathlib import Path

from .runs import TOP, Answer, Failed, cut

# The words of each: the script, BQSIM for the program, how many cases, and the seed. Those that take longest come first; the longest takes
# some twenty seconds of a processor, all together less than two minutes.
MODELS = [
    "tests/classroom.py BQSIM cheats",
    "tests/compare_with_model.py BQSIM 100 1",
    "tests/drawn_policies.py BQSIM 20000 1",
    "tests/classroom.py BQSIM teacher",
    "tests/classroom.py BQSIM student",
    "tests/compare_run.py BQSIM 1000 1",
    "tests/compare_timeline.py BQSIM 100 1",
    "tests/compare_timeline.py BQSIM --near 200 1",
    "tests/compare_why.py BQSIM 60 1",
    "tests/simulate_model.py BQSIM 500 1",
    "tests/refusals.py BQSIM",
    "tests/seeds.py BQSIM 3 5",
    "tests/one_verdict.py BQSIM 400",
    "tests/simulate_forms.py BQSIM",
    "tests/simulate_theory.py BQSIM",
    "tests/received.py BQSIM",
    "tests/long_work.py BQSIM",
    "tests/compare_with_model.py BQSIM tests/every_line.trace",
    "tests/pieces.py BQSIM",
    "tests/pages.py BQSIM",
]
SOURCES = [
    "tests/fairness.py 5000 1",
    "tests/one_place.py",
    "tests/long_functions.py",
    "tests/lemmas.py",
    "tests/cited.py",
    "tests/examples.py",
    "tests/pictures.py",
    "tests/style.py",
    "tests/more_edits.py --texts",
]

# The scripts that are not run here, and why.
LEFT_OUT = {
    "quick.py": "is what runs the others",
    "workload_reports.py": "is run for each report",
    "check_perfetto.py": "is run as docs/TIMELINE.md shows it",
    "compare_with_llvm.py": "needs LLVM 19",
    "policies_in_c.py": "needs clang 19",
    "native_policies.py": "needs clang 19",
    "long_runs.py": "needs clang",
    "fail_each_call.py": "needs a C compiler, and takes minutes",
    "hostile.py": "takes up to ten minutes",
    "objects.py": "needs clang 19",
}


def words(program, line):
    """What to run for a line of the tables, from any folder."""
    return [program if word == "BQSIM" else os.path.join(TOP, word) if "/" in word else word for word in line.split()]


def check_script(runner, program, line):
    """A script passes if it ends with status 0 and says something."""
    failure = ""
    try:
        status, written = runner.run([sys.executable, *words(program, line)], tempfile.mkdtemp())
        if status or not written.strip():
            failure = f"it ends with status {status}, and says:\n{cut(written.splitlines()[-20:])}"
    except Failed as reason:
        failure = str(reason)
    yield Answer(line, failure, f"python3 {line.replace('BQSIM', program)}")


COMPLETE = ["tests: each script is run, or is in LEFT_OUT"]


def check_complete(name):
    there = {path.name for path in Path(TOP, "tests").glob("*.py")}
    named = {os.path.basename(line.split()[0]) for line in (*MODELS, *SOURCES)} | set(LEFT_OUT)
    wrong = [f"{it} is not run" for it in sorted(there - named)] + [f"there is no {it}" for it in sorted(named - there)]
    yield Answer(name, cut(wrong))


EXECUTABLE = ["scripts: each file that begins with #! may be executed"]
FOLDERS = ["bench", "examples", "policies", "studies", "tests", "tools"]


def is_script(path):
    with open(path, "rb") as file:
        return file.read(2) == b"#!"


def check_executable(name):
    files = [path for folder in FOLDERS for path in sorted(Path(TOP, folder).rglob("*")) if path.is_file() and path.suffix != ".edit"]
    wrong = [f"{path.relative_to(TOP)} may not be executed; chmod +x" for path in files if is_script(path) and not path.stat().st_mode & 0o111]
    yield Answer(name, cut(wrong))
