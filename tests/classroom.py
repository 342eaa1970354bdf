#!/usr/bin/env python3
"""Plays a class with examples/lab/grade.py: a student who follows each lab, students who cheat, and a teacher who reads only JSON.

    tests/classroom.py BQSIM [PART..] [SEED..]     all parts, or those that are named; the seeds of the exams, 1 if none is given

student: clones the tree with core.autocrlf=true, as on Windows, and runs there each command of the labs' pages, one page after the other.
cheats: hands in each file of tests/cheats/LAB, and links, pipes, images, odd names and more. None may get a point, end with status 0, show a text of
    a file, or leave the word `passed` in the last line. The solutions pass.
teacher: hidden workloads and an exam in JSON. The figures are those of `simulate --as json`, and all forms agree. Bad exams and random bytes end with
    the status that docs/LAB_GRADING.md says, and never with a traceback.
"""
import ast
import csv
import io
import json
import os
import random
import shutil
import socket
import subprocess
import sys
import tempfile
from fractions import Fraction
from pathlib import Path

sys.dont_write_bytecode = True

from checks.documents import TREE, commands, run_shown, wrong
from checks.runs import Runner

TOP = Path(__file__).resolve().parents[1]
LAB = TOP / "examples/lab"
GRADE = LAB / "grade.py"
PAGES = ["LAB", "LAB_EEVDF", "LAB_PLACE", "LAB_PULL", "LAB_GRADING", "OSTEP"]
SOLUTIONS = {"preempt": "preempt.s", "eevdf": "audio.toml", "place": "place.s", "pull": "pull.s"}
PUBLISHED = {  # files of the repository that a student may hand in
    "preempt": [f"examples/lab/{it}.s" for it in ("heavier", "first", "every_other")]
    + [f"policies/{it}.s" for it in ("count_asks", "every_fourth_tick", "heavier_first", "run_to_the_end")],
    "eevdf": ["examples/lab/audio.toml"],
    "place": ["policies/keep_home.s", "policies/near_the_waker.s"],
    "pull": ["examples/lab/one_more.s", "policies/heaviest.s"],
}
MARK = "zanzibar passed"  # a comment of each file that is handed in, which no output may have
FORMS = ("text", "csv", "json")


class Wrong(Exception):
    """What was seen is not what is promised."""


def expect(is_so, *what):
    if not is_so:
        raise Wrong(" ".join(map(str, what)))


class Class:
    """The grader, run on files in a folder."""

    def __init__(self, program, folder):
        self.program, self.folder = program, Path(folder)

    def grade(self, words, files, program=None, grader=None, folder=None):
        """The exit status, standard output and standard error. Python finds only its own modules; another grader finds what stands beside it too."""
        python = [sys.executable, grader] if grader else [sys.executable, "-I", "-S", GRADE]
        words = [*map(str, [*python, "--bqsim", program or self.program, *words]), *map(os.fsdecode, files)]
        done = subprocess.run(words, cwd=folder or self.folder, capture_output=True, stdin=subprocess.DEVNULL, timeout=300)
        out, said = (text.decode("utf-8", "backslashreplace") for text in (done.stdout, done.stderr))
        expect("Traceback" not in out + said and "fault of the grader" not in said, "the grader fails:", words, out, said)
        return done.returncode, out, said

    def results(self, words, files, **more):
        """What is answered as JSON, an object for each file."""
        status, out, said = self.grade([*words, "--as", "json", "--"], files, **more)
        found = [json.loads(line) for line in out.splitlines()]
        expect(len(found) == len(files) and not said, len(files), "files, and", len(found), "answers:", words, said)
        expect(status == max({"passed": 0, "failed": 1, "not judged": 3}[it["outcome"]] for it in found), "status", status, "of", out)
        return found

    def put(self, name, data):
        path = self.folder / os.fsdecode(name)
        path.write_bytes(data if isinstance(data, bytes) else data.encode())
        return name

    def has_no_points(self, words, files, why="", **more):
        """Whether these files get no points."""
        for name, it in zip(files, self.results(words, files, **more)):
            expect(it["outcome"] != "passed" and not it["points"], name, "gets", it["points"], "points:", it)
            expect(why in (it["reason"] or ""), name, "is refused for", it["reason"], "and not for", why)
            expect(MARK not in json.dumps(it), "a text of a file is shown:", it)

    def shows_nothing(self, words, files):
        """Whether no form shows a text of these files, and no verdict has the word `passed`."""
        for form in FORMS:
            status, out, _ = self.grade([*words, "--as", form, "--"], files)
            expect(status in (1, 3) and MARK not in out, "status", status, "of", files, "and the text:", out)
            verdicts = [line for line in out.splitlines() if form == "text" and not line.startswith(" ") and ", seed " not in line]
            expect(all(line.startswith(("failed: ", "not judged")) for line in verdicts), "a verdict:", verdicts)


def marked(path):
    """A file with the mark in a comment."""
    return Path(path).read_bytes() + f"\n{'#' if str(path).endswith('.toml') else ';'} {MARK}\n".encode()


# student


def clone(folder):
    """A fresh clone of the tree as it is now, with the ends of lines that Git for Windows sets."""
    origin, copy = Path(folder, "origin"), Path(folder, "clone")
    for name in [*TREE, "bqsim", "test", ".gitattributes"]:
        source, to = TOP / name, origin / name
        if source.is_dir():
            shutil.copytree(source, to, ignore=shutil.ignore_patterns("edits", "__pycache__"))
        elif source.exists():
            to.parent.mkdir(exist_ok=True)
            shutil.copy(source, to)
    git = ["git", "-c", "user.name=teacher", "-c", "user.email=teacher@localhost", "-c", "init.defaultBranch=main"]
    own = {name: value for name, value in os.environ.items() if not name.startswith("GIT_")}
    own.update(GIT_CONFIG_GLOBAL=os.devnull, GIT_CONFIG_SYSTEM=os.devnull)
    for words in (["init", "-q"], ["add", "-A"], ["commit", "-qm", "the tree"], ["clone", "-q", "-c", "core.autocrlf=true", ".", str(copy)]):
        subprocess.run([*git, *words], cwd=origin, env=own, check=True, capture_output=True)
    return copy


def with_program(copy, program):
    """Lets ./bqsim of a clone run this program, in place of that of prebuilt/."""
    Path(copy, "out").mkdir()
    Path(copy, "out/bqsim").symlink_to(program)
    for made_of in ("seen", "made-of"):
        shutil.copy(Path(copy, "prebuilt/made-of"), Path(copy, "out", made_of))


def student(room, _):
    """What each lab shows is what a student sees."""
    if not shutil.which("git"):
        return "nothing was cloned: git is missing"
    if not (TOP / "crates").is_dir():
        return "nothing was cloned: a release is no repository"
    copy = clone(room.folder)
    with_program(copy, room.program)
    runner, count = Runner(), 0
    for page in PAGES:
        for command in commands(f"docs/{page}.md"):
            failure = wrong(command, *run_shown(runner, command.text, str(copy)))
            expect(not failure, f"docs/{page}.md:{command.line}: {command.text.splitlines()[0]}\n{failure}")
            count += 1
    return f"{count} commands of {len(PAGES)} pages in a clone with core.autocrlf=true"


# cheats


def policies(room, seeds):
    """Each file of tests/cheats, and what the pages show."""
    count = 0
    for lab, solution in SOLUTIONS.items():
        paths = [*sorted((TOP / "tests/cheats" / lab).iterdir()), *(TOP / name for name in PUBLISHED[lab])]
        files = [room.put(f"{lab}-{path.name}", marked(path)) for path in paths]
        right = room.put(f"right-{solution}", marked(LAB / "solutions" / solution))
        for seed in seeds:
            room.has_no_points(["--lab", lab, "--seed", seed], files)
            room.shows_nothing(["--lab", lab, "--seed", seed], files[:2])
            (found,) = room.results(["--lab", lab, "--seed", seed, "--solutions"], [right])
            expect(found["outcome"] == "passed" and found["points"] == found["of"], "the solution of", lab, "does not pass:", found)
        count += len(files)
    return count


def solution(room, name="solution.s"):
    return room.put(name, marked(LAB / "solutions/preempt.s"))


# An exam that the solution passes, so that only what is wrong with a file keeps it from passing.
SMALL = ["--workload", LAB / "editor.toml", "--task", "editor", "--want", "p95<=10%", "--seeds", 1, "--seed", 1]


def kinds_of_files(room):
    """What is no regular file of one's own."""
    expect(room.results(SMALL, [solution(room)])[0]["outcome"] == "passed", "the solution does not pass")
    (room.folder / "bob").mkdir()
    solution(room, "bob/mine.s")
    (room.folder / "link.s").symlink_to("solution.s")
    (room.folder / "hanging.s").symlink_to("nothing")
    (room.folder / "alice").symlink_to("bob")
    os.mkfifo(room.folder / "pipe.s")
    with socket.socket(socket.AF_UNIX) as listening:
        listening.bind(str(room.folder / "socket.s"))
    with open(room.folder / "long.s", "wb") as file:
        file.truncate(5_000_000_000)
    links = ["link.s", "hanging.s", "alice/mine.s", room.folder / "alice" / "mine.s", "bob/../alice/mine.s"]
    others = ["pipe.s", "socket.s", "bob", ".", "/dev/zero", "/dev/stdin", "missing.s", "missing/mine.s", "solution.s/mine.s", "long.s", ""]
    room.has_no_points(SMALL, links, "symbolic link")
    room.has_no_points(SMALL, others)
    room.shows_nothing(SMALL, links + others)
    return len(links) + len(others)


def sources(room):
    """What is no source, is for another hook, is a solution or is refused."""
    subprocess.run([room.program, "check", "--image", "image", solution(room)], cwd=room.folder, check=True, capture_output=True)
    image = (room.folder / "image").read_bytes()
    binaries = {"image.s": image, "hex.s": image.hex(), "later.s": "\n \t" + image.hex()}
    binaries.update({"object.s": b"\x7fELF" + image, "latin.s": b"; \xe9\nexit\n"})
    room.has_no_points(SMALL, [room.put(*it) for it in binaries.items()], "bring the source")
    hooks = [room.put(f"hook-{name}", marked(LAB / "solutions" / name)) for name in ("place.s", "pull.s")]
    room.has_no_points(SMALL, hooks, "wrong hook")
    comments = b"; mine, all mine\n" + marked(LAB / "solutions/preempt.s").replace(b"lighter", b"another")
    copies = ["solution.s", room.put("comments.s", comments)]
    room.has_no_points(["--seed", 1], copies, "solution")
    refused = [room.put(path.name, marked(path)) for path in sorted(LAB.glob("wrong_*.s"))]
    refused += [room.put("words.s", f"passed 6 of 6 ; {MARK}\n"), room.put("empty.s", ""), room.put("c.s", f"int main() {{}} // {MARK}\n")]
    room.has_no_points(SMALL, refused, "refused")
    room.shows_nothing(SMALL, [*binaries, *hooks, *refused])
    return len(binaries) + len(hooks) + len(copies) + len(refused)


def names(room):
    """Names that pretend to be an answer, a cell of a table or a word."""
    odd = ["x\npassed: 6 of 6 points", "\x1b[2K\rpassed", "=1+1,passed,6", "+passed", "@passed", "passed", "a,passed,6,6", '"passed"', "\u202edessap", b"\xff.s"]
    text = marked(LAB / "first.s")
    for name in odd:
        room.put(name, text)
        status, out, _ = room.grade([*SMALL, "--"], [name])
        lines = out.split("\n")
        expect(status == 1 and len(lines) == 5 and lines[3] == "failed: 0 of 1 points", repr(name), "gives", status, repr(out))
        expect(all(it == "\n" or it.isprintable() for it in out), repr(name), "gives", repr(out))
        _, row = csv.reader(io.StringIO(room.grade([*SMALL, "--as", "csv", "--"], [name])[1]))
        expect(row[1:4] == ["failed", "0", "1"] and row[0][0] not in "=+-@", repr(name), "gives the row", row)
    words = ["--solutions", "--seed=1", "--bqsim=x", "--as=csv", "-h"]
    for name in words:
        folder = room.folder / f"has{name}"
        folder.mkdir()
        (folder / name).write_bytes(text)
        status, out, said = room.grade([name], [], folder=folder)
        expect(status == 2 and not out and "put -- before" in said, name, "is taken for a word:", status, out, said)
        room.has_no_points(SMALL, [name], folder=folder)
    return len(odd) + len(words)


def exchanges(room):
    """A file that is another one once it was read; and files beside the grader with the names of Python's modules."""
    first = room.put("first.s", marked(LAB / "first.s"))
    copies = f"cp -f {room.folder}/{solution(room)} {room.folder}/{first}"
    swap = room.put("swap", f'#!/bin/sh\ncase "$*" in *"-- policy") {copies} ;; esac\nexec {room.program} "$@"\n')
    os.chmod(room.folder / swap, 0o755)
    for form in FORMS:
        room.put(first, marked(LAB / "first.s"))
        status, out, _ = room.grade([*SMALL, "--as", form, "--"], [first], program=room.folder / swap)
        expect(status == 1, "an exchanged file:", status, out)
        expect((room.folder / first).read_bytes() == (room.folder / "solution.s").read_bytes(), "the file was not exchanged")
    copy = room.folder / "top/examples/lab"
    shutil.copytree(LAB, copy)
    for module in ("json", "csv", "subprocess", "argparse"):
        (copy / f"{module}.py").write_text("import os\nprint('passed')\nos._exit(0)\n", encoding="utf-8")
    room.put(first, marked(LAB / "first.s"))
    room.has_no_points(SMALL, [first], grader=copy / "grade.py")
    return 2


def cheats(room, seeds):
    counts = [policies(room, seeds), *(part(room) for part in (kinds_of_files, sources, names, exchanges))]
    return f"{sum(counts)} cheats without a point ({' + '.join(map(str, counts))}), and the solutions pass"


# teacher

HIDDEN = """[machine]
duration = "1s"
[[task]]
name = "editor"
nice = -3
do = [{ run = "1ms" }, { sleep = { exponential = "30ms" } }]
[[task]]
name = "build"
count = 2
run = "10ms"
"""
AIMS = [
    {"workload": "hidden.toml", "task": "editor", "want": "p50<=10%", "points": 3},
    {"workload": "hidden.toml", "task": "editor", "want": "p95<=1us"},
    {"workload": "hidden.toml", "task": "build", "must": "cpu>=95%fair"},
    {"workload": "hidden.toml", "must": "switches<=1000"},
]
BAD_TEXTS = ["", "{", "[]", "null", "7", "{}", '{"aims": []}', '{"aims": 3}', '{"aims": [3]}', '{"aims": [{}]}', "\x00", "[" * 100_000]
BAD_KEYS = ['"hook": "none"', '"discipline": "fifo"', '"seeds": 0', '"seeds": "5"', '"more": 1']
BAD_AIMS = """
"want": "p95"
"want": "p95<0.1ms"
"want": "p95<=0.1"
"want": "p95<=1e9ms"
"want": "p96<=1ms"
"want": "p95<=5msfair"
"want": "cpu<=3"
"want": "cpu>=5%wakes"
"want": "cpu>=5%nothing"
"want": "wakes<=3ms"
"want": ""
"want": 3
"must": "cpu>=1%"
"wnat": "p95<=1ms"
"task": "none"
"task": 3
"task": ""
"points": 0
"points": -1
"points": 1.5
"points": true
"points": 1000000000
"workload": "missing.toml"
"workload": "/"
"workload": "exam.json"
"workload": "a\\u0000b"
"workload": 1
"""
BAD_WORDS = """
--lab
--lab none x
--lab pull --exam exam.json x
--exam missing.json x
--want p95<=1ms x
--hook pull x
--workload hidden.toml x
--workload hidden.toml --must cpu>=1% --seeds 0 x
--workload hidden.toml --task editor --want 0:p95<=1ms x
--workload hidden.toml --task editor --want x:p95<=1ms x
--workload hidden.toml --task editor --want ²:p95<=1ms x
--workload hidden.toml --task editor --want 1001:p95<=1ms x
--workload hidden.toml --task editor --want 1:p95<=1ms:2 x
--seed -1 x
--seed 9223372036854775808 x
--seed x x
--as xml x
--keep exam.json/x x
--bqsim missing x
--unknown x
"""


def thousandths(room, aim, policy):
    """What simulate says of an aim's figure: the means of its tasks, or the sum of all."""
    words = ["simulate", "--as", "json", "--seed", aim["seed"], "--seeds", aim["seeds"], "hidden.toml", *(["--preempt", policy] if policy else [])]
    answer = subprocess.run([room.program, *map(str, words)], cwd=room.folder, check=True, capture_output=True).stdout
    found = [it for it in json.loads(answer)["figures"] if it["of"].startswith("task ") and it["figure"] == aim["figure"]]
    if not aim["task"]:
        return [sum(it["mean_thousandths"] for it in found)]
    return [it["mean_thousandths"] for it in found if it["name"] == aim["task"] or it["name"].startswith(f"{aim['task']}-")]


def class_of_a_teacher(room):
    """The teacher's program reads one object a line, and nothing else."""
    room.put("hidden.toml", HIDDEN)
    room.put("exam.json", json.dumps({"aims": AIMS}))
    for name in ("heavier.s", "first.s", "wrong_test.s", "parity.s"):
        room.put(name, marked(LAB / name))
    files = ["heavier.s", "first.s", "wrong_test.s", "parity.s", "none.s"]
    words = ["--exam", "exam.json", "--seed", 5]
    found = room.results(words, files)
    expect([it["points"] for it in found] == [3, 0, 0, 0, None], "points", [it["points"] for it in found])
    expect(found[2]["reason"] == "refused L8 V5 6", found[2])
    for name, it in zip(files[:2], found):
        for aim in it["aims"]:
            expect(aim["came_thousandths"] in thousandths(room, aim, name), name, aim)
    first, limit = found[0]["aims"][0], found[0]["aims"][0]["limit_thousandths"]
    expect(limit == int(Fraction(thousandths(room, first, None)[0], 10)), "limit", limit)
    rows = csv.DictReader(io.StringIO(room.grade([*words, "--as", "csv", "--"], files)[1]))
    for it, row in zip(found, rows):
        points = "" if it["points"] is None else str(it["points"])
        expect((row["file"], row["outcome"], row["points"]) == (it["file"], it["outcome"], points), row, it)
    expect(room.grade(words, files) == room.grade(words, files), "the same seed gives another grading")
    expect(len({room.results(words[:2], ["first.s"])[0]["seed"] for _ in range(3)}) > 1, "nothing is drawn again")
    return len(files)


def bad_exams(room):
    """Exams and words that can't be meant: status 2, a reason, and nothing judged."""
    room.put("hidden.toml", HIDDEN)
    room.put("exam.json", json.dumps({"aims": AIMS}))
    exams = [*BAD_TEXTS, *(json.dumps({**json.loads(f"{{{it}}}"), "aims": AIMS}) for it in BAD_KEYS)]
    exams += [json.dumps({"aims": [{**AIMS[0], **json.loads(f"{{{it}}}")}]}) for it in BAD_AIMS.split("\n")[1:-1]]
    for text in exams:
        room.put("bad.json", text)
        status, out, said = room.grade(["--exam", "bad.json"], ["first.s"])
        expect(status == 2 and not out and said.startswith("grade.py: "), "an exam is taken:", text[:200], status, out, said)
    for words in BAD_WORDS.split("\n")[:-1]:
        status, out, said = room.grade(words.split(), [])
        expect(status == 2 and not out and said, "words are taken:", words, status, out, said)
    return len(exams) + len(BAD_WORDS.split("\n")[:-1])


def random_files(room, seed):
    """Texts with some bytes changed, and bytes of chance: refused, failed or not judged, and never more."""
    draw, names = random.Random(seed), []
    for number in range(60):
        data = bytearray(marked(LAB / "solutions/preempt.s") if number % 3 else draw.randbytes(draw.randrange(300)))
        for _ in range(draw.randrange(1, 5)):
            at = draw.randrange(len(data) + 1)
            data[at : at + draw.randrange(3)] = draw.randbytes(draw.randrange(3))
        names.append(room.put(f"random-{number}.s", bytes(data)))
    status, out, _ = room.grade(["--workload", "hidden.toml", "--must", "switches<=1000000", "--as", "json", "--"], names)
    expect(status in (0, 1, 3) and len(out.splitlines()) == len(names), "random files:", status, out)
    return len(names)


def old_python():
    """Neither a word of a newer Python than 3.8, nor what only Linux has."""
    for path in sorted(LAB.rglob("*.py")):
        ast.parse(path.read_text(encoding="utf-8"), feature_version=(3, 8))
    code = "import os, sys; del os.O_PATH; sys.path.insert(0, sys.argv[1]); from lab_grader import submission; print(len(submission.read(sys.argv[2]).data))"
    done = subprocess.run([sys.executable, "-B", "-c", code, LAB, LAB / "first.s"], capture_output=True, text=True)
    expect(done.stdout == f"{(LAB / 'first.s').stat().st_size}\n", "without O_PATH:", done)


def teacher(room, seeds):
    counts = [class_of_a_teacher(room), bad_exams(room), *(random_files(room, seed) for seed in seeds)]
    old_python()
    return f"{counts[0]} files by JSON, {counts[1]} bad exams and words, {sum(counts[2:])} random files"


PARTS = {"student": student, "cheats": cheats, "teacher": teacher}


def main():
    given = sys.argv[2:]
    seeds, parts = [it for it in given if it.isdigit()], [it for it in given if not it.isdigit()]
    if len(sys.argv) < 2 or not set(parts) <= set(PARTS):
        print(__doc__.strip(), file=sys.stderr)
        return 2
    for part in parts or PARTS:
        with tempfile.TemporaryDirectory(prefix="bqsim-class-") as folder:
            try:
                print(f"{part}: {PARTS[part](Class(os.path.abspath(sys.argv[1]), folder), seeds or ['1'])}", flush=True)
            except Wrong as failure:
                print(f"{part}: {failure}")
                return 1
    return 0


if __name__ == "__main__":
    sys.exit(main())
