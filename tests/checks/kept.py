"""What is kept beside the sources, made again: replies to the examples, reports of the workloads, pictures."""
import os
import re
import sys
from pathlib import Path

from . import documents
from .runs import TOP, Answer, Failed, cut, difference, read

WORDS = {".replies": ["replay"], ".txt": ["timeline", "--as", "why"]}


def names(folder, *endings):
    """The files of a folder with one of these endings, from the top."""
    return [f"{folder}/{it.name}" for it in sorted(Path(TOP, folder).iterdir()) if it.suffix in endings]


def examples():
    """The stems of examples, of traces and of what is expected."""
    return sorted({os.path.splitext(it)[0] for it in names("examples", ".trace", *WORDS)})


def check_example(runner, program, stem):
    """What a trace is answered by, beside the file of its name."""
    ending = next((it for it in WORDS if os.path.exists(os.path.join(TOP, stem + it))), None)
    if ending is None or not os.path.exists(os.path.join(TOP, f"{stem}.trace")):
        yield Answer(stem, f"{stem}.trace and what it is answered by ({' or '.join(WORDS)}) belong together; one is missing")
        return
    words = [program, *WORDS[ending], f"{stem}.trace"]
    try:
        status, written = runner.run(words, TOP)
        failure = difference(read(stem + ending), written)
        if status and not failure:
            failure = f"status 0 was expected, and {status} came"
    except Failed as reason:
        failure = str(reason)
    yield Answer(f"{stem}.trace", failure, f"{' '.join(words)} | diff {stem}{ending} -")


def stored():
    """The example that is the program's stored run too, which the gate has in the program's own folder."""
    return ["examples/first.trace is crates/bqsim/stdin", "examples/first.replies is crates/bqsim/stdout"]


def check_stored(name):
    yield Answer(name, difference(*map(read, name.split(" is "))))


def reports():
    """The reports that are there, and those of workloads that have none yet."""
    return sorted({*names("workloads/reports", ".txt"), *(f"workloads/reports/{Path(it).stem}.txt" for it in names("workloads", ".toml"))})


def check_report(runner, program, report):
    """Has a report's script compare it; what it says is shown."""
    script, name = os.path.join(TOP, "tests/workload_reports.py"), Path(report).stem
    try:
        status, written = runner.run([sys.executable, script, program, name], TOP)
        failure = cut(written.splitlines()) if status else ""
    except Failed as reason:
        failure = str(reason)
    yield Answer(report, failure, f"python3 tests/workload_reports.py {program} {name}")


def pictures():
    return names("docs/pictures", ".svg")


def maker(picture):
    """The command of a page that makes a picture, with the page; nothing where no page has one."""
    for page in documents.pages():
        for command in documents.commands(page):
            if re.search(rf"> *{re.escape(picture)}(\s|$)", command.text):
                return page, command.text
    return None


def check_picture(runner, program, picture):
    """Makes a picture in a copy of the tree from which it was taken, and compares it byte for byte."""
    made = maker(picture)
    if made is None:
        yield Answer(picture, "no page has a command that makes it")
        return
    page, text = made
    with documents.Copy(program) as folder:
        path = os.path.join(folder, picture)
        os.remove(path)
        try:
            status, written = documents.run_shown(runner, text, folder)
            failure = f"status {status}\n{written}" if status else difference(read(picture), read(path))
        except Failed as reason:
            failure = str(reason)
    yield Answer(picture, failure, f"{text} && git diff {picture}    # by {page}")
