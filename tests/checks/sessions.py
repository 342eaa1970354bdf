"""The sessions of tests/sessions: commands, and exactly what they write.

A session is a page whose blocks are those of the other pages (documents.py). Below a command stands what it writes, on standard output
and standard error, and then its exit status in brackets, as `[1]`, unless that is 0. A command below which
nothing stands writes nothing. A line `..` stands for any lines, and ` ..` at the end of a line for any text.
"""
import re
from pathlib import Path

from .documents import Copy, commands, matches, run_shown, steady
from .runs import TOP, Answer, Failed, difference

FOLDER = "tests/sessions"


def sessions():
    return [str(page.relative_to(TOP)) for page in sorted(Path(TOP, FOLDER).glob("*.md")) if page.name != "README.md"]


def count(page):
    return len(commands(page))


def expected(command):
    """The lines below a command, without empty ones at the end; and its exit status, which no `..` stands for."""
    shown = list(command.shown or [])
    while shown and not shown[-1].strip():
        shown.pop()
    status = int(shown.pop()[1:-1]) if shown and re.fullmatch(r"\[\d+\]", shown[-1]) else 0
    return [steady(line) for line in shown], status


def written(text):
    """What a command wrote, and whether its last line has no end."""
    text = steady(text)
    return text if not text or text.endswith("\n") else f"{text}(no end of line)\n"


def with_status(text, status):
    """A text with an exit status as its last line, unless that is 0."""
    return f"{text}[{status}]\n" if status else text


def check_session(runner, program, page):
    """Runs the commands of a session in their order, in one copy of the tree."""
    with Copy(program) as folder:
        for command in commands(page):
            name, failure = f"{page}:{command.line}: {command.text.splitlines()[0]}", ""
            try:
                (shown, wanted), (status, came) = expected(command), run_shown(runner, command.text, folder)
                came = written(came)
                if not matches(shown, came) or status != wanted:
                    failure = difference(with_status("".join(f"{line}\n" for line in shown), wanted), with_status(came, status))
            except Failed as reason:
                failure = str(reason)
            yield Answer(name, failure)
