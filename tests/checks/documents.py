"""The commands that the pages show, run in a copy of the repository's tree, and what they write beside what the pages show.

In a page commands stand in blocks that begin with ```sh. In a block a command begins with `$ ` and goes on below a line that ends
with a backslash, or up to the end of its here-document; the lines after it are what it writes, on standard output and standard
error. A line `..` stands for any lines, and ` ..` at the end of a line for any text. Where a block shows no output at all, each of
its commands has to end with status 0, and so has a command of which nothing is shown. A block in which no line begins with `$ ` has a
command a line.
"""
import os
import re
import shutil
import stat
import tempfile
from dataclasses import dataclass, field
from pathlib import Path

from .runs import TOP, Answer, Failed, cut, difference, read

TREE = ["README.md", "CHANGELOG.md", "CONTRIBUTING.md", "SECURITY.md", "LICENSE", "docs", "examples", "policies", "prebuilt", "studies", "tests", "workloads"]

# What is not run, by how it begins, and why.
SKIPPED = [
    (r"rt |\./test|\./bqsim --(prove|build)|tools/", "proves and builds all, or is this very test"),
    (r"clang-19 ", "needs clang 19"),
    (r"\./bqsim (import|asm|check|simulate) .*turns\.", "reads what clang compiles"),
    (r"studies/policies/run_all\.sh ", "makes 1,600 runs"),
    (r"studies/policies/gather\.py ", "reads the answers of those 1,600 runs"),
]

# What differs from one run to the next, and what stands in its place in both texts.
VARIES = [(r"\b\d+ ns a run", "N ns a run")]


@dataclass
class Command:
    """A command of a page, the number of its line, and what the page shows of it; None where its block shows nothing at all."""

    line: int
    text: str
    shown: list = field(default_factory=list)

    def skipped(self):
        return next((reason for pattern, reason in SKIPPED if re.match(pattern, self.text)), "")


def pages():
    top = Path(TOP)
    found = [top / "README.md", top / "CONTRIBUTING.md", top / "SECURITY.md", *sorted(top.glob("docs/**/*.md")), *sorted(top.glob("*/README.md"))]
    return [str(page.relative_to(top)) for page in found]


def count(page):
    return len(commands(page))


def with_commands():
    """The pages that show commands."""
    return [page for page in pages() if commands(page)]


def blocks(text):
    """The fenced blocks of a page: the language, the number of the first line within, and the lines."""
    language, margin, lines, first = None, "", [], 0
    for number, line in enumerate(text.split("\n"), 1):
        fence = re.match(r"(\s*)```(\w*)\s*$", line)
        if not fence:
            lines.append(line.removeprefix(margin))
        elif language is None:
            language, margin, lines, first = fence[2], fence[1], [], number + 1
        else:
            yield language, first, lines
            language = None
    if language is not None:
        yield "a block without an end", first, lines


def goes_on(lines, at):
    """Where a command that begins at this line ends: past its here-document, and past lines that end with a backslash."""
    while lines[at].endswith("\\") and at + 1 < len(lines):
        at += 1
    word = re.search(r"<<-?\s*(['\"]?)(\w+)\1", lines[at])
    if word:
        while at + 1 < len(lines) and lines[at].strip() != word[2]:
            at += 1
    return at + 1


def commands_of_block(first, lines):
    marked = any(line.startswith("$ ") for line in lines)
    found, at = [], 0
    while at < len(lines):
        if lines[at].startswith("$ ") or (not (marked and found) and re.match(r"\s*[^\s#]", lines[at])):
            end = goes_on(lines, at)
            text = "\n".join(lines[at:end])
            found.append(Command(first + at, text.removeprefix("$ ")))
            at = end
        else:
            if found:
                found[-1].shown.append(lines[at])
            at += 1
    if not marked or not any("".join(command.shown).strip() for command in found):
        for command in found:
            command.shown = None
    return found


def commands(page):
    return [it for language, first, lines in blocks(read(page)) if language == "sh" for it in commands_of_block(first, lines)]


def matches(shown, written):
    """Whether a text is the lines that are shown, where these may leave some out."""
    pattern = ""
    for line in shown:
        if line.strip() in ("..", "..."):
            pattern += r"(?:.*\n)*?"
        elif line.endswith(" .."):
            pattern += re.escape(line[:-2]) + r".*\n"
        else:
            pattern += re.escape(line) + r"\n"
    return re.fullmatch(pattern, written) is not None


def steady(text):
    """A text without what differs from one run to the next."""
    for pattern, instead in VARIES:
        text = re.sub(pattern, instead, text)
    return text


def wrong(command, status, written):
    """What is wrong with what a command wrote; nothing where it is as shown."""
    if status and not command.shown:
        return f"status 0 was expected, and {status} came\n{cut(written.splitlines()[-10:])}"
    if not 0 <= status <= 4:  # the program has the statuses 0 to 4
        return f"a status from 0 to 4 was expected, and {status} came\n{cut(written.splitlines()[-10:])}"
    if command.shown is None:
        return ""
    shown, came = [steady(line) for line in command.shown], steady(written)
    return "" if matches(shown, came) else difference("".join(f"{line}\n" for line in shown), came)


class Copy:
    """A copy of the tree in which commands run, with the program in the places where the pages name it."""

    def __init__(self, program):
        self.program = program

    def __enter__(self):
        self.folder = tempfile.mkdtemp()
        for name in TREE:
            source, to = os.path.join(TOP, name), os.path.join(self.folder, name)
            if os.path.isdir(source):
                shutil.copytree(source, to, ignore=shutil.ignore_patterns("edits", "__pycache__"))
            elif os.path.exists(source):
                shutil.copy(source, to)
        for folder, folders, files in os.walk(self.folder):
            for name in (*folders, *files):
                path = os.path.join(folder, name)
                os.chmod(path, os.stat(path).st_mode | stat.S_IWUSR)
        os.mkdir(os.path.join(self.folder, "out"))
        for name in ("bqsim", "out/bqsim"):
            os.symlink(self.program, os.path.join(self.folder, name))
        return self.folder

    def __exit__(self, *_):
        shutil.rmtree(self.folder, ignore_errors=True)


def run_shown(runner, text, folder):
    return runner.run(["bash", "-c", f"set -o pipefail\n{text}\n"], folder)


def check_page(runner, program, page):
    """Runs the commands of a page in their order, in one copy of the tree."""
    with Copy(program) as folder:
        for command in commands(page):
            name = f"{page}:{command.line}: {command.text.splitlines()[0]}"
            if reason := command.skipped():
                yield Answer(name, skipped=reason)
                continue
            try:
                failure = wrong(command, *run_shown(runner, command.text, folder))
            except Failed as reason:
                failure = str(reason)
            yield Answer(name, failure)


def outside():
    """The commands that do not stand in a block of commands, and so would not be run."""
    for page in pages():
        inside = {number for language, first, lines in blocks(read(page)) if language == "sh" for number in range(first, first + len(lines))}
        for number, line in enumerate(read(page).split("\n"), 1):
            if number not in inside and re.match(r"\s*(\$|\./bqsim|\./test) ", line):
                yield f"{page}:{number}: {line.strip()}"


def unused():
    """The lines of the table of what is not run that no command meets."""
    texts = [command.text for page in pages() for command in commands(page)]
    return (pattern for pattern, _ in SKIPPED if not any(re.match(pattern, text) for text in texts))


RULES = {"pages: each command stands in a block that begins with ```sh": outside, "pages: each line of SKIPPED is of a command": unused}


def check_rule(name):
    """Whether nothing is found that breaks a rule of the pages."""
    yield Answer(name, cut(list(RULES[name]())))
