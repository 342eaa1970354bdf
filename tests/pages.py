#!/usr/bin/env python3
"""Holds the man page and the completion for bash equal to the program's own help, runs the examples of the help, and tries the completion.

    tests/pages.py BQSIM            compares docs/bqsim.1 and docs/bqsim.bash with what the help of BQSIM makes; each example must end well
    tests/pages.py BQSIM --write    writes both

BQSIM is the path of the program. Its commands are those that `bqsim --help` lists, and each command's words are those of
`bqsim COMMAND --help`. Write both again if a help text changes.
"""
import re
import subprocess
import sys
from pathlib import Path

TOP = Path(__file__).resolve().parent.parent
PAGE, COMPLETION = TOP / "docs" / "bqsim.1", TOP / "docs" / "bqsim.bash"
FILES = ["asm", "check", "dis", "import", "replay", "run", "simulate", "timeline"]  # commands that take a file
PATHS = {"POLICY": "none", "OUT": ""}  # what the help calls values that are files, and the words that may stand there instead
COMPLETED = {  # what bash offers after these lines
    "ti": "timeline",
    "check --js": "--json",
    "simulate --as t": "trace timehist",
    "timeline --as t": "timehist",
    "timeline --as=m": "map",
    "check --hook p": "place preempt pull",
    "par --rule ": "cfs eevdf",
    "simulate --discipline e": "eevdf",
    "simulate --processors 6": "64",
    "timeline --theme ": "light dark auto",
    "simulate --pull no": "none",
    "simulate --as map wor": "workloads",
    "timeline --width ": "",
}
SYNOPSIS = ["[COMMAND] --help", "--version"]  # beside the usage of each command
DESCRIPTION = [
    "bqsim works out which task each processor of a machine runs at each moment, under CFS or EEVDF, two disciplines of Linux. The same workload, policies and "
    "seed give the same answers each time. To begin, run ./bqsim simulate workloads/desktop.toml in the folder of the repository. You work with three kinds of files:",
]
WORDS = [
    ("workload", "a TOML text that says what tasks do. simulate works out when they do it, and shows the schedule or writes it as a trace"),
    ("trace", "a text with an event on each line: tasks are admitted, wake and block, and clocks tick. replay answers each line, and timeline shows the schedule"),
    (
        "policy",
        "a small BPF program that chooses in place of the discipline. Each policy is for one hook: place (where a woken task goes), preempt "
        "(whether the running task gives way) or pull (which task another processor takes)",
    ),
]
USE = [
    "To try a policy, write it in assembler, or write it in C and give the object file to import. Let check judge it, ask it one question with run, and then give "
    "it to simulate by the option that has the name of its hook. To compare it with another policy or with none, add --seeds and --against. A trace installs policies by its lines.",
    "Write a time with its unit: ns, us, ms or s. An option whose default is not named changes nothing if you leave it out.",
]
HELP = "bqsim help COMMAND is the same as bqsim COMMAND --help. Help is written to standard error, and its status is 2. To read it page by page, write bqsim simulate --help 2>&1 | less."
SCRIPT = [
    ("./bqsim WORDS..", "runs the program that the repository carries, or the one that --build made there"),
    ("./bqsim --build WORDS..", "proves and builds the sources as they are now, keeps the program, and runs it; this and --prove need the Rattle kit"),
    ("./bqsim --prove", "proves and builds everything from nothing, and compares the program with the one that the repository carries"),
    ("./bqsim --program", "prints the path of the program that runs"),
    ("./bqsim --made-of", "prints its commit, its kit, and the checksums of its sources and of itself"),
]
EXAMPLES = [
    ("A schedule in the terminal: a row for each processor, a letter for each task", "bqsim timeline --as map examples/four_tasks_eevdf.trace"),
    ("The same schedule as a picture, to open in a browser", "bqsim timeline --as svg examples/four_tasks_eevdf.trace > four_tasks.svg"),
    ("Why a task runs at 1 ms: the tasks that could run, and what decided", "bqsim timeline --as why --from 1ms --to 1ms examples/why.trace"),
    (
        "A policy that answers what the discipline would: it is accepted, and a run takes at most 2 instructions",
        r"printf ';@ hook preempt\nldxw r0, [r1+48]\nexit\n' | bqsim check -",
    ),
    (
        "One question to a policy, its answer and each step: may a waiting task of weight 3121 take the place of one of weight 1024?",
        "bqsim run --trace --set task=1,weight=1024,next=2,next_weight=3121 policies/heavier_first.s",
    ),
    ("A workload under this policy, as tables", "bqsim simulate --preempt policies/heavier_first.s examples/lab/editor.toml"),
    (
        "Two policies over ten seeds: the means of both, their difference, and its deviation, for each figure",
        "bqsim simulate --seeds 10 --preempt policies/heavier_first.s --against policies/every_fourth_tick.s examples/lab/editor.toml",
    ),
]
OUTPUT = [
    ("check", "accepted HOOK budget N: the policy is for this hook, and a run takes at most N instructions. refused STAGE, then a cause and a place, as in "
     "refused L8 V5 0: L8 is the verifier, V5 its cause (a bad access), and 0 the slot. A slot is an 8-byte piece of the program, counted from 0. --explain adds the "
     "reason, what is known there, and what helps"),
    ("run", "r0 is the answer, in decimal and in hex, then whether it is permitted, and how many instructions ran, of the most that a run may take"),
    ("replay", "a reply for each line. by rule: the discipline chose; by policy: a policy did. steps: how many instructions the policy ran. refused C9 and the like: "
     "the event is not possible then, and changes nothing"),
    ("simulate, timeline", "the report has tables of the tasks, their latencies, the processors and, if one was asked, the policies. A task's cpu ms is how long it ran, and fair ms its share by weight of the time in "
     "which it could run. switches: how often it began to run; preempted: how often another took its place; migrated: how often it changed the processor. p50, p95, p99 "
     "and max are its latencies, from a wake to the next run. overruled: how often a policy's answer was not permitted. The last table has how near each processor came "
     "to the bound of a law of fairness"),
    ("simulate --seeds", "a row for each figure: mean and deviation of the first side, of the other side (against), and of the difference, which is against less mean, seed by seed"),
]
FORMATS = [
    ("a workload", "TOML. [machine] has discipline, processors, duration, tick, balance, migration_cost and seed. Each [[task]] is a kind of task: name, count, nice, slice, cpus, start, loops, "
     "and what it does: run and sleep, or do with a list of run, sleep, wait and wake. A length is a text, as \"2ms\", or drawn: { uniform = [\"1ms\", \"3ms\"] } or "
     "{ exponential = \"2ms\" }"),
    ("a trace", "a text: machine DISCIPLINE PROCESSORS first, then an event on each line: admit, wake, drain, tick, block, pull and some more. wake 0 1 2000 is: processor 0 wakes task 1 at 2000 ns. A line "
     "that begins with # is a comment"),
    ("a policy", "assembler text whose lines ;@ hook HOOK, ;@ maps SIZE:ENTRIES and ;@ format 1 or 2 describe it, an image, or the hex of an image. r1 points to the context at the "
     "start, and r0 at exit is the answer"),
]
ENVIRONMENT = [
    ("XDG_CACHE_HOME, HOME", "where the script ./bqsim keeps the program that it unpacks, if it can't write in the repository"),
]
FOLDERS = [
    ("workloads/, examples/", "workloads and traces to begin with"),
    ("policies/", "policies as assembler text; policies/c/ has some in C, with bqsim.h"),
    ("docs/bqsim.bash", "completes words in bash, which reads it by source docs/bqsim.bash"),
]
STATUSES = [
    ("0", "all is well; from check: each policy is accepted"),
    (
        "1",
        "what was read is refused: a policy by check, dis, run or simulate, an object by import, a text by asm, a workload by simulate; or a trace has a bad line "
        "or, for timeline, a refused line. From check with several files: the greatest of their statuses",
    ),
    ("2", "a command, an option or its value is wrong, or you asked for help; the text is on standard error"),
    ("3", "memory ran out"),
    (
        "4",
        "a read or a write failed, a file can't be opened, or a limit is passed: 16 MiB of a file that is read whole, --max-bytes, 2^32 reads of an input, "
        "or --max-events; standard error has the reason",
    ),
    ("127", "not from the program: the script ./bqsim can't unpack or build it, or the system can't load it, as under a small ulimit -v"),
    ("139", "not from the program: the system ends it before it starts, as under an even smaller ulimit -v"),
]
PAGES = [
    ("docs/GUIDE.md", "a tour, task by task; docs/LAB.md has exercises"),
    ("docs/POLICIES.md, docs/CONTEXTS.md", "what a policy can do, what it reads, and which answers are permitted"),
    ("docs/ASSEMBLER.md, docs/POLICIES_IN_C.md", "how to write a policy"),
    ("docs/REFUSALS.md", "why policies are refused, and what helps"),
    ("docs/WORKLOADS.md, docs/TRACE.md", "all that a workload and a trace may say"),
    ("docs/TIMELINE.md, docs/SEEDS.md", "how to read a schedule, and how to read a comparison"),
    ("docs/GLOSSARY.md", "what the words mean"),
]


class Help:
    """A help text in its parts: what it is about, its usage, and under each heading pairs of words and what they do."""

    def __init__(self, text):
        head, *parts = re.split(r"^(Usage|\w[\w ]*(?=:$)):", text.strip(), flags=re.M)
        self.about = " ".join(head.split())
        named = dict(zip(parts[::2], parts[1::2]))
        self.usage = " ".join(named.pop("Usage", "").split())
        self.lists = {heading: list(pairs(body)) for heading, body in named.items()}

    def examples(self):
        """The commands of its examples."""
        return [words for words, _ in self.lists.get("Examples", [])]

    def entries(self):
        """The headings of arguments, options and forms, with what stands below each, except what each command has: help, examples and pages."""
        left_out = ("Commands", "Examples", "More")
        lists = {heading: [entry for entry in entries if entry[0] != "-h, --help"] for heading, entries in self.lists.items() if heading not in left_out}
        return [(heading, entries) for heading, entries in lists.items() if entries]

    def options(self):
        return [word for entries in self.lists.values() for words, _ in entries for word in re.findall(r"^(?:-h, )?(--[a-z-]+)", words)]

    def values(self):
        """Each option that takes a value, what the help calls the value, and the words of which it is one, if the help lists them."""
        for words, what in (entry for _, entries in self.entries() for entry in entries):
            if found := re.search(r"(--[a-z-]+) <(\w+)>", words):
                yield *found.groups(), choices(what)


def pairs(body):
    """The words of each entry, and what they do, which may stand on lines below."""
    entries = []
    for line in body.strip("\n").splitlines():
        entry = re.match(r" {2,6}(\S.*?)(?: {2,}(\S.*))?$", line)
        if entry and not line.startswith(" " * 10):
            entries.append([entry[1], entry[2] or ""])
        elif line.strip() and entries:
            entries[-1][1] = f"{entries[-1][1]} {line.strip()}".strip()
    return entries


def choices(what):
    """The words of a list such as `report (the default), map or svg` that begins a text, or follows its colon."""
    word = r"\w+(?: \(the default\))?"
    found = re.search(rf"(?:^|: )({word}(?:, {word})* or {word})(?=;| \(|$)", what)
    return re.sub(r" \(the default\)|,| or\b", "", found[1]).split() if found else []


def helped(bqsim, *words):
    answer = subprocess.run([bqsim, *words, "--help"], stdin=subprocess.DEVNULL, capture_output=True, text=True)
    if "Usage:" not in answer.stderr + answer.stdout:
        sys.exit(f"{bqsim} {' '.join(words)} --help answers {answer.stderr}{answer.stdout}")
    return Help(answer.stdout or answer.stderr)


def run_examples(bqsim, examples):
    """Runs these commands in the folder of the repository, without writing the files that they write to."""
    shell = f'bqsim() {{ "{Path(bqsim).resolve()}" "$@"; }}; set -o pipefail; '
    for line in examples:
        answer = subprocess.run(["bash", "-c", shell + line.split(" > ")[0]], cwd=TOP, stdin=subprocess.DEVNULL, capture_output=True)
        if answer.returncode or not answer.stdout:
            sys.exit(f"the example {line} ends with {answer.returncode}: {answer.stderr.decode()}")


def roff(text):
    """Text that the formatter takes as it stands."""
    text = text.replace("\\", "\\e").replace("-", "\\-")
    return "\\&" + text if text.startswith((".", "'")) else text


def tagged(mark, entries):
    """A list whose entries have their words, after this mark of the formatter, beside or above what they do."""
    return [line for words, what in entries for line in (".TP", f".{mark} {roff(words)}", roff(what))]


def parted(entries, said):
    """The entries that no command before has, and lines that name the others, with the command that has them. A lone one is said again."""
    known = {}
    for words, what in entries:
        if (words, what) in said:
            known.setdefault(said[words, what], []).append(words)
    known = {name: all_words for name, all_words in known.items() if len(all_words) > 1}
    left_out = [words for all_words in known.values() for words in all_words]
    others = [(", ".join(words.split(" <")[0] for words in all_words), f"as for bqsim {name}") for name, all_words in known.items()]
    return [entry for entry in entries if entry[0] not in left_out], others


def more(entries):
    """The pages that say more, as a sentence."""
    found = [f"{words} ({what[0].lower()}{what[1:]})" for words, what in entries]
    return "More is in " + " and ".join([*([", ".join(found[:-1])] if found[1:] else []), found[-1]]) + "."


def block(lines):
    """Lines that stay as they are."""
    return [".RS", ".nf", *map(roff, lines), ".fi", ".RE"]


def page(program, commands):
    lines = ['.TH BQSIM 1 "" bqsim "User commands"', ".SH NAME", f"bqsim \\- {roff(program.about[0].lower() + program.about[1:])}", ".SH SYNOPSIS"]
    usages = [told.usage.removeprefix("bqsim ") for told in commands.values()]
    for number, words in enumerate(usages + SYNOPSIS):
        lines += [".br"] * (number > 0) + [".B bqsim", roff(words)]
    lines += [".SH DESCRIPTION", *map(roff, DESCRIPTION), *tagged("I", WORDS)]
    for paragraph in USE:
        lines += [".PP", roff(paragraph)]
    lines += [".SH OPTIONS", *tagged("B", program.lists["Options"]), ".PP", roff(HELP)]
    lines += [".SH COMMANDS", "Each command takes \\-h or \\-\\-help too."]
    said = {}
    for name, told in commands.items():
        lines += [f".SS bqsim {roff(name)}", roff(told.about), ".PP", roff(told.usage)]
        for heading, entries in told.entries():
            if heading not in ("Arguments", "Options"):
                lines += [".PP", f"{roff(heading)}:"]
            new, others = parted(entries, said)
            lines += tagged("B", new + others)
            for words, what in new:
                said.setdefault((words, what), name)
        lines += [".PP", "Examples:", *block(told.examples()), ".PP", roff(more(told.lists["More"]))]
    lines += [".SH OUTPUT", "docs/TIMELINE.md has each form in full, docs/TRACE.md each reply.", *tagged("B", OUTPUT)]
    lines += [".SH FILE FORMATS", "What each may say in full is in the pages below.", *tagged("B", FORMATS)]
    lines += [".SH EXIT STATUS", *tagged("B", STATUSES)]
    lines += [".SH ENVIRONMENT", "The program reads no variable of the environment.", *tagged("B", ENVIRONMENT)]
    lines += [".SH THE SCRIPT", "In a clone of the repository the script ./bqsim runs the program. It has some words of its own:", *tagged("B", SCRIPT)]
    lines += [".SH FILES", "In the repository:", *tagged("I", FOLDERS)]
    lines += [".SH EXAMPLES", "They run in the folder of the repository, where you write ./bqsim for bqsim."]
    for what, line in EXAMPLES:
        lines += [".PP", f"{roff(what)}:" if what[-1] != "?" else roff(what), *block([line])]
    lines += [".SH SEE ALSO", "sched(7), perf\\-sched(1). In the repository:", *tagged("I", PAGES)]
    return "\n".join(lines) + "\n"


def value_cases(commands):
    """The cases of the completion for the word after an option: the options, with their commands if these differ, and what may follow."""
    options = {}
    for name, told in commands.items():
        for option, value, words in told.values():
            may = f'words="{PATHS[value]}" files=yes' if value in PATHS else f'words="{" ".join(words)}" files=no'
            options.setdefault(option, {}).setdefault(may, []).append(name)
    cases = {}
    for option, ways in options.items():
        for may, names in ways.items():
            cases.setdefault(may, []).extend([f'*" {option}"'] if len(ways) == 1 else [f'"{name} {option}"' for name in names])
    return "\n".join(f"            {'|'.join(after)}) {may} ;;" for may, after in cases.items())


def completion(commands):
    cases = "\n".join(
        f"            {name}) words=\"{' '.join(told.options())}\" files={'yes' if name in FILES else 'no'} ;;" for name, told in commands.items()
    )
    names = " ".join(commands)
    return f"""# Completion of bqsim for bash: source this file. tests/pages.py makes it of the program's help.
_bqsim() {{
    local word=${{COMP_WORDS[COMP_CWORD]}} command=${{COMP_WORDS[1]}} before=$((COMP_CWORD - 1)) words="" files=no
    [ "$word" != = ] || word=""
    [ "${{COMP_WORDS[before]}}" != = ] || before=$((before - 1))
    if [ "$COMP_CWORD" -eq 1 ]; then
        words="{names} help --help --version"
    else
        case $command in
{cases}
            help) words="{names}" ;;
        esac
        # what follows an option is its value
        case "$command ${{COMP_WORDS[before]}}" in
{value_cases(commands)}
        esac
    fi
    mapfile -t COMPREPLY < <(compgen -W "$words" -- "$word")
    if [ $files = yes ] && [[ $word != -* ]]; then
        mapfile -t -O "${{#COMPREPLY[@]}}" COMPREPLY < <(compgen -f -- "$word")
    fi
}}
complete -o filenames -F _bqsim bqsim
"""


def completed(line):
    """What bash offers after a line, in the folder of the repository."""
    words = re.findall(r"=|[^\s=]+|(?<=\s)$", line)
    script = f'source "{COMPLETION}"; COMP_CWORD=$(($# - 1)) COMP_WORDS=("$@"); _bqsim; echo "${{COMPREPLY[@]}}"'
    return subprocess.run(["bash", "-c", script, "bash", "bqsim", *words], cwd=TOP, capture_output=True, text=True).stdout.strip()


def main():
    if len(sys.argv) not in (2, 3) or sys.argv[2:] not in ([], ["--write"]):
        sys.exit(__doc__)
    bqsim = sys.argv[1]
    program = helped(bqsim)
    commands = {name: helped(bqsim, name) for name, _ in program.lists["Commands"] if name != "help"}
    for told in (program, *commands.values()):
        if not told.examples():
            sys.exit(f"no examples: {told.usage}")
        run_examples(bqsim, told.examples())
    run_examples(bqsim, [line for _, line in EXAMPLES])
    made = {PAGE: page(program, commands), COMPLETION: completion(dict(sorted(commands.items())))}
    for path, text in made.items():
        if sys.argv[2:]:
            path.write_text(text)
        elif not path.exists() or path.read_text() != text:
            sys.exit(f"{path.relative_to(TOP)} is not what the help makes: tests/pages.py BQSIM --write")
    for line, words in COMPLETED.items():
        if (offered := completed(line)) != words:
            sys.exit(f"after `bqsim {line}` bash offers {offered!r}; expected: {words!r}")
    print(f"{len(commands)} commands in {PAGE.name} and {COMPLETION.name}")


if __name__ == "__main__":
    main()
