#!/usr/bin/env python3
"""Whether `check --explain` says the truth about refused policies, and whether its advice works.

    tests/refusals.py BQSIM [PART..]      with parts: only the rows whose names have one of them

The rows stand in tests/refusals/*.txt; what is expected there was worked out from docs/, not copied from the program. Each row is checked three
times: `check` has to answer the row's line with status 1, `check --explain` has to say the row's words, and `check --json` has to say the
same as that text under the keys of docs/JSON.md. The line of the file is counted here. Then the advice is followed: each text under
`follows` has to get the answer below it. After the rows, `check` judges a folder of files that a keeper may receive.

A row begins with its name in brackets. Its lines begin with a word:

    for       the hook, then maps=.. and format=..; `-` where the text has its own marks
    text      the policy; ` | ` stands between lines, and `3 * (..)` for lines three times
    hex       the bytes of a binary file, in place of `text`; `hex text`: the same as a text of hex digits
    words     options of `check`
    refused   what follows `refused ` in the answer
    says, helps, knows, trail    pieces, in their order, of what is wrong, of the advice, of what is known, of where registers come from
    unhelped  a piece that the advice does not have
    untold    a piece that stands neither in what is known nor in where registers come from
    follows, given, then         a text in which the advice was followed, options, and its answer

The last line is `N passed, M failed`; the exit status is 1 where one failed.
"""
import json
import os
import re
import subprocess
import sys
import tempfile
from pathlib import Path

ROWS = Path(__file__).resolve().parent / "refusals"

# What texts call by a name, to keep the rows short.
SHORT = {
    "LOOK": ["stw [r10-4], 0", "ldmap r1, 0", "mov64 r2, r10", "add64 r2, -4", "call 1"],
    "KEY": ["stw [r10-4], 0", "mov64 r2, r10", "add64 r2, -4"],
    "VALUE": ["stdw [r10-16], 0", "mov64 r3, r10", "add64 r3, -16"],
}
KEYS = {"for", "text", "hex", "words", "refused", "says", "helps", "knows", "trail", "unhelped", "untold", "follows", "given", "then"}

# docs/JSON.md
CAUSES = {
    "V1": "jump", "V2": "no exit", "V3": "unreached", "V4": "unset", "V5": "access", "V6": "pointer use", "V7": "helper",
    "V8": "argument", "V9": "answer", "V10": "frame", "V11": "counters",
}
OF_THE_GRAPH = {"V1", "V2", "V3", "V7", "V10", "V11"}
ALWAYS = {"schema", "file", "accepted", "answer", "explanation"}
VERIFIER = ALWAYS | {"stage", "code", "cause", "slot", "line", "instruction", "need", "registers", "trail", "advice"}
OF_FILE = ALWAYS | {"stage", "code", "line", "slot", "need"}
LIMITS = {
    "steps": {"budget", "limit"}, "maps": {"used", "limit"}, "map-bytes": {"used", "limit"}, "counters": {"used", "limit"}, "hook": set(),
    "helper": {"helper", "slot", "line", "instruction"},
}


class Row:
    def __init__(self, name, place):
        self.name, self.place, self.lines = name, place, []

    def all(self, key):
        return [value for word, value in self.lines if word == key]

    def one(self, key, default=None):
        found = self.all(key)
        if len(found) > 1:
            raise SystemExit(f"{self.place}: {self.name}: {key} stands twice")
        return found[0] if found else default

    def cures(self):
        """Each text that follows the advice, its options and its answer."""
        text, words = None, ""
        for key, value in self.lines:
            if key == "follows":
                text, words = value, ""
            elif key == "given":
                words = value
            elif key == "then":
                yield text, words, value


def rows_of(path):
    rows = []
    for number, line in enumerate(path.read_text(encoding="utf-8").splitlines(), 1):
        place = f"{path.name}:{number}"
        if not line.strip() or line.startswith("#"):
            continue
        if line.startswith("["):
            rows.append(Row(line[1:line.rindex("]")], place))
            continue
        key, _, value = line.partition(" ")
        if key not in KEYS or not rows:
            raise SystemExit(f"{place}: no row has {key}")
        rows[-1].lines.append((key, value.strip()))
    return rows


def all_rows():
    rows = [row for path in sorted(ROWS.glob("*.txt")) for row in rows_of(path)]
    names = [row.name for row in rows]
    for row in rows:
        if names.count(row.name) > 1:
            raise SystemExit(f"{row.place}: a second row is named {row.name}")
        if row.one("refused") is None or (row.one("text") is None) == (row.one("hex") is None):
            raise SystemExit(f"{row.place}: {row.name}: no answer, or not one policy")
    return rows


def lines_of(text):
    """The lines of a row's text."""
    text = re.sub(r"(\d+) \* \(([^()]*)\)", lambda times: " | ".join([times[2]] * int(times[1])), text)
    lines = []
    for line in text.split(" | ") if text else []:
        lines += SHORT.get(line, [line])
    return lines


def policy_text(head, text):
    """The text of a policy: the marks of the row, of which the text's own first lines replace those of the same key, and its lines."""
    lines = lines_of(text)
    if head == "-":
        return [line.encode().decode("unicode_escape") if "\\" in line else line for line in lines]
    hook, *rest = head.split()
    marks = {"hook": hook, **dict(word.split("=") for word in rest)}
    while lines and lines[0].startswith(";@ "):
        _, key, value = lines.pop(0).split()
        marks[key] = value
    return [f";@ {key} {value}" for key, value in marks.items()] + lines


def hook_of(lines, words):
    """The hook that the marks of a text say, or the options."""
    said = [line.split()[2] for line in lines if line.startswith(";@ hook ")]
    return said[0] if said else words.split()[words.split().index("--hook") + 1]


def slots_of(lines):
    """The line of each slot that an instruction begins at, from 1, and its words."""
    slots, slot = {}, 0
    for number, line in enumerate(lines, 1):
        words = line.partition(";")[0].replace(",", " ").split()
        if not words or words[0].endswith(":"):
            continue
        slots[slot] = number, words
        slot += 2 if words[0] in ("lddw", "ldmap") else 1
    return slots


class Checks:
    def __init__(self, program, folder):
        self.program, self.folder = program, folder
        self.passed, self.failed = 0, 0
        self.wrong = []

    def run(self, *words, given=b""):
        done = subprocess.run([self.program, "check", *words], cwd=self.folder, input=given, capture_output=True, timeout=60)
        return done.returncode, done.stdout.decode("utf-8", "surrogateescape"), done.stderr.decode("utf-8", "replace")

    def want(self, what, seen, expected):
        if seen != expected:
            self.wrong.append(f"{what}: {seen!r}, and not {expected!r}")

    def has(self, what, text, pieces):
        """The pieces stand in the text in their order."""
        at = 0
        for piece in pieces.split(" .. "):
            found = text.find(piece, at)
            if found < 0:
                self.wrong.append(f"{what}: {text!r} has no {piece!r}" + (" there" if piece in text else ""))
                return
            at = found + len(piece)

    def done(self, name):
        if self.wrong:
            self.failed += 1
            print(f"FAILED {name}")
            for line in self.wrong:
                print(f"    {line}")
        else:
            self.passed += 1
        self.wrong = []

    # all rows: those without options by one call, which takes less time

    def rows(self, rows):
        policies, cures = [], []
        for number, row in enumerate(rows):
            row.file = f"p{number}"
            row.written = self.write(row)
            policies.append((row.file, row.one("words", "")))
            row.cured = []
            for at, (text, words, expected) in enumerate(row.cures()):
                file = f"q{number}.{at}"
                lines = policy_text(row.one("for"), text)
                Path(self.folder, file).write_text("".join(f"{line}\n" for line in lines), encoding="utf-8")
                if expected == "accepted":
                    expected = f"accepted {hook_of(lines, words)} budget "
                row.cured.append((file, text, expected))
                cures.append((file, words))
        answers = self.answers(policies) | self.answers(cures)
        shown = self.shown(policies)
        self.done("check of several files")
        for row in rows:
            self.row(row, answers, shown.get(row.file, {}))

    def answers(self, files):
        """The line that `check` answers of each file."""
        found = {file: self.run(*words.split(), file)[1].removesuffix("\n") for file, words in files if words}
        plain = [file for file, words in files if not words]
        # an empty file beside them, so that each line begins with a name
        Path(self.folder, "none").write_bytes(b"")
        status, lines, noise = self.run("none", *plain)
        self.want("status and standard error of `check` of several files", (status, noise), (1, ""))
        for line in lines.splitlines():
            file, _, answer = line.partition(": ")
            found[file] = answer
        self.want("`check` of an empty file", found.pop("none", None), "refused A5 0")
        return found

    def shown(self, files):
        """The objects that `check --json` answers of each file."""
        lines = [self.run("--json", *words.split(), file)[1] for file, words in files if words]
        plain = [file for file, words in files if not words]
        if plain:
            lines += self.run("--json", *plain)[1].splitlines()
        objects = [json.loads(line) for line in lines]
        return {one["file"]: one for one in objects}

    # one row

    def row(self, row, answers, shown):
        answer = f"refused {row.one('refused')}"
        self.want("check", answers.get(row.file), answer)
        status, text, noise = self.run("--explain", *row.one("words", "").split(), row.file)
        self.want("status, standard error", (status, noise), (1, ""))
        told = text.removesuffix("\n").split("\n")
        self.want("first line of --explain", told[0], answer)
        self.json(row, row.written, answer, told[1:], shown)
        for file, text, expected in row.cured:
            found = answers.get(file, "nothing")
            if not (found.startswith(expected) and found[len(expected):].isdigit() if expected.endswith(" ") else found == expected):
                self.wrong.append(f"{text}: {found!r}, and not {expected!r}")
        self.done(f"{row.place} {row.name}: {row.one('text') or row.one('hex')}")

    def write(self, row):
        """Writes the policy; its lines, if it is a text."""
        given = row.one("hex")
        lines = None
        if given is None:
            lines = policy_text(row.one("for"), row.one("text"))
            content = "".join(f"{line}\n" for line in lines).encode("utf-8", "surrogateescape")
        elif given.startswith("text "):
            content = given.removeprefix("text ").encode()
        else:
            content = bytes.fromhex(given)
        Path(self.folder, row.file).write_bytes(content)
        return lines

    # the keys of JSON, beside the text

    def json(self, row, lines, answer, told, seen):
        self.want("schema", seen.get("schema"), 1)
        self.want("file", seen.get("file"), row.file)
        self.want("accepted", seen.get("accepted"), False)
        self.want("answer", seen.get("answer"), answer)
        self.want("explanation", seen.get("explanation"), told)
        refused = row.one("refused").split()
        keys = self.keys(refused)
        if set(seen) != keys:
            self.wrong.append(f"keys: {sorted(set(seen) ^ keys)} are too many, or not there")
        elif refused[0] == "L8":
            self.verifier(row, lines, refused, told, seen)
        elif refused[0] == "limit":
            self.limit(row, lines, refused, told, seen)
        else:
            self.file(row, lines, refused, told, seen)

    def keys(self, refused):
        """The keys of the object, by what is refused."""
        if refused[0] == "limit":
            return ALWAYS | {"stage", "cause"} | LIMITS[refused[1]]
        return VERIFIER if refused[0] == "L8" else OF_FILE

    def verifier(self, row, lines, refused, told, seen):
        code, slot = refused[1], int(refused[2])
        self.want("stage", seen["stage"], "verifier")
        self.want("code", (seen["code"], seen["cause"], seen["slot"]), (code, CAUSES[code], slot))
        self.place(lines, slot, seen)
        place = f"slot {slot}" if lines is None else f"line {seen['line']}, slot {slot}"
        self.want("the place", told[0], f"{row.file} {place}:  {seen['instruction']}")
        self.want("need", told[1], f"  {seen['need']}")
        self.want("advice", told[-1], f"  helps: {seen['advice']}")
        rest = told[2:-1]
        if code in OF_THE_GRAPH:
            self.want("registers", (seen["registers"], seen["trail"], rest), (None, [], []))
        else:
            rest = self.state(seen["registers"], rest)
            rest = self.trail(seen, rest)
        self.words(row, told, seen)

    def place(self, lines, slot, seen):
        """The line of the slot, and the word of its instruction."""
        if lines is None:
            self.want("line", seen["line"], None)
            return
        slots = slots_of(lines)
        if slot not in slots:
            self.wrong.append(f"the text has no instruction at slot {slot}")
            return
        line, words = slots[slot]
        self.want("line", seen["line"], line)
        shown = seen["instruction"].replace(",", "").split()
        if words[-1][0] in "+-" or not words[0].startswith("j"):
            self.want("instruction", shown, words)
        else:
            self.want("instruction", shown[:-1], words[:-1])

    def state(self, registers, rest):
        """The line of what is known has each register, known or not; those below it are of the stack."""
        known = "".join(f" r{k} {registers[f'r{k}']}  " for k in range(11) if f"r{k}" in registers)
        unknown = "".join(f" r{k}" for k in range(11) if f"r{k}" not in registers)
        line = f" {known}{unknown}{' unknown  ' if unknown else ''} stack: "
        if not rest or not rest[0].startswith(line):
            self.wrong.append(f"registers: {rest[:1]!r} does not begin with {line!r}")
        return [line for line in rest[1:] if not line.startswith("  the 8 bytes at stack end - ")]

    def trail(self, seen, rest):
        """A line for each entry of the trail, in their order; each made its register before the slot."""
        for made in seen["trail"]:
            self.want("keys of the trail", set(made), {"slot", "line", "instruction", "register", "known"})
            if made["slot"] >= seen["slot"]:
                self.wrong.append(f"slot {made['slot']} made a register for slot {seen['slot']}")
            place = f"slot {made['slot']}" if made["line"] is None else f"line {made['line']}, slot {made['slot']}"
            then = f"{made['register']} then is {made['known'] or 'unset'}"
            self.want("made", rest[:1], [f"  made at {place}:  {made['instruction']}    {then}"])
            rest = rest[1:]
        if len(seen["trail"]) > 6 or any("made at" in line for line in rest):
            self.wrong.append(f"the trail has not these lines: {rest!r}")
        return rest

    def limit(self, row, lines, refused, told, seen):
        cause = refused[1]
        self.want("stage", (seen["stage"], seen["cause"]), ("limit", cause))
        if cause == "helper":
            self.want("helper", seen["helper"], int(refused[2]))
            self.place(lines, seen["slot"], seen)
        elif len(refused) > 3:
            used = seen["budget"] if cause == "steps" else seen["used"]
            self.want("used, limit", (used, seen["limit"]), (int(refused[2]), int(refused[4])))
        for pieces in row.all("says"):
            self.has("explanation", "\n".join(told), pieces)

    def file(self, row, lines, refused, told, seen):
        code = row.one("refused")
        self.want("code", seen["code"], code)
        stage = {"A": "assembler", "L": "image"}.get(refused[0][0], "head" if refused[0] == "head" else "file")
        if refused[0] == "L7" and refused[1] != "I1":
            stage = "decoder"
        self.want("stage", seen["stage"], stage)
        place, line, slot = "", None, None
        if stage in ("assembler", "head") and code != "A5 0" and not (row.one("hex") or "").startswith("7f454c46"):
            line = int(refused[1])
            place = f" line {line}"
        elif stage == "decoder":
            slot = int(refused[2])
            place = f" slot {slot}"
        self.want("line, slot", (seen["line"], seen["slot"]), (line, slot))
        self.want("told", told, [f"{row.file}{place}: {seen['need']}"])
        for pieces in row.all("says"):
            self.has("need", seen["need"], pieces)

    def words(self, row, told, seen):
        for pieces in row.all("says"):
            self.has("need", seen["need"], pieces)
        for pieces in row.all("helps"):
            self.has("advice", seen["advice"], pieces)
        for piece in row.all("unhelped"):
            if piece in seen["advice"]:
                self.wrong.append(f"advice: {seen['advice']!r} has {piece!r}")
        between = "\n".join(told[2:-1])
        for pieces in row.all("knows") + row.all("trail"):
            self.has("explanation", between, pieces)
        for piece in row.all("untold"):
            if piece in between:
                self.wrong.append(f"explanation: {between!r} has {piece!r}")


def main():
    if len(sys.argv) < 2 or sys.argv[1].startswith("-"):
        print(__doc__.strip(), file=sys.stderr)
        return 2
    parts = sys.argv[2:]
    rows = [row for row in all_rows() if not parts or any(part in row.name for part in parts)]
    with tempfile.TemporaryDirectory(prefix="bqsim-refusals-") as folder:
        checks = Checks(os.path.abspath(sys.argv[1]), folder)
        checks.rows(rows)
    print(f"{checks.passed} passed, {checks.failed} failed")
    return 1 if checks.failed or not rows else 0


if __name__ == "__main__":
    sys.exit(main())
