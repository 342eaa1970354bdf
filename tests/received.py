#!/usr/bin/env python3
"""What `check --json` answers of files that a keeper may receive: statuses and keys as docs/JSON.md and docs/POLICIES.md say.

    tests/received.py BQSIM

Each file is checked on its own, and then all of them by one call, which has to answer the same lines and the greatest of the statuses.
The last line is `N passed, M failed`; the exit status is 1 where one failed.
"""
import json
import os
import subprocess
import sys
import tempfile

# A policy, its image, and the most bytes of a file that is read.
GOOD = b";@ hook place\nmov64 r0, 0\nexit\n"
IMAGE = bytes.fromhex("42515049 01 00 0000 02000000 b700000000000000 9500000000000000")
MOST = 16 << 20

ALWAYS = {"schema", "file", "accepted", "answer", "explanation"}
ACCEPTED = ALWAYS | {"hook", "version", "budget", "maps", "helpers", "counters", "slots"}
VERIFIER = ALWAYS | {"stage", "code", "cause", "slot", "line", "instruction", "need", "registers", "trail", "advice"}
OF_FILE = ALWAYS | {"stage", "code", "line", "slot", "need"}
NO_ANSWER = ALWAYS | {"stage", "need"}

# The status, the keys, and what stands under the keys stage and code; of a file that can't be read, a word of the reason.
TAKEN = 0, ACCEPTED, None, None
UNREAD = 4, NO_ANSWER, "reading"


def refused(stage, code):
    return 1, VERIFIER if stage == "verifier" else OF_FILE, stage, code


# Each name, what to make of it, and what is to be answered. Bytes and numbers are a file's content and its size.
FILES = [
    (b"good.s", GOOD, TAKEN),
    (b"good.bqp", IMAGE, TAKEN),
    (b"good.hex", IMAGE.hex().encode() + b"\n", TAKEN),
    (b"no_end.s", GOOD[:-1], TAKEN),
    (b"windows.s", GOOD.replace(b"\n", b"\r\n"), TAKEN),
    (b"link.s", "good.s", TAKEN),
    (b"name with \"quotes\", a\nline and \xe2\x82\xac.s", GOOD, TAKEN),
    (b"-dash.s", GOOD, TAKEN),
    (b"most.s", GOOD + b"\n" * (MOST - len(GOOD)), TAKEN),
    (b"loop.s", b";@ hook place\nja -1\n", refused("verifier", "V1")),
    (b"unset.s", b";@ hook place\nexit\n", refused("verifier", "V9")),
    (b"empty.s", b"", refused("assembler", "A5 0")),
    (b"marks.s", b";@ hook place\n;@ hook pull\n", refused("head", "head 2")),
    (b"no_hook.s", GOOD.partition(b"\n")[2], refused("file", "hook")),
    (b"policy.c", b'#include "bqsim.h"\n', refused("assembler", "A1 1")),
    (b"policy.o", b"\x7fELF\x02\x01\x01" + bytes(57) + b"\xf7", refused("file", "text")),
    (b"nul.s", bytes(100), refused("assembler", "A1 1")),
    (b"nul_behind.s", GOOD + b"\0", refused("assembler", "A1 4")),
    (b"wide.txt", "mov64 r0, 0".encode("utf-16"), refused("file", "text")),
    (b"odd.hex", b"425", refused("file", "hex")),
    (b"bare.hex", b"6110000000000000", refused("image", "L1")),
    (b"cut.bqp", IMAGE[:-1], refused("image", "L5")),
    (b"opcode.bqp", IMAGE[:-8] + b"\xff" + bytes(7), refused("decoder", "L7 I2 1")),
    (b"long.s", b"x" * 1000000, refused("assembler", "A1 1")),
    (b"over.s", GOOD + b"\n" * (MOST - len(GOOD) + 1), (*UNREAD, "bytes")),
    (b"big", 100 << 20, (*UNREAD, "bytes")),
    (b"missing.s", None, (*UNREAD, "no such file")),
    (b"n" * 300, None, (*UNREAD, "too long")),
    (b"", None, (*UNREAD, "no such file")),
    (b"good.s/", None, (*UNREAD, "not a directory")),
    (b"folder", {}, (*UNREAD, "is a directory")),
    (b"dangling.s", "nowhere", (*UNREAD, "no such file")),
    (b"circle.s", "circle.s", (*UNREAD, "symbolic links")),
    (b"bad\xff.s", GOOD, (*UNREAD, "no UTF-8")),
    (b"locked.s", GOOD, None),
]

# What the options are, the status, the stage and a word of what is wrong; docs/JSON.md: there is a line at each status.
WORDS = [
    (["--max-steps", "1"], 1, "limit", None),
    (["--hooks", "pull"], 1, "limit", None),
    (["--hook", "pull"], 1, "file", "--hook"),
    (["--max-bytes", "5"], 4, "reading", "bytes"),
    (["--max-steps", "x"], 2, "words", "--max-steps"),
    (["--hooks", "nowhere"], 2, "words", "--hooks"),
    (["--helpers", "1,3"], 2, "words", "--helpers"),
    (["--image", "no/folder"], 4, "writing", "no such file"),
    (["--image", "good.s"], 2, "words", "own file"),
    (["--json"], 2, None, None),
    (["--no-such-option"], 2, None, None),
]


def make(folder, name, content):
    path = os.path.join(folder, name)
    if isinstance(content, bytes):
        with open(path, "wb") as file:
            file.write(content)
    elif isinstance(content, str):
        os.symlink(content, path)
    elif isinstance(content, int):
        with open(path, "wb") as file:
            file.truncate(content)
    elif content is not None:
        os.mkdir(path)


class Received:
    def __init__(self, program, folder):
        self.program, self.folder = program, folder
        self.passed = self.failed = 0

    def run(self, *words, given=b""):
        done = subprocess.run([self.program, "check", "--json", *words], cwd=self.folder, input=given, capture_output=True, timeout=60)
        return done.returncode, done.stdout, done.stderr

    def case(self, name, *pairs):
        """Each pair is what was seen and what was expected."""
        wrong = [pair for pair in pairs if pair[0] != pair[1]]
        self.failed += bool(wrong)
        self.passed += not wrong
        for seen, expected in wrong:
            print(f"FAILED {name!r}: {seen!r}, and not {expected!r}")

    def file(self, name, expected):
        """The line of the file, and its status."""
        status, line, noise = self.run("--", name)
        if line.count(b"\n") != 1:
            self.case(name, (line, "one line"))
            return status, line
        seen = json.loads(line)
        wanted, keys, stage, word = expected
        shown = name.decode("utf-8", "backslashreplace")
        told = seen["answer"] or ""
        self.case(
            name,
            (status, wanted),
            (set(seen), keys),
            (list(seen), sorted(seen)),
            ((seen["schema"], seen["file"], seen["accepted"]), (1, shown, wanted == 0)),
            (seen.get("stage"), stage),
            (told.partition(" ")[0], {0: "accepted", 1: "refused", 4: ""}[wanted]),
            (seen.get("code"), word if wanted == 1 else None),
            (word in seen["need"] if wanted == 4 else True, True),
            (bool(noise), wanted == 4),
        )
        return status, line

    def words(self, words, expected, stage, word):
        status, line, _ = self.run(*words, "good.s")
        lines = [json.loads(one) for one in line.splitlines()]
        self.case(
            " ".join(words),
            (status, expected),
            ([one["stage"] for one in lines], [stage] if stage else []),
            ([one["accepted"] for one in lines], [False] if stage else []),
            (all(word in one["need"] for one in lines) if word else True, True),
        )


def check(program, folder):
    received = Received(program, folder)
    answers = []
    for name, content, expected in FILES:
        make(folder, name, content)
        if name == b"locked.s":
            path = os.path.join(folder, name)
            os.chmod(path, 0)
            # who may do anything may read this too
            expected = TAKEN if os.access(path, os.R_OK) else (*UNREAD, "permission denied")
        answers.append(received.file(name, expected))
    status, lines, _ = received.run("--", *[name for name, _, _ in FILES])
    received.case("all at once", (status, max(one for one, _ in answers)), (lines.splitlines(True), [line for _, line in answers]))
    for given, expected in ((GOOD, 0), (b"", 1)):
        status, line, _ = received.run("-", given=given)
        received.case("standard input", (status, expected), (json.loads(line)["file"], None))
    for row in WORDS:
        received.words(*row)
    with open(os.path.join(folder, b"good.s"), "rb") as file:
        received.case("no image in place of the policy", (file.read(), GOOD))
    print(f"{received.passed} passed, {received.failed} failed")
    return 1 if received.failed else 0


def main():
    if len(sys.argv) != 2 or sys.argv[1].startswith("-"):
        print(__doc__.strip(), file=sys.stderr)
        return 2
    with tempfile.TemporaryDirectory(prefix="bqsim-received-") as folder:
        return check(os.path.abspath(sys.argv[1]), os.fsencode(folder))


if __name__ == "__main__":
    sys.exit(main())
