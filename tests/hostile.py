#!/usr/bin/env python3
"""Gives a built program what a hostile stranger would, and sees that it ends well within bounds.

    tests/hostile.py BQSIM [SECONDS]     at most 600 seconds, and that many without SECONDS

Five parts, each on every command that takes the input: hostile inputs by file and by standard input; hostile words at each option
that the help lists; faults of files and streams; little memory and little stack; and, in the time that is left, inputs drawn from
the repository's own policies, traces and workloads with bytes changed (the seed is fixed). Of each run it looks at:
- the exit status: 0 to 4, and where memory is limited also 127, the loader's;
- that no signal ended it;
- its processor time and its greatest memory, each in proportion to the input;
- how much it wrote, and that messages, listings and answers hold no control character but line ends;
- that `check --json` writes one line of JSON for each file, by itself valid.

Files are written only in a temporary folder. The last line is `N passed, M failed`; the exit status is 1 where one failed.
Last seen: 2026-12-01, in 240 seconds 7,583 passed, 0 failed, with 2,400 drawn inputs; the slowest took 0.25 s, the most memory was 123 MB.
"""
import json
import os
import random
import re
import resource
import shutil
import subprocess
import sys
import tempfile
import threading
import time
from concurrent.futures import ThreadPoolExecutor
from pathlib import Path

TOP = Path(__file__).resolve().parent.parent
STATUSES = {0, 1, 2, 3, 4}
HOOKS = ("place", "preempt", "pull")
MEGABYTE = 1 << 20
# a control character other than the end of a line, as a terminal takes it; bytes of UTF-8 are looked at as text
CONTROL = re.compile("[\x00-\x09\x0b-\x1f\x7f-\x9f]")
# listings of these are made of the input, and may be several times as long
FORMS = ("svg", "perfetto", "json", "csv", "map", "timehist", "report")


def image(program, hook=0, version=1, shapes=()):
    """The bytes of an image, by docs/IMAGE.md."""
    head = b"BQPI" + bytes([version, hook, len(shapes), 0])
    maps = b"".join(size.to_bytes(2, "little") + entries.to_bytes(2, "little") for size, entries in shapes)
    return head + maps + (len(program) // 8).to_bytes(4, "little") + program


def hostile_inputs():
    """Each by its name."""
    exit_only = bytes.fromhex("b700000000000000" "9500000000000000")
    made = {
        "empty": b"",
        "one NUL": b"\0",
        "NULs": b"\0" * 100_000,
        "one line end": b"\n",
        "line ends": b"\n" * 1_000_000,
        "carriage returns": b"\r" * 100_000,
        "blanks": b" " * 4_000_000,
        "a word of 4 MB": b"a" * 4_000_000,
        "digits": b"0" * 200_000,
        "odd digits": b"0" * 65_537,
        "no hex": b"0x" + b"g" * 1000,
        "high bytes": b"\xff" * 100_000,
        "cut UTF-8": b"mov64 r0, 1\n\xe2\x82",
        "byte order mark": b"\xef\xbb\xbf;@ hook place\nexit\n",
        "escapes": b"\x1b[31m\x1b]0;title\x07 \x9b31m\n",
        "C1 as text": "\u009b31m r0\n\u202e\n".encode(),
        "an ELF file": b"\x7fELF\x02\x01\x01" + b"\0" * 57,
        "an ELF file, no text": b"\x7fELF\x02\x01\x01" + b"\xff" * 57,
        "letters of an image": b"BQPI",
        "an image": image(exit_only),
        "an image and more": image(exit_only) + b"\0",
        "an image of version 255": image(exit_only, version=255),
        "an image for hook 255": image(exit_only, hook=255),
        "an image with 255 maps": b"BQPI\x01\x00\xff\x00" + b"\xff" * 2000,
        "an image of many slots": image(exit_only[8:] * 5000),
        "an image in hex": image(exit_only).hex().encode(),
        "only comments": b"; a\n" * 100_000,
        "only marks": b";@ hook place\n" * 1000,
        "a mark of 1 MB": b";@ hook " + b"x" * MEGABYTE,
        "many maps": b";@ hook place\n;@ maps " + b",".join([b"8:1"] * 100_000) + b"\nexit\n",
        "labels": b"".join(b"l%d:\n" % n for n in range(50_000)) + b"exit\n",
        "jumps to one label": b"jeq64 r1, 0, l\n" * 4095 + b"l:\nexit\n",
        "a jump back": b";@ hook place\nl:\nja l\nexit\n",
        "4,097 slots": b"mov64 r0, 0\n" * 4096 + b"exit\n",
        "a ladder of branches": b";@ hook place\nmov64 r0, 0\n" + b"".join(b"jeq64 r0, %d, l%d\nadd64 r0, 1\nl%d:\n" % (n, n, n) for n in range(1300)) + b"exit\n",
        "numbers out of range": b"mov64 r0, 99999999999999999999999999\nexit\n",
        "brackets": b"ldxw r0, " + b"[" * 100_000 + b"\n",
        "commas": b"," * 100_000 + b"\n",
        "a machine of none": b"machine cfs 0\n",
        "a machine of many": b"machine cfs 18446744073709551616\n",
        "two machines": b"machine cfs 1\n" * 1000,
        "admissions": b"machine cfs 64\n" + b"".join(b"admit %d 0 1 3000000\n" % n for n in range(50_000)),
        "ticks": b"machine cfs 1\nadmit 1 0 1 3000000\nwake 0 1 0\ndrain 0 0\n" + b"".join(b"tick 0 %d\n" % n for n in range(50_000)),
        "time that falls": b"machine cfs 1\ntick 0 5\ntick 0 4\ntick 0 18446744073709551615\n",
        "an install of 1 MB": b"machine cfs 1\ninstall 0 1 place " + b"0" * MEGABYTE + b"\n",
        "installs": b"machine cfs 1\n" + b"install 0 1 place 42515049\n" * 2000,
        "no keys": b"[]\n",
        "nested arrays": b"a = " + b"[" * 100_000 + b"\n",
        "nested tables": b"[" + b".".join([b"a"] * 50_000) + b"]\n",
        "a string of 1 MB": b'seed = "' + b"x" * MEGABYTE + b'"\n',
        "a key of 1 MB": b"x" * MEGABYTE + b" = 1\n",
        "a number of 1 MB": b"seed = " + b"9" * MEGABYTE + b"\n",
        "a key with escapes": b'"\\u001b[31m\\n" = 1\n',
        "the same key": b"seed = 1\n" * 10_000,
        "an open string": b'name = "',
        "dates": b"seed = 1979-05-27T07:32:00Z\n",
        "floats": b"seed = 1e400\n",
        "100,000 kinds": b"[machine]\nrule = \"cfs\"\nprocessors = 1\nduration = \"1ms\"\n" + b"[[task]]\nname = \"a\"\n" * 100_000,
        "100,000 names": b"".join(b"[[task]]\nname = \"t%d\"\n" % n for n in range(100_000)),
        "one task many times": b"[[task]]\nname = \"a\"\ncount = 18446744073709551615\n",
        "actions": b"[[task]]\nname = \"a\"\nactions = [" + b"{ run = \"1ms\" }, " * 50_000 + b"]\n",
        "a tick of 1 ns": b'duration = "1h"\n[machine]\ntick = "1ns"\n',
    }
    for length in range(0, 21, 2):
        made[f"an image cut at {length}"] = image(exit_only)[:length]
    return made


def commands(inputs):
    """The commands that read, with words that make them do so, and the forms of their answers."""
    for explained in ([], ["--explain"], ["--json"]):
        yield ["check", *explained]
    yield ["check", "--max-steps", "10", "--helpers", "1"]
    yield ["dis"]
    yield ["dis", "--slots"]
    yield ["run"]
    yield ["run", "--trace"]
    yield ["asm"]
    yield ["asm", "--hook", "place", "--maps", "8:1"]
    yield ["import", "--hook", "place"]
    yield ["replay"]
    yield ["timeline"]
    yield ["timeline", "--as", "svg"]
    yield ["simulate"]
    yield ["simulate", "--as", "trace"]


class Trial:
    """Runs the program, and keeps what went wrong."""

    def __init__(self, program, ends, folder):
        self.program, self.ends, self.folder = program, ends, folder
        self.lock = threading.Lock()
        self.passed, self.failures, self.slowest, self.largest = 0, [], (0, ""), (0, "")

    def out_of_time(self):
        return time.monotonic() > self.ends

    def run(self, words, name, given=b"", size=None, statuses=STATUSES, listing=1, **more):
        """One run with that input; the size is that of what it reads, where that is no standard input."""
        if self.out_of_time():
            return None
        size = len(given) if size is None else size
        with tempfile.TemporaryFile() as fed, tempfile.TemporaryFile() as out, tempfile.TemporaryFile() as err:
            fed.write(given)
            fed.seek(0)
            streams = {"stdin": fed, "stdout": out, "stderr": err, "cwd": self.folder} | more
            child = subprocess.Popen([self.program, *words], **streams)
            watched = []
            watch = threading.Timer(60.0, lambda: (watched.append(True), child.kill()))
            watch.start()
            _, status, used = os.wait4(child.pid, 0)
            watch.cancel()
            child.returncode = os.waitstatus_to_exitcode(status)
            texts = []
            for stream in (out, err):
                stream.seek(0)
                texts.append(stream.read(64 * MEGABYTE))
        spent, memory = used.ru_utime + used.ru_stime, used.ru_maxrss * 1024
        wrong = []
        if watched:
            wrong.append("did not end within a minute")
        elif child.returncode not in statuses:
            wrong.append(f"ended by {child.returncode}")
        if spent > 1.0 + 4.0 * size / MEGABYTE:
            wrong.append(f"took {spent:.1f} s of processor time for {size} bytes")
        # what a child is said to have taken at most begins with what this script had when it started the child
        own = resource.getrusage(resource.RUSAGE_SELF).ru_maxrss * 1024
        if memory > max(96 * MEGABYTE + 64 * size, own + MEGABYTE):
            wrong.append(f"took {memory >> 20} MB for {size} bytes")
        if len(texts[1]) > 64_000 + 4 * size:
            wrong.append(f"wrote {len(texts[1])} bytes of messages")
        if len(texts[0]) > 256_000 + 200 * size * listing:
            wrong.append(f"wrote {len(texts[0])} bytes")
        for text, where in zip(texts, ("answer", "messages")):
            found = CONTROL.search(text.decode("utf-8", "replace"))
            if found:
                wrong.append(f"a control character, {found[0]!r}, in its {where}")
        if "--json" in words and child.returncode != 2:
            wrong += wrong_json(texts[0])
        with self.lock:
            self.slowest = max(self.slowest, (spent, name))
            self.largest = max(self.largest, (memory, name))
            if wrong:
                shown = [word if len(word) < 60 else word[:60] + ".." for word in words]
                self.failures.append(f"{name}: bqsim {shown!r}: {'; '.join(wrong)}")
                print(self.failures[-1].encode("utf-8", "backslashreplace").decode(), flush=True)
            else:
                self.passed += 1
        return child.returncode, *texts


def wrong_json(answer):
    for line in answer.decode("utf-8", "replace").splitlines():
        try:
            told = json.loads(line)
        except ValueError:
            return [f"no JSON: {line[:80]}"]
        missing = {"schema", "file", "accepted", "answer", "explanation"} - told.keys()
        if missing:
            return [f"JSON without {', '.join(sorted(missing))}"]
    return []


def options_of(program, command):
    told = subprocess.run([program, "help", command], capture_output=True, text=True, stdin=subprocess.DEVNULL)
    return re.findall(r"^ +(?:-\w, )?--([a-z-]+) <", told.stdout + told.stderr, re.M)


HOSTILE_WORDS = [
    "", "-", "--", "0", "-1", "1.5", "18446744073709551616", "9" * 1000, "x" * 100_000, "\x1b[31m", "a\nb", "8:1," * 20_000,
    "%s%n", "\u202e", "none", b"\xff\xfe", "1," * 30_000, "=" * 1000, "0x", "0xffffffffffffffffff", "999999999999s", "place",
]


def work_of(trial, inputs, folder):
    """All runs of the parts before the drawn inputs, each as a call."""
    work = []
    for number, (name, given) in enumerate(inputs.items()):
        path = folder / f"{number}"
        path.write_bytes(given)
        for words in commands(inputs):
            work.append(lambda w=words, n=name, g=given: trial.run(w, n, g))
            work.append(lambda w=words, n=name, g=given, p=path: trial.run([*w, str(p)], n, size=len(g)))
            work.append(lambda w=words, n=name, g=given: trial.run([*w, "-"], n, g))
    policy = TOP / "policies" / "keep_home.s"
    for command in ("asm", "check", "dis", "import", "par", "replay", "run", "simulate", "timeline"):
        for option in options_of(trial.program, command):
            for word in HOSTILE_WORDS:
                word = os.fsdecode(word)
                size = len(word.encode("utf-8", "surrogateescape"))
                words = [command, f"--{option}={word}"] + ([] if command == "par" else [str(policy)])
                work.append(lambda w=words, o=option, s=size: trial.run(w, f"--{o}", size=s + 2000))
    names = {"escape": "e\x1b[31m.s", "line end": "a\nb.s", "no UTF-8": os.fsdecode(b"n\xff.s"), "dash": "-k.s"}
    for name, file in names.items():
        shutil.copy(policy, folder / file)
        for words in (["check"], ["check", "--json"], ["check", "--explain"], ["dis"], ["asm"], ["run"], ["replay"], ["simulate"], ["timeline"]):
            work.append(lambda w=words, n=name, f=file: trial.run([*w, "--", f], f"a name with {n}", size=100, cwd=folder))
            work.append(lambda w=words, n=name, f=file: trial.run([*w, "--", f + "x"], f"no file, {n}", size=100, cwd=folder))
    work.append(lambda: several(trial, folder, names))
    work.extend(faults(trial, folder, policy))
    work.extend(limits(trial, policy))
    return work


def several(trial, folder, names):
    """A line a file, in order, at any status."""
    files = [*names.values(), "missing", "0"]
    answered = trial.run(["check", "--json", "--", *files], "several files", size=1000, cwd=folder)
    if answered:
        lines = answered[1].splitlines()
        if len(lines) != len(files):
            trial.failures.append(f"several files: {len(files)} files and {len(lines)} lines")


def faults(trial, folder, policy):
    """Files and streams that fail."""
    for words in commands(None):
        for path in (str(folder), str(folder / "missing" / "file"), "/proc/self/mem"):
            yield lambda w=words, p=path: trial.run([*w, p], "a file that can't be read", size=0, statuses={4} | ({2} if w[0] == "import" else set()))
        yield lambda w=words: trial.run([*w, "/dev/zero"], "/dev/zero", size=20 * MEGABYTE) if w[0] in ("check", "dis", "run", "asm", "import", "simulate") else None
        yield lambda w=words: full(trial, [*w, str(policy)])
        yield lambda w=words: trial.run([*w, "-"], "a closed input", stdin=None, preexec_fn=lambda: os.close(0))
        yield lambda w=words: trial.run([*w, str(policy)], "a closed output", stdout=None, preexec_fn=lambda: os.close(1))
    yield lambda: trial.run(["check", "--image", str(folder / "missing" / "out"), str(policy)], "an image that can't be written", size=0, statuses={4})
    yield lambda: trial.run(["check", "--image", "/dev/full", str(policy)], "an image on a full device", size=0, statuses={4})


def full(trial, words):
    with open("/dev/full", "wb") as stream:
        trial.run(words, "a full device", size=1000, stdout=stream)


def limits(trial, policy):
    """Little memory and little stack. Under a limit of address space the loader may fail by itself, with 127, and under one below the
    size of the program a signal of the kernel ends it before it starts."""

    def limited(kind, most):
        return lambda: resource.setrlimit(kind, (most, most))

    for words in commands(None):
        for most in (2, 4, 8, 12, 16, 32, 64):
            yield lambda w=words, m=most: trial.run(
                [*w, str(policy)], f"{m} MB of addresses", size=1000, statuses=STATUSES | ({127, -11} if m < 4 else {127}), preexec_fn=limited(resource.RLIMIT_AS, m * MEGABYTE)
            )
        yield lambda w=words: trial.run([*w, str(policy)], "a stack of 256 KB", size=1000, preexec_fn=limited(resource.RLIMIT_STACK, 256 * 1024))
        yield lambda w=words: trial.run([*w, str(policy)], "few files", size=1000, preexec_fn=limited(resource.RLIMIT_NOFILE, 4))


def seeds_of():
    """What drawn inputs begin with, and the commands that read it."""
    policies = [path.read_bytes() for path in sorted((TOP / "policies").glob("*.s"))]
    traces = [path.read_bytes() for path in sorted((TOP / "examples").glob("*.trace")) if path.stat().st_size < 20_000]
    workloads = [path.read_bytes() for path in sorted((TOP / "workloads").glob("*.toml"))]
    exit_only = bytes.fromhex("b700000000000000" "9500000000000000")
    images = [image(exit_only), image(exit_only, 1, 2, [(8, 2)]), image(exit_only).hex().encode()]
    asked = [[*words] for words in commands(None)]
    return [
        (policies + images, [words for words in asked if words[0] in ("check", "dis", "run", "asm", "import")]),
        (traces, [["replay"], ["timeline"], ["timeline", "--as", "svg"]]),
        (workloads, [["simulate", "--duration", "20ms"]]),
    ]


def drawn(chance, seed):
    """The bytes with some of them changed, left out, doubled or put elsewhere."""
    made = bytearray(seed)
    for _ in range(chance.choice((1, 1, 2, 4, 16))):
        at = chance.randrange(len(made) + 1)
        end = min(len(made), at + chance.choice((1, 1, 2, 8, 40)))
        kind = chance.randrange(5)
        if kind == 0:
            made[at:end] = bytes(chance.randrange(256) for _ in range(end - at))
        elif kind == 1:
            del made[at:end]
        elif kind == 2:
            made[at:at] = made[at:end] * chance.choice((1, 2, 100))
        elif kind == 3 and made:
            made[at:end] = chance.choice((b"0", b"-1", b"4294967295", b"18446744073709551616", b"\n", b" ", b"r10", b"\0", b";@ "))
        else:
            other = chance.randrange(len(made) + 1)
            made[at:end] = made[other:other + end - at]
    return bytes(made)


def fuzz(trial, pool):
    chance, number, kinds = random.Random(59), 0, [kind for kind in seeds_of() if kind[0]]
    while not trial.out_of_time():
        batch = []
        for _ in range(200):
            seeds, asked = chance.choice(kinds)
            given, words = drawn(chance, chance.choice(seeds)), chance.choice(asked)
            name = f"drawn {number}"
            batch.append(pool.submit(trial.run, words, name, given, None, STATUSES, 20))
            number += 1
        for one in batch:
            one.result()
    return number


def main():
    if len(sys.argv) not in (2, 3):
        sys.exit(__doc__)
    seconds = min(600.0, float(sys.argv[2])) if sys.argv[2:] else 600.0
    inputs = hostile_inputs()
    with tempfile.TemporaryDirectory() as folder, ThreadPoolExecutor(os.cpu_count() or 1) as pool:
        trial = Trial(os.path.abspath(sys.argv[1]), time.monotonic() + seconds, folder)
        work = work_of(trial, inputs, Path(folder))
        for one in [pool.submit(call) for call in work]:
            one.result()
        if trial.out_of_time():
            trial.failures.append(f"no time was left after {trial.passed} of {len(work)} runs")
            print(trial.failures[-1])
        count = fuzz(trial, pool)
    print(f"{len(inputs)} hostile inputs, {len(work)} runs with them, words, faults and limits, and {count} drawn inputs")
    print(f"slowest {trial.slowest[0]:.2f} s ({trial.slowest[1]}), most memory {trial.largest[0] >> 20} MB ({trial.largest[1]})")
    print(f"{trial.passed} passed, {len(trial.failures)} failed")
    return 1 if trial.failures else 0


if __name__ == "__main__":
    sys.exit(main())
