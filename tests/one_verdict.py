#!/usr/bin/env python3
"""One program, one verdict: the ways by which a program comes to the verifier agree.

    tests/one_verdict.py BQSIM [PROGRAMS [SEED]]      this many drawn programs (400 if left out)

BQSIM is the path of the program. Each drawn program goes four ways: `check` of its image in hex, `check` and `run` of its file, and a trace's
`install`. All must accept it, or refuse it for the same cause at the same slot. Some must be accepted, and some refused for each cause of SEEN.
The test of `crates/bq_trials/src/one_verdict.rt` draws the same programs, and compares the locked machine with `verify`. This script checks that it
has the same instructions, seed and number.
"""
import collections
import os
import re
import subprocess
import sys
import tempfile
from pathlib import Path

LINES = """
mov64 r0, 0 | mov64 r0, 1 | mov64 r2, 8 | mov64 r3, -1 | mov64 r6, r1 | mov64 r2, r10 | mov64 r0, r10 | mov64 r10, 0
mov64 r0, r3 | mov32 r0, 7 | add64 r2, -8 | add64 r2, 4 | add64 r0, 1 | add64 r0, r2 | sub64 r0, r3 | mul64 r1, 2
xor64 r0, 1 | and64 r3, 7 | lsh64 r0, 3 | rsh32 r0, 1 | neg64 r0 | be16 r0 | ldxw r3, [r1+0] | ldxdw r3, [r1+8]
ldxdw r0, [r1+48] | ldxdw r0, [r1+64] | ldxdw r0, [r10-8] | ldxdw r0, [r2+0] | ldxb r0, [r6+1] | stw [r10-4], 0 | stdw [r10-8], 1 | stxdw [r10-8], r1
stxdw [r10-16], r0 | stxw [r10-4], r1 | stw [r1+0], 0 | stdw [r0+0], 5 | jeq64 r0, 0, +1 | jne64 r0, 0, +2 | jgt64 r3, 7, +1 | jeq64 r2, r3, +1
ja +1 | ja -1 | ldmap r1, 0 | ldmap r1, 1 | call 1 | call 5 | call 100 | call 3
"""
INSTRUCTIONS = [line.strip() for row in LINES.strip().splitlines() for line in row.split("|")]
HEAD = ";@ hook preempt\n;@ maps 8:1\n"
SEEN = ["accepted", "V1", "V3", "V4", "V5", "V6", "V7", "V8", "V9", "V10"]  # what is drawn at least once among 400 programs
SEED = 0x9E37_79B9_7F4A_7C15
TRIAL = Path(__file__).resolve().parent.parent / "crates/bq_trials/src/one_verdict.rt"


def trial_differs():
    """What the trial of the same name draws otherwise, so that `SEEN` holds of its programs too. A release has no trial."""
    if not TRIAL.exists():
        return []
    text = TRIAL.read_text(encoding="utf-8")
    lines = re.findall(r'"([^"]*)"', re.search(r"static LINES: \[&str; \d+\] = \[(.*?)\];", text, re.S)[1])
    number = lambda name: int(re.search(rf"const {name}: \w+ = (\w+);", text)[1].replace("_", ""), 0)
    drawn = {"instructions": (lines, INSTRUCTIONS), "seeds": (number("SEED"), SEED), "numbers of programs": (number("PROGRAMS"), 400)}
    return [f"{TRIAL.name} draws by other {what}: {there}" for what, (there, here) in drawn.items() if there != here]


def following(number):
    """The number after this one, by xorshift."""
    number ^= number << 13 & 2**64 - 1
    number ^= number >> 7
    return number ^ number << 17 & 2**64 - 1


def drawn_programs(count, number):
    """Texts of 1 to 8 drawn instructions and an exit."""
    for _ in range(count):
        number = following(number)
        lines = []
        for _ in range((number >> 20) % 8 + 1):
            number = following(number)
            lines.append(INSTRUCTIONS[(number >> 20) % len(INSTRUCTIONS)])
        yield HEAD + "\n".join([*lines, "exit", ""])


def verdict(line, accepted):
    """What a line says of a program: accepted, or the cause and the slot of its refusal."""
    words = line.split()
    if words[:2] == ["refused", "L8"] and len(words) == 4:
        return " ".join(words[2:])
    return "accepted" if line.startswith(accepted) else f"neither: {line!r}"


def run(program, words, text=""):
    return subprocess.run([program, *words], input=text, capture_output=True, text=True, check=False).stdout.splitlines()


def image_of(program, name):
    """The image in hex of a file; by `asm`, which judges nothing."""
    return run(program, ["asm", "--hook", "preempt", "--maps", "8:1", name])[0]


def compared(program, texts, folder):
    """The verdicts on each program, by the way that it goes."""
    names = [os.path.join(folder, f"{number}.s") for number in range(len(texts))]
    for name, text in zip(names, texts):
        with open(name, "w", encoding="utf-8") as file:
            file.write(text)
    images = [image_of(program, name) for name in names]
    trace = "".join(f"draw\ninstall 0 {number} preempt {image}\n" for number, image in enumerate(images, 1))
    replies = run(program, ["replay"], f"machine cfs 1\n{trace}")
    files = run(program, ["check", *names])
    return {
        "check of its hex": [verdict(run(program, ["check"], image)[0], "accepted preempt budget ") for image in images],
        "check of its file": [verdict(line.removeprefix(f"{name}: "), "accepted preempt budget ") for name, line in zip(names, files, strict=True)],
        "run of its file": [verdict(run(program, ["run", name])[0], "r0 ") for name in names],
        "install": [verdict(line, "install ok") for line in replies[1::2]],
    }


def main():
    program, *numbers = sys.argv[1:]
    count, seed = [*map(int, numbers), *[400, SEED][len(numbers) :]]
    texts = list(drawn_programs(count, seed))
    with tempfile.TemporaryDirectory() as folder:
        ways = compared(program, texts, folder)
    wrong = [f"{dict(zip(ways, verdicts))}:\n{text}" for text, *verdicts in zip(texts, *ways.values(), strict=True) if len(set(verdicts)) > 1]
    wrong += [f"{way}: {it}" for way, verdicts in ways.items() for it in verdicts if it.startswith("neither")]
    seen = collections.Counter(it.split()[0] for it in ways["install"])
    wrong += [f"none of {count} drawn programs is {it}" for it in SEEN if count >= 400 and not seen[it]]
    wrong += trial_differs()
    print(*wrong, sep="\n", end="\n" if wrong else "")
    print(f"{count} programs went {len(ways)} ways: {', '.join(f'{seen[it]} {it}' for it in sorted(seen))}; {len(wrong)} are wrong")
    return 1 if wrong else 0


if __name__ == "__main__":
    sys.exit(main())
