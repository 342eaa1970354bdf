#!/usr/bin/env python3
"""Compares `bqsim run` and `bqsim dis` with the model, on drawn policies and inputs.

    tests/compare_run.py BQSIM [RUNS [SEED]]      so many runs (500 if left out)

BQSIM is the path of the program. A policy is drawn as for traces (tests/model/draw.py), and so are the bytes of its context,
entries of its maps, counters, the time and the processor. `bqsim run` gets the policy as an image's hex on standard input,
and, every other time, as assembler text with its marks. tests/model/machine.py runs the same. Compared are r0, the number of
instructions and the budget, the entries that changed, and the calls of counters in their order; and of a run that is repeated one
to three times and traced, that it says how long a run takes, the slot of each instruction, its text as `bqsim dis` lists it, and
after it each register that is set.
`bqsim dis` lists the image, and `bqsim asm` with the options that the listing's marks name has to give the image back. `tests/quick.py`
makes some of these runs.
"""
import random
import re
import subprocess
import sys

sys.dont_write_bytecode = True

from model import draw as drawing
from model.contexts import LENGTHS
from model.images import HOOKS
from model.machine import COUNTERS, Run

WORDS = [0, 1, 2, 7, 15, 63, 255, 2**31, 2**32 - 1, 2**63, 2**64 - 1]


class Watched(Run):
    """A run that lists its calls of counters, as `run` tells them, and each instruction's slot and what it begins from."""

    def __init__(self, *given):
        super().__init__(*given)
        self.calls = []
        self.begun = []
        self.is_between = True

    def fetch(self):
        if self.is_between:
            self.begun.append((self.slot, list(self.registers)))
            self.is_between = False
        return super().fetch()

    def perform(self, *fields):
        super().perform(*fields)
        self.is_between = True

    def call(self, number):
        if number == 100:
            counter, amount = self.counter(), self.read(2)
            before = self.counters[counter]
            self.calls.append(f"counter {counter}: {before} and {amount} give {(before + amount) % 2**64}")
        if number == 101:
            self.calls.append(f"counter {self.counter()}: read {self.counters[self.counter()]}")
        super().call(number)


def context(draw, length):
    """Bytes of a context: words that are small, great or any."""
    spelled = b""
    while len(spelled) < length:
        size = draw.choice([4, 8])
        word = draw.choice([0, draw.choice(WORDS), draw.randrange(100), draw.randrange(2**64)])
        spelled += (word % 2 ** (8 * size)).to_bytes(size, "little")
    return spelled[:length]


def inputs(draw, image):
    """The bytes of the context, entries by map and number, counters, the time and the processor."""
    entries = {}
    for number, (value_size, count) in enumerate(image.shapes):
        for entry in {draw.randrange(count) for _ in range(draw.randrange(3))}:
            entries[number, entry] = draw.randbytes(draw.randrange(value_size + 1))
    counters = {draw.randrange(COUNTERS): draw.choice(WORDS) for _ in range(draw.randrange(3))}
    shown = context(draw, LENGTHS[image.hook, image.version])
    return shown, entries, counters, draw.choice(WORDS), draw.randrange(64)


def expected(image, given, often=1):
    """What `run` answers by the model: r0, the instructions and the budget, the last lines, and what each instruction begins from."""
    shown, entries, set_counters, time, processor = given
    maps = image.maps()
    for (number, entry), value in entries.items():
        maps[number].entries[entry][: len(value)] = value
    before = [[bytes(value) for value in one.entries] for one in maps]
    counters = [0] * COUNTERS
    for counter, value in set_counters.items():
        counters[counter] = value
    for _ in range(often):
        run = Watched(image.program, bytearray(shown), maps, time, processor, counters)
        r0, steps = run.to_exit()
    changes = [
        f"map {number} entry {entry}: {bytes(value).hex()}"
        for number, one in enumerate(maps)
        for entry, value in enumerate(one.entries)
        if bytes(value) != before[number][entry]
    ]
    return (r0, steps, image.budget), changes + run.calls, run.begun


def marks(image):
    maps = ",".join(f"{size}:{count}" for size, count in image.shapes)
    return f";@ hook {image.hook}\n" + (f";@ maps {maps}\n" if maps else "") + (f";@ format {image.version}\n" if image.version == 2 else "")


def bare(text):
    """The text without the marks that one of policies/ has."""
    return "".join(line for line in text.splitlines(True) if not line.startswith(";@"))


def words(given):
    """The words of `run`. Each entry and each counter is named twice, and the last counts."""
    shown, entries, counters, time, processor = given
    options = ["--ctx", shown.hex(), "--time", str(time), "--processor", str(processor)]
    for (number, entry), value in entries.items():
        options += ["--map", f"{number}:{entry}=ffffffffffffffff", "--map", f"{number}:{entry}={value.hex()}"]
    for counter, value in counters.items():
        options += ["--counter", f"{counter}=1", "--counter", f"{counter}={value}"]
    return options


def answered(bqsim, command, said):
    return subprocess.run([bqsim, *command], input=said, capture_output=True, text=True)


def told(output):
    """The numbers of the first line, and the other lines."""
    lines = output.splitlines()
    found = re.fullmatch(r"r0 (\d+) \(0x([0-9a-f]+)\)  .*  steps (\d+) of (\d+)", lines[0]) if lines else None
    if not found or int(found[1]) != int(found[2], 16):
        return None, lines
    return (int(found[1]), int(found[3]), int(found[4])), lines[1:]


def steps_told(lines):
    """The steps that are told, each with its slot, its instruction and the registers that it changed; and the lines after them."""
    steps = []
    for at, line in enumerate(lines):
        if step := re.fullmatch(r"(?:line \d+, )?slot (\d+): (.+)", line):
            steps.append((int(step[1]), step[2], {}))
        elif change := re.fullmatch(r"    r(\d+) = (\d+) \(0x([0-9a-f]+)\)", line):
            if int(change[2]) != int(change[3], 16):
                return None, lines[at:]
            steps[-1][2][int(change[1])] = int(change[2])
        else:
            return steps, lines[at:]
    return steps, []


def wrong_step(steps, begun, listing):
    """What is wrong with the steps, by what each instruction of the model begins from and by the text of each slot."""
    if steps is None or [slot for slot, _, _ in steps] != [slot for slot, _ in begun]:
        return f"the slots are {[slot for slot, _ in begun]}"
    held = [0] * 11
    held[1], held[10] = begun[0][1][1], begun[0][1][10]
    for (slot, said, changes), (_, registers) in zip(steps, begun[1:] + [begun[-1]]):
        if said != listing[slot]:
            return f"slot {slot} is {listing[slot]}"
        if any(held[register] == word for register, word in changes.items()):
            return f"slot {slot} changes nothing of {changes}"
        for register, word in changes.items():
            held[register] = word
        for register, word in enumerate(registers):
            if word is not None and word != held[register]:
                return f"after slot {slot} r{register} is {word}"
    return None


def slots_listed(bqsim, image):
    """The instruction that `dis` lists at each slot."""
    listed = answered(bqsim, ["dis", "--slots", "-"], image.spelled().hex()).stdout
    return {int(line[2]): line[1].strip() for line in re.finditer(r"^([^;\n].*); +(\d+)  [0-9a-f]+$", listed, re.M)}


def compare_run(bqsim, draw, image, text, number):
    given = inputs(draw, image)
    as_text = number % 2 == 1
    said = marks(image) + bare(text) if as_text else image.spelled().hex()
    answer = answered(bqsim, ["run", *words(given)], said)
    *wanted, _ = expected(image, given)
    if answer.returncode != 0 or [*told(answer.stdout)] != wanted:
        return f"run {words(given)}\n{said}\n  answers {answer.stdout}{answer.stderr}  and not {wanted}"
    return compare_trace(bqsim, image, given, said, number % 3 + 1)


def compare_trace(bqsim, image, given, said, often):
    options = ["--trace", "--repeat", str(often), *words(given)]
    answer = answered(bqsim, ["run", *options], said)
    numbers, lines = told(answer.stdout)
    steps, changes = steps_told(lines)
    if not changes or not re.fullmatch(rf"{often} runs, \d+ ns a run", changes.pop()):
        return f"run {options}\n{said}\n  answers {answer.stdout}{answer.stderr}  without how long a run takes"
    *wanted, begun = expected(image, given, often)
    wrong = wrong_step(steps, begun, slots_listed(bqsim, image))
    if answer.returncode != 0 or [numbers, changes] != wanted or wrong:
        return f"run {options}\n{said}\n  answers {answer.stdout}{answer.stderr}  and not {wanted}: {wrong}"
    return None


def compare_listing(bqsim, image):
    listed = answered(bqsim, ["dis", "-"], image.spelled().hex())
    options = [word for line in listed.stdout.splitlines() if line.startswith(";@ ") for word in (f"--{line.split()[1]}", line.split()[2])]
    again = answered(bqsim, ["asm", *options], listed.stdout)
    if again.stdout.strip() != image.spelled().hex():
        return f"dis of {image.spelled().hex()}\n{listed.stdout}{listed.stderr}  assembles to {again.stdout}{again.stderr}"
    return None


def main():
    if len(sys.argv) < 2:
        sys.exit(__doc__)
    bqsim, runs = sys.argv[1], int(sys.argv[2]) if len(sys.argv) > 2 else 500
    seed = int(sys.argv[3]) if len(sys.argv) > 3 else 1
    draw = random.Random(seed)
    for number in range(runs):
        image, text = drawing.image(draw, draw.choice(HOOKS))
        wrong = compare_run(bqsim, draw, image, text, number) or compare_listing(bqsim, image)
        if wrong:
            sys.exit(f"run {number} of seed {seed}: {wrong}")
    print(f"{runs} runs, traces and listings are those of the model")


if __name__ == "__main__":
    main()
