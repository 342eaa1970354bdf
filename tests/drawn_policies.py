#!/usr/bin/env python3
"""Draws policies that the verifier has to follow closely, and runs those that it accepts on the model.

    tests/drawn_policies.py BQSIM [PROGRAMS [SEED]]      so many drawn programs (10,000 if left out)

BQSIM is the path of the program. A drawn program loads numbers from the context, copies, computes and compares them, keeps
some on the stack, and then goes to a computed place of the context, of the stack or of an entry; look-ups are copied before
they are tested. bqsim says which it accepts (`install`); each of these is run in tests/model/machine.py on contexts of
small, great and negative numbers, and none may trap, read what is not set, or take more steps than its budget. Of 400 or more
drawn programs at least one in ten must be accepted; else too little is tried. `tests/quick.py` runs some of these. Seen: of 250,000
drawn programs (50,000 each by the seeds 71 to 75), 48,728 were accepted, and none trapped.
"""
import os
import random
import subprocess
import sys

sys.dont_write_bytecode = True

from model import contexts, images
from model.assembler import assembled
from model.machine import COUNTERS, Run, Trap

SHAPES = [(16, 2), (56, 1)]
NUMBERS = ["r2", "r3", "r4", "r5", "r6", "r7", "r8"]
CONDITIONS = "eq gt ge set ne sgt sge lt le slt sle".split()
OPERATIONS = "add sub mul div or and xor lsh rsh arsh mod mov".split()
NEAR = [0, 1, 3, 7, 8, 15, 16, 31, 32, 40, 47, 48, 52, 54, 55, 56, 57, 63, 64, 100, 255, 256]
FAR = [-1, -2, -8, -16, -32, -56, -64, -256, 2**31 - 1, -(2**31)]
LENGTHS = {"b": 1, "h": 2, "w": 4, "dw": 8}
BATCH = 400
LEAST = 10  # one drawn program of so many is accepted at least; bqsim accepts about one of five


class Writer:
    """A program that is being written."""

    def __init__(self, draw):
        self.draw, self.lines, self.labels = draw, [], 0

    def put(self, *lines):
        self.lines += lines

    def number(self):
        return self.draw.choice(NUMBERS)

    def bits(self):
        return self.draw.choice([32, 64, 64])

    def immediate(self):
        return self.draw.choice(NEAR if self.draw.random() < 0.75 else FAR)

    def room(self):
        return f"[r10-{8 * self.draw.randrange(1, 9)}]"

    def program(self):
        self.put("mov64 r9, r1", *(f"stdw [r10-{8 * at}], {self.immediate()}" for at in range(1, 9)))
        for register in NUMBERS:
            size, length = self.draw.choice(list(LENGTHS.items()))
            self.put(f"ldx{size} {register}, [r9+{self.draw.randrange(57 - length)}]")
        for _ in range(self.draw.randrange(2, 10)):
            self.statement()
        self.draw.choice([self.of_context, self.of_context, self.of_stack, self.of_entry, self.of_copied_answer])()
        self.put("mov64 r0, 0", "exit", "out:", "mov64 r0, 1", "exit")
        return "\n".join(self.lines)

    def statement(self):
        kind = self.draw.random()
        if kind < 0.45:
            self.compare()
        elif kind < 0.65:
            self.put(f"mov{self.bits()} {self.number()}, {self.number()}")
        elif kind < 0.85:
            second = self.draw.choice([self.number(), self.immediate(), self.immediate()])
            self.put(f"{self.draw.choice(OPERATIONS)}{self.bits()} {self.number()}, {second}")
        elif kind < 0.88:
            self.put(f"neg{self.bits()} {self.number()}")
        elif kind < 0.94:
            size = self.draw.choice(["w", "dw", "dw", "dw"])
            self.put(f"stx{size} {self.room()}, {self.number()}")
        else:
            self.put(f"ldx{self.draw.choice(['w', 'dw', 'dw', 'dw'])} {self.number()}, {self.room()}")

    def compare(self):
        first, second = self.number(), self.draw.choice([self.number(), self.immediate(), self.immediate()])
        if self.draw.random() < 0.7:
            return self.put(f"j{self.draw.choice(CONDITIONS)}{self.bits()} {first}, {second}, out")
        self.labels += 1
        end = f"l{self.labels}"
        self.put(f"j{self.draw.choice(CONDITIONS)}{self.bits()} {first}, {second}, {end}")
        written = self.draw.choice([first, self.number()])
        self.put(f"mov{self.bits()} {written}, {self.draw.choice([second, self.immediate(), self.number()])}", f"{end}:")

    def access(self, base, number):
        """An access by a pointer moved by a number, on either side of the sum."""
        if self.draw.random() < 0.3:
            self.put(f"add64 {number}, {base}")
            base = number
        else:
            self.put(f"add64 {base}, {number}")
        size = self.draw.choice(list(LENGTHS))
        self.put(f"ldx{size} r0, [{base}+{self.draw.choice([0, 0, 0, 1, 8])}]")

    def of_context(self):
        self.put("mov64 r1, r9")
        self.access("r1", self.number())

    def of_stack(self):
        self.put("mov64 r1, r10", "add64 r1, -64")
        self.access("r1", self.number())

    def look_up(self, number):
        self.put(f"stw [r10-4], {self.draw.choice([0, 0, 1, 2])}", f"ldmap r1, {number}", "mov64 r2, r10", "add64 r2, -4", "call 1")

    def of_entry(self):
        number = self.draw.choice(["r6", "r7", "r8"])
        self.look_up(1)
        self.put(f"j{self.draw.choice(['eq', 'eq', 'ne'])}64 r0, 0, out", "mov64 r1, r0")
        self.access("r1", number)

    def of_copied_answer(self):
        """The answer of a look-up, or of one of two, in several places; one of them is tested."""
        places = ["r6", "r7", "r8"]
        self.look_up(self.draw.choice([0, 1]))
        for _ in range(self.draw.randrange(1, 4)):
            self.put(f"mov64 {self.draw.choice(places)}, {self.draw.choice(['r0', 'r0', *places])}")
        if self.draw.random() < 0.3:
            self.labels += 1
            end = f"l{self.labels}"
            self.put(f"jne64 {self.draw.choice(places + ['r0'])}, 0, {end}")
            self.look_up(self.draw.choice([0, 1]))
            self.put(f"mov64 {self.draw.choice(places)}, r0", f"{end}:")
        if self.draw.random() < 0.3:
            room = self.room()
            self.put(f"stxdw {room}, {self.draw.choice(places)}", f"ldxdw {self.draw.choice(places)}, {room}")
        self.put(f"jeq64 {self.draw.choice(places + ['r0'])}, 0, out")
        self.put(f"ldxdw r0, [{self.draw.choice(places + ['r0'])}+{self.draw.choice([0, 8])}]")


def context(draw):
    """Words of many sizes, small and negative ones among them."""
    words = b""
    while len(words) < 56:
        length = draw.choice([1, 2, 4, 8])
        number = draw.choice([draw.choice(NEAR), draw.choice(FAR), draw.randrange(60), draw.getrandbits(64)])
        words += (number % 256**length).to_bytes(length, "little")
    return words[:56]


def accepted(program, drawn):
    trace = ["machine cfs 1"]
    for number, image in enumerate(drawn, 1):
        trace += ["draw", f"install 0 {number} preempt {image.spelled().hex()}"]
    done = subprocess.run([program, "replay"], input="\n".join(trace) + "\n", capture_output=True, text=True, timeout=600)
    answers = done.stdout.splitlines()[1::2]
    if len(answers) != len(drawn):
        sys.exit(f"{len(answers)} answers to {len(drawn)} programs")
    return [image for image, answer in zip(drawn, answers) if answer == "install ok"]


def run(draw, image):
    for shown in [bytes(56), b"\xff" * 56, *(context(draw) for _ in range(6))]:
        maps = image.maps()
        for entry in (entry for each in maps for entry in each.entries):
            entry[:] = draw.randbytes(len(entry))
        counters = [0] * COUNTERS
        try:
            _, steps = Run(image.program, shown, maps, draw.getrandbits(48), 0, counters).to_exit()
        except Trap as trap:
            sys.exit(f"{trap} on the context {shown.hex()} in {image.spelled().hex()}")
        if steps > image.budget:
            sys.exit(f"{steps} steps, and a budget of {image.budget}, in {image.spelled().hex()}")


def main():
    if len(sys.argv) not in (2, 3, 4):
        sys.exit(__doc__)
    program = os.path.abspath(sys.argv[1])
    wanted = int(sys.argv[2]) if len(sys.argv) > 2 else 10_000
    draw = random.Random(sys.argv[3] if len(sys.argv) > 3 else "1")
    count = 0
    for at in range(0, wanted, BATCH):
        texts = [Writer(draw).program() for _ in range(min(BATCH, wanted - at))]
        good = accepted(program, [images.Image(1, "preempt", tuple(SHAPES), assembled(text)) for text in texts])
        for image in good:
            run(draw, image)
        count += len(good)
    print(f"{wanted} programs, {count} accepted, none traps")
    if wanted >= BATCH and count * LEAST < wanted:
        sys.exit(f"fewer than one of {LEAST} is accepted")


if __name__ == "__main__":
    main()
