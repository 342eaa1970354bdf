"""Draws programs that the verifier accepts, as text: statements over three numbers, the context, the stack and the maps.

r6, r7 and r8 hold numbers all along, and r9 the context. The upper end of the stack is written before it is read. All jumps
go forward, so ways part and meet. r0 to r5 serve one statement at a time.
"""
from model.contexts import LENGTHS

NUMBERS = ["r6", "r7", "r8"]
OPERATIONS = "add sub mul div sdiv or and xor lsh rsh arsh mod smod mov".split()
CONDITIONS = "eq gt ge set ne sgt sge lt le slt sle".split()
LENGTH_OF = {"b": 1, "h": 2, "w": 4, "dw": 8}
LOADS = {"ldxb": 1, "ldxh": 2, "ldxw": 4, "ldxdw": 8, "ldxsb": 1, "ldxsh": 2, "ldxsw": 4}
MOST_COUNTER_CALLS = 16
SOME_IMMEDIATES = [0, 1, -1, 2, 7, 16, 31, 32, 33, 63, 64, 255, 65_535, 2**31 - 1, -(2**31)]
SOME_AMOUNTS = [0, 1, 15, 31, 32, 33, 63, 64, 65, 127]
SOME_WORDS = [0, 1, 2**31, 2**32 - 1, 2**32, 2**32 + 1, 2**63 - 1, 2**63, 2**64 - 1]


class Writer:
    """A program that is being written."""

    def __init__(self, draw, hook, version, shapes):
        self.draw, self.hook, self.shapes = draw, hook, shapes
        self.length = LENGTHS[hook, version]
        self.written = max([64] + [8 + value_size for value_size, _ in shapes])  # bytes of the stack
        self.lines, self.labels, self.counter_calls = [], 0, 0

    def put(self, *lines):
        self.lines += lines

    def label(self):
        self.labels += 1
        return f"l{self.labels}"

    def number(self):
        return self.draw.choice(NUMBERS)

    def bits(self):
        return self.draw.choice([32, 64])

    def immediate(self):
        draw = self.draw
        return draw.choice([draw.choice(SOME_IMMEDIATES), draw.randrange(-300, 300), draw.randrange(-(2**31), 2**31)])

    def second(self):
        """A second operand."""
        return self.draw.choice([self.number(), self.immediate()])

    def load(self):
        """The name of a load, and how many bytes it takes."""
        return self.draw.choice(list(LOADS.items()))

    def any_program(self):
        """A program of some of the kinds of statement."""
        kinds = self.draw.sample(STATEMENTS, self.draw.choice([1, 2, 4, len(STATEMENTS)]))
        if not self.shapes:
            kinds = [kind for kind in kinds if kind not in (Writer.look_up, Writer.update, Writer.copy)] or [Writer.compute]
        self.kinds = kinds
        self.put("mov64 r9, r1")
        for at in range(8, self.written + 1, 8):
            self.put(f"stdw [r10-{at}], {self.immediate()}")
        self.set_numbers()
        self.from_context()
        self.block(depth=0)
        self.end()
        return "\n".join(self.lines)

    def operations(self):
        """A program that computes with words at the bounds, and adds each result to a counter."""
        self.put("mov64 r9, r1")
        for _ in range(MOST_COUNTER_CALLS):
            self.set_numbers()
            self.draw.choice([self.compute, self.compute, self.compute, self.skip])()
            self.tell()
        self.end()
        return "\n".join(self.lines)

    def words_of_the_context(self):
        """A program that adds words of the context to counters."""
        self.put("mov64 r9, r1", *(f"mov64 {register}, 0" for register in NUMBERS))
        for _ in range(MOST_COUNTER_CALLS):
            self.counter_calls += 1
            at = self.draw.choice([0, self.length - 8, self.draw.randrange(self.length - 7), self.draw.randrange(self.length - 7)])
            self.put(f"ldxdw r2, [r9+{at}]", f"mov64 r1, {self.draw.randrange(64)}", "call 100")
        self.end()
        return "\n".join(self.lines)

    def set_numbers(self):
        for register in NUMBERS:
            word = self.draw.choice([*SOME_WORDS, *SOME_AMOUNTS, self.draw.getrandbits(64)])
            self.put(self.draw.choice([f"mov64 {register}, {self.immediate()}", f"lddw {register}, {word}"]))

    def tell(self):
        """A number is added to a counter, where a trace shows it."""
        if self.counter_calls < MOST_COUNTER_CALLS:
            self.counter_calls += 1
            self.put(f"mov64 r1, {self.draw.randrange(64)}", f"mov64 r2, {self.number()}", "call 100")

    def block(self, depth):
        for _ in range(self.draw.randrange(1, 7 - 2 * depth)):
            if depth < 2 and self.draw.random() < 0.25:
                self.part_and_meet(depth)
            else:
                self.draw.choice(self.kinds)(self)

    def branch(self, target):
        first = self.draw.choice(NUMBERS)
        self.put(f"j{self.draw.choice(CONDITIONS)}{self.bits()} {first}, {self.second()}, {target}")

    def part_and_meet(self, depth):
        other, meet = self.label(), self.label()
        self.branch(other)
        self.block(depth + 1)
        if self.draw.random() < 0.3:
            self.end()
        else:
            self.put(self.draw.choice([f"ja {meet}", f"ja32 {meet}"]))
        self.put(f"{other}:")
        self.block(depth + 1)
        self.put(f"{meet}:")

    def end(self):
        """An answer, which is often one that is permitted."""
        if self.draw.random() < 0.7:
            self.tell()
        number = self.number()
        answers = {
            "place": [
                ["ldxw r0, [r9+36]"],
                ["ldxw r1, [r9+32]", f"mov64 r0, {number}", "mod64 r0, r1"],
                [f"mov64 r0, {number}", f"and64 r0, {self.draw.choice([1, 3, 7, 15, 63, 127])}"],
            ],
            "preempt": [["ldxw r0, [r9+48]"], [f"mov64 r0, {number}", f"and64 r0, {self.draw.choice([1, 1, 1, 3])}"]],
            "pull": [
                ["ldxw r0, [r9+24]"],
                [f"ldxw r0, [r9+{32 + 16 * self.draw.randrange(8)}]"],
                [f"mov64 r1, {number}", "and64 r1, 0x70", "mov64 r2, r9", "add64 r2, r1", "ldxw r0, [r2+32]"],
                ["mov32 r0, -1"],
                [f"mov64 r0, {number}", f"and64 r0, {self.draw.choice([3, 15, 63, 1023])}"],
            ],
        }[self.hook]
        self.put(*self.draw.choice(answers + [[f"mov64 r0, {number}"]]), "exit")

    # Statements

    def from_context(self):
        name, length = self.load()
        self.put(f"{name} {self.number()}, [r9+{self.draw.randrange(self.length - length + 1)}]")

    def from_a_place_of_the_context(self):
        """At a place that a mask or a test holds within the context."""
        name, length = self.load()
        most = self.draw.randrange(self.length - length + 1)
        number, end = self.number(), self.label()
        self.put(f"mov64 r2, {number}", "mov64 r3, r9")
        if self.draw.random() < 0.5:
            self.put(f"and64 r2, {most}")
        else:
            self.put(f"jgt64 r2, {most}, {end}")
        self.put("add64 r3, r2", f"{name} {self.number()}, [r3+{self.draw.randrange(self.length - length - most + 1)}]", f"{end}:")

    def compute(self):
        kind, number = self.draw.random(), self.number()
        if kind < 0.75:
            self.put(f"{self.draw.choice(OPERATIONS)}{self.bits()} {number}, {self.second()}")
        elif kind < 0.8:
            self.put(f"neg{self.bits()} {number}")
        elif kind < 0.87:
            self.put(f"movsx{self.draw.choice(['32_8', '32_16', '64_8', '64_16', '64_32'])} {number}, {self.number()}")
        elif kind < 0.94:
            self.put(f"{self.draw.choice(['le', 'be', 'swap'])}{self.draw.choice([16, 32, 64])} {number}")
        else:
            self.put(f"lddw {number}, {self.draw.choice([self.draw.getrandbits(64), *SOME_WORDS])}")

    def skip(self):
        """A branch over one instruction."""
        end = self.label()
        self.branch(end)
        self.compute()
        self.put(f"{end}:")

    def store(self, base, least, most):
        """A store of any size at a place where it stays between the two."""
        size, length = self.draw.choice(list(LENGTH_OF.items()))
        where = f"[{base}{self.draw.randrange(least, most - length + 1):+d}]"
        self.put(self.draw.choice([f"st{size} {where}, {self.immediate()}", f"stx{size} {where}, {self.number()}"]))

    def fetch(self, base, least, most):
        name, length = self.load()
        self.put(f"{name} {self.number()}, [{base}{self.draw.randrange(least, most - length + 1):+d}]")

    def on_the_stack(self):
        for _ in range(self.draw.randrange(1, 4)):
            self.draw.choice([self.store, self.fetch])("r10", -self.written, 0)

    def below_the_stack(self):
        """Bytes that were not written at the start, by one store whose bytes are read."""
        at = self.draw.randrange(-512, -self.written - 16)
        self.put(f"stxdw [r10{at:+d}], {self.number()}")
        self.fetch("r10", at, at + 8)

    def room_for_a_pointer(self):
        return f"[r10-{8 * self.draw.randrange(self.written // 8 + 3, 65)}]"

    def pointer_on_the_stack(self):
        room = self.room_for_a_pointer()
        self.put(f"stxdw {room}, r9", f"ldxdw r2, {room}")
        self.fetch("r2", 0, self.length)

    def clock(self):
        self.put("call 5", f"mov64 {self.number()}, r0")

    def processor(self):
        self.put("call 8", f"mov64 {self.number()}, r0")

    def count(self):
        if self.counter_calls == MOST_COUNTER_CALLS:
            return self.compute()
        self.counter_calls += 1
        if self.draw.random() < 0.7:
            self.put(f"mov64 r1, {self.draw.choice([0, 1, 63, self.draw.randrange(64)])}")
        else:
            self.put(f"mov64 r1, {self.number()}", "and64 r1, 63")
        if self.draw.random() < 0.7:
            self.put(f"mov64 r2, {self.second()}", "call 100")
        else:
            self.put("call 101")
        self.put(f"mov64 {self.number()}, r0")

    def any_map(self):
        return self.draw.randrange(len(self.shapes))

    def entry(self, number):
        """The reference of the map of this number in r1, and the address of an entry's number in r2; answers the value size."""
        value_size, entries = self.shapes[number]
        kind = self.draw.random()
        if kind < 0.5:
            key = self.draw.choice([0, 0, entries - 1, entries, self.immediate()])
            self.put(f"stw [r10-4], {key}", "mov64 r2, r10", "add64 r2, -4")
        elif kind < 0.9:
            chosen = self.number()
            self.put(f"mov64 r2, {chosen}", f"and64 r2, {self.draw.choice([1, 3, 255])}", "stxw [r10-4], r2")
            self.put("mov64 r2, r10", "sub64 r2, 4")
        else:
            self.put("mov64 r2, r9", f"add64 r2, {self.draw.randrange(self.length - 3)}")
        self.put(f"ldmap r1, {number}")
        return value_size

    def look_up(self):
        """Stores and loads in an entry, where there is one."""
        value_size, none, end = self.entry(self.any_map()), self.label(), self.label()
        self.put("call 1")
        if self.draw.random() < 0.5:
            self.put(f"jeq64 r0, 0, {none}")
        else:
            some = self.label()
            self.put(f"jne64 r0, 0, {some}", f"ja {none}", f"{some}:")
        if self.draw.random() < 0.3 and value_size > 8:
            self.put(f"mov64 r2, {self.number()}", f"and64 r2, {value_size - 8}", "add64 r0, r2")
            value_size = 8
        counted = self.number()
        self.put(f"ldxdw {counted}, [r0+0]", f"add64 {counted}, 1", f"stxdw [r0+0], {counted}")
        for _ in range(self.draw.randrange(3)):
            self.draw.choice([self.store, self.fetch])("r0", 0, value_size)
        if self.draw.random() < 0.3:
            self.tell()
        self.put(f"ja {end}", f"{none}:")
        self.compute()
        self.put(f"{end}:")

    def update(self):
        value_size = self.entry(self.any_map())
        if self.draw.random() < 0.8 or value_size > self.length:
            self.put("mov64 r3, r10", f"add64 r3, {-self.draw.randrange(value_size, self.written + 1)}")
        else:
            self.put("mov64 r3, r9", f"add64 r3, {self.draw.randrange(self.length - value_size + 1)}")
        self.put("mov64 r4, 0", "call 2", f"mov64 {self.number()}, r0")
        if self.draw.random() < 0.5:
            self.look_up()

    def copy(self):
        """An entry is the value of an update of its own map, and now and then the number of the entry is found there too."""
        number, end, room = self.any_map(), self.label(), self.room_for_a_pointer()
        self.entry(number)
        self.put("call 1", f"jeq64 r0, 0, {end}", f"stxdw {room}, r0")
        self.entry(number)
        if self.draw.random() < 0.3:
            self.put(f"ldxdw r2, {room}")
        self.put(f"ldxdw r3, {room}", "mov64 r4, 0", "call 2", f"mov64 {self.number()}, r0", f"{end}:")


STATEMENTS = [
    Writer.from_context, Writer.from_a_place_of_the_context, Writer.compute, Writer.skip, Writer.on_the_stack,
    Writer.below_the_stack, Writer.pointer_on_the_stack, Writer.clock, Writer.processor, Writer.count, Writer.look_up,
    Writer.update, Writer.copy,
]  # fmt: skip


def constant(draw, most):
    """An answer that asks for nothing, permitted or not."""
    number = draw.choice([0, 1, 2, draw.randrange(most), 2**32 - 1, 2**32 + 1, 2**64 - 1])
    return f"lddw r0, {number}\nexit" if number >= 2**31 or draw.random() < 0.2 else f"mov64 r0, {number}\nexit"


def echo(draw, length):
    """A part of the context."""
    name, read = draw.choice(list(LOADS.items()))
    at = draw.choice([4 * draw.randrange(length // 4), draw.randrange(length)])
    return f"{name} r0, [r1+{min(at, length - read)}]\nexit"


def drawn_program(draw, hook, version, shapes):
    kind = draw.random()
    if kind < 0.1:
        return constant(draw, most=64)
    if kind < 0.2:
        return echo(draw, LENGTHS[hook, version])
    writer = Writer(draw, hook, version, shapes)
    if kind < 0.3:
        return writer.words_of_the_context()
    return writer.operations() if kind < 0.45 else writer.any_program()
