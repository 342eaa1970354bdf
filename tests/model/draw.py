"""Draws traces: any event with any arguments, refused ones and bad lines among them, with policies at the hooks."""
import pathlib
import re

from model import programs, verdicts
from model.assembler import assembled
from model.images import HOOKS, Image
from model.replies import SIZES

SLICES = [99_999, 100_000_001, 100_000, 700_001, 3_000_000, 100_000_000]  # the first two are refused
BAD_LINES = [
    "counter 64", "counter", "tick 256 0", "tick 0", "tick 0 0 0", "tick 0 18446744073709551616", "tick 0 -1", "retire 65536",
    "admit 1 128 1 3000000", "admit 1 0 0xg 3000000", "install 0 1 place", "install 0 1 nowhere none", "machine cfs 2", "draws",
    "install 0 1 nowhere zz", "pull 0 1", "show 0 é",
]  # fmt: skip
SKIPPED_LINES = ["", " \t", "# tick 0 0", "#"]
LONG_LINES = ["#" + "x" * 131_071, "#" + "x" * 131_071 + "\r", "#" + "x" * 131_072]  # the last is bad
OTHER_FIRST_LINES = ["machine cfs 3", "machine rr 2", "machine cfs", "draw", "machine cfs 256", "\x7f"]
ODD_HEX = ["0", "zz", "42515", "0x42"]


def policies_of_the_repository():
    """Their texts, hooks and shapes, by the table of policies/README.md."""
    folder = pathlib.Path(__file__).parents[2] / "policies"
    rows = re.findall(r"^\| `(\w+\.s)` \| (\w+) \| (?:`([\d:,]+)`)?", (folder / "README.md").read_text(), re.MULTILINE)
    for name, hook, maps in rows:
        shapes = [tuple(map(int, shape.split(":"))) for shape in maps.split(",") if shape]
        yield (folder / name).read_text(), hook, shapes


REPOSITORY = list(policies_of_the_repository())


def image(draw, hook):
    """An image that is loaded, and the text of its program."""
    version, shapes = draw.choice([1, 2]), []
    if draw.random() < 0.2:
        text, shapes = draw.choice([(text, shapes) for text, its_hook, shapes in REPOSITORY if its_hook == hook])
    else:
        if draw.random() < 0.5:
            for _ in range(draw.choice([1, 1, 2, 8])):
                value_size = 8 * draw.choice([1, 2, 4, draw.randrange(1, 33)])
                shapes.append((value_size, draw.choice([1, 2, 4, draw.randrange(1, 257)])))
        text = programs.drawn_program(draw, hook, version, shapes)
    return Image(version, hook, tuple(shapes), assembled(text)), text


def refused_image(draw, good):
    """Bytes that are not loaded; `good` are those of an image that is."""
    change = draw.randrange(6)
    if change == 0:
        return good[: draw.randrange(len(good))]
    if change == 1:
        return good + b"\0"
    if change == 2:
        at, byte = draw.choice([(0, 0), (3, 1), (4, 0), (4, 3), (5, 3), (6, 9), (7, 1)])
        return good[:at] + bytes([byte]) + good[at + 1 :]
    if change == 3:
        shape = draw.choice([(12, 1), (0, 1), (264, 1), (8, 0), (8, 257)])
        return Image(1, "place", (shape,), bytes(8)).spelled()
    if change == 4:
        slots = draw.choice([0, 4097, 5000])
        return Image(2, "pull", (), bytes(8 * slots)).spelled()
    return Image(draw.choice([1, 2]), "preempt", *draw.choice([verdict[:2] for verdict in verdicts.WORKED if verdict[2]])).spelled()


def judged_image(draw):
    """An image of which it is known whether it is loaded."""
    shapes, program, _ = draw.choice(draw.choice([verdicts.WORKED, verdicts.SWEPT]))
    return Image(draw.choice([1, 2]), "preempt", shapes, program).spelled()


class Drawing:
    """A trace that is being drawn."""

    def __init__(self, draw, policies):
        """Some traces have few processors, tasks of nice 0 alone and round times, so that they meet the bounds exactly."""
        self.draw = draw
        if draw.random() < 0.3:
            sizes, self.nices, self.grain, steps = [1, 2], [0], 500_000, [2_000_000]
        else:
            sizes, self.nices, self.grain, steps = SIZES, range(-20, 20), 1, [3_000, 3_000_000, 10**9, 10**12]
        self.size, self.tasks, self.step = draw.choice(sizes), draw.choice([3, 10, 60, 1100]), draw.choice(steps)
        self.images = policies
        self.now, self.drawn = 0, 0

    def lines(self):
        """Some lines end with a CR, or have other blanks between their words."""
        draw = self.draw
        for line in self.plain_lines():
            dress = draw.random()
            if dress < 0.01:
                line += "\r"
            elif dress < 0.02:
                line = draw.choice(["\t", " "]) + line.replace(" ", draw.choice(["\t", "  "])) + draw.choice(["", " "])
            yield line

    def plain_lines(self):
        draw = self.draw
        if draw.random() < 0.3:
            yield draw.choice(SKIPPED_LINES)
        if draw.random() < 0.02:
            yield draw.choice(OTHER_FIRST_LINES)
        yield f"machine {draw.choice(['cfs', 'eevdf'])} {self.size}"
        if self.tasks <= 60:
            for task in range(self.tasks):
                yield f"admit {task} {draw.choice(self.nices)} {draw.getrandbits(64) | 1:#x} {draw.choice(SLICES[2:])}"
        if draw.random() < 0.8:
            for processor in range(self.size):
                for hook in HOOKS:
                    if draw.random() < 0.7:
                        yield from self.policy(processor, hook)
        for _ in range(draw.choice([50, 500, 2_000])):
            yield from self.any_lines()
        yield f"tick 0 {2**64 - 1}"
        for processor in range(self.size):
            yield f"show {processor}"
        for counter in range(64):
            yield f"counter {counter}"

    def policy(self, processor, hook):
        """A policy that is drawn and installed."""
        self.drawn += 1
        yield "draw"
        chosen = self.draw.choice([each for each in self.images if each.hook == hook])
        yield f"install {processor} {self.drawn} {hook} {chosen.spelled().hex()}"

    def any_policy(self):
        """What an install may name: an image of some hook, none, or what is no image."""
        draw, kind = self.draw, self.draw.random()
        if kind < 0.4:
            return "none"
        if kind < 0.6:
            return draw.choice(self.images).spelled().hex()
        if kind < 0.75:
            return judged_image(draw).hex()
        if kind < 0.9:
            return refused_image(draw, draw.choice(self.images).spelled()).hex() or "none"
        return draw.choice(ODD_HEX)

    def any_lines(self):
        draw, now = self.draw, self.now
        self.now = now = max(0, now + draw.randrange(0, self.step, self.grain) if draw.random() < 0.95 else now - self.step)
        processor = draw.randrange(self.size + 1) if draw.random() < 0.03 else draw.randrange(self.size)
        task, hook = draw.randrange(self.tasks), draw.choice(HOOKS)
        rare = draw.random()
        if rare < 0.0005:
            yield draw.choice(LONG_LINES)
        elif rare < 0.02:
            yield draw.choice(BAD_LINES + SKIPPED_LINES)
        elif rare < 0.05:
            yield from self.policy(processor, hook)
        elif rare < 0.07:
            yield f"install {processor} {draw.choice([self.drawn, self.drawn + 1, draw.randrange(5)])} {hook} {self.any_policy()}"
        elif rare < 0.08:
            self.drawn += 1
            yield "draw"
        else:
            yield draw.choices(
                [
                    f"admit {task} {draw.choice([*self.nices, -21, 20])} {draw.getrandbits(64)} {draw.choice(SLICES)}",
                    f"retire {task}",
                    f"counter {draw.randrange(64)}",
                    f"begin {processor} {task}",
                    f"end {processor} {now}",
                    f"wake {processor} {task} {now}",
                    f"drain {processor} {now}",
                    f"tick {processor} {now}",
                    f"block {processor} {now}",
                    f"pull {processor} {draw.randrange(self.size)} {now}",
                    f"show {processor}",
                ],
                weights=[4, 1, 1, 2, 2, 12, 8, 12, 6, 8, 4],
            )[0]


def trace(draw, policies):
    """The lines of a trace with these images, which are loaded; there is one for each hook at least."""
    return list(Drawing(draw, policies).lines())
