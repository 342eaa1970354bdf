"""Changes policies a little, so that of many it is not known whether the verifier accepts them."""
import re

from model import programs
from model.assembler import assembled
from model.images import HOOKS, Image

ALIKE = [  # names that take the same operands
    [f"{name}{bits}" for name in programs.OPERATIONS for bits in (32, 64)],
    [f"j{name}{bits}" for name in programs.CONDITIONS for bits in (32, 64)],
    [f"{name}{bits}" for name in ("le", "be", "swap") for bits in (16, 32, 64)],
    ["neg32", "neg64"],
    list(programs.LOADS),
    [f"st{size}" for size in programs.LENGTH_OF],
    [f"stx{size}" for size in programs.LENGTH_OF],
]
REGISTER = r"\br\d+\b"
OFFSET = r"[+-]\d+(?=\])"
NUMBER = r"(?<=, )-?\d+$|(?<=call )\d+"


def changed(draw, image, text):
    """An image of the program with some changes, in its text, its maps, its hook or its version."""
    lines, shapes, hook, version = text.split("\n"), list(image.shapes), image.hook, image.version
    for _ in range(draw.choice([1, 1, 2, 3])):
        kind = draw.random()
        if kind < 0.9:
            change_lines(draw, lines)
        elif kind < 0.95 and shapes:
            shapes[draw.randrange(len(shapes))] = (8 * draw.randrange(1, 4), draw.randrange(1, 4))
        else:
            hook, version = draw.choice(HOOKS), draw.choice([1, 2])
    return Image(version, hook, tuple(shapes), assembled("\n".join(lines)))


def change_lines(draw, lines):
    at, other = draw.randrange(len(lines)), draw.randrange(len(lines))
    match draw.randrange(8):
        case 0 | 1:
            lines[at] = replaced(draw, REGISTER, lambda _: f"r{draw.randrange(11)}", lines[at])
        case 2:
            lines[at] = replaced(draw, OFFSET, lambda word: f"{int(word) + draw.choice([-8, -4, -1, 1, 4, 8]):+d}", lines[at])
        case 3:
            lines[at] = replaced(draw, NUMBER, lambda word: near(draw, lines[at], int(word)), lines[at])
        case 4:
            name, *operands = lines[at].split(" ", 1)
            for names in ALIKE:
                if name in names:
                    lines[at] = " ".join([draw.choice(names), *operands])
        case 5 if not is_label(lines[at]) and len(lines) > 1:
            del lines[at]
        case 6 if not is_label(lines[at]):
            lines.insert(other, lines[at])
        case _:
            lines[at], lines[other] = lines[other], lines[at]


def is_label(line):
    return line.endswith(":")


def replaced(draw, pattern, new, line):
    """The line with one of the words that the pattern finds in it replaced."""
    found = list(re.finditer(pattern, line))
    if not found:
        return line
    word = draw.choice(found)
    return line[: word.start()] + new(word[0]) + line[word.end() :]


def near(draw, line, number):
    number = draw.choice([number - 8, number - 1, number + 1, number + 8, *programs.SOME_IMMEDIATES])
    if line.startswith("lddw"):
        return str(number % 2**64)
    return str(max(-(2**31), min(number, 2**31 - 1)))
