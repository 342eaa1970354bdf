"""A trace's lines and their replies, from docs/TRACE.md alone."""
import re

from model import images
from model.scheduler import Refused, World

MOST_BYTES = 131_072
SIZES = [1, 2, 4, 8, 16, 32, 64]
EVENTS = {  # the first word of a line, and what the others are
    "admit": "task nice mask number",
    "retire": "task",
    "draw": "",
    "install": "processor number hook image",
    "begin": "processor task",
    "end": "processor number",
    "wake": "processor task number",
    "drain": "processor number",
    "tick": "processor number",
    "block": "processor number",
    "pull": "processor processor number",
    "counter": "counter",
    "show": "processor",
}
RANGES = {
    "processor": range(2**8), "task": range(2**16), "nice": range(-(2**7), 2**7), "mask": range(2**64), "number": range(2**64),
    "counter": range(64),
}  # fmt: skip
NUMBERS = dict.fromkeys(RANGES, r"\d+") | {"nice": r"-?\d+", "mask": r"\d+|0x[0-9a-fA-F]+"}


class Bad(Exception):
    """A line is bad."""


def replies(trace):
    """What the model answers to a trace, which is a text. It says nothing about want of memory."""
    world, begun, answers = None, False, []
    for number, line in enumerate(trace.removesuffix("\n").split("\n"), 1):
        line = line.removesuffix("\r")
        try:
            words = cut(line)
            if not words:
                continue
            if begun:
                answers += said(world, words) if world else []
                continue
            world, begun = machine(words), True
        except Bad:
            answers += [f"bad {number}"] if world or not begun else []
            begun = True
    return answers


def cut(line):
    if len(line) > MOST_BYTES or not re.fullmatch(r"[\t -~]*", line):
        raise Bad
    words = line.split()
    return [] if words and words[0].startswith("#") else words


def machine(words):
    if len(words) != 3 or words[0] != "machine" or words[1] not in ("cfs", "eevdf"):
        raise Bad
    size = value("processor", words[2])
    if size not in SIZES:
        raise Bad
    return World(words[1], size)


def said(world, words):
    """The replies to one line."""
    name, operands = words[0], words[1:]
    if name not in EVENTS or len(operands) != len(EVENTS[name].split()):
        raise Bad
    operands = [value(kind, word) for kind, word in zip(EVENTS[name].split(), operands)]
    events = [(name, operands)]
    if name == "wake":
        processor, task, now = operands
        events = [("begin", [processor, task]), ("end", [processor, now])]
    answers = []
    try:
        if name == "install":
            operands[3] = image(operands[3])
        for event, arguments in events:
            answers.append(getattr(world, event)(*arguments))
    except (Refused, images.Fault) as refusal:
        answers.append(f"refused {refusal}")
    return answers


def value(kind, word):
    if kind == "image":
        return word
    if kind == "hook":
        if word not in images.HOOKS:
            raise Bad
        return word
    if not re.fullmatch(NUMBERS[kind], word):
        raise Bad
    number = int(word, 16 if word.startswith("0x") else 10)
    if number not in RANGES[kind]:
        raise Bad
    return number


def image(word):
    """What an install names: an image, or None."""
    if word == "none":
        return None
    if len(word) % 2 or not re.fullmatch("[0-9a-fA-F]*", word):
        raise images.Fault("hex")
    return images.load(bytes.fromhex(word))
