"""Programs from text to bytes, from docs/ASSEMBLER.md and docs/INSTRUCTIONS.md alone. It refuses nothing in good order."""
import re
import struct

# Names by the high four bits of the opcode.
ALU = {
    name: code
    for code, name in enumerate("add sub mul div or and lsh rsh neg mod xor mov arsh".split())
}
VARIANTS = {"sdiv": ("div", 1), "smod": ("mod", 1)}
CONDITIONS = {
    "eq": 0x1, "gt": 0x2, "ge": 0x3, "set": 0x4, "ne": 0x5, "sgt": 0x6, "sge": 0x7, "lt": 0xA, "le": 0xB, "slt": 0xC, "sle": 0xD,
}
SIZES = {"w": 0x00, "h": 0x08, "b": 0x10, "dw": 0x18}
BYTE_ORDERS = {"le": 0xD4, "be": 0xDC, "swap": 0xD7}
MEMORY, SIGNED_MEMORY = 0x60, 0x80
FROM_REGISTER = 0x08


def assembled(text):
    """The bytes of the program. Two passes: where the labels are, then the instructions."""
    lines = [re.split(r"[ \t,]+", line.split(";")[0].strip(" \t,")) for line in text.splitlines()]
    labels, instructions, slot = {}, [], 0
    for words in lines:
        if words[0].endswith(":"):
            labels[words[0][:-1]] = slot
        elif words[0]:
            instructions.append((slot, words))
            slot += 2 if words[0] in ("lddw", "ldmap") else 1
    return b"".join(spelled(words, slot, labels) for slot, words in instructions)


def spelled(words, slot, labels):
    """One instruction, which begins at this slot."""
    name, *operands = words

    def distance(word):
        return labels[word] - slot - 1 if word in labels else int(word, 0)

    match name:
        case "exit":
            return instruction(0x95)
        case "call":
            return instruction(0x85, immediate=int(operands[0], 0))
        case "ja":
            return instruction(0x05, offset=distance(operands[0]))
        case "ja32":
            return instruction(0x06, immediate=distance(operands[0]))
        case "lddw":
            number = int(operands[1], 0)
            return wide(register(operands[0]), 0, number, number >> 32)
        case "ldmap":
            return wide(register(operands[0]), 5, int(operands[1], 0), 0)
    if parts := re.fullmatch(r"(ldx|ldxs|st|stx)(b|h|w|dw)", name):
        return moved(*parts.groups(), *operands)
    if parts := re.fullmatch(r"(le|be|swap)(16|32|64)", name):
        return instruction(BYTE_ORDERS[parts[1]], register(operands[0]), immediate=int(parts[2]))
    if parts := re.fullmatch(r"movsx(32|64)_(8|16|32)", name):
        dst, src = map(register, operands)
        return instruction(0xB0 | FROM_REGISTER | arithmetic_class(parts[1]), dst, src, int(parts[2]))
    if parts := re.fullmatch(r"j([a-z]+)(32|64)", name):
        source, src, immediate = second(operands[1])
        opcode = CONDITIONS[parts[1]] << 4 | source | (5 if parts[2] == "64" else 6)
        return instruction(opcode, register(operands[0]), src, distance(operands[2]), immediate)
    parts = re.fullmatch(r"([a-z]+)(32|64)", name)
    operation, offset = VARIANTS.get(parts[1], (parts[1], 0))
    source, src, immediate = second(operands[1]) if len(operands) > 1 else (0, 0, 0)
    return instruction(ALU[operation] << 4 | source | arithmetic_class(parts[2]), register(operands[0]), src, offset, immediate)


def moved(form, size, *operands):
    """A load or a store."""
    where = operands[1] if form.startswith("ldx") else operands[0]
    base, offset = re.fullmatch(r"\[(r\d+)([+-]\w+)?\]", where).groups()
    base, offset = register(base), int(offset or "0", 0)
    match form:
        case "ldx":
            return instruction(0x1 | MEMORY | SIZES[size], register(operands[0]), base, offset)
        case "ldxs":
            return instruction(0x1 | SIGNED_MEMORY | SIZES[size], register(operands[0]), base, offset)
        case "st":
            return instruction(0x2 | MEMORY | SIZES[size], base, 0, offset, int(operands[1], 0))
        case "stx":
            return instruction(0x3 | MEMORY | SIZES[size], base, register(operands[1]), offset)


def instruction(opcode, dst=0, src=0, offset=0, immediate=0):
    return struct.pack("<BBhi", opcode, dst | src << 4, offset, immediate)


def wide(dst, src, lower, upper):
    return struct.pack("<BBhI", 0x18, dst | src << 4, 0, lower & 2**32 - 1) + struct.pack("<II", 0, upper)


def arithmetic_class(bits):
    return 7 if bits == "64" else 4


def register(word):
    return int(word.removeprefix("r"))


def second(word):
    """A second operand: the opcode's source bit, the source register, the immediate."""
    return (FROM_REGISTER, register(word), 0) if word.startswith("r") else (0, 0, int(word, 0))
