"""Programs with the answers that docs/INSTRUCTIONS.md and docs/VERIFIER.md give them. The model itself verifies nothing."""
from model.assembler import assembled

LOOK_UP = "stw [r10-4], 0 / ldmap r1, 0 / mov64 r2, r10 / add64 r2, -4 / call 1"
COUNT = "mov64 r1, 3 / mov64 r2, 5 / call 100"
BYTES_OF_CONTEXT = "ldxw r2, [r1+0] / {} r2, {}, +3 / add64 r1, r2 / {} r0, [r1+0] / exit / mov64 r0, 0 / exit"
BYTES_OF_ENTRY = (
    f"ldxw r6, [r1+4] / {LOOK_UP} / jne64 r0, 0, +2 / mov64 r0, 0 / exit / "
    "{} r6, {} / add64 r0, r6 / {} r0, [r0+0] / exit"
)
POINTER_OR_NUMBER = "ldxw r3, [r1+0] / jeq64 r3, 0, +2 / mov64 r2, r10 / ja +1 / mov64 r2, 0 / {} / exit"
LOADS = {"ldxb": 1, "ldxh": 2, "ldxw": 4, "ldxdw": 8}

REFUSED_BY_VERIFIER = [  # for the hook preempt: the program, the shapes of its maps, the cause and the slot
    ("ja -1 / exit", [], "V1 0"),
    ("ja +1 / lddw r1, 0 / mov64 r0, 0 / exit", [], "V1 0"),
    ("mov64 r0, 0", [], "V2 0"),
    ("ja +1 / mov64 r0, 0 / mov64 r0, 1 / exit", [], "V3 1"),
    ("mov64 r10, 0 / mov64 r0, 0 / exit", [], "V10 0"),
    ("call 3 / exit", [], "V7 0"),
    (" / ".join([COUNT] * 17) + " / mov64 r0, 0 / exit", [], "V11 50"),
    ("mov64 r0, r3 / exit", [], "V4 0"),
    ("call 5 / mov64 r0, r1 / exit", [], "V4 1"),
    (POINTER_OR_NUMBER.format("ldxdw r0, [r2-8]"), [], "V4 5"),
    ("ldxdw r0, [r10-8] / exit", [], "V5 0"),
    ("stw [r1+0], 0 / mov64 r0, 0 / exit", [], "V5 0"),
    (f"{LOOK_UP} / ldxdw r0, [r0+0] / exit", [(8, 1)], "V5 6"),
    (f"{LOOK_UP} / jne64 r0, 0, +2 / mov64 r0, 0 / exit / ldxdw r0, [r0+4] / exit", [(8, 2)], "V5 9"),
    (BYTES_OF_CONTEXT.format("jle64", 55, "ldxb"), [], "V5 3"),
    ("mul64 r1, 2 / mov64 r0, 0 / exit", [], "V6 0"),
    ("mov64 r0, 0 / stxw [r10-4], r1 / exit", [], "V6 1"),
    (f"mov64 r6, 0 / {LOOK_UP} / jeq64 r0, r6, +0 / mov64 r0, 0 / exit", [(8, 1)], "V6 7"),
    ("ldmap r1, 0 / mov64 r0, 0 / exit", [], "V8 0"),
    (COUNT.replace("r1, 3", "r1, 64") + " / mov64 r0, 0 / exit", [], "V8 2"),
    ("exit", [], "V9 0"),
    ("mov64 r0, r1 / exit", [], "V9 1"),
]
ACCEPTED = [
    ("stxdw [r10-8], r1 / ldxdw r2, [r10-8] / ldxw r0, [r2+0] / exit", []),
    ("mov64 r0, 0 / jeq64 r0, 0, +1 / mov64 r0, 1 / exit", []),
    ("mov64 r0, 0 / " + "jeq64 r0, 0, +1 / add64 r0, 1 / " * 2047 + "exit", []),
    (" / ".join([COUNT] * 16) + " / mov64 r0, 0 / exit", []),
    (POINTER_OR_NUMBER.format("mov64 r0, 0"), []),
    (f"{LOOK_UP} / jeq64 r0, 0, +2 / ldxdw r0, [r0+0] / exit / mov64 r0, 0 / exit", [(8, 1)]),
]
REFUSED_BY_DECODER = [  # bytes that are no program
    ("b700000000000000 9500000001000000", "I4 1"),
    ("1800000000000000", "I7 0"),
    ("0000000000000000", "I2 0"),
    ("b70b010000000000", "I3 0"),
    ("b7b1000000000000", "I4 0"),
    ("b701080000000000", "I5 0"),
    ("d402000011000000", "I6 0"),
]


def lines(text):
    return text.replace(" / ", "\n")


def worked():
    """Each as shapes, bytes, and the fault or None. All are for the hook preempt, whose context has 56 bytes."""
    for text, shapes, fault in REFUSED_BY_VERIFIER:
        yield tuple(shapes), assembled(lines(text)), f"L8 {fault}"
    for text, shapes in ACCEPTED:
        yield tuple(shapes), assembled(lines(text)), None
    for program, fault in REFUSED_BY_DECODER:
        yield (), bytes.fromhex(program), f"L7 {fault}"


def swept():
    """The same, of programs that reach just to the end of the context or of an entry of 16 bytes, or past it."""
    for load, length in LOADS.items():
        for bound in range(256):
            program = assembled(lines(BYTES_OF_CONTEXT.format("jgt64", bound, load)))
            yield (), program, None if bound + length <= 56 else "L8 V5 3"
        for mask in range(16):
            program = assembled(lines(BYTES_OF_ENTRY.format("and64", mask, load)))
            yield ((16, 1),), program, None if mask + length <= 16 else "L8 V5 12"
    for amount in range(64):
        most = 2**32 - 1 >> amount  # the word of the context that is shifted has 32 bits
        program = assembled(lines(BYTES_OF_ENTRY.format("rsh64", amount, "ldxdw")))
        yield ((16, 1),), program, None if most + 8 <= 16 else "L8 V5 12"


WORKED, SWEPT = list(worked()), list(swept())
