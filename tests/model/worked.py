"""Worked programs and traces that the model must answer so. None of the values comes from bqsim or from the model."""
from model import images, machine
from model.assembler import assembled
from model.replies import replies
from model.verdicts import lines

COUNTING = """
    stw [r10-4], 0
    ldmap r1, 0
    mov64 r2, r10
    add64 r2, -4
    call 1
    jne64 r0, 0, found
    mov64 r0, 2
    exit
found:
    ldxdw r3, [r0+0]
    mov64 r4, r3
    add64 r4, 1
    stxdw [r0+0], r4
    mov64 r0, r3
    exit
"""
OWN_PLACE = "ldxw r0, [r1+36] / exit"
OWN_PULL = "ldxw r0, [r1+24] / exit"
COUNTED = "mov64 r1, 3 / mov64 r2, 5 / call 100 / mov64 r0, 0 / exit"
EACH_WAY = "mov64 r0, 0 / " + "jeq64 r0, 0, +1 / add64 r0, 1 / " * 2047 + "exit"

PROGRAMS = [  # r0 and steps, on a context of zeros of the hook preempt
    ("mov64 r0, 7 / mov64 r2, 0 / div64 r0, r2 / exit", 0, 4),
    ("lddw r0, 0xffffffff00000007 / mov64 r2, 0 / mod32 r0, r2 / exit", 7, 4),
    ("mov64 r0, 5 / div64 r0, -1 / exit", 0, 3),
    ("lddw r0, 0x80000000 / arsh32 r0, 33 / exit", 0xC0000000, 3),
    ("lddw r0, 0x1122334455667788 / be32 r0 / exit", 0x88776655, 3),
    ("stdw [r10-8], -1 / stb [r10-5], 0 / ldxdw r0, [r10-8] / exit", 0xFFFFFFFF00FFFFFF, 4),
    ("ldxw r0, [r1+52] / exit", 0, 2),
    ("lddw r0, 0x8000000000000000 / sdiv64 r0, -1 / exit", 0x8000000000000000, 3),
    ("lddw r0, 0x8000000000000000 / smod64 r0, -1 / exit", 0, 3),
    ("mov64 r0, -13 / smod64 r0, 3 / exit", 2**64 - 1, 3),
    ("mov64 r0, 9 / lsh64 r0, 64 / exit", 9, 3),
    ("mov64 r2, 0x80 / movsx32_8 r0, r2 / exit", 0xFFFFFF80, 3),
    ("lddw r0, 0x1234567890abcdef / swap16 r0 / exit", 0xEFCD, 3),
    ("stxdw [r10-8], r1 / ldxdw r2, [r10-8] / ldxw r0, [r2+0] / exit", 0, 4),
    ("mov64 r0, 0 / jeq64 r0, 0, +1 / mov64 r0, 1 / exit", 0, 3),
    (EACH_WAY, 0, 2049),
]
BUDGETS = [
    ("mov64 r0, 0 / exit", 2),
    ("mov64 r0, 0 / jeq64 r0, 0, +1 / mov64 r0, 1 / exit", 4),
    ("ldxw r2, [r1+0] / jgt64 r2, 55, +3 / add64 r1, r2 / ldxb r0, [r1+0] / exit / mov64 r0, 0 / exit", 5),
    (COUNTING, 12),
    (EACH_WAY, 4096),
    ("lddw r0, 1 / exit", 2),
]
BYTES = [  # assembled
    (OWN_PLACE, "6110240000000000 9500000000000000"),
    ("jeq64 r1, 0, e / lddw r2, 1 / e: / exit", "1501020000000000 1802000001000000 0000000000000000 9500000000000000"),
    ("le16 r1 / sdiv64 r1, -3 / movsx64_32 r2, r3", "d401000010000000 37010100fdffffff bf32200000000000"),
    ("ldxsh r2, [r1-2] / jslt32 r1, 5, -1", "8912feff00000000 c601ffff05000000"),
    ("lddw r1, 18446744073709551615", "18010000ffffffff 00000000ffffffff"),
    (
        COUNTING.strip().replace("\n", " / "),
        "620afcff00000000 1851000000000000 0000000000000000 bfa2000000000000 07020000fcffffff 8500000001000000 5500020000000000"
        "b700000002000000 9500000000000000 7903000000000000 bf34000000000000 0704000001000000 7b40000000000000 bf30000000000000"
        "9500000000000000",
    ),
]
TRACES = [
    """
machine cfs 2
admit 1 0 1 3000000     -> admit ok
admit 2 0 1 3000000     -> admit ok
draw                    -> draw 1
install 0 1 preempt COUNTING -> install ok
wake 0 1 0              -> begin 1 loads 0 0
                        -> end 1 to 0 by rule steps 0
wake 0 2 0              -> begin 2 loads 1 0
                        -> end 2 to 0 by rule steps 0
drain 0 0               -> drain 2 run 1 by rule steps 0
tick 0 0                -> tick run 1 by policy steps 12
tick 0 0                -> tick run 2 by policy steps 12
tick 0 0                -> tick run 2 by rule steps 12
draw                    -> draw 2
install 0 2 preempt COUNTING -> install ok
tick 0 0                -> tick run 2 by policy steps 12
install 0 2 preempt none -> refused C12 Older 2
draw                    -> draw 3
install 0 3 preempt none -> install ok
tick 0 0                -> tick run 2 by rule steps 0
""",
    """
machine cfs 2
admit 1 0 1 3000000     -> admit ok
admit 2 0 3 3000000     -> admit ok
admit 3 0 3 3000000     -> admit ok
draw                    -> draw 1
install 0 1 place ZERO_PLACE -> install ok
wake 0 1 0              -> begin 1 loads 0 0
                        -> end 1 to 0 by policy steps 2
wake 0 2 0              -> begin 2 loads 1 0
                        -> end 2 to 0 by policy steps 2
wake 0 3 0              -> begin 3 loads 2 0
                        -> end 3 to 0 by policy steps 2
drain 0 0               -> drain 3 run 1 by rule steps 0
pull 1 0 0              -> pull 3 run 3 by rule steps 0
pull 1 0 0              -> pull none run 3 by rule steps 0
draw                    -> draw 2
install 1 2 pull ONE_PULL -> install ok
pull 1 0 0              -> pull none run 3 by rule steps 2
draw                    -> draw 3
install 1 3 pull TWO_PULL -> install ok
pull 1 0 0              -> pull 2 run 3 by policy steps 2
pull 1 1 0              -> refused C9 SameProcessor
draw                    -> draw 4
install 1 4 pull OWN_PULL -> install ok
pull 1 0 0              -> pull none run 3 by policy steps 2
""",
    """
machine eevdf 2
admit 1 0 3 3000000 -> admit ok
admit 2 0 3 3000000 -> admit ok
draw -> draw 1
install 0 1 place ZERO_PLACE -> install ok
wake 0 1 0 -> begin 1 loads 0 0
-> end 1 to 0 by policy steps 2
wake 0 2 0 -> begin 2 loads 1 0
-> end 2 to 0 by policy steps 2
drain 0 0 -> drain 2 run 1 by rule steps 0
tick 0 1000000 -> tick run 2 by rule steps 0
pull 1 0 1000000 -> pull 1 run 1 by rule steps 0
show 1 -> show 1 mark 4294967296 run 1:4295467296:4298467296 queue
show 0 -> show 0 mark 4295467296 run 2:4294967296:4297967296 queue
""",
    """
machine cfs 32
admit 1 0 0x100000 3000000 -> admit ok
draw -> draw 1
install 0 1 place OWN_PLACE -> install ok
begin 0 1 -> begin 1 loads ZEROS
end 0 0 -> end 1 to 20 by rule steps 2
drain 20 0 -> drain 1 run 1 by rule steps 0
block 20 0 -> block 1 run none
draw -> draw 2
install 0 2 place WIDE_OWN_PLACE -> install ok
begin 0 1 -> begin 1 loads ZEROS
end 0 0 -> end 1 to 20 by policy steps 2
""",
    """
machine cfs 1
admit 1 0 1 3000000 -> admit ok
draw -> draw 1
install 0 1 preempt COUNTED -> install ok
wake 0 1 0 -> begin 1 loads 0
-> end 1 to 0 by rule steps 0
drain 0 0 -> drain 1 run 1 by rule steps 0
tick 0 0 -> tick run 1 by policy steps 5
tick 0 0 -> tick run 1 by policy steps 5
counter 3 -> counter 3 10
counter 64 -> bad 10
""",
    """
machine cfs 1
draw -> draw 1
draw -> draw 2
install 0 2 preempt ZERO_PREEMPT -> install ok
install 0 1 preempt ZERO_PREEMPT -> refused C12 Older 2
install 0 3 preempt ZERO_PREEMPT -> refused C13 NotDrawn
install 0 2 place ZERO_PREEMPT -> refused C14 WrongHook
""",
]


def image(version, hook, shapes, text):
    return images.Image(version, hook, shapes, assembled(lines(text))).spelled().hex()


WORDS = {
    "COUNTING": image(1, "preempt", ((8, 1),), COUNTING),
    "COUNTED": image(1, "preempt", (), COUNTED),
    "ZERO_PREEMPT": "425150490101000002000000b7000000000000009500000000000000",
    "ZERO_PLACE": image(1, "place", (), "mov64 r0, 0 / exit"),
    "OWN_PLACE": image(1, "place", (), OWN_PLACE),
    "WIDE_OWN_PLACE": image(2, "place", (), OWN_PLACE),
    "ONE_PULL": image(1, "pull", (), "mov64 r0, 1 / exit"),
    "TWO_PULL": image(1, "pull", (), "mov64 r0, 2 / exit"),
    "OWN_PULL": image(1, "pull", (), OWN_PULL),
    "ZEROS": " ".join("0" * 32),
}


def parted(worked):
    """The lines and the replies of a worked trace."""
    trace, expected = [], []
    for row in worked.strip().splitlines():
        line, _, reply = row.partition("->")
        trace += [" ".join(WORDS.get(word, word) for word in line.split())] if line.strip() else []
        expected += [" ".join(WORDS.get(word, word) for word in reply.split())] if reply else []
    return trace, expected


def check():
    """Raises AssertionError where the model answers otherwise."""
    for text, spelled in BYTES:
        assert assembled(lines(text)) == bytes.fromhex(spelled), text
    for text, r0, steps in PROGRAMS:
        run = machine.Run(assembled(lines(text)), bytes(56), [], 0, 0, [0] * machine.COUNTERS)
        assert run.to_exit() == (r0, steps), text
    for text, longest in BUDGETS:
        assert machine.budget(assembled(lines(text))) == longest, text
    for worked in TRACES:
        trace, expected = parted(worked)
        assert replies("\n".join(trace)) == expected, trace
