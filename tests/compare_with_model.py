#!/usr/bin/env python3
"""Compares bqsim with a model that is written from docs/ alone.

    tests/compare_with_model.py BQSIM [TRACES [SEED]]    compares what is answered to so many drawn traces (100 if left out)
    tests/compare_with_model.py BQSIM FILE               compares the replies to the trace in the file

BQSIM is the path of the program. Traces are of both rules and all sizes, with policies at the hooks, counters, events that
are refused, images that are not loaded, and bad lines. Each reply must be the same. Beside each trace policies are drawn and
changed a little; `asm` must assemble them to the model's bytes, and `check` must say the same of images of which the answer
is known. Where it is not known the program decides what is accepted, and then no run may trap in the model: the traces run
these policies too.

The first trace that is answered otherwise is left in differs.trace, without the lines that do not matter. `tests/quick.py`
compares some of these. Last seen: 4,000 traces, 3,973,694 replies alike.

`tests/model/` is the model, a file for each page: `scheduler` (SCHEDULING.md), `contexts` (CONTEXTS.md), `machine`
(BPF.md, INSTRUCTIONS.md), `assembler` (ASSEMBLER.md), `images` (IMAGE.md), `replies` (TRACE.md). `programs`, `changes`
and `draw` draw policies and traces, `verdicts` has programs of which VERIFIER.md says whether they are accepted, and
`worked` has rows that the model itself must answer before it is believed. The model verifies nothing.
"""
import os
import random
import subprocess
import sys
import time

sys.dont_write_bytecode = True

from model import contexts, draw, images, worked
from model.changes import changed
from model.machine import COUNTERS, Run, Trap
from model.replies import replies


SHORTENING = 20


class Differs(Exception):
    """The program answers otherwise than the model; the text says where."""


def output(program, words, text):
    """The lines that the program writes, with its exit status at the end."""
    done = subprocess.run([program, *words], input=text, capture_output=True, text=True, timeout=600)
    return done.stdout.splitlines() + [f"status {done.returncode}"]


def expect(program, words, text, expected):
    got = output(program, words, text)
    if got != expected:
        raise Differs(f"bqsim {' '.join(words)} answers {got}, the model {expected}, to\n{text}")


# Traces


def compare_trace(program, lines):
    """The number of replies, which are alike."""
    text = "\n".join(lines) + "\n"
    try:
        ours = replies(text)
    except Trap as trap:
        raise Differs(f"a policy traps in the model: {trap}") from trap
    ours.append(f"status {int(any(answer.startswith('bad ') for answer in ours))}")
    theirs = output(program, ["replay"], text)
    for number, (one, other) in enumerate(zip(ours, theirs), 1):
        if one != other:
            raise Differs(f"reply {number}: the model answers {one!r}, the program {other!r}")
    if len(ours) != len(theirs):
        raise Differs(f"the model has {len(ours)} replies, the program {len(theirs)}")
    return len(ours) - 1


def differs(program, lines):
    try:
        compare_trace(program, lines)
    except Differs:
        return True
    return False


def shortened(program, lines):
    """Lines are left out, many at once and then fewer, while the answers still differ, for SHORTENING seconds at most."""
    length, end = len(lines) // 2, time.monotonic() + SHORTENING
    while length:
        at = 0
        while at < len(lines):
            if time.monotonic() > end:
                return lines
            fewer = lines[:at] + lines[at + length :]
            if differs(program, fewer):
                lines = fewer
            else:
                at += length
        length //= 2
    return lines


# Policies


def compare_policy(program, image, text):
    """`asm` gives the bytes of the program and of the image."""
    maps = ",".join(f"{value_size}:{entries}" for value_size, entries in image.shapes)
    form = ["--hook", image.hook, "--format", str(image.version)] + (["--maps", maps] if maps else [])
    expect(program, ["asm"], text, [image.program.hex(), "status 0"])
    expect(program, ["asm", *form], text, [image.spelled().hex(), "status 0"])


def compare_judgement(program, spelled):
    """`check` says of the bytes what the model knows."""
    try:
        image = images.load(spelled)
    except images.Fault as fault:
        return expect(program, ["check"], spelled.hex(), [f"refused {fault}", "status 1"])
    expect(program, ["check"], spelled.hex(), [f"accepted {image.hook} budget {image.budget}", "status 0"])


def accepted(program, unknown):
    """Those of the images that the program loads."""
    trace = ["machine cfs 1"]
    for number, image in enumerate(unknown, 1):
        trace += ["draw", f"install 0 {number} {image.hook} {image.spelled().hex()}"]
    answers = output(program, ["replay"], "\n".join(trace) + "\n")[1::2]
    return [image for image, answer in zip(unknown, answers) if answer == "install ok"]


def run_by_itself(drawing, image):
    """An accepted policy may be shown any bytes, and find any in its maps. It never traps, and ends within its budget."""
    length = contexts.LENGTHS[image.hook, image.version]
    for context in [bytes(length), b"\xff" * length, drawing.randbytes(length)]:
        maps = image.maps()
        for entry in (entry for each in maps for entry in each.entries):
            entry[:] = drawing.randbytes(len(entry))
        counters = [drawing.getrandbits(64) for _ in range(COUNTERS)]
        run = Run(image.program, context, maps, drawing.getrandbits(48), drawing.randrange(64), counters)
        try:
            _, steps = run.to_exit()
        except Trap as trap:
            raise Differs(f"{trap} on the context {context.hex()} in {image.spelled().hex()}") from trap
        if steps > image.budget:
            raise Differs(f"{steps} steps, and a budget of {image.budget}, in {image.spelled().hex()}")


def compare_policies(program, drawing):
    """The images of some policies, and of changed ones that the program accepts."""
    policies = [draw.image(drawing, hook) for hook in images.HOOKS for _ in range(4)]
    good = [image for image, _ in policies]
    compare_policy(program, *drawing.choice(policies))
    compare_judgement(program, drawing.choice(good).spelled())
    compare_judgement(program, draw.judged_image(drawing))
    compare_judgement(program, draw.refused_image(drawing, drawing.choice(good).spelled()))
    others = accepted(program, [changed(drawing, *drawing.choice(policies)) for _ in range(20)])
    for image in others:
        run_by_itself(drawing, image)
    for image in others[:2]:
        compare_judgement(program, image.spelled())
    return good + others


def compare_drawn(program, traces, drawing):
    count = 0
    for _ in range(traces):
        lines = draw.trace(drawing, compare_policies(program, drawing))
        try:
            count += compare_trace(program, lines)
        except Differs:
            lines = shortened(program, lines)
            with open("differs.trace", "w") as file:
                file.write("\n".join(lines) + "\n")
            compare_trace(program, lines)  # says what differs in the short trace
            raise
    return f"{traces} traces, {count} replies alike"


def main():
    if len(sys.argv) not in (2, 3, 4):
        sys.exit(__doc__)
    worked.check()
    program = os.path.abspath(sys.argv[1])
    try:
        if len(sys.argv) == 3 and not sys.argv[2].isdigit():
            with open(sys.argv[2]) as file:
                print(compare_trace(program, file.read().removesuffix("\n").split("\n")), "replies alike")
        else:
            traces = int(sys.argv[2]) if len(sys.argv) > 2 else 100
            print(compare_drawn(program, traces, random.Random(sys.argv[3] if len(sys.argv) > 3 else "1")))
    except Differs as found:
        sys.exit(f"differs: {found}")


if __name__ == "__main__":
    main()
