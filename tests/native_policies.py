#!/usr/bin/env python3
"""Compares policies in C, as bqsim imports and runs them, with the same C compiled for the machine itself.

    tests/native_policies.py BQSIM [ASKS [SEED]]    until so many asks were compared (100,000 if left out)

Twelve policies, those of policies/c and of tests/c, are compiled for BPF, imported and assembled by BQSIM, and compiled once
more for this machine. Drawn traces install them. In the model (tests/model), which rebuilds what each ask is shown from docs/
alone, both are asked: the answers, the maps and the counters have to be the same after each ask. The replies of BQSIM to the
trace have to be those of the model.

Needs clang for BPF: CLANG names it (clang-19 if it does not), CPU says for
which BPF (v4), LEVEL how they optimize (-O2). It is run by hand, and is no part of the gate.
Last seen: 2026-12-01, with clang 19.1.7, 12 policies, 100,511 asks and 696,315 replies alike.
"""
import ctypes
import os
import pathlib
import random
import re
import subprocess
import sys
import tempfile

sys.dont_write_bytecode = True

from compare_with_model import Differs, compare_trace
from model import draw, images, machine

HERE = pathlib.Path(__file__).resolve().parent
HEADER = HERE.parent / "policies/c"
CLANG = os.environ.get("CLANG", "clang-19")
CPU = os.environ.get("CPU", "v4")
LEVEL = os.environ.get("LEVEL", "-O2")
WORD = ctypes.c_uint64


class Shape(ctypes.Structure):
    _fields_ = [("bytes", ctypes.c_void_p), ("value_size", ctypes.c_uint32), ("entries", ctypes.c_uint32)]


def run(words, **more):
    return subprocess.run([str(word) for word in words], check=True, capture_output=True, **more).stdout


class Native:
    """A policy that is compiled for this machine."""

    def __init__(self, source, room):
        made = room / f"{source.stem}.so"
        run([CLANG, "-shared", "-fPIC", LEVEL, f"-I{HEADER}", source, HERE / "c/helpers.c", "-o", made])
        self.code = ctypes.CDLL(str(made))
        self.code.policy.restype = WORD
        self.shapes = (Shape * 8).in_dll(self.code, "maps")
        self.counters = (WORD * 64).in_dll(self.code, "counters")
        self.now, self.processor = (WORD.in_dll(self.code, name) for name in ("now", "processor"))

    def ask(self, context, maps, time, processor, counters):
        """The answer, and the bytes of the maps and the counters after it."""
        memory = [ctypes.create_string_buffer(b"".join(each.entries), len(each.entries) * each.value_size) for each in maps]
        for shape, each, given in zip(self.shapes, maps, memory):
            shape.bytes, shape.value_size, shape.entries = ctypes.addressof(given), each.value_size, len(each.entries)
        self.counters[:] = counters
        self.now.value, self.processor.value = time, processor
        answer = self.code.policy(ctypes.create_string_buffer(bytes(context), len(context)))
        return answer, [given.raw for given in memory], list(self.counters)


class Both(machine.Run):
    """A run in the model beside the native one."""

    natives, asks = {}, 0

    def to_exit(self):
        name, native = self.natives[self.program]
        given = self.context, self.maps, self.time, self.processor, self.counters
        theirs = native.ask(*given)
        answer, steps = super().to_exit()
        ours = answer, [b"".join(each.entries) for each in self.maps], list(self.counters)
        if ours != theirs:
            raise Differs(f"{name} answers {ours}, and natively {theirs}, of the context {self.context.hex()}")
        Both.asks += 1
        return answer, steps


def said(source, key):
    """The word after the key in the head comment, which may be one line."""
    found = re.search(rf"^[ /*]*{key}: *([^\s*]+)", source.read_text(), re.M)
    return found.group(1) if found else None


def image(bqsim, source, room):
    """The policy as an image, by BQSIM."""
    code, text = (room / f"{source.stem}.{end}" for end in ("o", "s"))
    run([CLANG, "-target", "bpf", f"-mcpu={CPU}", LEVEL, "-Wall", "-Wextra", f"-I{HEADER}", "-c", source, "-o", code])
    options = [word for key in ("hook", "maps", "format") if said(source, key) for word in (f"--{key}", said(source, key))]
    text.write_bytes(run([bqsim, "import", *options, code]))
    return images.load(bytes.fromhex(run([bqsim, "asm", *options], input=text.read_bytes()).decode()))


def main():
    if len(sys.argv) not in (2, 3, 4):
        sys.exit(__doc__)
    bqsim = os.path.abspath(sys.argv[1])
    asks = int(sys.argv[2]) if len(sys.argv) > 2 else 100_000
    drawing = random.Random(sys.argv[3] if len(sys.argv) > 3 else "1")
    sources = sorted([*HEADER.glob("*.c"), *(each for each in (HERE / "c").glob("*.c") if each.stem != "helpers")])
    with tempfile.TemporaryDirectory() as folder:
        room = pathlib.Path(folder)
        made = [(source, image(bqsim, source, room)) for source in sources]
        for source, each in made:
            Both.natives[each.program] = source.stem, Native(source, room)
        machine.Run, replies = Both, 0
        policies = [each for _, each in made]
        try:
            while Both.asks < asks:
                replies += compare_trace(bqsim, [line for line in draw.trace(drawing, policies) if is_ours(line, policies)])
        except Differs as found:
            sys.exit(f"differs: {found}")
    print(f"{len(sources)} policies, {Both.asks} asks and {replies} replies alike")


def is_ours(line, policies):
    """Whether the line installs no policy but these."""
    words = line.split()
    return words[:1] != ["install"] or words[-1] == "none" or words[-1] in {each.spelled().hex() for each in policies}


if __name__ == "__main__":
    main()
