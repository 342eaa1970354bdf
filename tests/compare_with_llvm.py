#!/usr/bin/env python3
"""Compares `bqsim asm` and `bqsim dis` with LLVM, instruction by instruction.

    tests/compare_with_llvm.py BQSIM        compares; BQSIM is the path of the program
    tests/compare_with_llvm.py --table      prints the pairs that are compared, with LLVM's bytes

It is run by hand, by whoever has LLVM 19 (Debian: llvm-19), and is no part of the gate. LLVM is used as
`llvm-mc -triple bpfel -mcpu v4`, from $LLVM_MC, else llvm-mc-19, else llvm-mc.

Each form of each instruction is written twice, in the words of `bqsim asm` and in LLVM's own syntax, with several operands.
Then it is checked, line by line, that
  1. `bqsim asm` gives the bytes that LLVM's assembler gives;
  2. `bqsim dis` gives back our line from LLVM's bytes;
  3. LLVM's disassembler gives back its line from our bytes.

Left out, since LLVM has nothing to compare with: `ldmap`, a map reference by index (LLVM knows maps by relocations), and
all that is refused: LLVM's disassembler does not judge unused fields. LLVM's assembler takes 16 bits for the distance of
`ja32`, so longer ones are left out too. Labels are resolved before anything is written, so jumps are compared by their
distances.
Last seen: 2026-12-01, with LLVM 19.1.7, 657 of 657 instructions alike in each of the three ways.
"""
import os
import re
import shutil
import subprocess
import sys

ALU = {
    "add": "+=", "sub": "-=", "mul": "*=", "div": "/=", "sdiv": "s/=", "or": "|=", "and": "&=", "lsh": "<<=",
    "rsh": ">>=", "mod": "%=", "smod": "s%=", "xor": "^=", "mov": "=", "arsh": "s>>=",
}
CONDITIONS = {
    "eq": "==", "gt": ">", "ge": ">=", "set": "&", "ne": "!=", "sgt": "s>", "sge": "s>=", "lt": "<", "le": "<=",
    "slt": "s<", "sle": "s<=",
}
LETTERS = {64: "r", 32: "w"}
SIZES = {"b": 8, "h": 16, "w": 32, "dw": 64}
REGISTERS = [(1, 2), (0, 10), (9, 3)]
IMMEDIATES = [5, 0, -1, 2147483647, -2147483648]
OFFSETS = [8, 0, -2, 32767, -32768]
NUMBERS = [0, 7, 4294967295, 4294967296, 9223372036854775808, 18446744073709551615]
HELPERS = [1, 2, 5, 8, 100, 101, 0]


def signed(number):
    return f"+{number}" if number >= 0 else str(number)


def address(register, offset):
    """An address in our words and in LLVM's."""
    sign = "+" if offset >= 0 else "-"
    return f"[r{register}{signed(offset)}]", f"(r{register} {sign} {hexadecimal(abs(offset))})"


def hexadecimal(number):
    """How LLVM 19 prints an immediate."""
    return hex(number) if number >= 0 else "-" + hex(-number)


def pairs():
    """The same instructions in our words and in LLVM's."""
    for width, letter in LETTERS.items():
        for name, sign in ALU.items():
            for immediate in IMMEDIATES:
                yield f"{name}{width} r1, {immediate}", f"{letter}1 {sign} {immediate}"
            for dst, src in REGISTERS:
                yield f"{name}{width} r{dst}, r{src}", f"{letter}{dst} {sign} {letter}{src}"
        for register in (0, 10):
            yield f"neg{width} r{register}", f"{letter}{register} = -{letter}{register}"
        for bits in (8, 16, 32):
            if bits < width:
                for dst, src in REGISTERS:
                    yield f"movsx{width}_{bits} r{dst}, r{src}", f"{letter}{dst} = (s{bits}){letter}{src}"
    for bits in (16, 32, 64):
        for ours, theirs in (("le", "le"), ("be", "be"), ("swap", "bswap")):
            yield f"{ours}{bits} r1", f"r1 = {theirs}{bits} r1"
    for size, bits in SIZES.items():
        for offset in OFFSETS:
            ours, theirs = address(1, offset)
            yield f"ldx{size} r2, {ours}", f"r2 = *(u{bits} *){theirs}"
            if bits < 64:
                yield f"ldxs{size} r2, {ours}", f"r2 = *(s{bits} *){theirs}"
            ours, theirs = address(10, offset)
            yield f"st{size} {ours}, -3", f"*(u{bits} *){theirs} = -3"
            yield f"stx{size} {ours}, r4", f"*(u{bits} *){theirs} = r4"
        for immediate in IMMEDIATES:
            ours, theirs = address(0, 4)
            yield f"st{size} {ours}, {immediate}", f"*(u{bits} *){theirs} = {immediate}"
    for number in NUMBERS:
        yield f"lddw r1, {number}", f"r1 = {number} ll"
    for width, letter in LETTERS.items():
        for name, sign in CONDITIONS.items():
            for offset in OFFSETS:
                yield f"j{name}{width} r1, 5, {signed(offset)}", f"if {letter}1 {sign} 5 goto {signed(offset)}"
            for immediate in IMMEDIATES:
                yield f"j{name}{width} r0, {immediate}, +3", f"if {letter}0 {sign} {immediate} goto +3"
            for dst, src in REGISTERS:
                yield f"j{name}{width} r{dst}, r{src}, -1", f"if {letter}{dst} {sign} {letter}{src} goto -1"
    for offset in OFFSETS:
        yield f"ja {signed(offset)}", f"goto {signed(offset)}"
        yield f"ja32 {signed(offset)}", f"gotol {signed(offset)}"
    for helper in HELPERS:
        yield f"call {helper}", f"call {helper}"
    yield "exit", "exit"


def llvm():
    for name in (os.environ.get("LLVM_MC"), "llvm-mc-19", "llvm-mc"):
        if name and shutil.which(name):
            return [name, "-triple", "bpfel", "-mcpu=v4"]
    sys.exit("no llvm-mc: install llvm-19, or set LLVM_MC")


def run(command, text):
    done = subprocess.run(command, input=text, capture_output=True, text=True)
    if done.returncode != 0:
        sys.exit(f"{' '.join(command)}: status {done.returncode}\n{(done.stderr or done.stdout)[:2000]}")
    return done.stdout


def encodings(lines):
    """The bytes that LLVM's assembler gives for each line, as hex."""
    text = run(llvm() + ["-show-encoding"], "\n".join(lines) + "\n")
    found = re.findall(r"encoding: \[([^\]]*)\]", text)
    if len(found) != len(lines):
        sys.exit(f"LLVM gave {len(found)} encodings for {len(lines)} lines")
    return ["".join(byte.strip()[2:] for byte in encoding.split(",")) for encoding in found]


def plain(line):
    """LLVM's line without differences of spelling: numbers in decimal, wide ones without a sign, one blank between words,
    and whole registers where it names the half that is loaded or stored."""
    line = re.sub(r"0x[0-9a-f]+", lambda number: str(int(number.group(), 16)), line.split("#")[0])
    line = re.sub(r"(-\d+) ll", lambda number: f"{int(number.group(1)) % 2**64} ll", line)
    line = re.sub(r"^w(\d+) = \*", r"r\1 = *", re.sub(r"\s+", " ", line).strip())
    return re.sub(r"(\*\(u\d+ \*\).* = )w(\d+)$", r"\1r\2", line)


def disassembled(encodings):
    """What LLVM's disassembler gives for each of these bytes."""
    text = "\n".join(" ".join("0x" + code[i : i + 2] for i in range(0, len(code), 2)) for code in encodings)
    lines = [line for line in run(llvm() + ["--disassemble"], text + "\n").splitlines() if line.strip()]
    return [line for line in lines if not line.strip().startswith(".text")]


def same(title, names, found, wanted):
    wrong = [row for row in zip(names, found, wanted) if row[1] != row[2]]
    for name, one, other in wrong[:20]:
        print(f"{title}: {name}: {one}, and not {other}")
    if len(found) != len(wanted):
        print(f"{title}: {len(found)} lines, and not {len(wanted)}")
        return False
    print(f"{title}: {len(wanted) - len(wrong)} of {len(wanted)} alike")
    return not wrong


def main():
    if len(sys.argv) != 2:
        sys.exit(__doc__)
    ours, theirs = zip(*pairs())
    codes = encodings(theirs)
    if sys.argv[1] == "--table":
        for row in zip(ours, theirs, codes):
            print(" | ".join(row))
        return
    program = run([sys.argv[1], "asm"], "\n".join(ours) + "\n").strip()
    parts, place = [], 0
    for code in codes:
        parts.append(program[place : place + len(code)])
        place += len(code)
    alike = same("bqsim asm beside LLVM's assembler", ours, parts + [program[place:]][: place < len(program)], codes)
    listing = run([sys.argv[1], "dis"], "".join(codes)).splitlines()
    alike &= same("bqsim dis of LLVM's bytes", ours, listing, list(ours))
    lines = [plain(line) for line in disassembled(parts)]
    alike &= same("LLVM's disassembler of our bytes", ours, lines, [plain(line) for line in theirs])
    sys.exit(0 if alike else 1)


main()
