#!/usr/bin/env python3
"""Compares the examples of the public calls with the tests that run them.

Each `# Example` of a doc comment in crates/*/src has to stand, line for line, in the body of one function of examples.rt or
world_examples.rt in crates/bq_trials/src (without the lines that fetch `alloc` and end the test). Usage: tests/examples.py
"""
import pathlib
import re
import sys

TOP = pathlib.Path(__file__).resolve().parent.parent
FILES = ("examples.rt", "world_examples.rt")
LEFT_OUT = ("let alloc = rt.alloc();", "Ok(())")


def bodies(text):
    """The bodies of the functions of a file, without indent and the lines left out."""
    for body in re.findall(r"(?ms)^fn .*?\{\n(.*?)^\}", text):
        lines = [line[4:] for line in body.splitlines() if line.strip()]
        yield tuple(line for line in lines if line not in LEFT_OUT)


def examples(text):
    """The examples of a file's doc comments."""
    for block in re.findall(r"/// # Example\n\s*///\n\s*/// ```\n(.*?)\n\s*/// ```", text, re.S):
        yield tuple(re.sub(r"^\s*/// ?", "", line) for line in block.split("\n"))


def main():
    known = set()
    for name in FILES:
        known |= set(bodies((TOP / "crates/bq_trials/src" / name).read_text()))
    number, wrong = 0, 0
    for file in sorted(TOP.glob("crates/*/src/**/*.rt")):
        for example in examples(file.read_text()):
            number += 1
            if example not in known:
                wrong += 1
                print(f"{file.relative_to(TOP)}: an example that no test runs:", *example, sep="\n    ")
    print(f"{number} examples, {wrong} that no test runs")
    return 1 if wrong or not number else 0


if __name__ == "__main__":
    sys.exit(main())
