#!/usr/bin/env python3
r"""Runs a command once for each line of standard input. Shows the line, then ->, then what the command writes, and its exit status unless that is 0.

    tests/sessions/each.py out|err|both COMMAND..

The first word says which of the command's streams is shown. If `{}` stands in a word of the command, the line stands in its place.
Otherwise the command reads the line. In a line \n, \t, \r, \\ and \xff are these bytes, and (PART)*N is the part N times. Where a command
writes several lines, they stand below the line, indented.
"""
import re
import subprocess
import sys

ESCAPES = {b"n": b"\n", b"t": b"\t", b"r": b"\r", b"\\": b"\\"}


def bytes_of(line):
    """The bytes that a line stands for."""
    line = re.sub(rb"\(([^()]*)\)\*(\d+)", lambda found: found[1] * int(found[2]), line)
    return re.sub(rb"\\(x..|.)", lambda found: ESCAPES.get(found[1]) or bytes([int(found[1][1:], 16)]), line)


def shown(line, written, status):
    """What is shown of a command: one line, or several where it writes several."""
    ended = written if written.endswith(b"\n") or not written else written + b"(no end of line)\n"
    lines = ended.decode("utf-8", "backslashreplace").splitlines()
    last = [f"[{status}]"] if status else []
    if len(lines) > 1:
        return "\n    ".join([f"{line} ->", *lines, *last])
    return " ".join([line, "->", *lines, *last])


def run(stream, words, line):
    """What a command writes to its streams, of a line, and its status."""
    streams = {
        "out": {"stdout": subprocess.PIPE, "stderr": subprocess.DEVNULL},
        "err": {"stdout": subprocess.DEVNULL, "stderr": subprocess.PIPE},
        "both": {"stdout": subprocess.PIPE, "stderr": subprocess.STDOUT},
    }
    text, words = bytes_of(line), [word.encode() for word in words]
    told = {"stdin": subprocess.DEVNULL} if any(b"{}" in word for word in words) else {"input": text}
    done = subprocess.run([word.replace(b"{}", text) for word in words], **told, **streams[stream])
    return done.stdout or done.stderr or b"", done.returncode


def main():
    stream, *words = sys.argv[1:]
    for line in sys.stdin.buffer.read().splitlines():
        print(shown(line.decode(), *run(stream, words, line)))


if __name__ == "__main__":
    main()
