#!/usr/bin/env python3
"""Gives traces to `bqsim replay` through a pipe, in pieces of 1, 7 and 4096 bytes: the answers must be those to the whole file.

    tests/pieces.py BQSIM [TRACE..]    without traces: tests/every_line.trace and those of examples/

BQSIM is the path of a program. A piece is written when the program has read the one before it, so each of its reads gets one piece. The
exit status is 1 if an answer or a status is another one. `tests/sessions/` gives it the traces of its pages. Linux only.
"""
import fcntl
import struct
import subprocess
import sys
import tempfile
import termios
import time
from pathlib import Path

SIZES = [1, 7, 4096]
TOP = Path(__file__).resolve().parent
SECONDS = 60  # a piece that is not read within this time is an error


def unread(pipe):
    """How many bytes of a pipe nobody has read yet."""
    return struct.unpack("i", fcntl.ioctl(pipe, termios.FIONREAD, b"\0\0\0\0"))[0]


def wait(process, pipe):
    """Waits until the pipe is empty, or the program has ended."""
    end = time.monotonic() + SECONDS
    while unread(pipe) and process.poll() is None:
        if time.monotonic() > end:
            process.kill()
            sys.exit(f"nothing was read within {SECONDS} seconds")
        time.sleep(0)


def answered(program, trace, size):
    """The answers to a trace in pieces of this size, and the exit status."""
    with tempfile.TemporaryFile() as written:
        process = subprocess.Popen([program, "replay"], stdin=subprocess.PIPE, stdout=written, stderr=subprocess.STDOUT, bufsize=0)
        try:
            for at in range(0, len(trace), size):
                process.stdin.write(trace[at : at + size])
                wait(process, process.stdin)
        except BrokenPipeError:
            pass  # it has ended, and its answers say why
        process.stdin.close()
        status = process.wait(SECONDS)
        written.seek(0)
        return status, written.read()


def whole(program, trace):
    done = subprocess.run([program, "replay", trace], stdout=subprocess.PIPE, stderr=subprocess.STDOUT, check=False)
    return done.returncode, done.stdout


def main(program, *traces):
    traces = traces or [str(TOP / "every_line.trace"), *map(str, sorted(TOP.parent.glob("examples/*.trace")))]
    others = 0
    for trace in traces:
        wanted, text = whole(program, trace), Path(trace).read_bytes()
        for size in SIZES:
            if answered(program, text, size) != wanted:
                others += 1
                print(f"{trace}: in pieces of {size} it is answered otherwise")
    print(f"traces: {len(traces)}, answered otherwise in pieces: {others}")
    return 1 if others else 0


if __name__ == "__main__":
    if len(sys.argv) < 2:
        sys.exit(__doc__.strip())
    sys.exit(main(*sys.argv[1:]))
