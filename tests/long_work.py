#!/usr/bin/env python3
"""What a user sees of long work: `simulate --max-events`, an output that is closed early, and the line that shows how far the work is.

    tests/long_work.py BQSIM

The line is to come on standard error if that is a terminal, and not otherwise; it is to be erased at the end. So is the advice that
`check` and `dis` give there where they refuse something, but that stays. The last line is
`N passed, M failed`; the exit status is 1 where one failed.
"""
import os
import pty
import subprocess
import sys
import tempfile
import threading

# Two tasks that take turns, and a tick every 100 ns: 10 events a microsecond.
WORKLOAD = """[machine]
duration = "%s"
tick = "100ns"
[[task]]
name = "a"
run = "1ms"
[[task]]
name = "b"
run = "1ms"
"""
SHORT, LONG, LONGER, ENDLESS = "1ms", "60ms", "400ms", "100s"
SECONDS = 60
CUT = "the run was cut off: it has more events than --max-events allows"
ERASED = b"\r\x1b[K"


def events(trace):
    """How many lines of a trace are events: neither comments nor the line that makes the machine."""
    return sum(not line.startswith(("#", "machine")) for line in trace.splitlines())


class LongWork:
    def __init__(self, program, folder):
        self.program, self.folder = program, folder
        self.passed = self.failed = 0
        for name in (SHORT, LONG, LONGER, ENDLESS):
            with open(os.path.join(folder, name), "w", encoding="ascii") as file:
                file.write(WORKLOAD % name)

    def case(self, name, is_right, seen):
        self.passed += is_right
        self.failed += not is_right
        if not is_right:
            print(f"FAILED {name}: {seen!r}")

    def run(self, *words):
        done = subprocess.run([self.program, *words], cwd=self.folder, stdin=subprocess.DEVNULL, capture_output=True, timeout=SECONDS, text=True)
        return done.returncode, done.stdout, done.stderr

    def cuts(self):
        whole = self.run("simulate", SHORT, "--as", "trace")
        self.case("the whole run", whole[0] == 0 and events(whole[1]) > 1000, whole[2])
        count = events(whole[1])
        for most, status in ((count, 0), (count - 1, 4), (1000, 4), (0, 4)):
            ended, text, said = self.run("simulate", SHORT, "--as", "trace", "--max-events", str(most))
            self.case(f"status with at most {most} events", ended == status, (ended, said))
            self.case(f"what is said with at most {most} events", (CUT in said) == (status == 4), said)
            self.case(f"whole lines of {most} events", whole[1].startswith(text) and text.endswith("\n") and events(text) == most, text[-200:])
        for words in (["--seeds", "2"], ["--against", "none"], []):
            ended, text, said = self.run("simulate", ENDLESS, "--max-events", "1000", *words)
            self.case(f"a cut with {words}", (ended, text) == (4, "") and CUT in said, (ended, text, said))
        for word in ("x", "-1", "1.5", ""):
            ended, text, said = self.run("simulate", SHORT, f"--max-events={word}")
            self.case(f"--max-events={word}", (ended, text) == (2, "") and "--max-events" in said, (ended, text, said))

    def closed(self):
        """The run of ENDLESS takes hours, unless it ends once nothing is read any more."""
        for form in ("trace", "why", "timehist", "csv"):
            words = [self.program, "simulate", ENDLESS, "--as", form]
            with subprocess.Popen(words, cwd=self.folder, stdout=subprocess.PIPE, stderr=subprocess.PIPE) as process:
                first = process.stdout.readline()
                process.stdout.close()
                try:
                    status, said = process.wait(SECONDS), process.stderr.read()
                except subprocess.TimeoutExpired:
                    process.kill()
                    status, said = "it does not end", b""
            self.case(f"--as {form} of which one line is read", (status, said) == (4, b"") and first.endswith(b"\n"), (status, said, first))

    def on_terminal(self, *words):
        """The exit status, what goes to standard output, and what goes to standard error, which is a terminal."""
        ours, theirs = pty.openpty()
        with tempfile.TemporaryFile() as output:
            with subprocess.Popen([self.program, *words], cwd=self.folder, stdin=subprocess.DEVNULL, stdout=output, stderr=theirs) as process:
                os.close(theirs)
                seen = []
                reader = threading.Thread(target=read_all, args=(ours, seen))
                reader.start()
                try:
                    status = process.wait(SECONDS)
                except subprocess.TimeoutExpired:
                    process.kill()
                    status = "it does not end"
                reader.join()
            os.close(ours)
            output.seek(0)
            return status, output.read(), b"".join(seen)

    def shows(self, part, *words):
        status, text, seen = self.on_terminal(*words)
        name = " ".join(words)
        self.case(f"{name}: it shows {part}", status == 0 and part in seen and seen.startswith(ERASED), (status, seen[:200]))
        self.case(f"{name}: it is erased", seen.endswith(ERASED), seen[-200:])
        ended, piped, said = self.run(*words)
        self.case(f"{name}: the same text without a terminal", (ended, piped.encode(), said) == (0, text, ""), (ended, said))

    def progress(self):
        self.shows(b"% simulated", "simulate", LONGER)
        self.shows(b"of 4 runs done", "simulate", LONG, "--seeds", "2", "--against", "none")
        trace = os.path.join(self.folder, "trace")
        with open(trace, "wb") as file:
            subprocess.run([self.program, "simulate", LONG, "--as", "trace"], cwd=self.folder, stdout=file, timeout=SECONDS, check=True)
        self.shows(b"MB read", "timeline", trace)
        self.shows(b"MB read", "replay", trace)
        status, _, seen = self.on_terminal("simulate", SHORT)
        self.case("short work shows nothing", (status, seen) == (0, b""), (status, seen))


    def advice(self):
        """What a refusal adds on a terminal, and only there."""
        policy = os.path.join(self.folder, "refused.s")
        with open(policy, "w", encoding="ascii") as file:
            file.write(";@ hook preempt\nldxw r0, [r1+200]\nexit\n")
        trace = os.path.join(self.folder, "bad.trace")
        with open(trace, "w", encoding="ascii") as file:
            file.write("draw\n")
        explain = b"bqsim: give --explain too, to see why\r\n"
        other = b"bqsim: without a file this reads hex; bqsim %s reads a policy in any form\r\n"
        for words, said in (
            (("check", policy), explain),
            (("check", "--explain", policy), b""),
            (("check", "--json", policy), b""),
            (("check",), other % b"check --explain -"),
            (("dis",), other % b"dis -"),
            (("replay", trace), b"bqsim: a line is bad; bqsim timeline says why\r\n"),
        ):
            name = " ".join(words)
            status, text, seen = self.on_terminal(*words)
            self.case(f"{name}: its advice", (status, seen) == (1, said), (status, seen))
            ended, piped, silent = self.run(*words)
            self.case(f"{name}: no advice without a terminal", (ended, piped.encode(), silent) == (1, text, ""), (ended, silent))


def read_all(terminal, seen):
    """What comes to a terminal until its other end is closed."""
    while True:
        try:
            piece = os.read(terminal, 4096)
        except OSError:
            return
        if not piece:
            return
        seen.append(piece)


def main():
    with tempfile.TemporaryDirectory() as folder:
        work = LongWork(os.path.abspath(sys.argv[1]), folder)
        work.cuts()
        work.closed()
        work.progress()
        work.advice()
    print(f"{work.passed} passed, {work.failed} failed")
    return work.failed > 0


if __name__ == "__main__":
    sys.exit(main())
