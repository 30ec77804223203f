"""Starts `praefect` as a process, and compares its status, its output and its error stream.

What `main` does alone is not proved: that it hands on the arguments of the process, its standard streams, each in its
place, and the exit status. So the built program is started with other words, bad scripts and failing streams; and with one
script that is written line by line, where each reply has to come before the next line is written. All bytes are compared.

The status is 0 where all agree; 1 where something differs; 2 where the program is not made; 77 where the system has no
/dev/full.
"""

import os
import pathlib
import subprocess
import sys

TOP = pathlib.Path(__file__).resolve().parent.parent
PROGRAM = TOP / "crates" / "praefect" / "out" / "praefect"
SECONDS = 20
FULL = "/dev/full"
OPEN = b"open 1 1 a:1\n"
USAGE = b"praefect: usage\n"

# What it shows, the words behind the program's name, the input, and the wanted status, output and error stream.
RUNS = [
    ("no word", [], OPEN, 2, b"", USAGE),
    ("an empty word", [""], OPEN, 2, b"", USAGE),
    ("a wrong word", ["rehearsal"], OPEN, 2, b"", USAGE),
    ("a further word", ["rehearse", "now"], OPEN, 2, b"", USAGE),
    ("the command twice", ["rehearse", "rehearse"], OPEN, 2, b"", USAGE),
    ("a word before the command", ["now", "rehearse"], OPEN, 2, b"", USAGE),
    ("a further word that is no text", ["rehearse", b"\xff"], OPEN, 2, b"", USAGE),
    ("an empty input", ["rehearse"], b"", 0, b"", b""),
    ("a good line", ["rehearse"], OPEN, 0, b"tx 1\n", b""),
    ("a refused line", ["rehearse"], b"open 1 1\n", 0, b"refused NoVoters\n", b""),
    ("a last line without a line feed", ["rehearse"], OPEN + b"stop 1", 0, b"tx 1\nok\n", b""),
    ("a bad first line", ["rehearse"], b"begin\n", 6, b"", b"praefect: line 1: bad line\n"),
    ("a bad line behind good ones", ["rehearse"], OPEN + b"#\nstop\n" + OPEN, 6, b"tx 1\n", b"praefect: line 3: bad line\n"),
    ("a line above its limit", ["rehearse"], b"#" * 1048577, 6, b"", b"praefect: line 1: bad line\n"),
    ("a line at its limit", ["rehearse"], b"#" * 1048576 + b"\n" + OPEN, 0, b"tx 1\n", b""),
]


class Checks:
    """Counts what was compared, and what differed."""

    def __init__(self):
        self.made, self.wrong = 0, 0

    def compare(self, what, told, want):
        self.made += 1
        if told != want:
            self.wrong += 1
            print(f"{what}: {told}, and not {want}")


def run(words, **streams):
    done = subprocess.run([PROGRAM, *words], timeout=SECONDS, **streams)
    return done.returncode, done.stdout, done.stderr


def with_words(checks):
    for what, words, script, *want in RUNS:
        told = run(words, input=script, stdout=subprocess.PIPE, stderr=subprocess.PIPE)
        checks.compare(what, told, tuple(want))


def with_faults(checks):
    """A directory cannot be read, and nothing can be written to a full device."""
    pipe = subprocess.PIPE
    with open(FULL, "wb") as full:
        told = run(["rehearse"], input=OPEN, stdout=full, stderr=pipe)
        checks.compare("a failing output", told, (4, None, b"praefect: write fault\n"))
        told = run(["rehearse"], input=b"begin\n", stdout=pipe, stderr=full)
        checks.compare("a failing error stream at a bad line", told, (6, b"", None))
        told = run([], input=b"", stdout=pipe, stderr=full)
        checks.compare("a failing error stream without a word", told, (2, b"", None))
    folder = os.open(TOP, os.O_RDONLY)
    told = run(["rehearse"], stdin=folder, stdout=pipe, stderr=pipe)
    os.close(folder)
    checks.compare("a failing input", told, (3, b"", b"praefect: read fault\n"))


def line_by_line(checks):
    """Each reply comes before the next line is written."""
    lines = [(OPEN, b"tx 1\n"), (b"outcome 1 1\n", b"open\n"), (b"stop 1\n", b"ok\n")]
    program = subprocess.Popen([PROGRAM, "rehearse"], stdin=subprocess.PIPE, stdout=subprocess.PIPE, bufsize=0)
    for line, want in lines:
        program.stdin.write(line)
        checks.compare(f"{line} by itself", program.stdout.readline(), want)
    program.stdin.close()
    checks.compare("the rest", (program.stdout.read(), program.wait(SECONDS)), (b"", 0))


def main():
    if not PROGRAM.exists():
        print("program: make it first: cd crates/praefect && rt run -- rehearse < stdin", file=sys.stderr)
        sys.exit(2)
    if not os.path.exists(FULL):
        print(f"program: there is no {FULL}", file=sys.stderr)
        sys.exit(77)
    checks = Checks()
    with_words(checks)
    with_faults(checks)
    line_by_line(checks)
    print(f"{checks.made} compared, {checks.wrong} differ")
    sys.exit(1 if checks.wrong else 0)


if __name__ == "__main__":
    main()
