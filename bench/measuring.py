"""What the measures of rehearsed scripts share.

A time is the least of several runs, user and system time together; memory is the most that a run held, and is never told below
what this program holds itself.
"""

import collections
import os
import subprocess
import sys
import tempfile

Run = collections.namedtuple("Run", "seconds mebibytes")


def measure_once(program, script, replies):
    with open(script, "rb") as source, open(replies, "wb") as sink:
        process = subprocess.Popen([program, "rehearse"], stdin=source, stdout=sink)
        _, status, usage = os.wait4(process.pid, 0)
    process.returncode = os.waitstatus_to_exitcode(status)
    if process.returncode != 0:
        sys.exit(f"the program ended with status {process.returncode}")
    return Run(usage.ru_utime + usage.ru_stime, usage.ru_maxrss / 1024)


class Measuring:
    """One script after the other, in a folder that is gone at the end."""

    def __init__(self, program, turns=3):
        self.program, self.turns = program, turns
        self.folder = tempfile.TemporaryDirectory()
        self.script, self.replies = (os.path.join(self.folder.name, name) for name in ("script", "replies"))

    def __enter__(self):
        return self

    def __exit__(self, *_):
        self.folder.cleanup()

    def run(self, generator, *words):
        """The script that a program beside this one writes."""
        path = os.path.join(os.path.dirname(os.path.abspath(__file__)), generator)
        with open(self.script, "wb") as script:
            subprocess.run([sys.executable, "-B", path, *map(str, words)], stdout=script, check=True)
        runs = [measure_once(self.program, self.script, self.replies) for _ in range(self.turns)]
        return Run(min(run.seconds for run in runs), max(run.mebibytes for run in runs))

    def look_at(self, what, is_one, count):
        """Ends with a word where a line was refused, or where of such replies there are not so many."""
        found = 0
        with open(self.replies, "rb") as lines:
            for number, line in enumerate(lines, 1):
                words = line.split()
                if words[0] == b"refused":
                    sys.exit(f"line {number} was answered {line.decode().strip()}")
                found += is_one(words)
        if found != count:
            sys.exit(f"{found} of {count} {what}")
