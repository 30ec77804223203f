"""Measures a program that rehearses scripts of pushes: pushes.py PROGRAM PUSHES

The scripts are those of make_pushes.py and of make_script.py. What pushes take is the difference of a run with them and one
that only makes the repositories ready. Each reply is looked at: where a line is refused, or a push does not end committed,
nothing is measured.
"""

import sys

from measuring import Measuring, Run

LINES_OF_A_PUSH = 17
LINES_OF_A_VOTE = 8
REPOSITORIES = [100, 10_000]


def is_committed(words):
    # The end of a push has its generation alone; a vote that is committed has a hash and weights.
    return words[0] == b"committed" and len(words) == 2


def measure_pushes(measuring, counts, repositories):
    """What so many pushes took, each count in a run of its own."""
    ready = measuring.run("make_pushes.py", 0, repositories)
    print(f"{repositories:,} repositories made ready: {ready.seconds:.2f} s, {ready.mebibytes:.0f} MiB", flush=True)
    took = []
    for count in counts:
        run = measuring.run("make_pushes.py", count, repositories)
        measuring.look_at("pushes ended committed", is_committed, count)
        took.append(Run(run.seconds - ready.seconds, run.mebibytes))
        seconds = took[-1].seconds
        each = 1e6 * seconds / count
        print(f"  {count:,} pushes: {seconds:.2f} s, {each:.0f} µs each; {run.mebibytes:.0f} MiB in all", flush=True)
    half, whole = took
    more = 1024 * (whole.mebibytes - half.mebibytes) / (counts[1] - counts[0])
    print(f"  twice the pushes: {whole.seconds / half.seconds:.2f} times the time; each push more: {more:.2f} KiB")
    return took


def measure_votes(measuring, lines):
    votes = measuring.run("make_script.py", lines // LINES_OF_A_VOTE, "votes")
    print(f"{lines:,} lines of votes: {votes.seconds:.2f} s, {votes.mebibytes:.0f} MiB", flush=True)
    return votes


def main():
    program, pushes = sys.argv[1], int(sys.argv[2])
    counts = [pushes // 2, pushes]
    with Measuring(program) as measuring:
        few, many = (measure_pushes(measuring, counts, repositories) for repositories in REPOSITORIES)
        votes = [measure_votes(measuring, LINES_OF_A_PUSH * count) for count in counts]
    print(f"a push into many repositories takes {many[1].seconds / few[1].seconds:.2f} times one into few")
    for name, took in (("few", few), ("many", many)):
        times = [f"{a.seconds / b.seconds:.2f}" for a, b in zip(took, votes)]
        print(f"as many lines of pushes take, into {name} repositories, {' and '.join(times)} times those of votes")


main()
