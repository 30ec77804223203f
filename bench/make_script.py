#!/usr/bin/env python3
"""Writes a script of many votes to standard output: make_script.py VOTES [votes|all|rounds|wide]

`votes`: each vote is 8 lines: `open` with three voters, three `cast`, three `collect`, one `outcome`. `all`: each vote
is 12 lines: a withdrawal, a cancel, a stop and one more `outcome` follow. `rounds`: transactions of three voters and two
rounds. All are opened first, then voted on one phase after the other, and closed at the end: 14 lines each. `wide`: the
same with a thousandth of the transactions, of 64 voters and 8 rounds, the most that there may be: 1026 lines each.
"""

import sys


def vote(tx, every_line):
    first, second = f"{2 * tx:040x}", f"{2 * tx + 1:040x}"
    lines = [
        "open 2 1 a:1 b:1 c:1",
        f"cast {tx} a prepared {first}",
        f"cast {tx} b prepared {first if tx % 3 else second}",
        f"cast {tx} c prepared {second}",
        f"collect {tx} a 1",
        f"collect {tx} b 1",
        f"collect {tx} c 1",
        f"outcome {tx} 1",
    ]
    if every_line:
        lines += [f"withdraw {tx} a", f"cancel {tx}", f"stop {tx}", f"outcome {tx} 1"]
    return lines


def in_rounds(count, voters, rounds):
    panel = " ".join(f"{voter}:1" for voter in voters)
    for _ in range(count):
        yield f"open {len(voters) // 2 + 1} {rounds} {panel}"
    for phase in ["prepared", "committed"] * rounds:
        for tx in range(1, count + 1):
            for voter in voters:
                yield f"cast {tx} {voter} {phase} {tx:040x}"
    for tx in range(1, count + 1):
        yield f"close {tx}"


def main():
    votes, kind = int(sys.argv[1]), (sys.argv[2:] or ["votes"])[0]
    if kind in ("rounds", "wide"):
        wide = kind == "wide"
        lines = in_rounds(votes // 1000, [f"n{k}" for k in range(64)], 8) if wide else in_rounds(votes, "abc", 2)
        for line in lines:
            sys.stdout.write(line + "\n")
        return
    for tx in range(1, votes + 1):
        sys.stdout.write("\n".join(vote(tx, kind == "all")) + "\n")


if __name__ == "__main__":
    main()
