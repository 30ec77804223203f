#!/usr/bin/env python3
"""Writes a script of many replication jobs to standard output: make_jobs.py plan REPOSITORIES PLANS
or make_jobs.py work REPOSITORIES JOBS

`plan`: three storages are taken in and raised, and the repositories are created on all of them, made and enrolled on two.
So one storage lags behind in each repository. Then the line `reconcile` comes as often as is told: the first one makes a job
for each repository, and each later one finds that there is a job already.

`work`: two storages are taken in and raised, and the repositories are created, made and enrolled on both. The second storage
goes down, each repository is pushed to once, by the lines of make_pushes.py, and the storage is raised again. One `reconcile`
makes a job for each repository, and a worker of the second storage does as many of them as are told, one after the other:
`take`, `snapshot`, `apply` and `done`. No line is refused, and each job ends completed.

Storages are numbered from 0 and repositories too, and a plan goes over the repositories in turn, so the job of a repository is
the one after its number. Of a repository, the creation has the lease 1, its one push the lease 2, and its job the lease 3.
"""

import sys

from make_pushes import NO_OBJECT, make_ready, push

LEASE_OF_THE_JOB = 3


def plans(repositories, count):
    yield from make_ready(repositories, "abc", "ab")
    for _ in range(count):
        yield "reconcile"


def work(repositories, count):
    yield from make_ready(repositories, "ab", "ab")
    yield "health b down"
    for repo in range(repositories):
        lines, _ = push(repo + 1, repo, NO_OBJECT, "a")
        yield from lines
    yield "health b up"
    yield "reconcile"
    for job in range(1, count + 1):
        yield f"take b {job}"
        for word in ("snapshot", "apply", "done"):
            yield f"{word} {job} {LEASE_OF_THE_JOB}"


def main():
    kind, repositories, count = sys.argv[1], int(sys.argv[2]), int(sys.argv[3])
    lines = {"plan": plans, "work": work}[kind]
    for line in lines(repositories, count):
        sys.stdout.write(line + "\n")


if __name__ == "__main__":
    main()
