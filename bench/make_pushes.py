#!/usr/bin/env python3
"""Writes a script of many pushes to standard output: make_pushes.py PUSHES REPOSITORIES

Three storages are taken in and raised, and the repositories are created, made and enrolled on all of them, in 7 lines each.
Then the repositories are pushed to in turn. A push moves one reference from the object that it named, which is none at the
first push to a repository, to a new blob. It is 17 lines: `begin`; of each storage `prepare` and `cast`; of each storage
`collect`, `commit` and `cast`; `finish`. No line is refused, and each push ends committed.
"""

import hashlib
import sys

STORAGES = ["a", "b", "c"]
REFERENCE = "refs/heads/main"
NO_OBJECT = "0" * 40


def object_id(kind, content):
    return hashlib.sha1(b"%s %d\0%s" % (kind.encode(), len(content), content)).hexdigest()


def vote(old, new):
    """What a node votes on one update: the SHA-1 of the line that Git's reference-transaction hook is given of it."""
    return hashlib.sha1(f"{old} {new} {REFERENCE}\n".encode()).hexdigest()


def make_ready(repositories, storages=STORAGES, made=STORAGES):
    """The lines that take storages in and raise them, and that create repositories, which some storages make."""
    for storage in storages:
        yield f"storage default {storage}"
        yield f"health {storage} up"
    for repo in range(repositories):
        yield f"create default r{repo}.git {len(storages)}"
        for storage in made:
            yield f"make {storage} {repo} 1"
            yield f"enrol {repo} {storage} 1"


def push(tx, repo, old, storages=STORAGES):
    """The lines of a push to these storages, and the object that the reference names after it."""
    content = b"push %d\n" % tx
    new = object_id("blob", content)
    agreed = vote(old, new)
    lines = [f"begin {repo}"]
    for storage in storages:
        lines.append(f"prepare {tx} {storage} {old}:{new}:{REFERENCE} with blob:{content.hex()}")
        lines.append(f"cast {tx} {storage} prepared {agreed}")
    for storage in storages:
        lines += [f"collect {tx} {storage} 1", f"commit {tx} {storage}", f"cast {tx} {storage} committed {agreed}"]
    return lines + [f"finish {tx}"], new


def main():
    pushes, repositories = int(sys.argv[1]), int(sys.argv[2])
    for line in make_ready(repositories):
        sys.stdout.write(line + "\n")
    named = [NO_OBJECT] * repositories
    for tx in range(1, pushes + 1):
        repo = (tx - 1) % repositories
        lines, named[repo] = push(tx, repo, named[repo])
        sys.stdout.write("\n".join(lines) + "\n")


if __name__ == "__main__":
    main()
