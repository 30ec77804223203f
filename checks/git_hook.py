"""Compares the hook text and the vote of pushes with what git hands to its hook: checks/git-hook

Makes a repository in a temporary directory whose reference-transaction hook saves its input, and runs transactions of
creations, updates and deletions by `git update-ref --stdin`. The saved input of the state `prepared` has to be, byte for
byte, what `plumbing hook` prints of the same list, and `sha1sum` of it what `plumbing vote` prints. Git runs the hook once
more for its packed references where something is deleted: that input is told, and not compared.

The status is 0 where all agree, 1 where something differs, 2 where the check cannot be made, and 77 where git or python3 is
missing.
"""

import hashlib
import os
import pathlib
import subprocess
import sys
import tempfile

TOP = pathlib.Path(__file__).resolve().parent.parent
PROGRAM = TOP / "crates" / "plumbing" / "out" / "plumbing"
ZERO = "0" * 40
HOOK = """#!/bin/sh
at=$(ls "$SAVED" | wc -l)
cat >"$SAVED/$(printf %04d "$at").$1"
"""


def stop(message):
    print(f"git-hook: {message}", file=sys.stderr)
    sys.exit(2)


def transactions(first, second):
    """Lists of updates, each as old name, new name and reference: in no order of their names."""
    return [
        ("one creation", [(ZERO, first, "refs/tags/empty")]),
        ("creations", [(ZERO, first, f"refs/heads/{name}") for name in ("z", "m", "a/b", "a-b", "@")]),
        ("updates and a creation", [(first, second, "refs/heads/m"), (ZERO, second, "refs/notes/n"), (first, first, "refs/heads/z")]),
        ("deletions", [(second, ZERO, "refs/heads/m"), (first, ZERO, "refs/heads/a/b")]),
        ("all of them", [(first, ZERO, "refs/heads/z"), (ZERO, first, "refs/heads/y"), (second, first, "refs/notes/n")]),
        ("many creations", [(ZERO, second, f"refs/many/{number}") for number in range(1000)]),
    ]


class Repository:
    """A repository whose hook saves its input."""

    def __init__(self, work):
        self.path, self.saved = str(work / "repository"), work / "saved"
        self.environment = dict(
            os.environ, HOME=str(work), GIT_CONFIG_NOSYSTEM="1", GIT_CONFIG_GLOBAL=os.devnull, SAVED=str(self.saved),
            GIT_AUTHOR_NAME="A", GIT_AUTHOR_EMAIL="a@example.com", GIT_COMMITTER_NAME="A", GIT_COMMITTER_EMAIL="a@example.com",
        )
        self.saved.mkdir()
        self.git("init", "--quiet", "--bare", self.path, inside=False)
        hook = pathlib.Path(self.path, "hooks", "reference-transaction")
        hook.parent.mkdir(exist_ok=True)
        hook.write_text(HOOK)
        hook.chmod(0o755)

    def git(self, *words, given=b"", inside=True):
        command = ["git", "-c", "safe.directory=*", *(["-C", self.path] if inside else []), *words]
        done = subprocess.run(command, input=given, env=self.environment, stdout=subprocess.PIPE)
        if done.returncode != 0:
            stop(f"git {words[0]} ended with {done.returncode}")
        return done.stdout.decode().strip()

    def commit(self, message):
        return self.git("commit-tree", self.git("mktree"), given=message)

    def prepared(self, updates):
        """Does a transaction, and gives what the hook was given in the state `prepared`, each time it ran."""
        for file in self.saved.iterdir():
            file.unlink()
        lines = "".join(f"update {name} {new} {old}\n" for old, new, name in updates)
        self.git("update-ref", "--stdin", given=f"start\n{lines}prepare\ncommit\n".encode())
        return [file.read_bytes() for file in sorted(self.saved.iterdir()) if file.suffix == ".prepared"]


def program(word, updates):
    text = "".join(f"{old} {new} {name}\n" for old, new, name in updates)
    done = subprocess.run([PROGRAM, word], input=text.encode(), stdout=subprocess.PIPE)
    if done.returncode != 0:
        stop(f"plumbing {word} ended with {done.returncode}")
    return done.stdout


def agrees(what, updates, inputs):
    text, vote = program("hook", updates), program("vote", updates).decode().strip()
    others = [given for given in inputs if given != text]
    agree = text in inputs and vote == hashlib.sha1(text).hexdigest()
    if not agree and any(sorted(given.splitlines()) == sorted(text.splitlines()) for given in inputs):
        print(f"{what}: git has the same lines in another order")
    print(f"{what}: {len(updates)} updates, {'agree' if agree else 'DIFFER'}; {len(others)} other inputs of the hook")
    return agree


def main():
    if not PROGRAM.exists():
        stop("first make the program: cd crates/plumbing && rt run -- objects < stdin")
    with tempfile.TemporaryDirectory() as work:
        repository = Repository(pathlib.Path(work))
        first, second = repository.commit(b"first\n"), repository.commit(b"second\n")
        rows = [(what, updates, repository.prepared(updates)) for what, updates in transactions(first, second)]
        return 0 if all([agrees(*row) for row in rows]) else 1


if __name__ == "__main__":
    sys.exit(main())
