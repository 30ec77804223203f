"""Compares names and links of objects with git's: checks/git-objects [REPOSITORY]

Without a word it makes a repository in a temporary directory: commits, a merge, an octopus merge, annotated tags, tags of
a tag, a tree and a blob, submodule, executable and symbolic-link entries. With one it takes that repository. Each object's
raw content goes to `plumbing objects`, which prints its name and its links; git tells the same without the program: the
name by `git cat-file --batch`, the links of trees by `git diff-tree`, of commits by `git log`, of tags by
`git for-each-ref` and `git cat-file -p`.

The status is 0 where all agree, 1 where something differs, 2 where the check cannot be made, and 77 where git or python3 is
missing.
"""

import collections
import os
import pathlib
import subprocess
import sys
import tempfile

TOP = pathlib.Path(__file__).resolve().parent.parent
PROGRAM = TOP / "crates" / "plumbing" / "out" / "plumbing"
EMPTY_TREE = "4b825dc642cb6eb9a060e54bf8d69288fbee4904"
SUBMODULE = "160000"


def stop(message):
    print(f"git-objects: {message}", file=sys.stderr)
    sys.exit(2)


class Repository:
    """A repository, and what git tells of it."""

    def __init__(self, path, home):
        self.path = path
        self.environment = dict(
            os.environ,
            HOME=home,
            GIT_CONFIG_NOSYSTEM="1",
            GIT_CONFIG_GLOBAL=os.devnull,
            GIT_NO_REPLACE_OBJECTS="1",
            GIT_AUTHOR_NAME="A",
            GIT_AUTHOR_EMAIL="a@example.com",
            GIT_AUTHOR_DATE="1700000000 +0000",
            GIT_COMMITTER_NAME="A",
            GIT_COMMITTER_EMAIL="a@example.com",
            GIT_COMMITTER_DATE="1700000000 +0000",
        )

    def git(self, *words, given=b""):
        command = ["git", "--shallow-file", "", "-c", "safe.directory=*", "-c", "advice.nestedTag=false", "-C", self.path, *words]
        done = subprocess.run(command, input=given, env=self.environment, stdout=subprocess.PIPE)
        if done.returncode != 0:
            stop(f"git {words[0]} ended with {done.returncode}")
        return done.stdout

    def id(self, *words, given=b""):
        return self.git(*words, given=given).decode().strip()

    def objects(self):
        """Each object's name, kind and raw content."""
        stream = self.git("cat-file", "--batch-all-objects", "--batch")
        at = 0
        while at < len(stream):
            end = stream.index(b"\n", at)
            name, kind, size = stream[at:end].decode().split(" ")
            begin = end + 1
            at = begin + int(size) + 1
            yield name, kind, stream[begin : at - 1]

    def tree_links(self, trees):
        """The entries of each tree that are no submodules: those by which it differs from the empty tree."""
        pairs = "".join(f"{EMPTY_TREE} {tree}\n" for tree in trees if tree != EMPTY_TREE)
        links = {tree: [] for tree in trees}
        for line in self.git("diff-tree", "--stdin", "--raw", "--no-abbrev", given=pairs.encode()).splitlines():
            words = line.split(b"\t")[0].decode().split(" ")
            if words[0].startswith(":"):
                if words[1] != SUBMODULE:
                    links[tree].append(words[3])
            else:
                tree = words[1]
        return links

    def commit_links(self, commits):
        """The tree and the parents of each commit."""
        text = self.git(
            "log", "--no-walk=unsorted", "--stdin", "--no-show-signature", "--format=%H %T %P",
            given="".join(f"{commit}\n" for commit in commits).encode(),
        ) if commits else b""
        rows = (line.split(" ") for line in text.decode().splitlines())
        return {row[0]: [word for word in row[1:] if word] for row in rows}

    def tag_links(self, tags):
        """The object of each tag: of those with a reference at once, of the others one by one."""
        text = self.git("for-each-ref", "--format=%(objecttype) %(objectname) %(object)").decode()
        rows = (line.split(" ") for line in text.splitlines() if line.startswith("tag "))
        links = {row[1]: [row[2]] for row in rows}
        for tag in tags:
            if tag not in links:
                links[tag] = [self.git("cat-file", "-p", tag).decode(errors="replace").split()[1]]
        return links

    def links(self, kinds):
        blobs = {name: [] for name in kinds["blob"]}
        trees = self.tree_links(kinds["tree"])
        commits = self.commit_links(kinds["commit"])
        return {**blobs, **trees, **commits, **self.tag_links(kinds["tag"])}


def make(repository):
    """Fills a new repository."""
    named = repository.id
    repository.git("init", "--quiet", "--object-format=sha1")
    hello = named("hash-object", "-w", "--stdin", given=b"hello\n")
    empty = named("hash-object", "-w", "--stdin", given=b"")
    every_byte = named("hash-object", "-w", "--stdin", given=bytes(range(256)))
    target = named("hash-object", "-w", "--stdin", given=b"docs/hello")

    def add(mode, name, path):
        repository.git("update-index", "--add", "--cacheinfo", f"{mode},{name},{path}")

    def commit(message, *parents):
        words = [word for parent in parents for word in ("-p", parent)]
        return named("commit-tree", named("write-tree"), *words, given=message)

    root = named("commit-tree", named("mktree"), given=b"empty\n")
    add("100644", hello, "docs/hello")
    add("100755", empty, "bin/run")
    first = commit(b"first\n", root)
    add("120000", target, "link")
    add("160000", "1" * 40, "modules/one")
    second = commit(b"second\n", first)
    add("100644", every_byte, "a name with spaces and \N{LATIN SMALL LETTER E WITH ACUTE}")
    third = commit(b"third\nparent " + b"2" * 40 + b"\n", first)
    merge = commit(b"merge\n", second, third)
    add("160000", "3" * 40, "modules/two")
    octopus = commit(b"octopus\n", merge, root, second, third)
    repository.git("update-ref", "refs/heads/main", octopus)
    repository.git("tag", "-a", "-m", "one", "one", octopus)
    repository.git("tag", "-a", "-m", "of a tag", "two", "one")
    repository.git("tag", "-a", "-m", "of a tree", "tree", octopus + "^{tree}")
    repository.git("tag", "-a", "-m", "of a blob", "blob", hello)
    repository.git("tag", "-d", "one")


def program_lines(objects, work):
    """What the program prints of each object."""
    stream = pathlib.Path(work, "stream")
    with open(stream, "wb") as file:
        for _, kind, content in objects:
            file.write(f"{kind} {len(content)}\n".encode() + content + b"\n")
    with open(stream, "rb") as file:
        done = subprocess.run([PROGRAM, "objects"], stdin=file, stdout=subprocess.PIPE)
    if done.returncode != 0:
        stop(f"the program ended with {done.returncode}")
    return done.stdout.decode().splitlines()


def compare(repository, work):
    """How many objects of each kind there are, and the lines that differ."""
    objects = list(repository.objects())
    kinds = collections.defaultdict(list)
    for name, kind, _ in objects:
        kinds[kind].append(name)
    links = repository.links(kinds)
    lines = program_lines(objects, work)
    if len(lines) != len(objects):
        stop(f"the program printed {len(lines)} lines for {len(objects)} objects")
    wanted = (" ".join([name, *links[name]]) for name, _, _ in objects)
    return kinds, [(want, line) for want, line in zip(wanted, lines) if want != line]


def main():
    if len(sys.argv) > 2:
        stop("usage: checks/git-objects [REPOSITORY]")
    if not PROGRAM.exists():
        stop("first make the program: cd crates/plumbing && rt run -- objects < stdin")
    with tempfile.TemporaryDirectory() as work:
        path = sys.argv[1] if len(sys.argv) == 2 else os.path.join(work, "repository")
        repository = Repository(path, work)
        if len(sys.argv) < 2:
            os.mkdir(path)
            make(repository)
        if repository.id("rev-parse", "--show-object-format") != "sha1":
            stop("the repository does not name its objects by SHA-1")
        kinds, differing = compare(repository, work)
    for want, line in differing:
        print(f"git:     {want}\nprogram: {line}")
    counts = ", ".join(f"{len(kinds[kind])} {kind}s" for kind in ("commit", "tree", "blob", "tag"))
    print(f"{counts}: " + (f"{len(differing)} differ" if differing else "all agree"))
    return 1 if differing else 0


if __name__ == "__main__":
    sys.exit(main())
