"""Compares which row of a node is bad, as opening names it, with a reading of the rules here: checks/node-rows [MAPS]

Makes a good map of rows: two repositories that are held, a.git and c.git, one that is held with nothing, one that was
removed, references, and objects of all four kinds. From it come 10,000 maps, or as many as MAPS says, that differ in one
byte that was changed, cut or added, in a key, a value or the number of a table, chosen by a fixed seed. Where it is a byte
of an object's value, every other object is put under its true id, so that its form is looked at. Four maps more stand at
the limits: 32,768 references and one more, and an object of 8 MiB and one of a byte more. `plumbing rows` opens a node
over each map in one run, and its answer has to be that of `first_bad` below.

It prints how many maps opened and how many were refused, and of those that opened how many there are of each kind of
change, with one example each: the row of the good map, and what differs there. The rows of such a map are those of another
node, and nothing in them tells that they were changed.

The status is 0 where all agree, 1 where something differs, 2 where the check cannot be made, and 77 where python3 is
missing.
"""

import collections
import hashlib
import pathlib
import random
import re
import subprocess
import sys

TOP = pathlib.Path(__file__).resolve().parent.parent
PROGRAM = TOP / "crates" / "plumbing" / "out" / "plumbing"
SEED = 7
SECONDS = 600
MAX_REFS = 32768
MAX_CONTENT_BYTES = 8 * 1024 * 1024
KINDS = {1: b"commit", 2: b"tree", 3: b"blob", 4: b"tag"}
REPLICAS, REFS, OBJECTS = 6, 7, 8
TELLING = b"\0\1\2\3\4\5\xff/.@{~ -0189abcflockrs\n"  # bytes that mean something somewhere


def stop(message):
    print(f"node-rows: {message}", file=sys.stderr)
    sys.exit(2)


# The rules. A map of rows is a dictionary from table and key to value.


def is_path(text):
    parts = text.split(b"/")
    return re.fullmatch(rb"[A-Za-z0-9._@+/-]{1,255}", text) and not {b"", b".", b".."} & set(parts)


def is_ref_name(name):
    if not re.fullmatch(rb"refs/[!-~]{1,250}", name) or re.search(rb"[~^:?*[\\]|\.\.|@\{", name) or name.endswith(b"."):
        return False
    return not any(part == b"" or part.startswith(b".") or part.endswith(b".lock") for part in name.split(b"/"))


def has_form(kind, content):
    forms = {
        "commit": rb"tree [0-9a-f]{40}\n.*",
        "tree": rb"([0-7]{1,6} [^\0]+\0.{20})*",
        "blob": rb".*",
        "tag": rb"object [0-9a-f]{40}\ntype (commit|tree|blob|tag)\n.*",
    }
    return re.fullmatch(forms[kind.decode()], content, re.DOTALL)


def name_of(kind, content):
    return hashlib.sha1(b"%s %d\0%s" % (kind, len(content), content)).digest()


def is_replica(key, value):
    last = value[9:17]
    lawful_last = last != b"\xff" * 8 if value[8:9] == b"\1" else last == bytes(8)
    return is_path(key) and len(value) == 18 and value[8] in (0, 1) and value[17] in (0, 1) and lawful_last


def is_reference(name, value, earlier):
    """Of names that stand in order, only one that ends before a slash of a later one is in conflict with it."""
    above = [name[:at] for at, byte in enumerate(name) if byte == ord("/")]
    conflict = any(other in earlier for other in above)
    return is_ref_name(name) and len(value) == 20 and value != bytes(20) and not conflict and len(earlier) < MAX_REFS


def is_object(id, value):
    kind, content = KINDS.get(value[0] if value else 0), value[1:]
    return kind and len(content) <= MAX_CONTENT_BYTES and id == name_of(kind, content) and has_form(kind, content)


def first_bad(rows):
    """The table and the key of the first bad row, if there is one."""
    names = {}  # of each repository that is held, the names of its references so far
    for (table, key), value in sorted(rows.items()):
        path, nul, rest = key.partition(b"\0")
        if table == REPLICAS:
            good = is_replica(key, value)
            if good and value[17] == 1:
                names[key] = set()
        elif table == REFS:
            good = nul and path in names and is_reference(rest, value, names[path])
            if good:
                names[path].add(rest)
        else:
            good = table == OBJECTS and nul and path in names and is_object(rest, value)
        if not good:
            return table, key
    return None


# The maps.


def object_row(path, kind, content):
    code = next(code for code, word in KINDS.items() if word == kind)
    return (OBJECTS, path + b"\0" + name_of(kind, content)), bytes([code]) + content


def replica_row(path, fence, last, held):
    number = 0 if last is None else last
    value = fence.to_bytes(8, "big") + bytes([last is not None]) + number.to_bytes(8, "big") + bytes([held])
    return (REPLICAS, path), value


def objects():
    """A blob, a tree with an entry of each sort, a commit, one that follows it, and a tag."""
    blob = b"hello\n"
    tree = b"100644 hello\0" + name_of(b"blob", blob) + b"160000 lib\0" + b"\x11" * 20 + b"40000 docs\0" + name_of(b"tree", b"")
    who = b"A <a@example.com> 1700000000 +0000\n"
    head = b"tree %s\n" % name_of(b"tree", tree).hex().encode()
    one = head + b"author " + who + b"committer " + who + b"\none\n"
    two = head + b"parent %s\n" % name_of(b"commit", one).hex().encode() + b"author " + who + b"committer " + who + b"\ntwo\n"
    tag = b"object %s\ntype commit\ntag v1\ntagger " % name_of(b"commit", two).hex().encode() + who + b"\nv1\n"
    return [(b"blob", blob), (b"blob", b""), (b"tree", tree), (b"tree", b""), (b"commit", one), (b"commit", two), (b"tag", tag)]


def good_map():
    rows = dict([
        replica_row(b"a.git", 12, 11, True),
        replica_row(b"c.git", 3, None, True),
        replica_row(b"group/empty.git", 2**64 - 1, 2**64 - 2, True),
        replica_row(b"old/removed.git", 258, 0, False),
    ])
    made = objects()
    rows.update(object_row(b"a.git", *each) for each in made)
    rows.update(object_row(b"c.git", *each) for each in made[:3])
    ids = [name_of(*each) for each in made]
    for name, id in [(b"refs/heads/main", ids[5]), (b"refs/heads/main-1", ids[4]), (b"refs/tags/v1", ids[6]), (b"refs/t", ids[2])]:
        rows[REFS, b"a.git\0" + name] = id
    for name, id in [(b"refs/heads/a/b", ids[0]), (b"refs/heads/a.b", ids[1]), (b"refs/@", ids[0])]:
        rows[REFS, b"c.git\0" + name] = id
    return rows


def limit_maps():
    """What the limits allow, and one more of each."""
    held = [replica_row(b"a.git", 1, None, True)]
    references = [((REFS, b"a.git\0refs/%05d" % number), b"\1" * 20) for number in range(MAX_REFS + 1)]
    yield "as many references as there may be", dict(held + references[:-1])
    yield "a reference more", dict(held + references)
    for what, length in [("an object of the greatest size", MAX_CONTENT_BYTES), ("a byte more", MAX_CONTENT_BYTES + 1)]:
        yield what, dict(held + [object_row(b"a.git", b"blob", bytes(length))])


# The changes of one byte.


def parts_of(table, key, value):
    """The parts of a row: what each is, whether it stands in the key or the value, and from where to where."""
    nul = key.find(b"\0")
    if table == REPLICAS:
        yield "the path of a repository", "key", 0, len(key)
        yield "the fence", "value", 0, 8
        yield "the flag of the last lease", "value", 8, 9
        yield "the last lease", "value", 9, 17
        yield "the flag of what is held", "value", 17, 18
    elif table == REFS:
        yield "the path of a reference", "key", 0, nul
        yield "the NUL of a reference", "key", nul, nul + 1
        yield "the name of a reference", "key", nul + 1, len(key)
        yield "the id that a reference names", "value", 0, 20
    else:
        kind = KINDS[value[0]].decode()
        yield "the path of an object", "key", 0, nul
        yield "the NUL of an object", "key", nul, nul + 1
        yield "the id of an object", "key", nul + 1, len(key)
        yield f"the kind of a {kind}", "value", 0, 1
        yield f"the content of a {kind}", "value", 1, len(value)


def one_byte(chooser, text, start, end):
    """The text with a byte changed, cut or added between two places; how, and where."""
    how = chooser.choice(["changed", "cut", "added"]) if start < end else "added"
    if how == "added":
        at, byte = chooser.randrange(start, end + 1), chooser.choice([chooser.randrange(256), chooser.choice(TELLING)])
        return text[:at] + bytes([byte]) + text[at:], how, f"{byte:02x} before byte {at}"
    at = chooser.randrange(start, end)
    if how == "cut":
        return text[:at] + text[at + 1 :], how, f"no {text[at]:02x} at byte {at}"
    one_bit = text[at] ^ 1 << chooser.randrange(8)
    byte = chooser.choice([one_bit, chooser.randrange(256), chooser.choice(TELLING)])
    byte = one_bit if byte == text[at] else byte
    return text[:at] + bytes([byte]) + text[at + 1 :], how, f"{byte:02x} for {text[at]:02x} at byte {at}"


def changed_map(chooser, good):
    """A map that differs in one byte, the kind of the change, and the row with its change."""
    (table, key), value = chooser.choice(list(good.items()))
    part, where, start, end = chooser.choice([("the table of a row", "table", 0, 1), *parts_of(table, key, value)])
    rows = dict(good)
    del rows[table, key]
    if where == "table":
        text, how, what = one_byte(chooser, bytes([table]), 0, 1)
        while how != "changed":
            text, how, what = one_byte(chooser, bytes([table]), 0, 1)
        rows[text[0], key] = value
    elif where == "key":
        text, how, what = one_byte(chooser, key, start, end)
        rows[table, text] = value
    else:
        text, how, what = one_byte(chooser, value, start, end)
        new = key
        if table == OBJECTS and text and text[0] in KINDS and chooser.random() < 0.5:
            part += " under its true id"
            new = key[: key.index(b"\0") + 1] + name_of(KINDS[text[0]], text[1:])
        rows[table, new] = text
    return rows, f"{part}, {how}", f"{table} {shown(table, key)}: {what} of the {where}"


def shown(table, key):
    path, _, rest = key.partition(b"\0")
    return f"{path.decode()} {rest.hex() if table == OBJECTS else rest.decode()}".strip()


def text_of(rows, chooser):
    """The lines of a map, in any order."""
    lines = [f"{table} {key.hex()} {value.hex()}\n" for (table, key), value in rows.items()]
    chooser.shuffle(lines)
    return "".join(lines) + "\n"


def answers(text):
    """What the program says of the maps, a line each."""
    try:
        done = subprocess.run([PROGRAM, "rows"], input=text.encode(), stdout=subprocess.PIPE, timeout=SECONDS)
    except subprocess.TimeoutExpired:
        stop(f"plumbing rows did not end in {SECONDS} seconds")
    if done.returncode != 0:
        stop(f"plumbing rows ended with {done.returncode}")
    return done.stdout.decode().splitlines()


def main():
    if len(sys.argv) > 2 or not all(word.isdecimal() for word in sys.argv[1:]):
        stop("usage: checks/node-rows [MAPS]")
    if not PROGRAM.exists():
        stop("first make the program: cd crates/plumbing && rt run -- objects < stdin")
    chooser, good = random.Random(SEED), good_map()
    maps = [(good, "nothing", ""), *((rows, what, "") for what, rows in limit_maps())]
    maps += [changed_map(chooser, good) for _ in range(int(sys.argv[1]) if len(sys.argv) == 2 else 10_000)]
    told = answers("".join(text_of(rows, chooser) for rows, _, _ in maps))
    if len(told) != len(maps):
        stop(f"plumbing rows printed {len(told)} lines for {len(maps)} maps")
    kinds, differing = collections.defaultdict(list), 0
    for (rows, kind, change), line in zip(maps, told):
        bad = first_bad(rows)
        want = f"bad {bad[0]} {bad[1].hex()}" if bad else "ok"
        if line != want:
            differing += 1
            print(f"{kind}: {change}\n  rules:   {want}\n  program: {line}")
        if line == "ok":
            kinds[kind].append(change)
    opened = sum(len(changes) for changes in kinds.values())
    print(f"{len(maps)} maps: {opened} opened, {len(maps) - opened} were refused, {differing or 'none'} differ")
    for kind, changes in sorted(kinds.items()):
        print(f"{len(changes):6} {kind}" + (f", as {changes[0]}" if changes[0] else ""))
    return 1 if differing else 0


if __name__ == "__main__":
    sys.exit(main())
