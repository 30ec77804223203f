#!/bin/sh
# Measures `praefect rehearse` on a quarter, a half and the whole of a long script, beside `wc -l` on the same file, and
# beside a program that reads the lines and writes each by itself, with no work between.
# Build the program first: cd crates/praefect && rt run -- rehearse < stdin
set -eu
top=$(cd "$(dirname "$0")/.." && pwd)
votes=${1:-100000}
work=$(mktemp -d)
trap 'rm -rf "$work"' EXIT

measure() {
    python3 - "$@" <<'PY'
import os, resource, subprocess, sys
script, *command = sys.argv[1:]
with open(script, "rb") as source, open(script + ".out", "wb") as sink:
    subprocess.run(command, stdin=source, stdout=sink, check=True)
usage = resource.getrusage(resource.RUSAGE_CHILDREN)
print(f"{usage.ru_utime:8.2f} s user {usage.ru_stime:8.2f} s system {usage.ru_maxrss // 1024:6d} MiB", end="")
PY
}

for kind in votes all rounds wide; do
    for part in 4 2 1; do
        script=$work/script
        python3 "$top/bench/make_script.py" $((votes / part)) "$kind" >"$script"
        lines=$(wc -l <"$script")
        printf '%-6s %8d lines:' "$kind" "$lines"
        measure "$script" "$top/crates/praefect/out/praefect" rehearse
        printf '   wc -l:'
        measure "$script" wc -l
        printf '   a write a line:'
        LC_ALL=C measure "$script" grep --line-buffered ''
        printf '\n'
    done
done
