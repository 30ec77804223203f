#!/bin/sh
# Measures `plumbing hash`, which names objects of 8,000,000 bytes, on 104 MB, beside `sha1sum` on as many bytes.
set -eu
. "$(dirname "$0")/plumbing.sh"
work=$(mktemp -d)
trap 'rm -rf "$work"' EXIT

head -c 104000000 /dev/urandom >"$work/bytes"

measure() {
    python3 - "$@" <<'PY'
import os, resource, subprocess, sys
name, *command = sys.argv[1:]
with open(os.devnull, "wb") as sink:
    subprocess.run(command, stdout=sink, check=True)
usage = resource.getrusage(resource.RUSAGE_CHILDREN)
seconds = usage.ru_utime + usage.ru_stime
print(f"{name:14} {seconds:6.2f} s processor {104 / seconds:6.0f} MB a second {usage.ru_maxrss // 1024:5d} MiB")
PY
}

for turn in 1 2 3; do
    measure "plumbing hash" "$program" hash 13
    measure sha1sum sha1sum "$work/bytes"
done
