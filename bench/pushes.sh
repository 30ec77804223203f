#!/bin/sh
# Measures `praefect rehearse` on scripts of pushes over three storages, into 100 repositories and into 10,000, at a half and
# at the whole of 20,000 pushes, or of as many as are named; beside scripts of votes with as many lines.
# Build the program first: cd crates/praefect && rt run -- rehearse < stdin
set -eu
bench=$(cd "$(dirname "$0")" && pwd)
program=$bench/../crates/praefect/out/praefect

if [ ! -x "$program" ]; then
    echo "${0##*/}: first make the program: cd crates/praefect && rt run -- rehearse < stdin" >&2
    exit 2
fi
python3 -B "$bench/pushes.py" "$program" "${1:-20000}"
