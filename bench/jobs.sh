#!/bin/sh
# Measures `praefect rehearse` on scripts of replication jobs: the plan over 10,000 repositories of three storages, one of which
# lags behind, and 100,000 jobs that are worked one after the other, or as many as are named; each at a quarter and at the whole.
# Build the program first: cd crates/praefect && rt run -- rehearse < stdin
set -eu
bench=$(cd "$(dirname "$0")" && pwd)
program=$bench/../crates/praefect/out/praefect

if [ ! -x "$program" ]; then
    echo "${0##*/}: first make the program: cd crates/praefect && rt run -- rehearse < stdin" >&2
    exit 2
fi
python3 -B "$bench/jobs.py" "$program" "${1:-10000}" "${2:-100000}"
