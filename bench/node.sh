#!/bin/sh
# Measures a node in memory: `plumbing push N TURNS`, which makes TURNS pushes into N repositories, 1,000 and then 1, at
# 2,500 and at 10,000 pushes; and `plumbing open N TURNS`, which opens a node over what N repositories with ten pushes
# each have kept, of 250 and of 1,000.
set -eu
. "$(dirname "$0")/plumbing.sh"
for pushes in 2500 10000; do
    echo "$pushes pushes, one call each:"
    python3 "$bench/turns.py" "$program" "$pushes" push:1000 push:1
done
echo "opening, 5 times:"
python3 "$bench/turns.py" "$program" 5 open:250 open:1000
