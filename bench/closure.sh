#!/bin/sh
# Measures `Store::closed`: `plumbing chain N TURNS` on 1,000,000 commits, and `plumbing wide N TURNS` on a tree of
# 200,000 entries, each at a tenth and at full size.
set -eu
. "$(dirname "$0")/plumbing.sh"
python3 "$bench/turns.py" "$program" 5 chain:100000 chain:1000000 wide:20000 wide:200000
