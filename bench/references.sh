#!/bin/sh
# Measures `Prepared::new`: `plumbing create N TURNS`, which prepares N creations on no references, and
# `plumbing change N TURNS`, which prepares one update on N references, each at a quarter and at full size.
set -eu
. "$(dirname "$0")/plumbing.sh"
python3 "$bench/turns.py" "$program" 50 create:8192 create:32768 change:8192 change:32768
