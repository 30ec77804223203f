# For the scripts beside it, which read it in: `program` is the plumbing that they measure.
# Make it first: cd crates/plumbing && rt run -- objects < stdin
bench=$(cd "$(dirname "$0")" && pwd)
program=$bench/../crates/plumbing/out/plumbing

if [ ! -x "$program" ]; then
    echo "${0##*/}: first make the program: cd crates/plumbing && rt run -- objects < stdin" >&2
    exit 2
fi
