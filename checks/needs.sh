# What a check needs: each check reads this file, and calls `needs` before anything else.

# needs CHECK PROGRAM..: goes on where all the programs are there. Where one is missing, nothing can be compared: it is
# named on the error stream, and the status is 77.
needs() {
    check=$1
    shift
    for program in "$@"; do
        command -v "$program" >/dev/null && continue
        echo "$check: $program is missing, so nothing is compared" >&2
        exit 77
    done
}
