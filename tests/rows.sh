#!/bin/sh
# Prints the rows of the second reading for a door's test: those that are kept, those of the form Loose too, and COUNT drawn
# ones of each: rows.sh COUNT. Without python3 it says on standard error that none are drawn.
tests=$(readlink -f "$0") && tests=${tests%/*} && cat "$tests/rows.txt" "$tests/loose_rows.txt" || exit
if command -v python3 >/dev/null; then
    python3 -B "$tests/rows.py" "$1" && exec python3 -B "$tests/rows.py" --loose "$1"
    exit
fi
echo 'not tried: drawn rows of the second reading, since there is no python3' >&2
