#!/usr/bin/env bash
# Asks the crates what no command of the program shows: the plan of each example, at its own sizes, is read back from its listing, verified,
# and run on one memory at several bounds, beside the definition of the language; the listings of gate/rows/listings.md are written back, run
# on one memory and by workers in turn, fused, and changed byte by byte; and rows of calls of maps, of words and of refusals come to what was
# worked out by hand. The program for that is built by `rt try`, which proves nothing, in a temporary folder.
set -eu
. "$(dirname "$0")/../bench/lib.sh"
bench=gate
# shellcheck disable=SC2046
libraries="itoa smallvec thiserror" prepare calls $(below sized_texts program_runs flat_run superstep_code tracer system_files)
for it in "$here"/*.txt; do
    cp "$it" "$program/src/$(basename "$it" .txt).rt"
done
mkdir "$work/listings"
laid=$(python3 "$top/gate/listings.py" --lay "$work/listings")
cd "$program"
if ! rt try --seconds 300 -- "$work/listings" "$top/examples" $(basename -s .pram "$top"/examples/*.pram) > "$work/log" 2>&1; then
    cat "$work/log"
    exit 1
fi
grep '^plans: ' "$work/log"
grep "^listings: $laid of $laid come" "$work/log"
grep '^changes ' "$work/log"
grep '^calls: 27 come' "$work/log"
