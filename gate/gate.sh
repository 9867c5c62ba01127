#!/usr/bin/env bash
# What stands behind the scripts over sources: every proof from nothing, every wrong body, test and program (`rt ci`); that the program
# which this built is byte for byte that of the release; and then gate/test.py over it. Before the last line, which counts all, stands
# what was spent on each crate, on which nothing here depends.
set -eu -o pipefail
top=$(cd "$(dirname "$0")/.." && pwd)
work=$(mktemp -d)
watch=
trap 'rm -rf "$work"; [ -z "$watch" ] || kill -9 "$watch" 2> /dev/null || true' EXIT

cd "$top"
python3 gate/figures.py watch $$ "$work/seen" 2> /dev/null &
watch=$!
rt ci | tee "$work/log"
python3 gate/build.py --strip crates/command_main/out/command_main bin/pramc
python3 gate/release.py check bin/pramc
bash gate/mpi_test.sh --install
MPI="--drawn 100" python3 gate/test.py | tee "$work/tested"
timeout 60 python3 gate/figures.py tell $$ "$work/seen" "$work/log" || echo "no figures of this run"
tail -qn 1 "$work/log" "$work/tested" | python3 -c '
import re, sys
counts = [re.match(r"(\d+) passed, (\d+) failed(?:, (\d+) skipped)?", line).groups("0") for line in sys.stdin]
print("{} passed, {} failed, {} skipped".format(*(sum(map(int, it)) for it in zip(*counts))))'
