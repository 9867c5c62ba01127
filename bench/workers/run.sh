#!/usr/bin/env bash
# Prints how long four programs take by 1, 2 and 4 workers in threads, beside the definition, a plain interpreter, and loops written by
# hand, which a sanitizer watches or not; how long a run takes to start, an exchange without words, and twice as many processors. Each is
# the fastest of five, by turns, or all of them. It asserts nothing.
set -eu -o pipefail
top=$(cd "$(dirname "$0")/../.." && pwd)
work=$(mktemp -d)
trap 'rm -rf "$work"' EXIT
make -C "$top" bin/pramc > "$work/log" 2>&1 || { tail -n 40 "$work/log"; exit 1; }
cp -r "$top/bench/yardstick" "$work/"
cargo build --quiet --release --offline --manifest-path "$work/yardstick/Cargo.toml"
plain=$top/bench/yardstick/plain.c
gcc -O3 -fopenmp -o "$work/plain" "$plain"
gcc -O2 -g -fopenmp -fsanitize=thread -o "$work/checked" "$plain"
gcc -O3 -o "$work/machine" "$top/bench/yardstick/machine.c"
python3 "$(dirname "$0")/beside.py" "$top/bin/pramc" "$work/yardstick/target/release/peer" "$work/plain" "$work/checked" \
    "$work/machine" "$top/bench/yardstick" "$work"
