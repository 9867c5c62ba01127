#!/usr/bin/env bash
# Prints how long one worker of the machine takes for four programs, beside a plain interpreter of the same programs, and for single
# instructions; each is the fastest of five, by turns. It asserts nothing.
set -eu -o pipefail
top=$(cd "$(dirname "$0")/../.." && pwd)
work=$(mktemp -d)
trap 'rm -rf "$work"' EXIT
make -C "$top" bin/pramc > "$work/log" 2>&1 || { tail -n 40 "$work/log"; exit 1; }
cp -r "$top/bench/yardstick" "$work/"
cargo build --quiet --release --offline --manifest-path "$work/yardstick/Cargo.toml"
python3 "$(dirname "$0")/beside.py" "$top/bin/pramc" "$work/yardstick/target/release/peer" "$top/bench/yardstick" "$work"
