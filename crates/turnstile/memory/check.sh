#!/usr/bin/env bash
# Shows that a turnstile and a start line give all their memory back: ten thousand of each are made and closed under a limit
# that a tenth of them would pass. And that each allocation of both may be refused: the error comes out, and nothing else.
# It works in a temporary folder and changes nothing here.
set -eu
here=$(cd "$(dirname "$0")" && pwd)
top=$(cd "$here/../../.." && pwd)
limit=60000 # kilobytes of address space; ten thousand turnstiles take 11 gigabytes, and as many lines 1.3
work=$(mktemp -d)
trap 'rm -rf "$work"' EXIT

# program NAME: a program of that text, over copies of the crates, which take along what earlier checks kept.
mkdir -p "$work/crates"
cp "$top/HANDLES" "$work/"
cp -a "$top/crates/exchange_arena" "$top/crates/turnstile" "$work/crates/"
grep -E '^(exchange_arena|turnstile)[ :]' "$top/crates.txt" > "$work/crates.txt"
program() {
    mkdir -p "$work/crates/$1/src"
    cp "$here/$1.txt" "$work/crates/$1/src/main.rt"
    echo "$1: turnstile exchange_arena anyhow" >> "$work/crates.txt"
    cd "$work/crates/$1"
}

program close_often
if ! rt run --jobs 1 > "$work/log" 2>&1; then
    tail -n 20 "$work/log"
    exit 1
fi
(ulimit -v $limit; [ "$(out/close_often)" = closed ]) || { echo "WRONG: memory isn't given back"; exit 1; }
echo "as it must be: 10000 turnstiles and start lines are closed in $limit kilobytes"

program close_once
refused=0
while :; do
    status=0
    rt try --fail-alloc $((refused + 1)) > "$work/log" 2>&1 || status=$?
    [ $status -eq 1 ] && grep -q '^run=ended status=1' "$work/log" || break
    refused=$((refused + 1))
done
if [ $status -ne 0 ] || [ $refused -eq 0 ]; then
    echo "WRONG: where allocation $((refused + 1)) was refused:"
    tail -n 5 "$work/log"
    exit 1
fi
echo "as it must be: each of $refused allocations is refused in turn"
