#!/usr/bin/env bash
# Prints how long a crossing with empty rows takes beside `Barrier::wait` for as many workers, in microseconds, and asserts
# nothing.
set -eu
. "$(dirname "$0")/../lib.sh"
prepare crossing exchange_arena turnstile thread_tests
proof() {
    mkdir -p "$program/proofs/$2"
    cp "$here/$1.txt" "$program/proofs/$2/$3.antt"
}
proof cross_often cross_often Invariants
proof cross_all +cross_all+fn-cross_all-join+arg2 Invariants
proof wait_all +fn-wait_all-join+arg2+wait_all Invariants
proof time_crossings time_crossings Answers
figures
