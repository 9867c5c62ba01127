#!/usr/bin/env bash
# Shows that a run of a text by workers with a reserve may be refused each allocation and each start of a thread: it comes to its end or
# says so, and then no worker has passed the gate. `rt ci` proves and builds it over what is kept of the crates below. It works in a
# temporary folder and changes nothing here.
set -eu
top=$(cd "$(dirname "$0")/../../.." && pwd)
. "$top/bench/lib.sh"
bench=crates/program_runs
# shellcheck disable=SC2046
libraries=crossbeam_utils prepare memory $(below program_runs)
rm -rf "$work"/crates/*/{must-fail,wrong-bodies,out}
mkdir "$work/.git"
echo "wrong 0" > "$program/stdout"
cd "$work"
if ! rt ci > "$work/log" 2>&1; then
    tail -n 20 "$work/log"
    exit 1
fi
run=$program/out/bench_memory

. "$top/gate/hostile/refusing.sh"

# Two exchanges for what each of three statements reads, each of the first two writing with the next one; and the close: seven, which each
# of three workers passes. All memory is taken before the first, so nothing is refused behind it.
each 21 0 "rule erew; procs 4; shared a[1..4]; begin for 1 <= i <= 2 pardo a[i] := a[2*i-1] + a[2*i]; end \
for 1 <= i <= 1 pardo a[i] := a[1] + a[2]; end print a[1]; end"
