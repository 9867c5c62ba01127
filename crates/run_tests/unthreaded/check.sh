#!/usr/bin/env bash
# Shows that the tests of runs in threads refuse two runs whose answers are right: one that takes all workers' turns on the caller's
# thread, and one whose threads cross empty rows while the caller's thread does all the work. No contract refuses them, since none says who
# works. It works in a copy and changes nothing here.
set -eu -o pipefail
here=$(cd "$(dirname "$0")" && pwd)
top=$(cd "$here/../../.." && pwd)
work=$(mktemp -d)
trap 'rm -rf "$work"' EXIT

# refuses RUN TEST..: with the run changed so, just these tests fail
refuses() {
    local run=$1
    shift
    rm -rf "$work/top"
    mkdir "$work/top"
    tar -C "$top" --exclude=.git --exclude=bin --exclude=out -cf - . | tar -C "$work/top" -xf -
    python3 "$here/change.py" "$run" "$work/top"
    (cd "$work/top/crates/run_tests" && rt try --test > "$work/log" 2>&1) || true
    local failed
    failed=$(sed -n 's/^test \(.*\) \.\.\. FAILED$/\1/p' "$work/log" | sort | tr '\n' ' ')
    if [ "$failed" != "$* " ]; then
        echo "WRONG: $run: these tests fail: $failed"
        tail -n 20 "$work/log"
        exit 1
    fi
    echo "as it must be: $run: these tests fail: $failed"
}

refuses on_one_thread asking::cells_are_asked_for_in_every_statement in_step::workers_are_in_step meeting::workers_of_a_text_meet \
    meeting::workers_of_code_meet
refuses beside_empty_rows asking::cells_are_asked_for_in_every_statement caller::workers_of_a_caller_come_to_the_worked_run
