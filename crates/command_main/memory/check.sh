#!/usr/bin/env bash
# Shows that each allocation of the program may be refused in turn, in each of its threads, and each start of a thread: it says that memory
# was refused, or does what it does else, and gives back what it took. It works in a temporary folder and changes nothing here but bin/.
set -eu
here=$(cd "$(dirname "$0")" && pwd)
top=$(cd "$here/../../.." && pwd)
work=$(mktemp -d)
trap 'rm -rf "$work"' EXIT

make -C "$top" bin/pramc > "$work/log" 2>&1 || { tail -n 40 "$work/log"; exit 1; }
gcc -O1 -shared -fPIC -o "$work/refuse.so" "$top/gate/hostile/refuse.c" -ldl
echo 9 8 > "$work/input"

# call REFUSED WORD..: a command where that is refused. It leaves the status, the number of starts and the allocations of each thread.
call() {
    status=0
    env "$1" TALLY="$work/tally" LD_PRELOAD="$work/refuse.so" "$top/bin/pramc" "${@:2}" > "$work/out" 2> "$work/err" || status=$?
    read -r left starts _ _ allocations < "$work/tally"
    if [ "$left" -ne 0 ]; then
        echo "WRONG: $2 with $1 keeps $left blocks"
        exit 1
    fi
}

# refuse REFUSED WORD..: a command where that is refused says so, or does what it does else
refuse() {
    call "$@"
    if [ $status -eq 0 ] && cmp -s "$work/out" "$work/expected" && [ ! -s "$work/err" ]; then
        return
    fi
    if [ $status -ne 2 ] || ! grep -q OutOfMemory "$work/err"; then
        echo "WRONG: $2 with $1, status $status:"
        cat "$work/out" "$work/err"
        exit 1
    fi
    refused=$((refused + 1))
}

# each WORD..: a command, with each of its allocations and starts refused
each() {
    "$top/bin/pramc" "$@" > "$work/expected"
    call TALLIED=1 "$@"
    local all=0 refused=0 thread=0 number all_starts=$starts of_each=$allocations
    for count in $of_each; do
        for number in $(seq 1 "$count"); do
            refuse "REFUSE=$thread:$number" "$@"
        done
        all=$((all + count))
        thread=$((thread + 1))
    done
    for number in $(seq 1 "$all_starts"); do
        refuse "REFUSE_START=$number" "$@"
        [ $status -eq 2 ] || { echo "WRONG: $1 does without thread $number"; exit 1; }
    done
    echo "as it must be: $1 says of $refused of $((all + all_starts)) allocations and starts that they were refused, and in any case keeps nothing"
}

each exec "$here/broadcast.bsp" --workers 2 --input "$work/input"
each trace "$top/examples/prefix_sums.pram" --workers 2 --input "$top/examples/prefix_sums.in"
each run "$top/examples/prefix_sums.pram" --workers 3 --input "$top/examples/prefix_sums.in"
each meaning "$top/examples/prefix_sums.pram" --input "$top/examples/prefix_sums.in"
each plan "$top/examples/prefix_sums.pram"
