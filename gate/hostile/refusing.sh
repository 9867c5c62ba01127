# What scripts share that have a program's calls refused in turn, where the program says a word and how often the gate was passed. `run` is
# the program, `work` a folder of theirs, and `top` that of the repository.
gcc -O1 -shared -fPIC -o "$work/refuse.so" "$top/gate/hostile/refuse.c" -ldl

# call REFUSED WORD..: the run of these words where that is refused. It leaves what it says, the number of starts, the allocations of the
# caller behind the last of them, and those of each thread.
call() {
    status=0
    said=$(env "$1" TALLY="$work/tally" LD_PRELOAD="$work/refuse.so" "$run" "${@:2}" 2> "$work/err") || status=$?
    read -r left starts _ late allocations < "$work/tally"
    if [ "$left" -ne 0 ]; then
        echo "WRONG: ${*:2} with $1 keeps $left blocks"
        exit 1
    fi
}

# refuse REFUSED SAYS WORD..: what the run may say where that is refused, as a pattern
refuse() {
    call "$1" "${@:3}"
    # shellcheck disable=SC2053
    if [ $status -ne 0 ] || [[ $said != $2 ]]; then
        echo "WRONG: ${*:3} with $1, status $status: $said"
        cat "$work/err"
        exit 1
    fi
}

# each PASSES BEHIND WORD..: the run passes the gate so often; each of its allocations and starts is refused in turn. Where memory is
# refused to a worker, the gate was passed so often as BEHIND says, a pattern; where it is refused to the caller, or a start, never.
each() {
    local ended="ended $1" behind="refused $2" number count thread=0 all=0
    shift 2
    refuse TALLIED=1 "$ended" "$@"
    local all_starts=$starts of_each=$allocations
    for count in $of_each; do
        for number in $(seq 1 "$count"); do
            if [ $thread -eq 0 ]; then
                refuse "REFUSE=$thread:$number" "@($ended|refused 0)" "$@"
            else
                refuse "REFUSE=$thread:$number" "@($ended|$behind)" "$@"
            fi
        done
        all=$((all + count))
        thread=$((thread + 1))
    done
    for number in $(seq 1 "$all_starts"); do
        refuse "REFUSE_START=$number" "refused 0" "$@"
    done
    echo "as it must be: ${*:-the run}: $all allocations and $all_starts starts are refused in turn, and nothing is kept"
}

# asks PASSES COUNT WORD..: the run passes the gate so often; behind the starts each of its four workers asks for memory COUNT times, and
# the caller never.
asks() {
    local ended="ended $1" count=$2 of_each
    shift 2
    refuse TALLIED=1 "$ended" "$@"
    of_each=${allocations#* }
    if [ "$of_each" != "$count $count $count $count" ] || [ "$late" -ne 0 ]; then
        echo "WRONG: $*: the workers ask for memory $of_each times, and the caller $late times behind the starts"
        exit 1
    fi
    echo "as it must be: $*: behind the starts each worker asks for memory $count times"
}
