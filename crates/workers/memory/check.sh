#!/usr/bin/env bash
# Shows that a run by workers gives all its memory back: ten thousand are made under a limit that a tenth of them would pass. That each
# of its allocations may be refused, in the caller and in each worker, and each start of a thread: the run comes to its end or says so,
# and where no worker began none has passed the gate; with a reserve none has wherever memory was refused. And that behind the starts of
# the threads a run that prints nothing asks for no memory but for its counts, with a reserve for none. It works in a temporary folder and
# changes nothing here.
set -eu
top=$(cd "$(dirname "$0")/../../.." && pwd)
limit=100000 # kilobytes of address space; ten thousand runs take more than two gigabytes
. "$top/bench/lib.sh"
bench=crates/workers
libraries="arrayvec itoa thiserror atomic_table crossbeam_utils" prepare memory exchange_arena turnstile pram_model text_out address_map \
    pram_tokens run_options pram_values write_rules superstep_instructions superstep_listing superstep_machine bsp_verify combining flat_machine \
    instruction_steps worker_bank worker_steps machine_limits exchange_counts worker_exchange worker_histories bsp_machine workers
cd "$program"
if ! rt run --jobs 1 > "$work/log" 2>&1; then
    tail -n 20 "$work/log"
    exit 1
fi
run=$program/out/bench_memory

(ulimit -v $limit; [ "$("$run" printing often)" = "ended 0" ]) || { echo "WRONG: memory isn't given back"; exit 1; }
echo "as it must be: 10000 runs come to their end in $limit kilobytes"

. "$top/gate/hostile/refusing.sh"

# Three workers make four exchanges. With a reserve all memory is taken before the first, so nothing is refused behind it.
each 12 "*" printing
each 12 0 printing reserved

# Four workers make 8 exchanges, or 18. The list of a worker's counts has room for 4 at first and then grows to twice that, so it is asked
# for twice, or four times. What a run reads, and how many variables it has, makes no difference.
asks 32 2 writing
asks 32 2 reading
asks 72 4 reading-longer
asks 32 0 writing reserved
asks 32 0 reading reserved
asks 72 0 reading-longer reserved
