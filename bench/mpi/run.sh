#!/usr/bin/env bash
# Prints how long three programs take as C over MPI, by 1 and 4 ranks, beside `pramc run` by 1 and 4 workers. Each is the fastest of three,
# by turns. The fourth row is a program of one statement: what MPI takes to start. It asserts nothing. Without MPI there is nothing to run.
# PRAMC=FILE measures another program than bin/pramc.
set -eu -o pipefail
. "$(dirname "$0")/../lib.sh"
for word in mpicc mpirun; do
    command -v "$word" > /dev/null || { echo "mpi: $word is missing (libopenmpi-dev, openmpi-bin)"; exit 0; }
done
pramc=${PRAMC:-$top/bin/pramc}
if [ "$pramc" = "$top/bin/pramc" ]; then
    make -C "$top" bin/pramc > "$work/log" 2>&1 || { tail -n 40 "$work/log"; exit 1; }
fi
beside=$top/bench/mpi/beside.py
python3 "$beside" plan "$pramc" "$top/bench/yardstick" "$work"

for it in "$work"/*.bsp; do
    "$pramc" export --listing "$it" > "${it%.bsp}.c"
done
python3 "$beside" time "$pramc" "$top/bench/yardstick" "$work"
