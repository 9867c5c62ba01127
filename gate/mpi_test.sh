#!/usr/bin/env bash
# mpi_test.sh PROGRAM [WORD ..]: compiles the C text of plans, runs it under MPI, and compares what it writes with the program
# (gate/mpi_test.py says which, and takes the words). It needs mpicc and mpirun, and ends with status 77 where MPI starts no two ranks.
# mpi_test.sh --install: installs these from Debian's packages where they are missing and there is a registry.
set -eu
top=$(cd "$(dirname "$0")/.." && pwd)

is_there() {
    command -v mpicc > /dev/null && command -v mpirun > /dev/null
}

if [ "$1" = --install ]; then
    apt="timeout 300 apt-get -qq"
    is_there || { $apt update && DEBIAN_FRONTEND=noninteractive $apt install -y --no-install-recommends libopenmpi-dev openmpi-bin; } \
        > /dev/null 2>&1 || true
    exit 0
fi
pramc=$(realpath "$1")
is_there || { echo "mpicc or mpirun is missing (libopenmpi-dev, openmpi-bin)"; exit 1; }
if ! OMPI_ALLOW_RUN_AS_ROOT=1 OMPI_ALLOW_RUN_AS_ROOT_CONFIRM=1 timeout 60 mpirun --oversubscribe -n 2 true > /dev/null 2>&1; then
    echo "MPI starts no two ranks"
    exit 77
fi
python3 "$top/gate/mpi.py"
python3 "$top/gate/scale.py"
python3 "$top/gate/scale.py" "$pramc"
nice -n 10 python3 "$top/gate/mpi_test.py" "$pramc" "${@:2}"
