#!/usr/bin/env bash
# Prints how long commands take that tell of long runs, of many runs and of the largest programs, and how much memory; and asserts nothing.
set -eu
cd "$(dirname "$0")/../.."
make -s bin/pramc
python3 bench/telling/times.py bin/pramc
