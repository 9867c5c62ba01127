#!/usr/bin/env bash
# Prints how long parsing, checking, lowering, verifying and fusing take for dense texts of many tokens, how fast a text of 1 MiB
# is compiled, and for each example its size, the size of its code, the statements and exchanges of its run, and the exchange bound.
# It asserts nothing.
set -eu -o pipefail
. "$(dirname "$0")/../lib.sh"
# shellcheck disable=SC2046
libraries="itoa smallvec thiserror" prepare lower $(below sized_texts program_runs flat_run system_files)
figures -- "$top/examples" $(basename -s .pram "$top"/examples/*.pram) | python3 "$here/bound.py" "$top/examples"
