#!/usr/bin/env bash
# Prints how long `Piece::fill` takes beside a plain copy into a `Vec` with room, and asserts nothing.
set -eu
. "$(dirname "$0")/../lib.sh"
prepare exchange_arena exchange_arena
invariant() {
    mkdir -p "$program/proofs/$1"
    sed "s/FUNCTION/$1/; s/ARGS/$2/" "$here/keeps.txt" > "$program/proofs/$1/Invariants.antt"
}
invariant fill_often l
invariant fastest 'g l'
figures
